/* Looks on while threads use an allocator of allocators.h, as a debugger does: a thread can be held after any instruction.
 *
 *   look_on worst ALLOCATOR THREADS CALLS [QUANTUM]    the most instructions of a call, with all threads a step at a time
 *   look_on stall ALLOCATOR THREADS POINTS [QUANTUM]   what the others do while one thread stands still in a call
 *
 * worst: every thread makes CALLS calls, and whichever has made an instruction makes its next one, so calls overlap at the
 * finest grain. An instruction that waits in the system counts once. Printed are the most and the mean, the driver's own in them.
 * stall: one thread is held after one instruction of a call, for some milliseconds, then after the next, and so on, POINTS times.
 * Printed are thousands of calls a millisecond, all other threads together, while nobody is held; the median and the least over
 * the points; and at how many points the others made no call at all. */
#define _GNU_SOURCE
#include "allocators.h"
#include <signal.h>
#include <sys/mman.h>
#include <sys/ptrace.h>
#include <sys/syscall.h>
#include <sys/wait.h>
#include <unistd.h>

enum { HELD_MICROSECONDS = 3000, PATIENCE = 30, MOST_POINTS = 4096 };

/* What the program that looks on and the one that is looked at share. */
typedef struct {
    worker workers[MOST_THREADS];
    _Atomic uint32_t started;
} view;

static view *seen;
static uint32_t threads, quantum = 8;

static void fail(const char *why) { perror(why); exit(1); }

static void *work(void *given) {
    worker *it = given;
    it->thread = (int)syscall(SYS_gettid);
    seen->started++;
    while (seen->started < threads) {}
    for (uint64_t i = 0; i < it->calls; i++) {
        void **place = next_place(it);
        atomic_store_explicit(&it->in_call, 1, memory_order_release);
        call(it, place);
        atomic_store_explicit(&it->in_call, 0, memory_order_release);
        atomic_store_explicit(&it->made, i + 1, memory_order_release);
    }
    return NULL;
}

/* The program that is looked at: it stops once it has opened its allocator, and then starts its threads. */
static void be_seen(const allocator *with, uint64_t calls) {
    pthread_t started[MOST_THREADS];
    if (!with->open(threads, quantum)) fail("open");
    if (ptrace(PTRACE_TRACEME, 0, NULL, NULL)) fail("ptrace");
    raise(SIGSTOP);
    for (uint32_t i = 0; i < threads; i++) {
        seen->workers[i] = (worker){ .with = with, .number = i, .calls = calls, .seed = 88172645463325252u + i };
        if (pthread_create(&started[i], NULL, work, &seen->workers[i])) fail("thread");
    }
    for (uint32_t i = 0; i < threads; i++) pthread_join(started[i], NULL);
    _exit(0);
}

static worker *worker_of(int thread) {
    for (uint32_t i = 0; i < threads; i++) if (seen->workers[i].thread == thread) return &seen->workers[i];
    return NULL;
}

/* Steps all threads until the program ends, and counts the instructions of their calls. */
static void look_for_worst(pid_t program) {
    uint64_t now[MOST_THREADS] = { 0 }, most = 0, all = 0, calls = 0;
    int status;
    ptrace(PTRACE_SETOPTIONS, program, NULL, PTRACE_O_TRACECLONE | PTRACE_O_EXITKILL);
    ptrace(PTRACE_CONT, program, NULL, NULL);
    for (;;) {
        int thread = waitpid(-1, &status, __WALL);
        if (thread < 0) break;
        if (!WIFSTOPPED(status)) continue;
        worker *it = worker_of(thread);
        if (it && it->in_call) now[it->number]++;
        else if (it && now[it->number]) {
            uint64_t count = now[it->number];
            now[it->number] = 0;
            all += count; calls++;
            if (count > most) most = count;
        }
        ptrace(thread == program ? PTRACE_CONT : PTRACE_SINGLESTEP, thread, NULL, NULL);
    }
    printf("%llu %.1f\n", (unsigned long long)most, calls ? (double)all / (double)calls : 0);
}

/* How many calls all threads but the first made. */
static uint64_t made_by_others(void) {
    uint64_t sum = 0;
    for (uint32_t i = 1; i < threads; i++) sum += seen->workers[i].made;
    return sum;
}

/* The calls a millisecond of all threads but the first, over some milliseconds. None at all counts only after many times as long:
 * the machine may have had no processor for them. */
static double rate_of_others(void) {
    uint64_t before = made_by_others(), began = time_by(CLOCK_MONOTONIC), made = 0;
    for (int turn = 0; turn < PATIENCE && made == 0; turn++) {
        usleep(HELD_MICROSECONDS);
        made = made_by_others() - before;
    }
    return (double)made * 1e6 / (double)(time_by(CLOCK_MONOTONIC) - began);
}

static int by_size(const void *a, const void *b) {
    double x = *(const double *)a, y = *(const double *)b;
    return x < y ? -1 : x > y;
}

/* Holds the first thread after each of many instructions of its calls. */
static void look_at_stalls(pid_t program, uint32_t points) {
    static double free_rates[MOST_POINTS], held_rates[MOST_POINTS];
    uint32_t still = 0;
    int status;
    ptrace(PTRACE_DETACH, program, NULL, NULL);
    while (seen->started < threads) usleep(1000);
    for (uint32_t i = 0; i < points; i++) free_rates[i] = rate_of_others();
    worker *it = &seen->workers[0];
    if (ptrace(PTRACE_ATTACH, it->thread, NULL, NULL) || waitpid(it->thread, &status, __WALL) < 0) fail("attach");
    for (uint32_t i = 0; i < points; i++) {
        do {
            if (ptrace(PTRACE_SINGLESTEP, it->thread, NULL, NULL) || waitpid(it->thread, &status, __WALL) < 0) fail("step");
        } while (!it->in_call);
        held_rates[i] = rate_of_others();
        if (held_rates[i] == 0) still++;
    }
    kill(program, SIGKILL);
    qsort(free_rates, points, sizeof *free_rates, by_size);
    qsort(held_rates, points, sizeof *held_rates, by_size);
    printf("%.1f %.1f %.1f %u\n", free_rates[points / 2] / 1000, held_rates[points / 2] / 1000, held_rates[0] / 1000, still);
}

int main(int count, char **words) {
    if (count < 5) { fprintf(stderr, "usage: look_on worst|stall ALLOCATOR THREADS CALLS|POINTS [QUANTUM]\n"); return 2; }
    const allocator *with = allocator_named(words[2]);
    threads = (uint32_t)atoi(words[3]);
    uint32_t many = (uint32_t)atoi(words[4]);
    if (count > 5) quantum = (uint32_t)atoi(words[5]);
    bool stall = !strcmp(words[1], "stall");
    if (!with || threads < (stall ? 2u : 1u) || threads > MOST_THREADS || many < 1 || (stall && many > MOST_POINTS)) {
        fprintf(stderr, "look_on: bad words\n");
        return 2;
    }
    seen = mmap(NULL, sizeof *seen, PROT_READ | PROT_WRITE, MAP_SHARED | MAP_ANONYMOUS, -1, 0);
    if (seen == MAP_FAILED) fail("mmap");
    int status;
    pid_t program = fork();
    if (program < 0) fail("fork");
    if (program == 0) be_seen(with, stall ? UINT64_MAX : many);
    if (waitpid(program, &status, 0) != program || !WIFSTOPPED(status)) fail("look_on: not started");
    if (stall) look_at_stalls(program, many); else look_for_worst(program);
    return 0;
}
