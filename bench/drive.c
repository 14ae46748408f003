/* Drives an allocator of allocators.h with threads, and prints what a call costs.
 *
 *   drive ALLOCATOR THREADS CALLS [QUANTUM]
 *
 * Each thread makes CALLS calls, at random an allocate or a free. Printed are the nanoseconds of processor time a call of the
 * whole run, which what else the machine does and sleeping at a lock don't count in; how many calls were refused; and the cycles
 * that 50, 99 and 99.9 of a hundred calls took at most, all threads together, each call timed by the processor's counter in a
 * second run of a tenth of the calls. */
#define _GNU_SOURCE
#include "allocators.h"
#include <x86intrin.h>

/* Calls by the cycles that they took; what took more counts as the most. */
enum { MOST_CYCLES = 1 << 16 };
static uint32_t calls_by_cycles[MOST_THREADS][MOST_CYCLES];

static void *work(void *given) {
    worker *it = given;
    for (uint64_t i = 0; i < it->calls; i++) {
        void **place = next_place(it);
        uint64_t began = it->timed ? __rdtsc() : 0;
        call(it, place);
        if (it->timed) {
            uint64_t took = __rdtsc() - began;
            calls_by_cycles[it->number][took < MOST_CYCLES ? took : MOST_CYCLES - 1]++;
        }
    }
    for (uint32_t i = 0; i < LIVE; i++) if (it->held[i]) it->with->release(it, it->held[i]);
    return NULL;
}

/* Nanoseconds of processor time of one run, all threads together; the refusals go to the workers. */
static uint64_t run(const allocator *with, uint32_t threads, uint64_t calls, uint32_t quantum, bool timed, worker *workers) {
    pthread_t started[MOST_THREADS];
    if (!with->open(threads, quantum)) { fprintf(stderr, "no memory\n"); exit(1); }
    uint64_t began = time_by(CLOCK_PROCESS_CPUTIME_ID);
    for (uint32_t i = 0; i < threads; i++) {
        workers[i] = (worker){ .with = with, .number = i, .calls = calls, .seed = 88172645463325252u + i, .timed = timed };
        if (pthread_create(&started[i], NULL, work, &workers[i])) { fprintf(stderr, "no thread\n"); exit(1); }
    }
    for (uint32_t i = 0; i < threads; i++) pthread_join(started[i], NULL);
    uint64_t took = time_by(CLOCK_PROCESS_CPUTIME_ID) - began;
    with->close();
    return took;
}

/* The least number of cycles within which so many of a thousand calls ended. */
static uint32_t cycles_of(uint32_t threads, uint64_t calls, uint64_t thousandths) {
    uint64_t seen = 0;
    uint32_t cycles = 0;
    for (; cycles < MOST_CYCLES - 1; cycles++) {
        for (uint32_t i = 0; i < threads; i++) seen += calls_by_cycles[i][cycles];
        if (seen * 1000 >= calls * thousandths) break;
    }
    return cycles;
}

int main(int count, char **words) {
    if (count < 4) { fprintf(stderr, "usage: drive ALLOCATOR THREADS CALLS [QUANTUM]\n"); return 2; }
    uint32_t threads = (uint32_t)atoi(words[2]), quantum = count > 4 ? (uint32_t)atoi(words[4]) : 8;
    uint64_t calls = strtoull(words[3], NULL, 10), refused = 0;
    if (threads < 1 || threads > MOST_THREADS) { fprintf(stderr, "drive: 1 to 32 threads\n"); return 2; }
    const allocator *with = allocator_named(words[1]);
    if (!with) { fprintf(stderr, "drive: no such allocator\n"); return 2; }
    static worker workers[MOST_THREADS];
    uint64_t took = run(with, threads, calls, quantum, false, workers);
    for (uint32_t i = 0; i < threads; i++) refused += workers[i].refused;
    uint64_t timed = calls / 10;
    run(with, threads, timed, quantum, true, workers);
    printf("%s %u %.1f %llu %u %u %u\n", words[1], threads, (double)took / (double)(calls * threads), (unsigned long long)refused,
           cycles_of(threads, timed * threads, 500), cycles_of(threads, timed * threads, 990), cycles_of(threads, timed * threads, 999));
    return 0;
}
