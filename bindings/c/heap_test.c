/* The archive over a heap of the program's own, for pools of several shapes: each allocation of loskebri_open fails in turn and
 * nothing is left; an opening over open handles gives back what they had; the other calls use no heap; and the last close gives
 * all of it back. */
#include "loskebri.h"
#include <stdio.h>
#include <stdlib.h>

struct taken { unsigned char ok; void *at; };
static long calls, failing, taken;
static char nothing;

struct taken rattle_alloc(size_t size, size_t align) {
    struct taken t = {0, &nothing};
    if (calls++ == failing) return t;
    void *p = aligned_alloc(align < 16 ? 16 : align, (size + 63) / 64 * 64 + 64);
    if (p) { t.ok = 1; t.at = p; taken++; }
    return t;
}

struct taken rattle_realloc(void *at, size_t old, size_t size, size_t align) {
    (void)old; (void)align;
    struct taken t = {0, &nothing};
    if (calls++ == failing) return t;
    void *p = realloc(at, size ? size : 1);
    if (p) { t.ok = 1; t.at = p; }
    return t;
}

void rattle_dealloc(void *at) { free(at); taken--; }

enum { PAIRS = 1000 };

static const struct shape { uint32_t batches, words, quantum, processes; } shapes[] = {
    {2, 0, 8, 1}, {4, 0, 16, 2}, {6, 2, 8, 3}, {20, 1, 4, 4}, {40, 8, 2, 8}, {64, 1, 1, 32},
};

/* Opens handles that are open: the first pool's memory goes back then, but for nothing that the second one has. */
static int open_again(const struct shape *s, loskebri_pass *p) {
    long once = taken;
    calls = 0;
    if (loskebri_open(s->batches, s->words, s->quantum, p, s->processes) != LOSKEBRI_DONE || taken != once) {
        printf("heap_test: %ld pieces for one pool, and %ld where another was opened over it\n", once, taken);
        return 1;
    }
    return 0;
}

/* Makes calls on the passes of an open pool of so many processes, and closes it. */
static int run(loskebri_pass *p, uint32_t processes) {
    printf("heap_test: open takes %ld pieces of memory in %ld calls for %u processes\n", taken, calls, (unsigned)processes);
    calls = 0;
    for (uint32_t i = 0; i < PAIRS; i++) {
        loskebri_block a = loskebri_allocate(&p[i % processes]);
        if (a.status != LOSKEBRI_DONE || loskebri_free(&p[i % processes], a.block) != LOSKEBRI_DONE) return 1;
    }
    if (calls != 0) { printf("heap_test: %ld calls of the heap in %d pairs\n", calls, PAIRS); return 1; }
    for (uint32_t i = 0; i < processes; i++) loskebri_close(&p[i]);
    if (taken != 0) { printf("heap_test: %ld pieces are left\n", taken); return 1; }
    return 0;
}

/* Lets each allocation of an opening fail in turn, until one has no more. */
static int open_each(const struct shape *s) {
    for (failing = 0; failing < 10000; failing++) {
        loskebri_pass p[32] = {0};
        calls = 0;
        uint32_t status = loskebri_open(s->batches, s->words, s->quantum, p, s->processes);
        if (status == LOSKEBRI_DONE) {
            failing = -1;
            return open_again(s, p) || run(p, s->processes);
        }
        if (status != LOSKEBRI_NO_MEMORY || taken != 0) {
            printf("heap_test: allocation %ld fails: status %u, %ld pieces are left\n", failing, status, taken);
            return 1;
        }
        for (uint32_t i = 0; i < s->processes; i++) if (p[i].at) return 1;
    }
    return 1;
}

int main(void) {
    for (size_t i = 0; i < sizeof shapes / sizeof *shapes; i++) if (open_each(&shapes[i])) return 1;
    puts("heap_test: ok");
    return 0;
}
