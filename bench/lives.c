/* Counts how many calls a pass of the proved pool makes for each transfer that it begins, and how long that lets a pass live, and prints
 * the table of docs/PERFORMANCE.md: for each quantum and each number of processes the calls a transfer in the random workload and in the
 * worst one, and the days that a pass lives in the worst one, where it makes 20 million calls a second.
 *
 *   lives
 *
 * All passes of a pool make their calls in turn on one thread, so that the numbers are the same wherever this runs. In the random
 * workload each call is at random an allocate or a free, as in drive.c; in the worst one each pass allocates four batches of blocks
 * and frees them, again and again. */
#include "../bindings/c/loskebri.h"
#include <stdbool.h>
#include <stdio.h>
#include <stdlib.h>

/* In the random workload a pass holds at most 256 blocks, as in drive.c; the longest batch is that of 32 processes at a quantum of 1. */
enum { CALLS = 1000000, LIVE = 256, BATCHES_HELD = 4, MOST_PROCESSES = 32, LONGEST_BATCH = 16 * MOST_PROCESSES + 15 };

/* The calls that a pass makes for each transfer, in the mean, and how many transfers it may begin. */
typedef struct { double calls_a_transfer, transfers; } life;

/* One call of each pass of a pool in turn, CALLS times. */
static life live(uint32_t processes, uint32_t quantum, bool random) {
    uint32_t length = (16 * processes + 15 + quantum - 1) / quantum, most = random ? LIVE : BATCHES_HELD * length;
    loskebri_number batches = loskebri_enough_batches(processes, quantum, processes * most);
    static loskebri_pass passes[MOST_PROCESSES];
    static uint32_t held[MOST_PROCESSES][BATCHES_HELD * LONGEST_BATCH], holding[MOST_PROCESSES];
    static bool freeing[MOST_PROCESSES];
    if (batches.status != LOSKEBRI_DONE || loskebri_open((uint32_t)batches.number, 0, quantum, passes, processes) != LOSKEBRI_DONE) exit(1);
    uint64_t seed = 88172645463325252u, begun = 0;
    for (uint32_t i = 0; i < processes; i++) holding[i] = 0, freeing[i] = false;
    for (uint32_t calls = 0; calls < CALLS; calls++) {
        for (uint32_t i = 0; i < processes; i++) {
            seed ^= seed << 13, seed ^= seed >> 7, seed ^= seed << 17;
            uint32_t place = random ? (uint32_t)(seed >> 32) % most : holding[i];
            if (random) freeing[i] = place < holding[i];
            else if (holding[i] == 0 || holding[i] == most) freeing[i] = holding[i] == most;
            if (freeing[i]) {
                uint32_t which = random ? place : holding[i] - 1;
                if (loskebri_free(&passes[i], held[i][which]) != LOSKEBRI_DONE) exit(1);
                held[i][which] = held[i][--holding[i]];
            } else {
                loskebri_block got = loskebri_allocate(&passes[i]);
                if (got.status != LOSKEBRI_DONE) exit(1);
                held[i][holding[i]++] = got.block;
            }
        }
    }
    double transfers = (double)loskebri_most_age(&passes[0]).number;
    for (uint32_t i = 0; i < processes; i++) begun += loskebri_age(&passes[i]).number, loskebri_close(&passes[i]);
    return (life){ (double)CALLS * processes / (double)begun, transfers };
}

int main(void) {
    static const uint32_t quanta[] = { 1, 2, 4, 8, 16 }, processes[] = { 1, 2, 4, 8, 32 };
    static const double calls_a_second = 20e6, seconds_a_day = 86400, rare = 10000;
    for (size_t q = 0; q < 5; q++) {
        printf("| %u |", quanta[q]);
        for (size_t p = 0; p < 5; p++) {
            life usual = live(processes[p], quanta[q], true), worst = live(processes[p], quanta[q], false);
            printf(usual.calls_a_transfer > rare ? " rare" : " %.1f", usual.calls_a_transfer);
            printf(" / %.1f / %.1f |", worst.calls_a_transfer, worst.calls_a_transfer * worst.transfers / calls_a_second / seconds_a_day);
        }
        printf("\n");
    }
    return 0;
}
