/* Checks the plain pool: the first answers of small pools, and threads that allocate and free at random, each block
 * looked up in a table of owners. Ends with 0 where all is well. */
#include "plain_pool.h"
#include <pthread.h>
#include <stdio.h>

enum { LIVE = 40 };
typedef struct { plain_pass *pass; _Atomic uint32_t *owner; uint64_t calls, seed, refused; bool bad; } job;

static void *work(void *given) {
    job *it = given;
    uint32_t held[LIVE], count = 0;
    for (uint64_t i = 0; i < it->calls && !it->bad; i++) {
        it->seed ^= it->seed << 13; it->seed ^= it->seed >> 7; it->seed ^= it->seed << 17;
        if (count < LIVE && (count == 0 || it->seed & 1)) {
            uint32_t block = plain_allocate(it->pass), none = 0;
            if (block == DRY) { it->refused++; continue; }
            it->bad = !atomic_compare_exchange_strong(&it->owner[block], &none, it->pass->number + 1);
            held[count++] = block;
        } else {
            uint32_t at = it->seed >> 8 & 63; at %= count;
            uint32_t block = held[at], own = it->pass->number + 1;
            held[at] = held[--count];
            it->bad = !atomic_compare_exchange_strong(&it->owner[block], &own, 0);
            plain_free(it->pass, block);
        }
    }
    return NULL;
}

static bool threads_share(uint32_t p, uint32_t batches, uint32_t quantum, uint64_t calls) {
    plain_pool pool;
    plain_pass *passes = plain_open(&pool, p, batches, 0, quantum);
    _Atomic uint32_t *owner = calloc(batches * pool.length, sizeof *owner);
    pthread_t threads[MOST_PROCESSES];
    job jobs[MOST_PROCESSES];
    uint64_t refused = 0;
    bool well = passes && owner;
    for (uint32_t i = 0; well && i < p; i++) {
        jobs[i] = (job){ .pass = &passes[i], .owner = owner, .calls = calls, .seed = 88172645463325252u + i };
        pthread_create(&threads[i], NULL, work, &jobs[i]);
    }
    for (uint32_t i = 0; well && i < p; i++) pthread_join(threads[i], NULL);
    for (uint32_t i = 0; well && i < p; i++) { refused += jobs[i].refused; if (jobs[i].bad) well = false; }
    printf("processes %u batches %u quantum %u: %s, %llu refused\n", p, batches, quantum, well ? "well" : "BAD",
           (unsigned long long)refused);
    free(owner);
    plain_close(&pool, passes);
    return well;
}

static bool first_answers(void) {
    plain_pool pool;
    plain_pass *passes = plain_open(&pool, 1, 10, 0, 8);
    bool well = pool.length == 4;
    static const uint32_t expected[] = { 0, 1, 2, 3, 36, 37, 38, 39, 32, 33, 34, 35, 28 };
    for (int i = 0; i < 13; i++) {
        uint32_t block = plain_allocate(passes);
        printf("%u ", block);
        well = well && block == expected[i];
    }
    printf("%s\n", well ? "well" : "BAD");
    plain_close(&pool, passes);
    return well;
}

int main(void) {
    bool well = first_answers();
    static const uint32_t quanta[] = { 1, 2, 4, 8, 16 };
    for (int k = 0; k < 5; k++) {
        well = threads_share(1, 4, quanta[k], 1000000) && well;
        well = threads_share(2, 8, quanta[k], 1000000) && well;
        well = threads_share(4, 9, quanta[k], 1000000) && well;
        well = threads_share(8, 20, quanta[k], 300000) && well;
    }
    return well ? 0 : 1;
}
