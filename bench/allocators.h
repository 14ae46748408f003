/* The allocators that are measured, each behind the same five functions.
 *
 * proved (the static library of bindings/c), plain (its algorithm in plain_pool.h), none (the driver alone: a thread gets the
 * same block each time), mutex (a list of blocks under one lock), treiber (a lock-free stack of blocks), malloc (the C
 * library's, or another one that is preloaded). A block has 64 bytes, and a thread holds at most 256 of them. */
#ifndef ALLOCATORS_H
#define ALLOCATORS_H
#include "../bindings/c/loskebri.h"
#include "plain_pool.h"
#include <pthread.h>
#include <stdio.h>
#include <string.h>
#include <time.h>

enum { LIVE = 256, BLOCK_BYTES = 64, MOST_THREADS = 32 };

typedef struct worker worker;
typedef struct {
    const char *name;
    bool (*open)(uint32_t threads, uint32_t quantum);
    void *(*allocate)(worker *);
    void (*release)(worker *, void *);
    void (*close)(void);
} allocator;

/* One thread of a run. Aligned, since the thread writes it. */
struct worker {
    _Alignas(128) const allocator *with;
    uint32_t number;
    uint64_t calls, seed, refused;
    bool timed;
    /* for a program that looks on (look_on.c): the thread's number, whether it is in a call, and how many it made */
    _Atomic int thread;
    _Atomic uint32_t in_call;
    _Atomic uint64_t made;
    void *held[LIVE];
};

static uint64_t time_by(clockid_t clock) {
    struct timespec at;
    clock_gettime(clock, &at);
    return (uint64_t)at.tv_sec * 1000000000u + (uint64_t)at.tv_nsec;
}

/* Blocks by their numbers, over one array of bytes. */
static char *blocks;
static uint32_t block_count;
static void *block_at(uint32_t number) { return blocks + (size_t)number * BLOCK_BYTES; }
static uint32_t number_of(void *block) { return (uint32_t)(((char *)block - blocks) / BLOCK_BYTES); }
static bool blocks_open(uint32_t count) {
    block_count = count;
    blocks = malloc((size_t)count * BLOCK_BYTES);
    return blocks;
}
/* The number that follows block i, plus 1, in a list of all blocks in their order; 0 after the last. */
static uint32_t following(uint32_t i) { return i + 2 > block_count ? 0 : i + 2; }

/* Enough batches for what the threads hold and what the passes keep. */
static uint32_t batches_for(uint32_t threads, uint32_t quantum) {
    uint32_t length = (16 * threads + 15 + quantum - 1) / quantum;
    return 5 * threads + threads * LIVE / length + 2;
}

/* A handle is written by each call, so each has cache lines of its own. */
static struct { _Alignas(128) loskebri_pass pass; } handles[MOST_THREADS];
static bool proved_opens(uint32_t threads, uint32_t quantum) {
    loskebri_pass opened[MOST_THREADS] = { 0 };
    if (loskebri_open(batches_for(threads, quantum), 0, quantum, opened, threads) != LOSKEBRI_DONE) return false;
    for (uint32_t i = 0; i < threads; i++) handles[i].pass = opened[i];
    return blocks_open(loskebri_shape(&handles[0].pass).blocks);
}
static void *proved_allocates(worker *it) {
    loskebri_block got = loskebri_allocate(&handles[it->number].pass);
    return got.status == LOSKEBRI_DONE ? block_at(got.block) : NULL;
}
static void proved_releases(worker *it, void *block) { loskebri_free(&handles[it->number].pass, number_of(block)); }
static void proved_closes(void) {
    for (uint32_t i = 0; i < MOST_THREADS; i++) loskebri_close(&handles[i].pass);
    free(blocks);
}

static plain_pool pool;
static plain_pass *passes;
static bool plain_opens(uint32_t threads, uint32_t quantum) {
    passes = plain_open(&pool, threads, batches_for(threads, quantum), 0, quantum);
    return blocks_open(pool.batches * pool.length) && passes;
}
static void *plain_allocates(worker *it) {
    uint32_t number = plain_allocate(&passes[it->number]);
    return number == DRY ? NULL : block_at(number);
}
static void plain_releases(worker *it, void *block) { plain_free(&passes[it->number], number_of(block)); }
static void plain_closes(void) { plain_close(&pool, passes); free(blocks); }

static pthread_mutex_t lock = PTHREAD_MUTEX_INITIALIZER;
static uint32_t *next_of, first;
static bool list_opens(uint32_t threads, uint32_t quantum) {
    (void)quantum;
    if (!blocks_open(threads * LIVE) || !(next_of = malloc(block_count * sizeof *next_of))) return false;
    for (uint32_t i = 0; i < block_count; i++) next_of[i] = following(i);
    first = 1;
    return true;
}
static void list_closes(void) { free(blocks); free(next_of); }
static void *mutex_allocates(worker *it) {
    (void)it;
    pthread_mutex_lock(&lock);
    uint32_t got = first;
    if (got) first = next_of[got - 1];
    pthread_mutex_unlock(&lock);
    return got ? block_at(got - 1) : NULL;
}
static void mutex_releases(worker *it, void *block) {
    (void)it;
    uint32_t number = number_of(block);
    pthread_mutex_lock(&lock);
    next_of[number] = first;
    first = number + 1;
    pthread_mutex_unlock(&lock);
}

/* The top's number plus 1 in the low half, a count of changes in the high one. */
static _Atomic uint64_t top;
static _Atomic uint32_t *below;
static bool treiber_opens(uint32_t threads, uint32_t quantum) {
    (void)quantum;
    if (!blocks_open(threads * LIVE) || !(below = malloc(block_count * sizeof *below))) return false;
    for (uint32_t i = 0; i < block_count; i++) atomic_init(&below[i], following(i));
    atomic_store(&top, 1);
    return true;
}
static void treiber_closes(void) { free(blocks); free((void *)below); }
static void *treiber_allocates(worker *it) {
    (void)it;
    uint64_t seen = atomic_load(&top);
    for (;;) {
        uint32_t got = (uint32_t)seen;
        if (!got) return NULL;
        uint64_t left = ((seen >> 32) + 1) << 32 | atomic_load(&below[got - 1]);
        if (atomic_compare_exchange_weak(&top, &seen, left)) return block_at(got - 1);
    }
}
static void treiber_releases(worker *it, void *block) {
    (void)it;
    uint32_t number = number_of(block);
    uint64_t seen = atomic_load(&top);
    do atomic_store(&below[number], (uint32_t)seen);
    while (!atomic_compare_exchange_weak(&top, &seen, ((seen >> 32) + 1) << 32 | (number + 1)));
}

static bool nothing_opens(uint32_t threads, uint32_t quantum) { (void)quantum; return blocks_open(threads); }
static void *nothing_allocates(worker *it) { return block_at(it->number); }
static void nothing_releases(worker *it, void *block) { (void)it; (void)block; }
static void nothing_closes(void) { free(blocks); }

static bool malloc_opens(uint32_t threads, uint32_t quantum) { (void)threads; (void)quantum; return true; }
static void *malloc_allocates(worker *it) { (void)it; return malloc(BLOCK_BYTES); }
static void malloc_releases(worker *it, void *block) { (void)it; free(block); }
static void malloc_closes(void) {}

static const allocator allocators[] = {
    { "proved", proved_opens, proved_allocates, proved_releases, proved_closes },
    { "none", nothing_opens, nothing_allocates, nothing_releases, nothing_closes },
    { "plain", plain_opens, plain_allocates, plain_releases, plain_closes },
    { "mutex", list_opens, mutex_allocates, mutex_releases, list_closes },
    { "treiber", treiber_opens, treiber_allocates, treiber_releases, treiber_closes },
    { "malloc", malloc_opens, malloc_allocates, malloc_releases, malloc_closes },
};

static inline const allocator *allocator_named(const char *name) {
    for (size_t k = 0; k < sizeof allocators / sizeof *allocators; k++)
        if (!strcmp(name, allocators[k].name)) return &allocators[k];
    return NULL;
}

/* The place of the block that the worker's next call is about, at random: an empty one asks for an allocate. */
static inline void **next_place(worker *it) {
    it->seed ^= it->seed << 13; it->seed ^= it->seed >> 7; it->seed ^= it->seed << 17;
    return &it->held[it->seed % LIVE];
}

/* One call: a free of the block in this place, or an allocate into it. */
static inline void call(worker *it, void **place) {
    if (*place) { it->with->release(it, *place); *place = NULL; }
    else if (!(*place = it->with->allocate(it))) it->refused++;
}
#endif
