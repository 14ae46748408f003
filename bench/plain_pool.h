/* The pool's algorithm in plain C, unverified: what the proved pool is measured against.
 *
 * The same words, the same steps in the same order, the same private pools: a call makes at most `quantum` steps of
 * its process's transfer, and its own one. Every word is a sequentially consistent atomic. Numbers are as in
 * docs/WORDS.md; nothing here is proved, and nothing of the proved crates is used. */
#ifndef PLAIN_POOL_H
#define PLAIN_POOL_H
#include <stdatomic.h>
#include <stdbool.h>
#include <stdint.h>
#include <stdlib.h>

enum { MOST_PROCESSES = 32, RECORD_ROOM = 2 * MOST_PROCESSES + 2, DRY = UINT32_MAX };
#define VALUE_BITS 24
#define VALUE_MASK 0xffffffu
#define PARITY_BIT 0x800000u
#define GAVE 4194305u

typedef struct {
    uint32_t processes, batches, data_words, quantum, length, record_words;
    uint32_t announcements, records, slots, nexts, data; /* the first place of each kind of word */
    _Atomic uint64_t *words;
} plain_pool;

typedef enum {
    REST, ANNOUNCE, LOAD_STATE, LOAD_RECORD, LOAD_COVERED, EXCHANGE_SLOT, LOAD_ANNOUNCEMENT, LOAD_POPPED,
    STORE_RECORD, EXCHANGE_STATE, LOAD_FINAL_STATE, LOAD_REPLY
} plain_stage;

typedef struct {
    _Alignas(128) plain_pool *pool;
    uint32_t number, next_record;
    uint64_t age;
    /* the transfer */
    plain_stage stage;
    bool second_try;
    uint32_t wish, index, row, final_row, base, overlay_length;
    uint64_t tag, slot_word;
    uint32_t loaded[RECORD_ROOM], draft[RECORD_ROOM];
    /* the private pool: the current list as its head plus 1, or 0, and the spares, the newest last */
    uint32_t head, count, spares[4], spare_count;
} plain_pass;

static inline uint64_t plain_tagged(uint64_t tag, uint32_t value) { return tag << VALUE_BITS | value; }
static inline uint32_t plain_value(uint64_t word) { return (uint32_t)word & VALUE_MASK; }
static inline _Atomic uint64_t *plain_record(plain_pool *pool, uint32_t row, uint32_t index) {
    return &pool->words[pool->records + row * pool->record_words + index];
}

/* The opening words, and the passes of all processes. NULL where memory is wanting. */
static plain_pass *plain_open(plain_pool *pool, uint32_t p, uint32_t batches, uint32_t data_words, uint32_t quantum) {
    uint32_t rows = 2 * p + 1, length = (16 * p + 15 + quantum - 1) / quantum;
    *pool = (plain_pool){ .processes = p, .batches = batches, .data_words = data_words, .quantum = quantum,
                          .length = length, .record_words = 2 * p + 2, .announcements = 1 };
    pool->records = 1 + p;
    pool->slots = pool->records + rows * pool->record_words;
    pool->nexts = pool->slots + batches;
    pool->data = pool->nexts + batches * length;
    size_t count = pool->data + (size_t)batches * length * data_words;
    pool->words = calloc(count, sizeof *pool->words);
    plain_pass *passes = aligned_alloc(_Alignof(plain_pass), p * sizeof *passes);
    if (!pool->words || !passes) { free(pool->words); free(passes); pool->words = NULL; return NULL; }
    atomic_init(&pool->words[0], plain_tagged(1, 2 * p));
    for (uint32_t i = 0; i < pool->record_words; i++)
        atomic_init(plain_record(pool, 2 * p, i), plain_tagged(1, i == 0 ? batches - 2 * p : 0));
    for (uint32_t s = 0; s + 2 * p < batches; s++)
        atomic_init(&pool->words[pool->slots + s], (2 * p + s) * length);
    for (uint32_t b = 0; b < batches * length; b++)
        atomic_init(&pool->words[pool->nexts + b], b % length == length - 1 ? 0 : b + 2);
    for (uint32_t i = 0; i < p; i++)
        passes[i] = (plain_pass){ .pool = pool, .number = i, .next_record = 2 * i, .head = 2 * i * length + 1,
                                  .count = length, .spares = { (2 * i + 1) * length }, .spare_count = 1 };
    return passes;
}

static void plain_close(plain_pool *pool, plain_pass *passes) { free(pool->words); free(passes); }

/* A try ends without success. */
static inline void plain_try_failed(plain_pass *pass) {
    pass->stage = pass->second_try ? LOAD_FINAL_STATE : LOAD_STATE;
    pass->second_try = true;
}

static inline void plain_draft_begun(plain_pass *pass) {
    plain_pool *pool = pass->pool;
    uint32_t p = pool->processes;
    pass->draft[0] = pass->base + pass->overlay_length;
    for (uint32_t i = 1; i < p + 2; i++) pass->draft[i] = 0;
    for (uint32_t i = p + 2; i < pool->record_words; i++) pass->draft[i] = pass->loaded[i];
    pass->index = 0;
    pass->stage = LOAD_ANNOUNCEMENT;
}

static inline void plain_next_covered(plain_pass *pass) {
    if (pass->index == pass->overlay_length) plain_draft_begun(pass); else pass->stage = LOAD_COVERED;
}

static inline void plain_next_announcement(plain_pass *pass) {
    pass->stage = LOAD_ANNOUNCEMENT;
    if (++pass->index == pass->pool->processes) { pass->index = 0; pass->stage = STORE_RECORD; }
}

/* The announcement of process `index` is applied to the draft, where it is pending. */
static inline void plain_apply(plain_pass *pass, uint64_t announced) {
    uint32_t *draft = pass->draft, *reply = &draft[pass->pool->processes + 2 + pass->index];
    uint32_t parity = announced >> VALUE_BITS & 1 ? PARITY_BIT : 0, value = plain_value(announced);
    if ((*reply & PARITY_BIT) != parity) {
        *reply = parity;
        if (value != 0) { draft[2 + draft[1]++] = value - 1; *reply |= GAVE; }
        else if (draft[1] > 0) { uint32_t *top = &draft[1 + draft[1]--]; *reply |= *top + 1; *top = 0; }
        else if (draft[0] > 0) {
            if (--draft[0] < pass->base) { pass->stage = LOAD_POPPED; return; }
            *reply |= pass->loaded[2 + draft[0] - pass->base] + 1;
        }
    }
    plain_next_announcement(pass);
}

/* The next step of a transfer. True where it was the last, whose reply is then in `wish`. */
static inline bool plain_step(plain_pass *pass) {
    plain_pool *pool = pass->pool;
    uint32_t p = pool->processes;
    switch (pass->stage) {
    case REST: return true;
    case ANNOUNCE:
        pass->age++;
        atomic_store(&pool->words[pool->announcements + pass->number], plain_tagged(pass->age, pass->wish));
        pass->second_try = false;
        pass->stage = LOAD_STATE;
        return false;
    case LOAD_STATE: {
        uint64_t state = atomic_load(&pool->words[0]);
        pass->tag = state >> VALUE_BITS;
        pass->row = plain_value(state);
        pass->index = 0;
        pass->stage = LOAD_RECORD;
        return false;
    }
    case LOAD_RECORD: {
        uint64_t word = atomic_load(plain_record(pool, pass->row, pass->index));
        if (word >> VALUE_BITS > pass->tag) { plain_try_failed(pass); return false; }
        pass->loaded[pass->index] = plain_value(word);
        if (++pass->index == pool->record_words) {
            pass->base = pass->loaded[0];
            pass->overlay_length = pass->loaded[1];
            pass->index = 0;
            plain_next_covered(pass);
        }
        return false;
    }
    case LOAD_COVERED:
        pass->slot_word = atomic_load(&pool->words[pool->slots + pass->base + pass->index]);
        if (pass->slot_word >> VALUE_BITS < pass->tag) { pass->stage = EXCHANGE_SLOT; return false; }
        pass->index++;
        plain_next_covered(pass);
        return false;
    case EXCHANGE_SLOT: {
        uint64_t old = pass->slot_word;
        atomic_compare_exchange_strong(&pool->words[pool->slots + pass->base + pass->index], &old,
                                       plain_tagged(pass->tag, pass->loaded[2 + pass->index]));
        pass->index++;
        plain_next_covered(pass);
        return false;
    }
    case LOAD_ANNOUNCEMENT:
        plain_apply(pass, atomic_load(&pool->words[pool->announcements + pass->index]));
        return false;
    case LOAD_POPPED:
        pass->draft[p + 2 + pass->index] |=
            plain_value(atomic_load(&pool->words[pool->slots + pass->draft[0]])) + 1;
        plain_next_announcement(pass);
        return false;
    case STORE_RECORD:
        atomic_store(plain_record(pool, pass->next_record, pass->index),
                     plain_tagged(pass->tag + 1, pass->draft[pass->index]));
        if (++pass->index == pool->record_words) pass->stage = EXCHANGE_STATE;
        return false;
    case EXCHANGE_STATE: {
        uint64_t old = plain_tagged(pass->tag, pass->row);
        if (atomic_compare_exchange_strong(&pool->words[0], &old, plain_tagged(pass->tag + 1, pass->next_record))) {
            pass->next_record ^= 1;
            pass->stage = LOAD_FINAL_STATE;
        } else plain_try_failed(pass);
        return false;
    }
    case LOAD_FINAL_STATE:
        pass->final_row = plain_value(atomic_load(&pool->words[0]));
        pass->stage = LOAD_REPLY;
        return false;
    case LOAD_REPLY:
        pass->wish = plain_value(atomic_load(plain_record(pool, pass->final_row, p + 2 + pass->number))) & ~PARITY_BIT;
        pass->stage = REST;
        return true;
    }
    return true;
}

/* A transfer begins where it is due, and a pending one makes its steps: a quantum, or fewer where it ends. */
static inline void plain_run_pending(plain_pass *pass) {
    if (pass->stage == REST) {
        if (pass->spare_count <= 1) pass->wish = 0;
        else if (pass->spare_count == 3) pass->wish = pass->spares[--pass->spare_count] + 1;
        else return;
        pass->stage = ANNOUNCE;
    }
    for (uint32_t made = 0; made < pass->pool->quantum; made++)
        if (plain_step(pass)) {
            if (pass->wish != 0 && pass->wish != GAVE) pass->spares[pass->spare_count++] = pass->wish - 1;
            return;
        }
}

/* The number of a block that nobody held, or DRY. */
static inline uint32_t plain_allocate(plain_pass *pass) {
    plain_run_pending(pass);
    plain_pool *pool = pass->pool;
    if (pass->count == 0) {
        if (pass->spare_count == 0) { (void)atomic_load(&pool->words[0]); return DRY; }
        pass->head = pass->spares[--pass->spare_count] + 1;
        pass->count = pool->length;
    }
    uint32_t block = pass->head - 1;
    pass->head = (uint32_t)atomic_load(&pool->words[pool->nexts + block]);
    pass->count--;
    return block;
}

/* Takes back a block that this process holds. */
static inline void plain_free(plain_pass *pass, uint32_t block) {
    plain_run_pending(pass);
    plain_pool *pool = pass->pool;
    if (pass->count == pool->length) {
        pass->spares[pass->spare_count++] = pass->head - 1;
        pass->head = 0;
        pass->count = 0;
    }
    atomic_store(&pool->words[pool->nexts + block], pass->head);
    pass->head = block + 1;
    pass->count++;
}
#endif
