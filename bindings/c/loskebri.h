/* Loskebri for C: a block allocator in constant time, for a fixed number of processes.
 *
 * A process here is a thread's place in one program: a pool has a fixed number of them, and each has a pass, which C holds as a
 * handle and gives to one thread at a time. A pool has numbered blocks. A block is got and given back by its number; the memory
 * that a number stands for is the program's own (loskebri_slots below, example.c), or up to 8 data words that the pool keeps.
 *
 * Handles. Zeroed memory is a closed handle: loskebri_pass passes[8] = {0}; and so is NULL, in every call below. A handle may be
 * moved, and is never copied: after a copy only one of the two may be used. loskebri_open and loskebri_close alone write a
 * handle, so handles of different threads may lie side by side in one array.
 *
 * Threads. A handle is used by one call at a time. Handles of one pool may be used by different threads at once, one each. A
 * handle may go to another thread by a start or join of it, by a lock, or by a seq_cst atomic. No call is made from a signal
 * handler, nor in a forked child of a process that has threads.
 *
 * Steps. A counted step is one atomic load, store, or compare and exchange of one word that processes share. The bounds below
 * hold whatever other threads do, and wherever they stop. Only loskebri_open and loskebri_close use the heap; no call takes a
 * lock or makes another system call.
 *
 * Transfers. A pass trades whole batches with the others; each such trade is a transfer, of which a call makes a few steps. A
 * pass may begin so many in all, as loskebri_most_age and `most_age` of loskebri_shape answer:
 *
 *     processes            1                2                4                8               16              32
 *     most_age  1099511627773     549755813886     274877906943     137438953471      68719476735     34359738367
 *
 * From then on a call is answered SPENT exactly where it would have to begin one more: a transfer that is pending runs to its
 * end, and calls that begin none go on. loskebri_has_age says so before the call.
 *
 * Every call may be given any numbers. What isn't said to change stays as it was. */
#ifndef LOSKEBRI_H
#define LOSKEBRI_H
#include <stddef.h>
#include <stdint.h>
#ifdef __cplusplus
extern "C" {
#endif

/* The version of these declarations, which is also that of the crate for Rust. */
#define LOSKEBRI_VERSION "0.1.0"

/* The pass of one process. */
typedef struct loskebri_pass { void *at; } loskebri_pass;

/* How a call was answered. */
enum {
    LOSKEBRI_DONE = 0,           /* it did what it says */
    LOSKEBRI_DRY = 1,            /* the pass's own pool has no block */
    LOSKEBRI_NOT_HELD = 2,       /* the pass doesn't hold this block; nothing changed */
    LOSKEBRI_NO_WORD = 3,        /* a block has no data word of this index; nothing changed */
    LOSKEBRI_SPENT = 4,          /* the pass has begun as many transfers as it may, and the call needs one; nothing changed */
    LOSKEBRI_CLOSED = 5,         /* the handle is closed, or NULL; nothing changed */
    LOSKEBRI_NO_MEMORY = 6,      /* the heap had no memory */
    LOSKEBRI_NO_PROCESS = 7,     /* there is no handle to be opened */
    LOSKEBRI_MANY_PROCESSES = 8, /* more than 32 handles */
    LOSKEBRI_FEW_BATCHES = 9,    /* fewer than two batches a process */
    LOSKEBRI_BAD_QUANTUM = 10,   /* a quantum that is none of 1, 2, 4, 8 and 16 */
    LOSKEBRI_MANY_BLOCKS = 11,   /* more than 2^22 blocks */
    LOSKEBRI_WIDE_BLOCK = 12,    /* more than 8 data words a block */
    LOSKEBRI_NO_SLOT = 13        /* a block was got that has no slot; it was given back */
};

/* A status with a block's number, which is 0 where there is none. */
typedef struct loskebri_block { uint32_t status, block; } loskebri_block;

/* A status with a number, which is 0 where there is none. */
typedef struct loskebri_number { uint32_t status; uint64_t number; } loskebri_number;

/* The numbers of a pass and its pool, all 0 but the status where the handle is closed. The blocks are the numbers below `blocks`.
 * An allocate that is refused had a moment with at most `slack` unheld blocks, fewer than `window` calls of its pass before: where
 * more stay unheld that long, none is refused. A pass may begin `most_age` transfers in all. */
typedef struct loskebri_shape_numbers {
    uint32_t status, process, processes, batches, batch_length, blocks, words, quantum, slack, window;
    uint64_t most_age;
} loskebri_shape_numbers;

/* What a pool takes, in bytes, and 0 where the status is a fault: while it is open, and at the peak of its opening. */
typedef struct loskebri_memory_numbers { uint32_t status; uint64_t bytes, peak; } loskebri_memory_numbers;

/* Opens these handles for the processes of a new pool, one each: as many processes as handles, 1 to 32. The pool has `batches`
 * batches, at least two a process; a batch has the least number l of blocks with quantum * l >= 16 * processes + 15. A block
 * has `words` data words, 0 to 8. A call makes at most `quantum` steps of its pass's transfer: 1, 2, 4, 8 or 16.
 * A handle that was open is closed, where the pool is opened; else no handle changes and nothing is left on the heap.
 * DONE, NO_MEMORY, or the first of NO_PROCESS, MANY_PROCESSES, FEW_BATCHES, BAD_QUANTUM, MANY_BLOCKS, WIDE_BLOCK. */
uint32_t loskebri_open(uint32_t batches, uint32_t words, uint32_t quantum, loskebri_pass *passes, size_t processes);

/* The least number of batches with which a pool of so many processes and this quantum refuses nobody, in any schedule, as long as
 * at most `live` blocks are held together. Without data words or with. Nothing is opened, and no handle is looked at. DONE, or the
 * first of NO_PROCESS, MANY_PROCESSES, BAD_QUANTUM, and MANY_BLOCKS where no pool has enough. */
loskebri_number loskebri_enough_batches(uint32_t processes, uint32_t quantum, uint32_t live);

/* What a pool of these numbers takes, but for a few cache lines a process: 8 bytes for each word of its table, data words among
 * it, and 8 for each 64 blocks and each process; and twice the table while it is opened. Nothing is opened. DONE, or the first of
 * NO_PROCESS, MANY_PROCESSES, FEW_BATCHES, BAD_QUANTUM, MANY_BLOCKS, WIDE_BLOCK. */
loskebri_memory_numbers loskebri_memory(uint32_t batches, uint32_t words, uint32_t quantum, uint32_t processes);

/* Gets a block that nobody holds. DRY comes where the pass has no block of its own: at a moment within its last `window` calls
 * at most `slack` blocks were unheld (loskebri_shape). At most quantum + 1 counted steps. DONE, DRY, SPENT, CLOSED. */
loskebri_block loskebri_allocate(loskebri_pass *pass);

/* Gets a block as loskebri_allocate does, with more steps and a sharper refusal: the pass's pending transfer runs to its end, then
 * the one that is due. DRY comes where the pass has no block even so: at a moment within this very call at most `slack` blocks
 * were unheld. At most 32 * processes + 31 counted steps, of the pool's `processes`. SPENT comes where the pass has begun as many
 * transfers as it may, whatever is due. DONE, DRY, SPENT, CLOSED. */
loskebri_block loskebri_search(loskebri_pass *pass);

/* Gives a block back that this pass holds. At most quantum + 1 counted steps. DONE, NOT_HELD, SPENT, CLOSED. */
uint32_t loskebri_free(loskebri_pass *pass, uint32_t block);

/* Loads a data word of a block that this pass holds: what it wrote there last since it got the block, and some number where it
 * wrote nothing. At most one counted step. DONE, NOT_HELD, NO_WORD, CLOSED. */
loskebri_number loskebri_read(loskebri_pass *pass, uint32_t block, uint32_t index);

/* Stores a data word of a block that this pass holds. At most one counted step. DONE, NOT_HELD, NO_WORD, CLOSED. */
uint32_t loskebri_write(loskebri_pass *pass, uint32_t block, uint32_t index, uint64_t value);

/* How many transfers the pass has begun. No counted step. DONE, CLOSED. */
loskebri_number loskebri_age(loskebri_pass *pass);

/* How many transfers the pass may begin in all. No counted step. DONE, CLOSED. */
loskebri_number loskebri_most_age(loskebri_pass *pass);

/* 1 where an allocate, or a free of a held block, would be made now, and 0 where it would be SPENT. No counted step. DONE, CLOSED. */
loskebri_number loskebri_has_age(loskebri_pass *pass);

/* How many blocks the pass holds. No counted step. DONE, CLOSED. */
loskebri_number loskebri_holding(loskebri_pass *pass);

/* The numbers of the pass and its pool. No counted step. DONE, CLOSED. */
loskebri_shape_numbers loskebri_shape(loskebri_pass *pass);

/* Closes the handle, if it is open. What the pass holds stays held, and what it keeps is lost to the others. The pool's memory
 * goes back with its last handle. */
void loskebri_close(loskebri_pass *pass);

/* NULL is a closed handle: each call's name is a macro over a function that gives it one. By their symbols alone, as from another
 * language or through a function pointer, the calls want a handle. */
static inline uint32_t loskebri_open_or_null(uint32_t batches, uint32_t words, uint32_t quantum, loskebri_pass *passes, size_t processes) {
    loskebri_pass none = {NULL};
    return loskebri_open(batches, words, quantum, passes ? passes : &none, passes ? processes : 0);
}
static inline loskebri_block loskebri_allocate_or_null(loskebri_pass *pass) {
    loskebri_pass closed = {NULL};
    return loskebri_allocate(pass ? pass : &closed);
}
static inline loskebri_block loskebri_search_or_null(loskebri_pass *pass) {
    loskebri_pass closed = {NULL};
    return loskebri_search(pass ? pass : &closed);
}
static inline uint32_t loskebri_free_or_null(loskebri_pass *pass, uint32_t block) {
    loskebri_pass closed = {NULL};
    return loskebri_free(pass ? pass : &closed, block);
}
static inline loskebri_number loskebri_read_or_null(loskebri_pass *pass, uint32_t block, uint32_t index) {
    loskebri_pass closed = {NULL};
    return loskebri_read(pass ? pass : &closed, block, index);
}
static inline uint32_t loskebri_write_or_null(loskebri_pass *pass, uint32_t block, uint32_t index, uint64_t value) {
    loskebri_pass closed = {NULL};
    return loskebri_write(pass ? pass : &closed, block, index, value);
}
static inline loskebri_number loskebri_age_or_null(loskebri_pass *pass) {
    loskebri_pass closed = {NULL};
    return loskebri_age(pass ? pass : &closed);
}
static inline loskebri_number loskebri_most_age_or_null(loskebri_pass *pass) {
    loskebri_pass closed = {NULL};
    return loskebri_most_age(pass ? pass : &closed);
}
static inline loskebri_number loskebri_has_age_or_null(loskebri_pass *pass) {
    loskebri_pass closed = {NULL};
    return loskebri_has_age(pass ? pass : &closed);
}
static inline loskebri_number loskebri_holding_or_null(loskebri_pass *pass) {
    loskebri_pass closed = {NULL};
    return loskebri_holding(pass ? pass : &closed);
}
static inline loskebri_shape_numbers loskebri_shape_or_null(loskebri_pass *pass) {
    loskebri_pass closed = {NULL};
    return loskebri_shape(pass ? pass : &closed);
}
static inline void loskebri_close_or_null(loskebri_pass *pass) {
    if (pass) loskebri_close(pass);
}
#define loskebri_open(batches, words, quantum, passes, processes) loskebri_open_or_null(batches, words, quantum, passes, processes)
#define loskebri_allocate(pass) loskebri_allocate_or_null(pass)
#define loskebri_search(pass) loskebri_search_or_null(pass)
#define loskebri_free(pass, block) loskebri_free_or_null(pass, block)
#define loskebri_read(pass, block, index) loskebri_read_or_null(pass, block, index)
#define loskebri_write(pass, block, index, value) loskebri_write_or_null(pass, block, index, value)
#define loskebri_age(pass) loskebri_age_or_null(pass)
#define loskebri_most_age(pass) loskebri_most_age_or_null(pass)
#define loskebri_has_age(pass) loskebri_has_age_or_null(pass)
#define loskebri_holding(pass) loskebri_holding_or_null(pass)
#define loskebri_shape(pass) loskebri_shape_or_null(pass)
#define loskebri_close(pass) loskebri_close_or_null(pass)

/* A status in a few words of English. */
static inline const char *loskebri_status_text(uint32_t status) {
    switch (status) {
    case LOSKEBRI_DONE: return "done";
    case LOSKEBRI_DRY: return "the pass has no block";
    case LOSKEBRI_NOT_HELD: return "the pass doesn't hold this block";
    case LOSKEBRI_NO_WORD: return "a block has no such data word";
    case LOSKEBRI_SPENT: return "the pass has begun as many transfers as it may";
    case LOSKEBRI_CLOSED: return "the handle is closed";
    case LOSKEBRI_NO_MEMORY: return "out of memory";
    case LOSKEBRI_NO_PROCESS: return "no process";
    case LOSKEBRI_MANY_PROCESSES: return "more than 32 processes";
    case LOSKEBRI_FEW_BATCHES: return "fewer than two batches for each process";
    case LOSKEBRI_BAD_QUANTUM: return "the quantum is none of 1, 2, 4, 8 and 16";
    case LOSKEBRI_MANY_BLOCKS: return "more than 2^22 blocks";
    case LOSKEBRI_WIDE_BLOCK: return "more than 8 data words in a block";
    case LOSKEBRI_NO_SLOT: return "fewer slots than blocks";
    default: return "no such status";
    }
}

/* Slots: memory of the program's own under the blocks' numbers. Block k lies `stride` bytes, times k, past `base`; there are
 * `count` of them, at least as many as blocks. The passes of one pool share one. */
typedef struct loskebri_slots { void *base; size_t stride, count; } loskebri_slots;

/* A status with a slot's address, which is NULL where there is none. */
typedef struct loskebri_slot { uint32_t status; void *at; } loskebri_slot;

/* Gets a block, as loskebri_allocate does, by its address. DONE, DRY, SPENT, CLOSED; NO_SLOT where there are too few slots. */
static inline loskebri_slot loskebri_slot_get(loskebri_pass *pass, const loskebri_slots *slots) {
    loskebri_block got = loskebri_allocate(pass);
    loskebri_slot slot = {got.status, NULL};
    if (got.status != LOSKEBRI_DONE) return slot;
    if (got.block >= slots->count) {
        loskebri_free(pass, got.block);
        slot.status = LOSKEBRI_NO_SLOT;
    } else {
        slot.at = (char *)slots->base + (size_t)got.block * slots->stride;
    }
    return slot;
}

/* Gives a block back, as loskebri_free does, by its address. Any address may be given: one at which no slot begins is NOT_HELD.
 * DONE, NOT_HELD, SPENT, CLOSED. */
static inline uint32_t loskebri_slot_put(loskebri_pass *pass, const loskebri_slots *slots, const void *at) {
    uintptr_t base = (uintptr_t)slots->base, address = (uintptr_t)at;
    uint32_t block = UINT32_MAX; /* no pool has a block of this number */
    if (slots->stride != 0 && address >= base && (address - base) % slots->stride == 0
        && (address - base) / slots->stride < slots->count && (address - base) / slots->stride < UINT32_MAX)
        block = (uint32_t)((address - base) / slots->stride);
    return loskebri_free(pass, block);
}

#ifdef __cplusplus
}
#endif
#endif
