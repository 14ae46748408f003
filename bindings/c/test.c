/* The calls, one by one, and then with threads: no two of them ever hold one block. */
#include "loskebri.h"
#include <pthread.h>
#include <stdatomic.h>
#include <stdio.h>
#include <string.h>

#define CHECK(c) do { if (!(c)) { printf("line %d: %s\n", __LINE__, #c); return 1; } } while (0)
enum { THREADS = 4, BATCHES = 16, BLOCKS = 16 * 10, ROUNDS = 200000, MOST = 24 };

static _Atomic int owner[BLOCKS];
static _Atomic int wrong;

static void give_back(loskebri_pass *pass, uint32_t block) {
    loskebri_number word = loskebri_read(pass, block, 1);
    if (word.status != LOSKEBRI_DONE || word.number != block + 7) wrong++;
    atomic_store(&owner[block], 0);
    if (loskebri_free(pass, block) != LOSKEBRI_DONE) wrong++;
    if (loskebri_free(pass, block) != LOSKEBRI_NOT_HELD) wrong++;
}

static void *work(void *arg) {
    loskebri_pass *pass = arg;
    uint32_t held[MOST];
    int n = 0;
    for (int i = 0; i < ROUNDS; i++) {
        if (n < MOST && (i % 5 < 3 || n == 0)) {
            loskebri_block a = i % 16 < 3 ? loskebri_search(pass) : loskebri_allocate(pass);
            if (a.status == LOSKEBRI_DRY) continue;
            if (a.status != LOSKEBRI_DONE || a.block >= BLOCKS) { wrong++; return 0; }
            if (atomic_exchange(&owner[a.block], 1) != 0) wrong++;
            if (loskebri_write(pass, a.block, 1, a.block + 7) != LOSKEBRI_DONE) wrong++;
            held[n++] = a.block;
        } else {
            give_back(pass, held[--n]);
        }
    }
    while (n > 0) give_back(pass, held[--n]);
    return 0;
}

static int refused(void) {
    loskebri_pass p[33] = {0};
    CHECK(loskebri_open(4, 0, 8, p, 0) == LOSKEBRI_NO_PROCESS);
    CHECK(loskebri_open(66, 0, 8, p, 33) == LOSKEBRI_MANY_PROCESSES);
    CHECK(loskebri_open(3, 0, 8, p, 2) == LOSKEBRI_FEW_BATCHES);
    CHECK(loskebri_open(4, 0, 3, p, 2) == LOSKEBRI_BAD_QUANTUM);
    CHECK(loskebri_open(4294967295u, 0, 8, p, 2) == LOSKEBRI_MANY_BLOCKS);
    CHECK(loskebri_open(4, 9, 8, p, 2) == LOSKEBRI_WIDE_BLOCK);
    for (int i = 0; i < 33; i++) CHECK(p[i].at == 0);
    return 0;
}

/* Every call of a closed handle, or of NULL in its place: CLOSED and nothing else. */
static int closed_at(loskebri_pass *p) {
    loskebri_slots slots = {p, 8, 1};
    loskebri_shape_numbers s = loskebri_shape(p);
    loskebri_block a = loskebri_allocate(p);
    loskebri_slot slot = loskebri_slot_get(p, &slots);
    const loskebri_number numbers[] = {loskebri_read(p, 0, 0), loskebri_age(p), loskebri_most_age(p), loskebri_has_age(p),
        loskebri_holding(p)};
    CHECK(a.status == LOSKEBRI_CLOSED && a.block == 0);
    a = loskebri_search(p);
    CHECK(a.status == LOSKEBRI_CLOSED && a.block == 0);
    CHECK(slot.status == LOSKEBRI_CLOSED && slot.at == NULL);
    CHECK(loskebri_free(p, 0) == LOSKEBRI_CLOSED);
    CHECK(loskebri_slot_put(p, &slots, p) == LOSKEBRI_CLOSED);
    CHECK(loskebri_slot_put(p, &slots, NULL) == LOSKEBRI_CLOSED);
    CHECK(loskebri_write(p, 0, 0, 1) == LOSKEBRI_CLOSED);
    for (size_t i = 0; i < sizeof numbers / sizeof *numbers; i++) CHECK(numbers[i].status == LOSKEBRI_CLOSED && numbers[i].number == 0);
    CHECK(s.status == LOSKEBRI_CLOSED && s.process == 0 && s.processes == 0 && s.batches == 0 && s.batch_length == 0);
    CHECK(s.blocks == 0 && s.words == 0 && s.quantum == 0 && s.slack == 0 && s.window == 0 && s.most_age == 0);
    loskebri_close(p);
    return 0;
}

static int closed(void) {
    loskebri_pass p = {0};
    if (closed_at(&p) || closed_at(NULL)) return 1;
    CHECK(p.at == 0);
    CHECK(loskebri_open(4, 0, 8, NULL, 2) == LOSKEBRI_NO_PROCESS);
    return 0;
}

/* Every status has a text of its own, and no other number has one. */
static int texts(void) {
    const char *none = loskebri_status_text(LOSKEBRI_NO_SLOT + 1);
    CHECK(none == loskebri_status_text(UINT32_MAX));
    for (uint32_t i = 0; i <= LOSKEBRI_NO_SLOT; i++) {
        CHECK(strcmp(loskebri_status_text(i), none) != 0);
        for (uint32_t j = 0; j < i; j++) CHECK(strcmp(loskebri_status_text(i), loskebri_status_text(j)) != 0);
    }
    return 0;
}

/* A pass alone has 4 batches of 4 blocks: 8 * 4 >= 16 + 15. Its blocks lie in slots of 24 bytes. */
static int slots(void) {
    static char memory[16 * 24];
    loskebri_pass p = {0};
    loskebri_slots all = {memory, 24, 16}, few = {memory, 24, 0}, none = {memory, 0, 16};
    CHECK(loskebri_open(4, 0, 8, &p, 1) == LOSKEBRI_DONE);
    void *a = loskebri_slot_get(&p, &all).at, *b = loskebri_slot_get(&p, &all).at;
    CHECK(a && b && a != b && ((char *)a - memory) % 24 == 0 && (char *)a < memory + sizeof memory);
    const void *wrong[] = {NULL, (char *)a + 1, (void *)((uintptr_t)memory - 24), memory + sizeof memory, &p, (void *)UINTPTR_MAX};
    for (size_t i = 0; i < sizeof wrong / sizeof *wrong; i++) CHECK(loskebri_slot_put(&p, &all, wrong[i]) == LOSKEBRI_NOT_HELD);
    CHECK(loskebri_slot_put(&p, &none, a) == LOSKEBRI_NOT_HELD);
    CHECK(loskebri_slot_put(&p, &few, a) == LOSKEBRI_NOT_HELD);
    CHECK(loskebri_slot_get(&p, &few).status == LOSKEBRI_NO_SLOT);
    CHECK(loskebri_holding(&p).number == 2);
    CHECK(loskebri_slot_put(&p, &all, a) == LOSKEBRI_DONE);
    CHECK(loskebri_slot_put(&p, &all, a) == LOSKEBRI_NOT_HELD);
    CHECK(loskebri_slot_put(&p, &all, b) == LOSKEBRI_DONE);
    loskebri_close(&p);
    return 0;
}

/* Two processes with 4 batches of 6 blocks: 8 * 6 >= 16 * 2 + 15. */
static int alone(void) {
    loskebri_pass p[2] = {0};
    CHECK(loskebri_open(4, 2, 8, p, 2) == LOSKEBRI_DONE);
    for (uint32_t i = 0; i < 2; i++) {
        loskebri_shape_numbers s = loskebri_shape(&p[i]);
        CHECK(s.status == LOSKEBRI_DONE && s.process == i && s.processes == 2 && s.batches == 4 && s.batch_length == 6);
        CHECK(s.blocks == 24 && s.words == 2 && s.quantum == 8 && s.slack == 60 && s.window == 12);
        CHECK(s.most_age == 549755813886u && loskebri_most_age(&p[i]).number == s.most_age);
        CHECK(loskebri_age(&p[i]).status == LOSKEBRI_DONE && loskebri_age(&p[i]).number == 0);
        CHECK(loskebri_has_age(&p[i]).status == LOSKEBRI_DONE && loskebri_has_age(&p[i]).number == 1);
    }
    void *const before[] = {p[0].at, p[1].at};
    loskebri_block a = loskebri_allocate(&p[0]), b = loskebri_allocate(&p[1]);
    CHECK(a.status == LOSKEBRI_DONE && b.status == LOSKEBRI_DONE && a.block != b.block && a.block < 24 && b.block < 24);
    CHECK(loskebri_holding(&p[0]).number == 1);
    CHECK(loskebri_write(&p[0], a.block, 1, 99) == LOSKEBRI_DONE);
    CHECK(loskebri_read(&p[0], a.block, 1).number == 99);
    CHECK(loskebri_read(&p[0], a.block, 2).status == LOSKEBRI_NO_WORD);
    CHECK(loskebri_write(&p[0], a.block, 2, 1) == LOSKEBRI_NO_WORD);
    CHECK(loskebri_read(&p[0], b.block, 0).status == LOSKEBRI_NOT_HELD);
    CHECK(loskebri_write(&p[0], b.block, 0, 1) == LOSKEBRI_NOT_HELD);
    CHECK(loskebri_free(&p[0], b.block) == LOSKEBRI_NOT_HELD);
    CHECK(loskebri_free(&p[0], 4000000000u) == LOSKEBRI_NOT_HELD);
    CHECK(loskebri_free(&p[0], a.block) == LOSKEBRI_DONE);
    CHECK(loskebri_free(&p[0], a.block) == LOSKEBRI_NOT_HELD);
    CHECK(loskebri_holding(&p[0]).number == 0);
    CHECK(loskebri_age(&p[0]).status == LOSKEBRI_DONE && loskebri_age(&p[0]).number <= 4);
    CHECK(p[0].at == before[0] && p[1].at == before[1]);
    loskebri_close(&p[0]);
    loskebri_close(&p[1]);
    CHECK(loskebri_free(&p[1], b.block) == LOSKEBRI_CLOSED);
    return 0;
}

/* One of two processes gets its own twelve of 24 blocks, and then is refused while the other's are unheld. */
static int dry(void) {
    loskebri_pass p[2] = {0};
    uint32_t last = 0;
    CHECK(loskebri_open(4, 0, 8, p, 2) == LOSKEBRI_DONE);
    for (int i = 0; i < 12; i++) {
        loskebri_block a = loskebri_allocate(&p[0]);
        CHECK(a.status == LOSKEBRI_DONE);
        last = a.block;
    }
    CHECK(loskebri_allocate(&p[0]).status == LOSKEBRI_DRY);
    CHECK(loskebri_holding(&p[0]).number == 12);
    CHECK(loskebri_free(&p[0], last) == LOSKEBRI_DONE);
    CHECK(loskebri_allocate(&p[0]).block == last);
    loskebri_close(&p[0]);
    loskebri_close(&p[1]);
    return 0;
}

/* A search is refused only where the pass has no block once its transfers have ended, and makes no transfer that isn't due. */
static int searched(void) {
    loskebri_pass p = {0};
    uint32_t seen = 0;
    CHECK(loskebri_open(4, 0, 1, &p, 1) == LOSKEBRI_DONE);
    void *const before = p.at;
    const uint32_t blocks = loskebri_shape(&p).blocks;
    CHECK(blocks == 4 * 31);
    for (uint32_t i = 0; i < blocks; i++) {
        loskebri_block a = loskebri_search(&p);
        CHECK(a.status == LOSKEBRI_DONE && a.block < blocks);
        seen += a.block;
        CHECK(loskebri_holding(&p).number == i + 1);
    }
    CHECK(seen == blocks * (blocks - 1) / 2);
    loskebri_block none = loskebri_search(&p);
    CHECK(none.status == LOSKEBRI_DRY && none.block == 0);
    CHECK(loskebri_free(&p, 5) == LOSKEBRI_DONE);
    CHECK(loskebri_search(&p).block == 5);
    CHECK(loskebri_holding(&p).number == blocks && loskebri_age(&p).number > 0 && p.at == before);
    loskebri_close(&p);
    return 0;
}

/* Batches of 4, 10, 79 and 527 blocks for 1, 4, 4 and 32 processes; blocks more than the slack, five times processes times these, and
 * `live` together. */
static int enough(void) {
    static const struct { uint32_t processes, quantum, live, status; uint64_t batches; } cases[] = {
        {1, 8, 0, LOSKEBRI_DONE, 6}, {1, 8, 4, LOSKEBRI_DONE, 7}, {4, 8, 1000, LOSKEBRI_DONE, 121}, {4, 1, 1000, LOSKEBRI_DONE, 33},
        {32, 1, 0, LOSKEBRI_DONE, 161}, {1, 8, 4194283, LOSKEBRI_DONE, 1048576}, {1, 8, 4194284, LOSKEBRI_MANY_BLOCKS, 0},
        {4, 8, UINT32_MAX, LOSKEBRI_MANY_BLOCKS, 0}, {0, 3, 0, LOSKEBRI_NO_PROCESS, 0}, {33, 3, 0, LOSKEBRI_MANY_PROCESSES, 0},
        {UINT32_MAX, 8, UINT32_MAX, LOSKEBRI_MANY_PROCESSES, 0}, {4, 3, UINT32_MAX, LOSKEBRI_BAD_QUANTUM, 0},
    };
    for (size_t i = 0; i < sizeof cases / sizeof *cases; i++) {
        loskebri_number enough = loskebri_enough_batches(cases[i].processes, cases[i].quantum, cases[i].live);
        CHECK(enough.status == cases[i].status && enough.number == cases[i].batches);
    }
    return 0;
}

/* 64 and 133 words of the table, and one and twice one of marks; the peak is twice the table. */
static int memory(void) {
    static const struct { uint32_t batches, words, quantum, processes, status; uint64_t bytes, peak; } cases[] = {
        {10, 0, 8, 1, LOSKEBRI_DONE, 520, 1024}, {4, 3, 8, 2, LOSKEBRI_DONE, 1080, 2128},
        {1048576, 8, 8, 1, LOSKEBRI_DONE, 310902896, 620757216}, {0, 9, 3, 0, LOSKEBRI_NO_PROCESS, 0, 0},
        {UINT32_MAX, 9, 3, UINT32_MAX, LOSKEBRI_MANY_PROCESSES, 0, 0}, {7, 9, 3, 4, LOSKEBRI_FEW_BATCHES, 0, 0},
        {UINT32_MAX, 9, 3, 4, LOSKEBRI_BAD_QUANTUM, 0, 0}, {UINT32_MAX, 9, 8, 4, LOSKEBRI_MANY_BLOCKS, 0, 0},
        {8, 9, 8, 4, LOSKEBRI_WIDE_BLOCK, 0, 0},
    };
    for (size_t i = 0; i < sizeof cases / sizeof *cases; i++) {
        loskebri_memory_numbers m = loskebri_memory(cases[i].batches, cases[i].words, cases[i].quantum, cases[i].processes);
        CHECK(m.status == cases[i].status && m.bytes == cases[i].bytes && m.peak == cases[i].peak);
    }
    return 0;
}

/* Four processes with 16 batches of 10 blocks: 8 * 10 >= 16 * 4 + 15. */
static int threads(void) {
    loskebri_pass p[THREADS] = {0};
    CHECK(loskebri_open(BATCHES, 2, 8, p, THREADS) == LOSKEBRI_DONE);
    CHECK(loskebri_shape(&p[0]).blocks == BLOCKS);
    pthread_t t[THREADS];
    for (int i = 0; i < THREADS; i++) CHECK(pthread_create(&t[i], 0, work, &p[i]) == 0);
    for (int i = 0; i < THREADS; i++) CHECK(pthread_join(t[i], 0) == 0);
    CHECK(wrong == 0);
    for (int i = 0; i < THREADS; i++) {
        CHECK(loskebri_holding(&p[i]).number == 0);
        loskebri_close(&p[i]);
    }
    return 0;
}

int main(void) {
    if (refused() || closed() || texts() || slots() || alone() || dry() || searched() || enough() || memory() || threads()) return 1;
    puts("test: ok");
    return 0;
}
