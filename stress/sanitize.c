/* What threads do with the memory under the blocks' numbers, under a thread sanitizer or helgrind: the plain accesses of two
 * holders of one block would be a race. Neither sees the order that the archive's atomic steps make, so the program says where
 * the pool hands a block over: what the last holder did before its free happens before what the next one does after its
 * allocate. It says so of that block alone, so a block that two hold at once is a race still.
 *
 * Two words ask for what must be reported. `after_free`: a process uses a block that it has given back. `moved`: a handle goes
 * to another thread by an atomic, in which helgrind sees no order, so it reports the archive's own accesses to what the handle
 * owns. */
#include "loskebri.h"
#include <pthread.h>
#include <stdatomic.h>
#include <stdint.h>
#include <stdio.h>
#include <string.h>
#ifdef HELGRIND
#include <valgrind/helgrind.h>
#define GIVEN(block) ANNOTATE_HAPPENS_BEFORE(&handed[block])
#define GOT(block) ANNOTATE_HAPPENS_AFTER(&handed[block])
enum { CALLS = 10000 };
#else
#include <sanitizer/tsan_interface.h>
#define GIVEN(block) __tsan_release(&handed[block])
#define GOT(block) __tsan_acquire(&handed[block])
enum { CALLS = 100000 };
#endif

enum { PROCESSES = 4, BATCHES = 12, LENGTH = 10, BLOCKS = BATCHES * LENGTH, MOST = 40 };

/* The memory under the blocks, and what stands for the hand-over of each. */
static struct object { uint64_t owner, uses; } objects[BLOCKS];
static char handed[BLOCKS];

static int uses_after_free;

struct worker { loskebri_pass pass; uint64_t number, wrong, refused; _Atomic int done; };

/* Fills the memory under a block. */
static void fill(struct worker *w, uint32_t block) {
    objects[block].owner = w->number;
    objects[block].uses++;
}

/* Gets a block and fills it. Whether there was one. */
static int get(struct worker *w, uint32_t *block) {
    loskebri_block a = loskebri_allocate(&w->pass);
    if (a.status != LOSKEBRI_DONE) {
        w->refused++;
        return 0;
    }
    GOT(a.block);
    fill(w, a.block);
    *block = a.block;
    return 1;
}

/* Looks whether the memory is as it was left, and gives the block back. */
static void give(struct worker *w, uint32_t block) {
    if (objects[block].owner != w->number) w->wrong++;
    GIVEN(block);
    if (loskebri_free(&w->pass, block) != LOSKEBRI_DONE) w->wrong++;
    if (uses_after_free && w->number == 1) fill(w, block);
}

static void *work(void *arg) {
    struct worker *w = arg;
    uint32_t held[MOST];
    int n = 0;
    for (int i = 0; i < CALLS; i++) {
        if (n == MOST || (n > 0 && i / MOST % 2)) give(w, held[--n]);
        else n += get(w, &held[n]);
    }
    while (n > 0) give(w, held[--n]);
    atomic_store(&w->done, 1);
    return 0;
}

int main(int count, char **words) {
    static struct worker workers[PROCESSES];
    loskebri_pass passes[PROCESSES] = {0};
    pthread_t threads[PROCESSES];
    uint64_t wrong = 0, refused = 0;
    int moved = count > 1 && !strcmp(words[1], "moved");
    uses_after_free = count > 1 && !strcmp(words[1], "after_free");
    if (loskebri_open(BATCHES, 0, 8, passes, PROCESSES) != LOSKEBRI_DONE || loskebri_shape(passes).blocks != BLOCKS) return 2;
    for (int i = 0; i < PROCESSES; i++) {
        workers[i].pass = passes[i];
        workers[i].number = i + 1;
        if (pthread_create(&threads[i], 0, work, &workers[i])) return 2;
    }
    while (moved && !atomic_load(&workers[0].done)) {}
    if (moved && loskebri_allocate(&workers[0].pass).status != LOSKEBRI_DONE) return 2;
    for (int i = 0; i < PROCESSES; i++) {
        pthread_join(threads[i], 0);
        wrong += workers[i].wrong;
        refused += workers[i].refused;
        loskebri_close(&workers[i].pass);
    }
    printf("%d calls, %lu refused, %lu wrong\n", PROCESSES * CALLS, (unsigned long)refused, (unsigned long)wrong);
    return wrong != 0;
}
