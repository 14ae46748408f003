/* Objects of 64 bytes in slots under the blocks' numbers: the memory is the program's, and the pool says who holds which slot. */
#include "loskebri.h"
#include <stdio.h>
#include <stdlib.h>
#include <string.h>

typedef struct object { char name[56]; uint64_t uses; } object;
_Static_assert(sizeof(object) == 64, "an object has 64 bytes");

int main(void) {
    loskebri_pass pass[1] = {0};
    uint32_t status = loskebri_open(8, 0, 8, pass, 1);
    if (status != LOSKEBRI_DONE) {
        printf("example: %s\n", loskebri_status_text(status));
        return 1;
    }
    uint32_t blocks = loskebri_shape(pass).blocks;
    loskebri_slots slots = {aligned_alloc(64, blocks * sizeof(object)), sizeof(object), blocks};
    if (!slots.base) return 1;
    object *first = loskebri_slot_get(pass, &slots).at, *second = loskebri_slot_get(pass, &slots).at;
    if (!first || !second || first == second) return 1;
    strcpy(first->name, "first");
    strcpy(second->name, "second");
    printf("example: %s and %s, %u held\n", first->name, second->name, (unsigned)loskebri_holding(pass).number);
    if (loskebri_slot_put(pass, &slots, first->name + 1) != LOSKEBRI_NOT_HELD) return 1;
    if (loskebri_slot_put(pass, &slots, first) != LOSKEBRI_DONE || loskebri_slot_put(pass, &slots, second) != LOSKEBRI_DONE) return 1;
    if (loskebri_slot_put(pass, &slots, second) != LOSKEBRI_NOT_HELD) return 1;
    loskebri_close(pass);
    free(slots.base);
    return 0;
}
