/* Makes managers of many sizes in exactly the memory that PIM_MEMORY says. Prints how many, or the
 * first that doesn't fit. */
#include "pim.h"
#include "pim_heap_given.h"

#include <stdio.h>

/* Each argument may be an expression, and so may what the macro is a part of. */
_Static_assert(PIM_MEMORY(1 + 2, 4 + 1) == PIM_MEMORY(3, 5), "sums as arguments");
_Static_assert(PIM_MEMORY(1 ? 3 : 4, 1 ? 5 : 6) == PIM_MEMORY(3, 5), "conditions as arguments");
_Static_assert(2 * PIM_MEMORY(3, 5) == PIM_MEMORY(3, 5) + PIM_MEMORY(3, 5), "a part of a product");
_Static_assert(PIM_MEMORY(3, 5) == 912 + 16 * (3 + 18 + 2 * 2 + 2 + 1 + 10 + 5), "3, 1 and 1 waiters");
_Static_assert(PIM_MEMORY(256, 1) == 912 + 16 * (3 * 32 + 1152 + 3 + 1 + 2 + 256), "all tasks");
_Static_assert(PIM_MEMORY(12, 20) == 912 + 16 * (3 * 2 + 54 + 2 * 5 + 8 + 2 + 40 + 35), "12 queues");
_Static_assert(PIM_MEMORY(96, 96) == 912 + 16 * (2 * 12 + 16 + 432 + 2 * 24 + 32 + 6 + 192 + 571), "3");
_Static_assert(PIM_MEMORY(32, 64) <= 8192, "a small kernel's");

static _Alignas(16) unsigned char memory[PIM_MEMORY(256, 256)];

int main(void) {
    static uint16_t bases[PIM_MAX_TASKS];
    static struct pim_protocol protocols[PIM_MAX_MUTEXES];
    unsigned count = 0;
    for (unsigned t = 0; t < PIM_MAX_TASKS; t++) bases[t] = 1;
    for (unsigned n = 0; n <= PIM_MAX_TASKS; n++)
        for (unsigned m = 0; m <= PIM_MAX_MUTEXES; m += n < 70 || m < 20 || m > 240 ? 1 : 17) {
            struct pim_handle h = PIM_HANDLE_INIT;
            if (pim_make_in(&h, memory, PIM_MEMORY(n, m), bases, n, protocols, m) != PIM_MADE) {
                printf("%u tasks and %u mutexes need more than %u bytes\n", n, m, PIM_MEMORY(n, m));
                return 1;
            }
            pim_drop(&h);
            count++;
        }
    printf("%u managers; of 3 tasks and 3 mutexes at most %u bytes\n", count, PIM_MEMORY(3, 3));
    return PIM_MEMORY(3, 3) <= 2048 ? 0 : 1;
}
