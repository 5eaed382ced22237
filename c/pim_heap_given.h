/* pim_heap_given.h - managers in memory of the program, where heap/given.c is linked. */
#ifndef PIM_HEAP_GIVEN_H
#define PIM_HEAP_GIVEN_H

#include "pim.h"

#ifdef __cplusplus
extern "C" {
#endif

/* pim_make with the memory as an argument. These bytes are the manager's until it is dropped.
 * PIM_MEMORY(tasks, mutexes) bytes that are aligned to 16 suffice. With less memory it may return
 * PIM_FAULT_NO_MEMORY; then, and after any other fault, the memory is the program's again. One call
 * at a time, of this and of pim_make, in the whole program. */
uint32_t pim_make_in(struct pim_handle *h, void *memory, size_t bytes, const uint16_t *bases,
                     uint64_t tasks, const struct pim_protocol *protocols, uint64_t mutexes);

/* Hands over these bytes for the next pim_make, until its manager is dropped. What was handed over
 * before and isn't taken yet is the program's again. A null pointer hands over nothing. */
void pim_heap_give(void *memory, size_t bytes);

#ifdef __cplusplus
}
#endif
#endif
