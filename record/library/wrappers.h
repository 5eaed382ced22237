/* Functions of the C++ library that lock, unlock or wait for their caller, and that the compiler
 * didn't inline: std::mutex::lock without -O2, or std::condition_variable::wait, which is in a
 * library. The place of such a call is the caller's. */
#ifndef PIM_WRAPPERS_H
#define PIM_WRAPPERS_H

#include "visibility.h"

#include <stdbool.h>
#include <stdint.h>

enum { MOST_WRAPPERS = 16 }; /* that call each other */

extern HIDDEN bool wrappers_are_known; /* there are such functions */

/* Finds these functions in the files that are loaded, by their names. Loads what the unwinder
 * needs, so that nothing is loaded or allocated later. */
void wrappers_find(void);

/* Returns whether a call that returns to this address is made in such a function. */
bool wrappers_have(uintptr_t place);

/* Returns to which place the outermost of these functions returns in which the call is made, by the
 * unwinder; or 0 where it finds none. `at` is where the call's own place is on the stack. */
uintptr_t wrappers_unwind(const uintptr_t *at);

/* Returns the same without it, if it has passed these functions before and their frames have a
 * fixed size; or a place in one of them. */
uintptr_t wrappers_pass(const uintptr_t *at);

#endif
