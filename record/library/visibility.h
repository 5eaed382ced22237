/* Who sees what the library defines. */
#ifndef PIM_VISIBILITY_H
#define PIM_VISIBILITY_H

/* The program: a function that it calls in place of the C library's. */
#define EXPORT __attribute__((visibility("default")))

/* The library alone. A variable that is declared without it is read by way of a table, since
 * another module could define it: -fvisibility is of definitions. */
#define HIDDEN __attribute__((visibility("hidden")))

#endif
