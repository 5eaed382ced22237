/* Writes the facts of a log in the order in which they may follow each other. */
#ifndef PIM_FACTS_ORDER_H
#define PIM_FACTS_ORDER_H

#include "kernel.h"
#include "names.h"
#include "text.h"
#include "told.h"

enum { MOST_PLACES = 16 };
#define LAST_THREAD (UINT32_MAX - 1)
#define LAST_TIME UINT64_C(9999999999999999999)

/* Marks what is told late or early, of facts in the order of the records. */
void mark_order(struct told *told);

/* Writes the text. */
void write_facts(struct told *told, struct kernel *kernel, struct names *names, struct text *text);

#endif
