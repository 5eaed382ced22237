// The manager of bench/judge.cpp, plain C++, behind the functions that libpim has in ../pim.h: each
// takes and returns the same. A handle is made by plain_make, and is one of these functions alone.
#ifndef PLAIN_H
#define PLAIN_H

#include "../pim.h"

extern "C" {

uint32_t plain_make(pim_handle* h, const uint16_t* bases, size_t tasks,
                    const pim_protocol* protocols, size_t mutexes);
void plain_drop(pim_handle* h);

// No answer tells how many priorities were computed: they aren't counted.
pim_answer plain_lock(pim_handle* h, uint16_t task, uint16_t mutex);
pim_answer plain_try(pim_handle* h, uint16_t task, uint16_t mutex);
pim_answer plain_unlock(pim_handle* h, uint16_t task, uint16_t mutex);
pim_answer plain_release_all(pim_handle* h, uint16_t task);
pim_answer plain_cancel(pim_handle* h, uint16_t task, uint16_t target);
pim_answer plain_set_base(pim_handle* h, uint16_t task, uint16_t target, uint16_t prio);
pim_answer plain_set_ceiling(pim_handle* h, uint16_t task, uint16_t mutex, uint16_t ceiling);

size_t plain_changed(const pim_handle* h, pim_changed_task* to, size_t room);
}

#endif
