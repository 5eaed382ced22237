/* A second process of a recording. With --kernel it removes the instance of tracefs when the
 * recorder has ended, even by SIGKILL. It continues a recorder that has stopped with its
 * program, if the program isn't stopped any more: a stopped process can't see that. */
#ifndef GUARD_H
#define GUARD_H

#include <stdbool.h>
#include <sys/types.h>

#include "../kernel/instance.h"

struct guard {
    pid_t process;
    int channel; /* its end tells the guard that the recorder has ended */
};

/* Starts a guard, with all signals blocked as its caller has them, of an instance or of none,
 * which is NULL. Returns false with errno set. */
bool start_guard(struct guard *started, const struct instance *instance);

/* Removes the instance, if there is one, and ends the guard. */
void end_guard(struct guard *ended, const struct instance *instance);

/* Stops this process by the signal that stopped the program, until one of both is continued, or
 * the program has ended. Then the program isn't stopped either. */
void stop_as_program(const struct guard *guard, pid_t program, int number);

#endif
