/* Records the kernel's events of a program's threads. */
#ifndef RECORD_H
#define RECORD_H

#include <stdbool.h>
#include <sys/types.h>

#include "../parent/guard.h"

/* Whether the recorder starts the program, or it runs already. */
enum program { STARTED, RUNNING };

/* Prepares the recording into a new file, and starts its guard. With the rights missing, ends the
 * process with a line that says so. `kilobytes` is the room for events of each CPU. */
void begin_kernel(enum program program, const char *path, const char *kilobytes,
                  struct guard *guard);

/* Begins the recording of a program, with all threads that it has, or those that are found until
 * `is_over`, which may be NULL, returns true. The file has its head once it has begun. Returns
 * NULL, or the name of what is missing. */
const char *turn_on_kernel(pid_t program, bool (*is_over)(void));

/* Ends what was begun, and the process, with a line that says what is missing. */
_Noreturn void give_up_kernel(const char *missing);

/* Reads and writes the events that are there. */
void read_kernel(void);

/* Ends the recording, and the guard. The file is removed if it isn't kept; if it is, what it
 * lacks is reported. Returns whether the file is whole. */
bool end_kernel(bool is_kept);

#endif
