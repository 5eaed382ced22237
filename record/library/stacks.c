#define _GNU_SOURCE
#include "stacks.h"

#include "places.h"
#include "wrappers.h"

#include <dlfcn.h>
#include <errno.h>
#include <execinfo.h>
#include <stdio.h>
#include <sys/auxv.h>
#include <unistd.h>

enum {
    OWN_FRAMES = 8, /* of this library there are fewer, with the call's own place */
    MOST_FRAMES = OWN_FRAMES + MOST_WRAPPERS + MOST_CALLERS,
    ENTRY_BYTES = 64, /* of a program's _start, at most */
};

bool stacks_are_on;

/* Where the C library is: from `begin` on, up to `end`. */
static uintptr_t begin, end;

/* Finds the C library by glibc's _dl_find_object. An unwinder that has this function, too, takes no
 * lock to find a frame. Without it the loader's lock would be taken, which a thread may hold while
 * it waits for another one that asks for a mutex. */
static bool find_library(void) {
#ifdef DLFO_STRUCT_HAS_EH_DBASE
    int (*find)(void *, struct dl_find_object *);
    struct dl_find_object found;
    void *inside = dlsym(RTLD_DEFAULT, "gnu_get_libc_version");
    *(void **)&find = dlsym(RTLD_DEFAULT, "_dl_find_object");
    if (!find || find(inside, &found) != 0) return false;
    begin = (uintptr_t)found.dlfo_map_start;
    end = (uintptr_t)found.dlfo_map_end;
    return true;
#else
    return false;
#endif
}

void stacks_start(void) {
    void *found[MOST_FRAMES];
    const char *why = NULL;
    if (!find_library())
        why = "the C library is older than glibc 2.35";
    else if (backtrace(found, MOST_FRAMES) == 0)
        why = "there is no libgcc_s.so.1";
    stacks_are_on = !why;
    if (why)
        dprintf(STDERR_FILENO, "pim-record: process %d has no stacks recorded: %s\n",
                (int)getpid(), why);
}

/* Returns whether a place is in what calls main or the start routine of a thread, if it is one of
 * the last: in the C library, or in the program's _start. */
static bool is_of_start(uintptr_t place) {
    return (begin <= place && place < end) || place - getauxval(AT_ENTRY) < ENTRY_BYTES;
}

void stacks_put(uint64_t place, uint64_t time) {
    void *found[MOST_FRAMES];
    int error = errno, at = 0, count = backtrace(found, MOST_FRAMES);
    while (at < count && (uintptr_t)found[at] != place) at++;
    while (at < count && wrappers_have((uintptr_t)found[at])) at++;
    bool is_whole = count < MOST_FRAMES;
    while (is_whole && count > at && is_of_start((uintptr_t)found[count - 1])) count--;
    for (uint32_t index = 1; index <= MOST_CALLERS && ++at < count;) {
        if (wrappers_have((uintptr_t)found[at])) continue;
        uint64_t object = places_numbered(0, (uintptr_t)found[at]);
        log_write((struct record){
            .event = EVENT_FRAME, .object = object, .value = index++, .time = time });
    }
    errno = error;
}
