/* pim_errno.h - the error numbers that POSIX.1-2017 has for refusals. It needs <errno.h>, which a
 * program without a C library may lack: so it is a file of its own. */
#ifndef PIM_ERRNO_H
#define PIM_ERRNO_H

#include "pim.h"

#include <errno.h>

/* Returns the error of a thread library's call whose step was refused so, and 0 where it was not
 * refused at all. EINVAL is the error of a refusal that a blocked thread can't meet, and of one of a
 * later version. */
static inline int pim_errno(unsigned refusal) {
    switch (refusal) {
    case 0: return 0;
    case PIM_REFUSED_NO_TASK: return ESRCH;
    case PIM_REFUSED_DEADLOCK: return EDEADLK;
    case PIM_REFUSED_BUSY: return EBUSY;
    case PIM_REFUSED_NOT_OWNER: return EPERM;
    case PIM_REFUSED_TICKETS:
    case PIM_REFUSED_AGAIN: return EAGAIN;
    default: return EINVAL;
    }
}

#endif
