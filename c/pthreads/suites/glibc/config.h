/* What glibc's tests need of the build of glibc. */
#ifndef CONFIG_H
#define CONFIG_H

#include <limits.h>

#define TIMEOUTFACTOR 1

/* Where glibc was built: named in a script for gdb, which nobody asks for. */
__attribute__((weak)) const char support_objdir_root[1];

#endif
