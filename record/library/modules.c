/* Which files are loaded where, so that a place in the program can be named. */
#define _GNU_SOURCE
#include "recorder.h"

#include <link.h>
#include <unistd.h>

enum { LONGEST_MODULE = 1 << 24 /* pages, which 24 bits don't hold */ };

static size_t told;

/* Returns how many pages a file takes from its load address on, or 0 where a MODULE has no room for
 * the number. */
static uint32_t pages_of(const struct dl_phdr_info *info) {
    uint64_t end = 0;
    for (size_t i = 0; i < info->dlpi_phnum; i++) {
        const ElfW(Phdr) *part = &info->dlpi_phdr[i];
        uint64_t its = part->p_vaddr + part->p_memsz;
        if (part->p_type == PT_LOAD && its > end) end = its;
    }
    uint64_t pages = (end + MODULE_PAGE - 1) / MODULE_PAGE;
    return pages < LONGEST_MODULE ? (uint32_t)pages : 0;
}

/* The program itself is the first, and has no name. */
static int tell(struct dl_phdr_info *info, size_t size, void *place) {
    (void)size;
    char path[LONGEST_TEXT + 1];
    size_t *number = place;
    if ((*number)++ < told) return 0;
    const char *name = info->dlpi_name;
    if (*number == 1) {
        ssize_t length = readlink("/proc/self/exe", path, LONGEST_TEXT);
        path[length < 0 ? 0 : length] = '\0';
        name = path;
    }
    uint32_t pages = pages_of(info);
    log_put_text((struct record){ .event = EVENT_MODULE,
                                  .object = info->dlpi_addr,
                                  .detail = (uint16_t)pages,
                                  .how = (uint8_t)(pages >> 16) },
                 name ? name : "", LONGEST_TEXT);
    return 0;
}

/* It takes a lock of the loader's, so it is called before main and at the end alone. */
void modules_tell(void) {
    size_t number = 0;
    dl_iterate_phdr(tell, &number);
    told = number;
}
