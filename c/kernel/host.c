#include "board.h"

enum { SYS_OPEN = 1, SYS_READ = 6, SYS_FLEN = 12, SYS_GET_CMDLINE = 21, SYS_EXIT = 24 };
enum { READ_BINARY = 1, STOPPED = 0x20026 };

static const char *second_argument(const char *line) {
    while (*line && *line != ' ') line++;
    return *line ? line + 1 : line;
}

static uint64_t length_of(const char *text) {
    uint64_t length = 0;
    while (text[length]) length++;
    return length;
}

long host_read(char *to, size_t room) {
    static char line[512];
    uint64_t command[] = { (uint64_t)line, sizeof line };
    if (semihosting(SYS_GET_CMDLINE, command) != 0) return -1;
    const char *name = second_argument(line);
    uint64_t open[] = { (uint64_t)name, READ_BINARY, length_of(name) };
    uint64_t file = semihosting(SYS_OPEN, open);
    if ((int64_t)file < 0) return -1;
    int64_t length = (int64_t)semihosting(SYS_FLEN, &file);
    if (length < 0 || (uint64_t)length > room) return -1;
    uint64_t read[] = { file, (uint64_t)to, (uint64_t)length };
    return semihosting(SYS_READ, read) == 0 ? length : -1;
}

_Noreturn void host_exit(int status) {
    uint64_t arguments[] = { STOPPED, (uint64_t)status };
    semihosting(SYS_EXIT, arguments);
    for (;;) wait_for_interrupt();
}

_Noreturn void panic(const char *why) {
    print("\npanic: %s\n", why);
    host_exit(3);
}
