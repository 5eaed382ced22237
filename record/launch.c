/* pim-launch LIBRARY PROGRAM [ARGUMENT..]: runs the program with the library preloaded, or says
 * in one line why it can't be recorded, and runs nothing. pim-record calls it. It stays until
 * the program ends. PIM_RECORD is the log's file, of PIM_RECORD_BYTES, or of the last records of
 * PIM_RECORD_LAST bytes, with snapshots by PIM_RECORD_TRIGGER nanoseconds; with
 * PIM_RECORD_CONTENDED only of what is waited for, and with PIM_RECORD_STACKS with the stacks of
 * requests. PIM_RECORD_READER, the path of pim-log, names the places at the end. PIM_RECORD_SHOW,
 * the path of record/show, then says who was held up, with the arguments PIM_RECORD_HOW and
 * PIM_RECORD_NAME. With PIM_KERNEL, the name of a file, it records the kernel's events there:
 * without the library where the program can't have it, or where PIM_RECORD names no log. The
 * library finds the name of the collector's socket in PIM_RECORD.
 *
 * pim-launch --pid PROCESS [NANOSECONDS]: records there the kernel's events of a program that runs
 * already, for so long, or until it ends. */
#define _GNU_SOURCE
#include <dlfcn.h>
#include <elf.h>
#include <errno.h>
#include <fcntl.h>
#include <limits.h>
#include <link.h>
#include <stdbool.h>
#include <stddef.h>
#include <stdio.h>
#include <stdlib.h>
#include <string.h>
#include <sys/stat.h>
#include <sys/xattr.h>
#include <unistd.h>

#include "library/log.h"
#include "parent/parent.h"
#include "parent/running.h"

enum { FAULT = 2, NOT_RUNNABLE = 126, NOT_FOUND = 127, MOST_SCRIPTS = 5, LINE_BYTES = 256 };

static _Noreturn void refuse(int status, const char *program, const char *why) {
    fprintf(stderr, "pim-record: %s: %s; nothing was run\n", program, why);
    exit(status);
}

/* ---- the file of a program ---- */

static bool is_program(const char *path) {
    struct stat found;
    return stat(path, &found) == 0 && S_ISREG(found.st_mode) && access(path, X_OK) == 0;
}

/* Puts the path by which execvp finds the program; an empty folder of PATH is the current one. */
static void look_up(const char *program, char path[PATH_MAX]) {
    struct stat found;
    bool is_there = false;
    const char *folders = getenv("PATH");
    if (strchr(program, '/'))
        folders = NULL;
    else if (!folders)
        folders = "/bin:/usr/bin";
    snprintf(path, PATH_MAX, "%s", program);
    if (!folders && is_program(path)) return;
    if (!folders) is_there = stat(path, &found) == 0;
    for (const char *at = folders, *end; at; at = *end ? end + 1 : NULL) {
        end = strchrnul(at, ':');
        int length = (int)(end - at);
        int bytes = snprintf(path, PATH_MAX, "%.*s%s%s", length, at, length ? "/" : "", program);
        if (*program == '\0' || bytes >= PATH_MAX) continue;
        if (is_program(path)) return;
        is_there = is_there || (stat(path, &found) == 0 && S_ISREG(found.st_mode));
    }
    if (is_there) refuse(NOT_RUNNABLE, program, "it can't be run");
    refuse(NOT_FOUND, program, "it isn't there");
}

/* Reads up to `bytes` of the file at an offset. Returns how many. */
static size_t read_at(int file, void *into, size_t bytes, off_t offset) {
    ssize_t length = pread(file, into, bytes, offset);
    return length < 0 ? 0 : (size_t)length;
}

/* Puts the path of the loader that a dynamic program of this machine names. Returns false where
 * there is none. */
static bool read_loader(int file, char loader[PATH_MAX]) {
    ElfW(Ehdr) head;
    ElfW(Phdr) part;
    if (read_at(file, &head, sizeof head, 0) != sizeof head) return false;
    for (unsigned i = 0; i < head.e_phnum; i++) {
        off_t offset = (off_t)(head.e_phoff + i * head.e_phentsize);
        if (read_at(file, &part, sizeof part, offset) != sizeof part) return false;
        if (part.p_type != PT_INTERP || part.p_filesz > PATH_MAX) continue;
        return read_at(file, loader, part.p_filesz, (off_t)part.p_offset) == part.p_filesz &&
               part.p_filesz > 0 && loader[part.p_filesz - 1] == '\0';
    }
    return false;
}

static bool is_same_file(const char *path, const char *other) {
    struct stat a, b;
    bool are_there = stat(path, &a) == 0 && stat(other, &b) == 0;
    return are_there && a.st_dev == b.st_dev && a.st_ino == b.st_ino;
}

/* ---- what can't be recorded ---- */

static const char capable[] = "a program with capabilities";

/* Returns by what a file gains rights, so that the loader preloads nothing into it, or NULL. */
static const char *rights_of(const char *program, int file) {
    struct stat found;
    if (fstat(file, &found) != 0) refuse(FAULT, program, strerror(errno));
    bool is_setuid = found.st_mode & S_ISUID && found.st_uid != getuid();
    bool is_setgid = found.st_mode & S_ISGID && found.st_gid != getgid();
    if (is_setuid || is_setgid) return "setuid or setgid";
    if (getuid() != 0 && fgetxattr(file, "security.capability", NULL, 0) > 0)
        return capable;
    return NULL;
}

/* Returns what a binary is if the recorder's loader doesn't load it, or NULL. */
static const char *kind_of(const char *program, int file) {
    char loader[PATH_MAX], own_loader[PATH_MAX];
    unsigned char own[EI_NIDENT + 4], its[EI_NIDENT + 4]; /* with the type and the machine */
    int self = open("/proc/self/exe", O_RDONLY | O_CLOEXEC);
    bool is_read = self >= 0 && read_at(self, own, sizeof own, 0) == sizeof own &&
                   read_loader(self, own_loader) && read_at(file, its, sizeof its, 0) == sizeof its;
    if (!is_read) refuse(FAULT, program, "it can't be read");
    const void *own_machine = own + offsetof(ElfW(Ehdr), e_machine);
    bool is_alike = own[EI_CLASS] == its[EI_CLASS] &&
                    memcmp(own_machine, its + offsetof(ElfW(Ehdr), e_machine), 2) == 0;
    if (!is_alike)
        refuse(FAULT, program, "it is of another machine than the recorder, and can't be recorded");
    close(self);
    if (!read_loader(file, loader)) return "static";
    return is_same_file(loader, own_loader) ? NULL : "of another C library than the recorder";
}

/* Puts the interpreter of a script's first line. */
static void read_interpreter(const char *line, char path[PATH_MAX]) {
    line += 2 + strspn(line + 2, " \t");
    snprintf(path, PATH_MAX, "%.*s", (int)strcspn(line, " \t\n"), line);
}

/* Returns what the program, or the interpreter of a script, is if the library can't record it, or
 * NULL. Puts the path of that binary. What is neither a binary nor a script is the shell's. */
static const char *unlogged(const char *program, char path[PATH_MAX]) {
    char line[LINE_BYTES];
    for (int scripts = 0; scripts <= MOST_SCRIPTS; scripts++) { /* the kernel takes no more */
        int file = open(path, O_RDONLY | O_CLOEXEC);
        if (file < 0)
            refuse(FAULT, program, "it can't be read, so nothing says whether it can be recorded");
        size_t length = read_at(file, line, sizeof line - 1, 0);
        line[length] = '\0';
        bool is_binary = length >= SELFMAG && memcmp(line, ELFMAG, SELFMAG) == 0;
        const char *what = is_binary ? rights_of(program, file) : NULL;
        if (is_binary && !what) what = kind_of(program, file);
        close(file);
        if (is_binary) return what;
        if (memcmp(line, "#!", 2) == 0)
            read_interpreter(line, path);
        else
            snprintf(path, PATH_MAX, "/bin/sh");
    }
    refuse(NOT_RUNNABLE, program, "too many interpreters, one of the other");
}

static _Noreturn void refuse_unlogged(const char *path, const char *what) {
    const char *how = what != capable ? "" :
        " a copy that cp makes has none, and is recorded if it gets them by setpriv --ambient-caps;";
    fprintf(stderr,
            "pim-record: %s is %s: its calls can't be recorded;%s with --kernel, as root, the"
            " kernel's events are; nothing was run\n", path, what, how);
    exit(FAULT);
}

/* ---- main ---- */

/* Loads the library once here, where it does nothing: the same loader loads it in the program. */
static void refuse_library(const char *library) {
    if (strpbrk(library, " :"))
        refuse(FAULT, library, "the loader takes no path with a space or a colon");
    if (dlopen(library, RTLD_NOW)) return;
    fprintf(stderr, "pim-record: the library can't be loaded: %s; nothing was run\n", dlerror());
    exit(FAULT);
}

/* Sets a variable to two texts, with the sign between them if both say something. */
static void set_joined(const char *name, const char *first, char sign, const char *second) {
    char *value = NULL;
    bool are_both = *first && *second;
    int length = asprintf(&value, "%s%.*s%s", first, are_both, &sign, second);
    if (length < 0 || setenv(name, value, 1) != 0) refuse(FAULT, name, strerror(ENOMEM));
    free(value);
}

/* AddressSanitizer ends a program in which another library comes before its own, unless it is told
 * not to. The recorder's library comes first, and calls the sanitizer's functions as it would those
 * of the C library. */
static void preload(const char *library, const char *collector) {
    const char *others = getenv("LD_PRELOAD"), *options = getenv("ASAN_OPTIONS");
    set_joined("LD_PRELOAD", library, ' ', others ? others : "");
    set_joined("ASAN_OPTIONS", options ? options : "", ':', "verify_asan_link_order=0");
    set_joined("PIM_RECORD", collector, ' ', "");
}

/* Returns a copy of a variable that the program isn't to see, or NULL where it isn't set. */
static char *take_variable(const char *name) {
    const char *value = getenv(name);
    char *copy = value ? strdup(value) : NULL;
    unsetenv(name);
    return copy;
}

/* Returns the number of a variable, which the program isn't to see, or 0 where it isn't set. */
static uint64_t take_number(const char *name) {
    char *rest = NULL, *text = take_variable(name);
    uint64_t number = text ? strtoull(text, &rest, 10) : 0;
    if (text && (!*text || *rest)) refuse(FAULT, name, "not a number");
    free(text);
    return number;
}

/* Returns how much is to be recorded, by the variables. */
static struct amount take_amount(void) {
    struct amount amount = { .room = { .bytes = take_number("PIM_RECORD_BYTES") } };
    uint64_t last = take_number("PIM_RECORD_LAST");
    uint64_t trigger = take_number("PIM_RECORD_TRIGGER");
    if (last) amount.room.bytes = last;
    amount.room.is_last = last != 0;
    amount.room.trigger = trigger ? trigger : UINT64_MAX;
    amount.room.is_contended = take_number("PIM_RECORD_CONTENDED") != 0;
    amount.room.has_stacks = take_number("PIM_RECORD_STACKS") != 0;
    amount.snapshots = (uint32_t)take_number("PIM_RECORD_SNAPSHOTS");
    return amount;
}

/* Returns what says at the end who was held up, by the variables. */
static struct showing take_showing(void) {
    struct showing showing = {
        .path = take_variable("PIM_RECORD_SHOW"),
        .how = take_variable("PIM_RECORD_HOW"),
        .name = take_variable("PIM_RECORD_NAME"),
    };
    if (!showing.how || !showing.name) showing.path = NULL;
    return showing;
}

/* Records a program that runs already, by the arguments and the variables. */
static _Noreturn void run_beside(char **arguments) {
    const char *time = arguments[3];
    struct running wanted = {
        .process = (pid_t)strtol(arguments[2], NULL, 10),
        .is_limited = time != NULL,
        .kernel = take_variable("PIM_KERNEL"),
        .kilobytes = take_variable("PIM_KERNEL_KB"),
        .showing = take_showing(),
    };
    if (time) wanted.nanoseconds = strtoull(time, NULL, 10);
    if (!wanted.kernel || !wanted.kilobytes) refuse(FAULT, "PIM_KERNEL", "it isn't set");
    record_running(&wanted);
}

int main(int count, char **arguments) {
    static struct wanted wanted;
    char path[PATH_MAX];
    const char *what = NULL;
    bool is_beside = count > 2 && strcmp(arguments[1], "--pid") == 0;
    if (is_beside && count <= 4) run_beside(arguments);
    wanted.log = take_variable("PIM_RECORD");
    wanted.amount = take_amount();
    wanted.kernel = take_variable("PIM_KERNEL");
    wanted.kilobytes = take_variable("PIM_KERNEL_KB");
    wanted.reader = take_variable("PIM_RECORD_READER");
    wanted.showing = take_showing();
    if (!wanted.kilobytes) wanted.kernel = NULL;
    if (count < 3 || !(wanted.log || wanted.kernel)) {
        fprintf(stderr, "pim-launch: pim-record calls it\n");
        return FAULT;
    }
    look_up(arguments[2], path);
    if (wanted.log) what = unlogged(arguments[2], path);
    if (what && !wanted.kernel) refuse_unlogged(path, what);
    if (what) wanted.log = NULL;
    wanted.program = path;
    uint64_t least = CHUNK_BYTES + (wanted.amount.room.is_last ? 0 : HEADER_BYTES);
    if (wanted.log && wanted.amount.room.bytes < least)
        refuse(FAULT, "PIM_RECORD_BYTES", "not a size");
    if (wanted.log) refuse_library(arguments[1]);
    const char *collector = run_recorded(&wanted);
    if (collector) preload(arguments[1], collector);
    if (what)
        fprintf(stderr, "pim-record: %s is %s: only the kernel's events are recorded\n", path,
                what);
    execvp(arguments[2], arguments + 2);
    int error = errno;
    withdraw_recording();
    refuse(error == ENOENT ? NOT_FOUND : NOT_RUNNABLE, arguments[2], strerror(error));
}
