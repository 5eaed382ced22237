#define _GNU_SOURCE
#include "instance.h"

#include <dirent.h>
#include <errno.h>
#include <fcntl.h>
#include <linux/magic.h>
#include <linux/mount.h>
#include <stdio.h>
#include <string.h>
#include <sys/stat.h>
#include <sys/statfs.h>
#include <sys/syscall.h>
#include <unistd.h>

enum { FOLDER = O_RDONLY | O_DIRECTORY | O_CLOEXEC, STAT_BYTES = 1024 };

static const char PREFIX[] = "pim-record-";

static void close_with_errno(int file) {
    int error = errno;
    close(file);
    errno = error;
}

/* Returns a descriptor of a mount that no folder shows: it is gone when the descriptor is closed,
 * however the process ends. Returns -1 with errno set. */
static int mount_aside(void) {
    int folder = -1;
    int system = (int)syscall(SYS_fsopen, "tracefs", FSOPEN_CLOEXEC);
    if (system < 0) return -1;
    if (syscall(SYS_fsconfig, system, FSCONFIG_CMD_CREATE, NULL, NULL, 0) == 0)
        folder = (int)syscall(SYS_fsmount, system, FSMOUNT_CLOEXEC, 0);
    close_with_errno(system);
    return folder;
}

static int open_tracefs(void) {
    struct statfs found;
    int folder = open("/sys/kernel/tracing", FOLDER);
    if (folder < 0) return errno == ENOENT ? mount_aside() : -1;
    if (fstatfs(folder, &found) == 0 && found.f_type == TRACEFS_MAGIC) return folder;
    close(folder);
    return mount_aside();
}

/* Returns when a process was started, in ticks since the machine was. Returns 0 where it is gone,
 * or waits for its parent to see its status. */
static unsigned long long start_of(long process) {
    char path[64], text[STAT_BYTES], state;
    unsigned long long started;
    snprintf(path, sizeof path, "/proc/%ld/stat", process);
    FILE *file = fopen(path, "re");
    size_t length = file ? fread(text, 1, sizeof text - 1, file) : 0;
    if (file) fclose(file);
    text[length] = '\0';
    const char *behind_name = strrchr(text, ')');
    if (!behind_name) return 0;
    int fields = sscanf(behind_name + 1,
                        " %c %*s %*s %*s %*s %*s %*s %*s %*s %*s %*s %*s %*s %*s %*s %*s %*s %*s"
                        " %*s %llu", &state, &started);
    return fields == 2 && state != 'Z' && state != 'X' ? started : 0;
}

static void put_name(char name[64], long process, unsigned long long started) {
    snprintf(name, 64, "%s%ld-%llu", PREFIX, process, started);
}

/* Returns whether this is the name of an instance whose process is gone. A process that has its
 * number by now was started at another time. */
static bool is_left(const char *name) {
    long process;
    unsigned long long started;
    char own[64];
    if (strncmp(name, PREFIX, strlen(PREFIX)) != 0) return false;
    if (sscanf(name + strlen(PREFIX), "%ld-%llu", &process, &started) != 2) return false;
    put_name(own, process, started);
    return process > 0 && strcmp(own, name) == 0 && start_of(process) != started;
}

static void remove_left(int instances) {
    int copy = openat(instances, ".", FOLDER);
    DIR *all = copy < 0 ? NULL : fdopendir(copy);
    if (!all) return;
    for (struct dirent *entry; (entry = readdir(all));)
        if (is_left(entry->d_name)) unlinkat(instances, entry->d_name, AT_REMOVEDIR);
    closedir(all);
}

bool make_instance(struct instance *made) {
    unsigned long long started = start_of(getpid());
    made->instances = made->folder = -1;
    made->tracefs = open_tracefs();
    if (made->tracefs < 0) return false;
    made->instances = openat(made->tracefs, "instances", FOLDER);
    if (made->instances < 0) return false;
    if (started) remove_left(made->instances); /* else nothing says who is gone */
    put_name(made->name, getpid(), started);
    if (mkdirat(made->instances, made->name, 0700) != 0) return false;
    made->folder = openat(made->instances, made->name, FOLDER);
    if (made->folder < 0) unlinkat(made->instances, made->name, AT_REMOVEDIR);
    return made->folder >= 0;
}

bool remove_instance(const struct instance *made) {
    return unlinkat(made->instances, made->name, AT_REMOVEDIR) == 0 || errno != EBUSY;
}

bool put_setting(const struct instance *of, const char *file, const char *text) {
    int setting = openat(of->folder, file, O_WRONLY | O_CLOEXEC);
    if (setting < 0) return false;
    bool is_put = write(setting, text, strlen(text)) == (ssize_t)strlen(text);
    close_with_errno(setting);
    return is_put;
}

bool read_setting(const struct instance *of, const char *file, char *text, size_t room) {
    size_t length = 0;
    ssize_t more = 0;
    int setting = openat(of->folder, file, O_RDONLY | O_CLOEXEC);
    if (setting < 0) return false;
    do {
        length += (size_t)more;
        more = read(setting, text + length, room - 1 - length);
    } while (more > 0);
    close_with_errno(setting);
    text[length] = '\0';
    return more == 0;
}
