/* pim-facts: writes what happened in a recording as text. `help` says how it is used. */
#define _GNU_SOURCE
#include "join.h"
#include "order.h"

#include <dirent.h>
#include <errno.h>
#include <fcntl.h>
#include <getopt.h>
#include <linux/magic.h>
#include <stdio.h>
#include <stdlib.h>
#include <string.h>
#include <sys/mman.h>
#include <sys/stat.h>
#include <sys/vfs.h>
#include <unistd.h>

static const char help[] =
    "usage: pim-facts [-o FILE] LOG\n"
    "\n"
    "Writes what happened to the threads and mutexes of a recorded program as text, a line for\n"
    "each fact: who was granted which mutex, who waited for it, and who released it, when, at\n"
    "which priority, and where in the code. LOG is the file that pim-record -o names. What\n"
    "LOG.places says, if it is there, names the places, and LOG.kernel says which threads ran\n"
    "where, at which priority. LOG may be missing then. The logs LOG.PROCESS of programs that\n"
    "the recorded one started are read, too. docs/FACTS.md specifies the text.\n"
    "\n"
    "  -o, --output FILE   write to FILE, not to standard output\n"
    "  -h, --help          print this\n"
    "\n"
    "    $ pim-record -o run ./controller\n"
    "    $ pim-facts run > run.facts\n"
    "\n"
    "Status: 0; 2 if LOG can't be read, isn't a log or is damaged, or the text can't be written.\n"
    "Then a line on standard error says why. Nothing is written of a log that is refused.\n";

static const char *copied(const char *path, int file, size_t length) {
    char *bytes = resized(NULL, length);
    for (size_t at = 0; at < length;) {
        ssize_t count = pread(file, bytes + at, length - at, (off_t)at);
        if (count <= 0) refuse(path, "%s", count < 0 ? strerror(errno) : "it was cut meanwhile");
        at += (size_t)count;
    }
    return bytes;
}

/* Returns whether a file is in memory. If that is full, a hole of it can be read, and not mapped. */
static bool is_in_memory(int file) {
    struct statfs system;
    return fstatfs(file, &system) == 0 && system.f_type == TMPFS_MAGIC;
}

static struct read_file {
    dev_t device;
    ino_t number;
} *read_files;
static size_t read_count;

/* Maps a file, which may be missing: then this returns NULL. It waits for no pipe. */
static const char *mapped(const char *path, bool may_lack, size_t *length) {
    struct stat status;
    *length = 0;
    int file = open(path, O_RDONLY | O_NONBLOCK | O_CLOEXEC);
    if (file < 0 && may_lack && errno == ENOENT) return NULL;
    if (file < 0 || fstat(file, &status) != 0) refuse(path, "%s", strerror(errno));
    if (!S_ISREG(status.st_mode)) refuse(path, "it isn't a file");
    read_files = with_room(read_files, read_count, sizeof *read_files);
    read_files[read_count++] = (struct read_file){ status.st_dev, status.st_ino };
    *length = (size_t)status.st_size;
    const void *bytes = "";
    if (*length && is_in_memory(file)) {
        bytes = copied(path, file, *length);
    } else if (*length) {
        bytes = mmap(NULL, *length, PROT_READ, MAP_PRIVATE, file, 0);
        if (bytes == MAP_FAILED) refuse(path, "%s", strerror(errno));
    }
    close(file);
    return bytes;
}

static const char *beside(const char *path, const char *ending) {
    char *name = resized(NULL, strlen(path) + strlen(ending) + 1);
    return strcat(strcpy(name, path), ending);
}

/* Refuses to write a file that was read. */
static void spare(const char *output) {
    struct stat status;
    if (stat(output, &status) != 0) return;
    for (size_t i = 0; i < read_count; i++)
        if (status.st_dev == read_files[i].device && status.st_ino == read_files[i].number)
            refuse(output, "it is read, and so isn't written");
}

/* Opens the file for the text. */
static int opened(const char *output) {
    struct stat status;
    spare(output);
    int file = open(output, O_WRONLY | O_CREAT | O_CLOEXEC, 0666);
    if (file < 0 || fstat(file, &status) != 0) refuse(output, "%s", strerror(errno));
    if (S_ISREG(status.st_mode) && ftruncate(file, 0) != 0)
        refuse(output, "%s", strerror(errno));
    return file;
}

/* ---- the logs of the programs that it started ---- */

/* Returns whether a file's name is that of such a log: NAME.PROCESS, or NAME.PROCESS.COUNT. */
static bool is_other(const char *file, const char *name) {
    size_t length = strlen(name);
    if (strncmp(file, name, length) != 0 || file[length] != '.') return false;
    const char *at = file + length + 1;
    size_t digits = strspn(at, "0123456789");
    if (digits && at[digits] == '.') {
        at += digits + 1;
        digits = strspn(at, "0123456789");
    }
    return digits && at[digits] == '\0';
}

/* Returns whether a file is a log of the first one's version, which has places. One that was killed
 * as it began is none. */
static bool is_log(const struct part *part, const struct part *first) {
    const struct header *header = (const struct header *)first->bytes;
    if (part->length < HEADER_BYTES || first->length < HEADER_BYTES) return false;
    bool is_alike = memcmp(part->bytes, header, offsetof(struct header, header_bytes)) == 0;
    return is_alike && header->version > 1;
}

static int by_begin(const void *one, const void *other) {
    const struct part *a = one, *b = other;
    uint64_t begin = ((const struct header *)a->bytes)->began_monotonic;
    uint64_t its = ((const struct header *)b->bytes)->began_monotonic;
    return begin != its ? (begin < its ? -1 : 1) : strverscmp(a->path, b->path);
}

/* Returns the log, and behind it those of the programs that it started, by when they began. */
static struct part *parts_of(const char *path, const char *bytes, size_t length, uint32_t *count) {
    const char *slash = strrchr(path, '/'), *name = slash ? slash + 1 : path;
    char *folder = strcpy(resized(NULL, strlen(path) + 2), slash ? path : ".");
    if (slash) folder[name - path] = '\0';
    struct part *parts = with_room(NULL, 0, sizeof *parts);
    parts[0] = (struct part){ path, bytes, length };
    *count = 1;
    DIR *files = opendir(folder);
    for (struct dirent *file; files && (file = readdir(files));) {
        if (!is_other(file->d_name, name)) continue;
        char *other = resized(NULL, strlen(path) + sizeof file->d_name);
        sprintf(other, "%.*s%s", (int)(name - path), path, file->d_name);
        parts = with_room(parts, *count, sizeof *parts);
        struct part *part = &parts[*count];
        part->path = other;
        part->bytes = mapped(other, true, &part->length);
        bool is_part = is_log(part, &parts[0]);
        *count += is_part;
        read_count -= part->bytes && !is_part;
    }
    if (files) closedir(files);
    qsort(parts + 1, *count - 1, sizeof *parts, by_begin);
    return parts;
}

/* Reads the log, which may be missing, with those of the programs that it started. */
static void read_logs(struct log *log, struct names *names, const char *path, bool may_lack) {
    struct part part = { .path = path };
    uint32_t count = 0;
    part.bytes = mapped(path, may_lack, &part.length);
    struct part *parts = part.bytes ? parts_of(path, part.bytes, part.length, &count) : &part;
    if (count > 1)
        log_join(log, parts, count);
    else if (part.bytes || !may_lack)
        log_read(log, path, part.bytes, part.length, NULL);
    names_begin(names, log);
    for (uint32_t i = 0; i == 0 || i < count; i++) {
        size_t length;
        const char *places = mapped(beside(parts[i].path, ".places"), true, &length);
        names_read(names, i, places, length);
    }
}

static void convert(const char *path, const char *output) {
    static struct log log;
    static struct names names;
    static struct text text = { .file = STDOUT_FILENO };
    static struct told told = { .log = &log };
    static struct kernel kernel;
    size_t kernel_length;
    const char *kernel_path = beside(path, ".kernel");
    const char *events = mapped(kernel_path, true, &kernel_length);
    read_logs(&log, &names, path, events != NULL);
    find_requests(&told);
    find_waits(&told);
    list_facts(&told);
    mark_order(&told);
    if (events) kernel_read(&kernel, &told, kernel_path, events, kernel_length);
    text.path = output;
    if (output) text.file = opened(output);
    write_facts(&told, &kernel, &names, &text);
    if (output && close(text.file) != 0) refuse(output, "%s", strerror(errno));
}

int main(int count, char **arguments) {
    static const struct option options[] = { { "help", no_argument, NULL, 'h' },
                                             { "output", required_argument, NULL, 'o' },
                                             { NULL, 0, NULL, 0 } };
    const char *output = NULL;
    for (int option; (option = getopt_long(count, arguments, "ho:", options, NULL)) != -1;) {
        if (option == 'h') return fputs(help, stdout) < 0 || fflush(stdout) != 0 ? 2 : 0;
        if (option != 'o') return 2;
        output = optarg;
    }
    if (optind != count - 1) {
        fputs("usage: pim-facts [-o FILE] LOG\n", stderr);
        return 2;
    }
    convert(arguments[optind], output);
    return 0;
}
