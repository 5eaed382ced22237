#define _GNU_SOURCE
#include "threads.h"

#include <dirent.h>
#include <errno.h>
#include <fcntl.h>
#include <stdio.h>
#include <stdlib.h>
#include <unistd.h>

enum { LOOKS = 2 }; /* so many at the end find nothing new */

static const char CHOSEN[] = "set_event_pid";

struct threads {
    int *numbers;
    size_t count, room;
};

static bool add(struct threads *threads, int number) {
    if (threads->count == threads->room) {
        size_t room = threads->room ? 2 * threads->room : 64;
        int *numbers = realloc(threads->numbers, room * sizeof *numbers);
        if (!numbers) return false;
        threads->numbers = numbers;
        threads->room = room;
    }
    threads->numbers[threads->count++] = number;
    return true;
}

/* Reads the threads that a process has: none if it has ended. Returns false with errno set. */
static bool read_threads(pid_t process, struct threads *found) {
    char path[64];
    bool is_added = true;
    found->count = 0;
    snprintf(path, sizeof path, "/proc/%d/task", (int)process);
    DIR *folder = opendir(path);
    if (!folder) return errno == ENOENT;
    for (struct dirent *entry; is_added && (entry = readdir(folder));)
        if (entry->d_name[0] != '.') is_added = add(found, atoi(entry->d_name));
    closedir(folder);
    return is_added;
}

/* Takes those away that the instance records. Returns false with errno set. */
static bool leave_others(const struct instance *of, struct threads *threads) {
    int number, setting = openat(of->folder, CHOSEN, O_RDONLY | O_CLOEXEC);
    FILE *file = setting < 0 ? NULL : fdopen(setting, "r");
    bool *is_chosen = file ? calloc(TASKS, sizeof *is_chosen) : NULL;
    size_t count = 0;
    while (is_chosen && fscanf(file, "%d", &number) == 1)
        if (number > 0 && number < TASKS) is_chosen[number] = true;
    for (size_t i = 0; is_chosen && i < threads->count; i++)
        if (!is_chosen[threads->numbers[i]]) threads->numbers[count++] = threads->numbers[i];
    bool is_read = is_chosen && !ferror(file);
    threads->count = count;
    free(is_chosen);
    if (file) fclose(file);
    return is_read;
}

/* Adds these threads, by one write: the kernel waits in each. */
static bool choose(const struct instance *of, const struct threads *threads) {
    enum { DIGITS = 12 };
    char *text = malloc(DIGITS * threads->count + 1);
    size_t length = 0;
    if (!text) return false;
    for (size_t i = 0; i < threads->count; i++)
        length += (size_t)sprintf(text + length, "%d ", threads->numbers[i]);
    bool is_chosen = length == 0 || put_setting(of, CHOSEN, text);
    free(text);
    return is_chosen;
}

/* A thread that isn't chosen yet may create one that no look has found: so this looks again while
 * there are others. A look may pass over a thread while another one ends: so the last two find
 * none. A thread of a chosen one is chosen by the kernel, before it runs. */
bool choose_threads(const struct instance *of, pid_t process, bool (*is_over)(void)) {
    struct threads others = { .count = 0 };
    bool is_done = add(&others, process) && choose(of, &others);
    for (int looks = 0; is_done && looks < LOOKS; looks++) {
        is_done = read_threads(process, &others) && leave_others(of, &others) &&
                  choose(of, &others);
        if (others.count) looks = -1;
        if (is_over && is_over()) break;
    }
    free(others.numbers);
    return is_done;
}
