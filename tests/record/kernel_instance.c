/* Puts and reads settings in an ordinary folder, as if it were an instance, and removes folders. It
 * prints what comes of each. */
#define _GNU_SOURCE
#include <errno.h>
#include <fcntl.h>
#include <stdio.h>
#include <string.h>
#include <sys/stat.h>
#include <sys/wait.h>
#include <unistd.h>

#include "../../record/kernel/instance.h"

static struct instance instance;

static void show(const char *name, bool is_done) {
    printf("%s: %s\n", name, is_done ? "done" : strerror(errno));
}

static void put(const char *name, const char *file, const char *text) {
    errno = 0;
    show(name, put_setting(&instance, file, text));
}

/* Reads into room for eight bytes, which the sanitizer sees the end of. */
static void get(const char *name, const char *file) {
    char text[8] = "xxxxxxx";
    errno = 0;
    bool is_read = read_setting(&instance, file, text, sizeof text);
    printf("%s: %s '%.8s'\n", name, is_read ? "done" : strerror(errno), text);
}

/* A setting that comes in two parts. */
static void get_parts(void) {
    mkfifo("parts", 0600);
    if (fork() == 0) {
        int parts = open("parts", O_WRONLY);
        (void)!write(parts, "abc", 3);
        usleep(50000);
        (void)!write(parts, "de", 2);
        _exit(0);
    }
    get("in two parts", "parts");
    wait(NULL);
}

static void remove_all(void) {
    struct instance made = { .instances = instance.folder };
    mkdir("pim-record-1-1", 0700);
    strcpy(made.name, "pim-record-1-1");
    bool is_removed = remove_instance(&made);
    printf("a folder: %d, there: %d\n", is_removed, access(made.name, F_OK) == 0);
    printf("one that is gone: %d\n", remove_instance(&made));
}

int main(int count, char **arguments) {
    if (count < 2 || chdir(arguments[1]) != 0) return 2;
    instance.folder = open(".", O_RDONLY | O_DIRECTORY);
    fclose(fopen("file", "w"));
    (void)!symlink("/dev/full", "full");
    put("a file", "file", "12345");
    get("what it has", "file");
    put("no file", "nowhere", "1");
    put("no room", "full", "1");
    get("nothing", "nowhere");
    put("a longer one", "file", "123456789");
    get("its beginning", "file");
    get_parts();
    remove_all();
    return 0;
}
