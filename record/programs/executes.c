/* executes [HOW [PROGRAM]]: runs PROGRAM, or itself, by the exec call HOW, with arguments and an
 * environment that it looks for then. Without arguments it tries all of them, each in a child, and
 * each once with a file that isn't there. */
#define _GNU_SOURCE
#include "common.h"

#include <fcntl.h>

static pthread_mutex_t mutex = PTHREAD_MUTEX_INITIALIZER;
static const char *const HOWS[] = { "execve", "execv", "execvp", "execvpe", "execl",
                                    "execlp", "execle", "fexecve", "execveat" };
extern char **environ;

/* Returns the environment with one variable more, which those calls pass on that are given one. */
static char **longer_environment(void) {
    size_t count = 0;
    while (environ[count]) count++;
    char **longer = calloc(count + 2, sizeof *longer);
    if (!longer) exit(1);
    memcpy(longer, environ, count * sizeof *longer);
    longer[count] = (char *)"SEEN=yes";
    return longer;
}

static bool takes_environment(const char *how) {
    return how[strlen(how) - 1] == 'e' || !strcmp(how, "execveat");
}

static int run(const char *how, const char *path) {
    char *arguments[] = { (char *)"executes", (char *)"--seen", (char *)how, NULL };
    char **environment = longer_environment();
    if (!strcmp(how, "execve")) return execve(path, arguments, environment);
    if (!strcmp(how, "execv")) return execv(path, arguments);
    if (!strcmp(how, "execvp")) return execvp(path, arguments);
    if (!strcmp(how, "execvpe")) return execvpe(path, arguments, environment);
    if (!strcmp(how, "execl")) return execl(path, "executes", "--seen", how, (char *)NULL);
    if (!strcmp(how, "execlp")) return execlp(path, "executes", "--seen", how, (char *)NULL);
    if (!strcmp(how, "execle"))
        return execle(path, "executes", "--seen", how, (char *)NULL, environment);
    if (!strcmp(how, "fexecve")) return fexecve(open(path, O_RDONLY), arguments, environment);
    return execveat(AT_FDCWD, path, arguments, environment, 0);
}

static void try(const char *how, const char *path) {
    int status = 0;
    pid_t child = fork();
    if (child == 0) {
        lock(&mutex);
        errno = 0;
        run(how, "/nowhere/at-all");
        bool is_wanted = errno == ENOENT || (!strcmp(how, "fexecve") && errno == EINVAL);
        if (!is_wanted) expect(errno, ENOENT, how);
        unlock(&mutex);
        run(how, path);
        exit(1);
    }
    if (waitpid(child, &status, 0) != child || !WIFEXITED(status) || WEXITSTATUS(status) != 5)
        expect(status, 5 << 8, how);
}

int main(int count, char **arguments) {
    char path[4096] = "";
    if (readlink("/proc/self/exe", path, sizeof path - 1) < 0) return 1;
    if (count == 3 && !strcmp(arguments[1], "--seen")) {
        lock(&mutex);
        unlock(&mutex);
        bool is_wanted = (getenv("SEEN") != NULL) == takes_environment(arguments[2]);
        return is_wanted && strcmp(arguments[0], "executes") == 0 ? 5 : 1;
    }
    if (count > 1) return run(arguments[1], count > 2 ? arguments[2] : path);
    for (size_t i = 0; i < sizeof HOWS / sizeof *HOWS; i++) try(HOWS[i], path);
    return 0;
}
