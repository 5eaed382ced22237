#define _GNU_SOURCE
#include "collector.h"

#include "../parent/ordinary.h"
#include <errno.h>
#include <poll.h>
#include <signal.h>
#include <stdio.h>
#include <stdlib.h>
#include <string.h>
#include <sys/prctl.h>
#include <sys/resource.h>
#include <sys/socket.h>
#include <sys/wait.h>
#include <time.h>
#include <unistd.h>

enum { MOST_VISITORS = 256, OTHERS = 3 /* that are polled */,
       SHORTEST_MS = 2, LONGEST_MS = 64, BEGUN_MS = 256 };

/* What pim-record asks. */
enum { ASK_END = 'e', ASK_SNAPSHOT = 's' };

/* A program that has connected, and hasn't mapped its memory yet. */
struct visitor {
    int channel;
    struct store *store; /* NULL before its request */
};

static struct state {
    const char *log;
    struct amount amount;
    struct sockets sockets;
    pid_t parent;
    int channel;
    struct store *first;  /* of the first program, before it has come */
    struct store *stores; /* of programs that have the memory */
    struct visitor visitors[MOST_VISITORS];
    size_t count;         /* of visitors */
    struct report report;
    bool is_said;         /* that records are lost */
    bool is_ended;        /* the program has ended, or who started the collector is gone */
} state;

static struct store first;

static void release(struct store *ended) {
    if (ended != &first) free(ended);
}

static int64_t milliseconds(void) {
    return (int64_t)(clock_time() / 1000000);
}

/* ---- programs that come ---- */

static void send_answer(int channel, const struct answer *answer, int memory) {
    _Alignas(struct cmsghdr) char space[CMSG_SPACE(sizeof memory)] = { 0 };
    struct iovec part = { (void *)answer, sizeof *answer };
    struct msghdr message = { .msg_iov = &part, .msg_iovlen = 1 };
    if (memory >= 0) {
        message.msg_control = space;
        message.msg_controllen = sizeof space;
        struct cmsghdr *right = CMSG_FIRSTHDR(&message);
        *right = (struct cmsghdr){
            .cmsg_level = SOL_SOCKET,
            .cmsg_type = SCM_RIGHTS,
            .cmsg_len = CMSG_LEN(sizeof memory) };
        memcpy(CMSG_DATA(right), &memory, sizeof memory);
    }
    sendmsg(channel, &message, MSG_NOSIGNAL | MSG_DONTWAIT);
}

/* Returns the log of a program that isn't the first, or NULL where none can be made. */
static struct store *make_later_store(uint32_t process) {
    struct store *made = malloc(sizeof *made);
    const char *why = strerror(ENOMEM);
    if (made) why = store_make_file(made, state.log, process, &state.amount.room);
    if (!why && store_make_memory(made)) return made;
    state.report.failed++;
    snprintf(state.report.why, sizeof state.report.why, "%s", why ? why : strerror(errno));
    if (!why) store_remove(made);
    free(made);
    return NULL;
}

/* Returns a log for a program, or NULL where it is another user's, or there is none. */
static struct store *make_store(int channel, uint32_t process) {
    struct ucred its = { .uid = (uid_t)-1 };
    socklen_t length = sizeof its;
    getsockopt(channel, SOL_SOCKET, SO_PEERCRED, &its, &length);
    if (its.uid != geteuid()) {
        state.report.others++;
        return NULL;
    }
    struct store *made = state.first ? state.first : make_later_store(process);
    state.first = NULL;
    if (made) made->sees_threads = (uint32_t)its.pid == process;
    return made;
}

/* Answers a request. Returns whether the visitor is to stay until it has mapped the memory. */
static bool answer_request(struct visitor *of) {
    struct request request;
    if (recv(of->channel, &request, sizeof request, MSG_DONTWAIT) != sizeof request) return false;
    bool is_first = state.first != NULL;
    struct answer answer = { .version = SHARED_VERSION,
                             .is_first = is_first,
                             .is_contended = state.amount.room.is_contended,
                             .has_stacks = state.amount.room.has_stacks,
                             .is_shared = !state.amount.room.is_last };
    if (request.version == SHARED_VERSION) of->store = make_store(of->channel, request.process);
    if (of->store) answer.slots = of->store->slots;
    send_answer(of->channel, &answer, of->store ? of->store->memory : -1);
    return of->store != NULL;
}

/* Returns whether the visitor stays. One that goes without its memory mapped leaves no log. */
static bool hear(struct visitor *of) {
    char mapped;
    if (!of->store) return answer_request(of);
    if (recv(of->channel, &mapped, 1, MSG_DONTWAIT) == 1) {
        of->store->next = state.stores;
        state.stores = of->store;
        state.report.logs++;
    } else {
        store_remove(of->store);
        release(of->store);
    }
    return false;
}

static void hear_visitors(const struct pollfd *polled, size_t count) {
    size_t kept = 0;
    for (size_t i = 0; i < count; i++) {
        struct visitor visitor = state.visitors[i];
        if (!polled[i].revents || hear(&visitor))
            state.visitors[kept++] = visitor;
        else
            close(visitor.channel);
    }
    state.count = kept;
}

static void let_in(int listener) {
    int channel;
    const int flags = SOCK_CLOEXEC | SOCK_NONBLOCK;
    while (state.count < MOST_VISITORS && (channel = accept4(listener, NULL, NULL, flags)) >= 0)
        state.visitors[state.count++] = (struct visitor){ .channel = channel };
}

/* ---- collecting ---- */

/* Counts what a log lost. */
static void count_lost(const struct store *of) {
    state.report.lost += store_lost(of);
    if (state.report.loss == NO_LOSS) state.report.loss = store_loss(of);
}

/* Says to the parent that records are lost, once. */
static void look_for_loss(void) {
    for (struct store *it = state.stores; it && state.report.loss == NO_LOSS; it = it->next)
        state.report.loss = store_loss(it);
    if (state.is_said || state.is_ended || state.report.loss == NO_LOSS) return;
    state.is_said = true;
    send(state.channel, &state.report.loss, sizeof state.report.loss, MSG_NOSIGNAL);
    if (getppid() == state.parent) kill(state.parent, SIGURG);
}

/* Collects from all logs, and ends those that nobody has any more. Returns whether a chunk was
 * done. */
static bool collect(bool is_with_begun) {
    bool is_any_done = false;
    struct store **place = &state.stores;
    while (*place) {
        struct store *store = *place;
        if (store_collect(store, is_with_begun)) is_any_done = true;
        if (!store_is_over(store)) {
            place = &store->next;
            continue;
        }
        store_end(store);
        count_lost(store);
        *place = store->next;
        store_leave(store);
        release(store);
    }
    return is_any_done;
}

/* ---- snapshots ---- */

/* Waits for processes that write snapshots: for all of them, or for those that have ended. */
static void wait_for_writers(int how) {
    int status;
    while (waitpid(-1, &status, how) > 0)
        if (status != 0) state.report.unwritten++;
}

/* Another process writes what all logs have now, if there are any. Meanwhile the collector goes
 * on. */
static void take_snapshot(void) {
    bool is_prepared = true;
    if (!state.stores) return;
    for (struct store *it = state.stores; it; it = it->next)
        if (!store_prepare_snapshot(it)) is_prepared = false;
    unsigned number = ++state.report.snapshots;
    pid_t writer = is_prepared ? fork() : -1;
    if (writer == 0) {
        for (struct store *it = state.stores; it; it = it->next)
            if (!store_write_snapshot(it, number)) is_prepared = false;
        _exit(!is_prepared);
    }
    if (writer < 0) state.report.unwritten++;
    for (struct store *it = state.stores; it; it = it->next) store_leave_snapshot(it);
}

/* Returns whether a thread has waited for longer than it may, and says so of the first one. */
static bool has_waited(struct ring *ring) {
    struct long_wait wait = ring->wait;
    if (wait.nanoseconds == 0) return false;
    ring->wait.nanoseconds = 0;
    if (!state.report.wait[0])
        snprintf(state.report.wait, sizeof state.report.wait, "task %u, at %u, waited %.3f ms",
                 wait.task, wait.priority >> 8, (double)wait.nanoseconds / 1e6);
    return true;
}

static void look_for_waits(void) {
    bool is_any = false;
    wait_for_writers(WNOHANG);
    for (struct store *it = state.stores; it; it = it->next)
        if (it->ring && has_waited(it->ring)) is_any = true;
    if (!is_any || state.amount.snapshots == 0) return;
    state.amount.snapshots--;
    take_snapshot();
}

/* A file that no program had is removed at the end. It stays if pim-record was killed: the next
 * recording of the name may have replaced it. */
static void hear_parent(void) {
    char ask = 0;
    bool is_asked = recv(state.channel, &ask, 1, 0) == 1;
    if (is_asked && ask == ASK_SNAPSHOT) {
        collect(true);
        look_for_waits(); /* a wait that causes one came before */
        take_snapshot();
        return;
    }
    state.is_ended = true;
    if (is_asked && state.first) store_remove(state.first);
    if (is_asked) state.first = NULL;
    collect(true);
    look_for_waits();
    wait_for_writers(0);
    for (struct store *it = state.stores; it; it = it->next) count_lost(it);
    state.report.goes_on = state.stores || state.count > 0;
    if (is_asked) send(state.channel, &state.report, sizeof state.report, MSG_NOSIGNAL);
    close(state.channel);
    state.channel = -1;
}

/* Waits until something comes, or a time has passed. */
static void attend(int timeout) {
    struct pollfd polled[OTHERS + MOST_VISITORS] = {
        { .fd = state.channel, .events = POLLIN },
        { .fd = state.sockets.abstract, .events = POLLIN },
        { .fd = state.sockets.named, .events = POLLIN } };
    size_t count = state.count;
    for (size_t i = 0; i < count; i++)
        polled[OTHERS + i] = (struct pollfd){ .fd = state.visitors[i].channel, .events = POLLIN };
    if (poll(polled, OTHERS + count, timeout) <= 0) return;
    hear_visitors(polled + OTHERS, count);
    for (size_t i = 1; i < OTHERS; i++)
        if (polled[i].revents) let_in(polled[i].fd);
    if (polled[0].revents) hear_parent();
}

/* Looks at the logs often while chunks are filled, and seldom while they aren't. */
static _Noreturn void be_collector(void) {
    int64_t pause = SHORTEST_MS, next = 0, next_of_begun = 0;
    while (!state.is_ended || state.stores || state.count > 0) {
        int64_t left = next - milliseconds();
        bool is_idle = !state.stores;
        attend(is_idle ? -1 : left > 0 ? (int)left : 0);
        int64_t now = milliseconds();
        if (now < next) continue;
        bool is_with_begun = now >= next_of_begun;
        bool is_any_done = collect(is_with_begun);
        look_for_waits();
        look_for_loss();
        pause = is_any_done ? SHORTEST_MS : pause * 2 < LONGEST_MS ? pause * 2 : LONGEST_MS;
        next = milliseconds() + pause;
        if (is_with_begun) next_of_begun = next + BEGUN_MS;
    }
    wait_for_writers(0);
    remove_sockets(&state.sockets);
    _exit(0);
}

/* ---- the start ---- */

/* Closes all descriptors but those that it uses: another process may wait for the end of what the
 * caller has open. */
static void close_others(void) {
    const int used[] = { state.sockets.abstract, state.sockets.named, state.channel,
                         state.first->file, state.first->memory };
    const size_t count = sizeof used / sizeof *used;
    int last = used[0];
    for (size_t i = 1; i < count; i++)
        if (used[i] > last) last = used[i];
    for (int file = 0; file < last; file++) {
        bool is_used = false;
        for (size_t i = 0; i < count; i++) is_used = is_used || used[i] == file;
        if (!is_used) close(file);
    }
    close_range((unsigned)last + 1, UINT_MAX, 0);
}

static void prepare(void) {
    struct rlimit files;
    prctl(PR_SET_NAME, "pim-collector");
    setsid(); /* to be in no group that a terminal or a shell stops or ends */
    be_ordinary();
    close_others();
    if (getrlimit(RLIMIT_NOFILE, &files) != 0) return;
    files.rlim_cur = files.rlim_max; /* each log takes two */
    setrlimit(RLIMIT_NOFILE, &files);
}

/* Forks the collector, with all signals blocked. Returns false with errno set. */
static bool fork_collector(struct collector *started) {
    int ends[2] = { -1, -1 };
    sigset_t all, before;
    if (socketpair(AF_UNIX, SOCK_SEQPACKET | SOCK_CLOEXEC, 0, ends) != 0) return false;
    sigfillset(&all);
    sigprocmask(SIG_SETMASK, &all, &before);
    state.parent = getpid();
    started->process = fork();
    started->channel = ends[0];
    state.channel = ends[1];
    if (started->process == 0) {
        prepare();
        be_collector();
    }
    sigprocmask(SIG_SETMASK, &before, NULL);
    close(ends[1]);
    return started->process > 0;
}

const char *start_collector(struct collector *started, const char *log,
                            const struct amount *amount) {
    state.log = log;
    state.amount = *amount;
    const char *why = store_make_file(&first, log, 0, &amount->room);
    if (why) return why;
    state.first = &first;
    bool has_sockets = open_sockets(&state.sockets, started->name);
    started->sockets = state.sockets;
    if (!has_sockets || !store_make_memory(&first) || !fork_collector(started)) {
        why = strerror(errno);
        remove_sockets(&state.sockets);
        store_remove(&first);
        return why;
    }
    leave_sockets(&state.sockets);
    store_leave(&first);
    return NULL;
}

static bool ask_collector(const struct collector *of, char what) {
    return send(of->channel, &what, 1, MSG_NOSIGNAL) == 1;
}

void ask_for_snapshot(const struct collector *of) {
    ask_collector(of, ASK_SNAPSHOT);
}

enum loss hear_loss(const struct collector *from) {
    enum loss loss;
    bool is_said = recv(from->channel, &loss, sizeof loss, MSG_DONTWAIT) == sizeof loss;
    return is_said ? loss : NO_LOSS;
}

bool end_collector(const struct collector *ended, struct report *report) {
    bool is_sent = ask_collector(ended, ASK_END);
    ssize_t length;
    do /* a loss may come before */
        length = is_sent ? recv(ended->channel, report, sizeof *report, 0) : 0;
    while (length == sizeof(enum loss) || (length < 0 && errno == EINTR));
    close(ended->channel);
    if (length != sizeof *report) { /* it was killed */
        remove_sockets(&ended->sockets);
        return false;
    }
    if (!report->goes_on) waitpid(ended->process, NULL, 0);
    return true;
}
