"""Who called a lock that waits: pim-record --stacks.

record/FORMAT.md and record/INSIDE.md say what is tested.
"""
import os
import shutil
import sys
import unittest

from tests.cases import Case
from tests.shared.checks import difference
from tests.record.test_collector import RECORD, read
from tests.record.logs import broken, log_of, reader, setUpModule
from tests.record.test_places import compiled, recorded, same, texts_of
from tests.record.test_places import told as places_told

sys.path.insert(0, str(RECORD))
import places_text

HAS_LINES = unittest.skipUnless(any(map(shutil.which, places_text.SYMBOLIZERS)), "there is no addr2line")

MOST_CALLERS = 15
# Each of two threads waits for the other's mutex: one in three functions, the first one in main.
NEST = """#include <pthread.h>
#include <unistd.h>
#define APART __attribute__((noinline)) static
static pthread_mutex_t map_lock = PTHREAD_MUTEX_INITIALIZER, route_lock = PTHREAD_MUTEX_INITIALIZER;
static volatile int steps; /* else a call may be a jump */
static volatile int has_route;
static void await(pthread_mutex_t *mutex) {
    while (*(volatile int *)mutex != 2) usleep(100); /* until a thread waits: glibc's word says so */
}
APART void read_map(void) {
    pthread_mutex_lock(&map_lock); // READ
    steps++;
    pthread_mutex_unlock(&map_lock);
    steps++;
}
APART void plan(void) {
    read_map(); // PLAN
    steps++;
}
static void *drive(void *unused) {
    pthread_mutex_lock(&route_lock);
    has_route = 1;
    plan(); // DRIVE
    await(&route_lock);
    pthread_mutex_unlock(&route_lock);
    return unused;
}
APART void stop(void) {
    pthread_mutex_lock(&route_lock); // STOP
    steps++;
    pthread_mutex_unlock(&route_lock);
    steps++;
}
int main(void) {
    pthread_t driver;
    pthread_mutex_lock(&map_lock);
    pthread_create(&driver, NULL, drive, NULL);
    while (!has_route) usleep(100);
    await(&map_lock);
    pthread_mutex_unlock(&map_lock);
    stop(); // MAIN
    pthread_join(driver, NULL);
    return 0;
}
"""
NESTED = {1: [["STOP stop", "MAIN main"]], 2: [["READ read_map", "PLAN plan", "DRIVE drive"]]}
# Without optimization std::lock_guard's constructor calls std::mutex::lock, and that __gthread_mutex_lock.
GUARDED = """#include <mutex>
#include <pthread.h>
#include <unistd.h>
static std::mutex map_lock;
static volatile int steps; /* else a call may be a jump */
__attribute__((noinline)) static void read_map() {
    {
        std::lock_guard<std::mutex> guard(map_lock); // READ
        steps = steps + 1;
    } // LEFT
    steps = steps + 1;
}
static void *plan(void *unused) {
    read_map(); // PLAN
    steps = steps + 1;
    return unused;
}
int main() {
    pthread_t planner;
    {
        std::lock_guard<std::mutex> guard(map_lock); // OWN
        pthread_create(&planner, nullptr, plan, nullptr);
        while (*(volatile int *)map_lock.native_handle() != 2) usleep(100);
    } // FREED
    pthread_join(planner, nullptr);
    return 0;
}
"""
GUARDS = {1: ["granted OWN main", "release FREED main"],
          2: ["request READ read_map", "frame PLAN plan", "granted READ read_map", "release LEFT read_map"]}
# The thread waits in as many functions as the argument says, which call each other, and in its first one.
DEEP = """#include <pthread.h>
#include <stdlib.h>
#include <unistd.h>
static pthread_mutex_t lock = PTHREAD_MUTEX_INITIALIZER;
static volatile int steps;
__attribute__((noinline)) static void descend(int depth) {
    if (depth > 1) descend(depth - 1);
    else pthread_mutex_lock(&lock), pthread_mutex_unlock(&lock);
    steps++;
}
static void *start(void *depth) {
    descend(*(int *)depth);
    steps++;
    return depth;
}
int main(int count, char **arguments) {
    int depth = count > 1 ? atoi(arguments[1]) : 1;
    pthread_t thread;
    pthread_mutex_lock(&lock);
    pthread_create(&thread, NULL, start, &depth);
    while (*(volatile int *)&lock != 2) usleep(100);
    pthread_mutex_unlock(&lock);
    pthread_join(thread, NULL);
    return 0;
}
"""
# What each thread of the program allocates is counted, and printed: while the second one waits, the first does nothing.
# The allocator locks a mutex. A handler of a signal locks it, too, while the thread unwinds.
ALLOCATOR = """#define _GNU_SOURCE
#include <pthread.h>
#include <stdio.h>
#include <string.h>
#include <unistd.h>
static pthread_mutex_t lock = PTHREAD_MUTEX_INITIALIZER, own = PTHREAD_MUTEX_INITIALIZER;
static char memory[1 << 24];
static size_t used;
static volatile int calls, before, after;
void *malloc(size_t size) {
    pthread_mutex_lock(&own);
    char *made = memory + used + 16;
    *(size_t *)(made - 16) = size;
    used += (size + 47) / 16 * 16;
    calls++;
    pthread_mutex_unlock(&own);
    return made;
}
void free(void *made) { (void)made; calls++; }
void *calloc(size_t count, size_t size) { return malloc(count * size); }
void *realloc(void *had, size_t size) {
    void *made = malloc(size);
    size_t before = had ? *(size_t *)((char *)had - 16) : 0;
    return had ? memcpy(made, had, before < size ? before : size) : made;
}
static void *wait(void *unused) {
    before = calls;
    pthread_mutex_lock(&lock);
    after = calls;
    pthread_mutex_unlock(&lock);
    return unused;
}
int main(void) {
    pthread_t thread;
    pthread_mutex_lock(&lock);
    pthread_create(&thread, NULL, wait, NULL);
    while (*(volatile int *)&lock != 2) usleep(100);
    pthread_mutex_unlock(&lock);
    pthread_join(thread, NULL);
    printf("%d\\n", after - before);
    return 0;
}
"""
# A thread asks in vain for a mutex that it owns, until a signal has come 300 times: one every tenth of a millisecond.
# Its handler locks another mutex, and asks for this one. Prints how many calls there were that lock.
STORM = """#define _GNU_SOURCE
#include <pthread.h>
#include <signal.h>
#include <stdatomic.h>
#include <stdio.h>
#include <sys/time.h>
static pthread_mutex_t lock = PTHREAD_MUTEX_INITIALIZER, handlers = PTHREAD_MUTEX_INITIALIZER;
static const struct timespec past;
static atomic_int calls, signals;
static void ask(void) {
    pthread_mutex_timedlock(&lock, &past);
    calls++;
}
static void handle(int signal) {
    (void)signal;
    pthread_mutex_lock(&handlers);
    calls++, signals++;
    ask();
    pthread_mutex_unlock(&handlers);
}
int main(void) {
    struct sigaction action = { .sa_handler = handle, .sa_flags = SA_RESTART };
    struct itimerval often = { .it_interval = { .tv_usec = 100 }, .it_value = { .tv_usec = 100 } };
    pthread_mutex_lock(&lock);
    calls++;
    sigaction(SIGALRM, &action, NULL);
    setitimer(ITIMER_REAL, &often, NULL);
    while (signals < 300) ask();
    often = (struct itimerval){ 0 };
    setitimer(ITIMER_REAL, &often, NULL);
    printf("%d\\n", calls);
    return 0;
}
"""
# The thread owns a mutex, and asks for it in vain 6000 times. Each time it puts seven records: the request, five frames
# and the failure. It begins with four records, so that each of its chunks but the first begins with its third frame.
CYCLES = """#include <pthread.h>
#define APART __attribute__((noinline)) static
static pthread_mutex_t lock = PTHREAD_MUTEX_INITIALIZER;
static const struct timespec past;
static volatile int steps;
APART void first(void) { pthread_mutex_timedlock(&lock, &past); steps++; }
APART void second(void) { first(); steps++; }
APART void third(void) { second(); steps++; }
APART void fourth(void) { third(); steps++; }
APART void fifth(void) { fourth(); steps++; }
APART void sixth(void) { fifth(); steps++; }
static void *ask(void *unused) {
    pthread_mutex_lock(&lock);
    for (int i = 0; i < 6000; i++) sixth();
    return unused;
}
int main(void) {
    pthread_t thread;
    pthread_create(&thread, NULL, ask, NULL);
    pthread_join(thread, NULL);
    return 0;
}
"""
# So many calls in the code that the table of places is full, and then a wait in two functions.
CROWD = """#include <pthread.h>
#include <unistd.h>
#define PAIR pthread_mutex_lock(&other); pthread_mutex_unlock(&other);
#define TEN(what) what what what what what what what what what what
static pthread_mutex_t lock = PTHREAD_MUTEX_INITIALIZER, other = PTHREAD_MUTEX_INITIALIZER;
static volatile int steps;
__attribute__((noinline)) static void inner(void) {
    pthread_mutex_lock(&lock), pthread_mutex_unlock(&lock);
    steps++;
}
static void *wait(void *unused) { inner(); steps++; return unused; }
int main(void) {
    pthread_t thread;
    TEN(TEN(TEN(TEN(PAIR PAIR))))
    pthread_mutex_lock(&lock);
    pthread_create(&thread, NULL, wait, NULL);
    while (*(volatile int *)&lock != 2) usleep(100);
    pthread_mutex_unlock(&lock);
    pthread_join(thread, NULL);
    return 0;
}
"""
# Its unwinder changes errno, which the program prints.
SPOILER = """#define _GNU_SOURCE
#include <dlfcn.h>
#include <errno.h>
int backtrace(void **found, int most) {
    int (*real)(void **, int);
    *(void **)&real = dlsym(RTLD_NEXT, "backtrace");
    int count = real(found, most);
    errno = 5;
    return count;
}
"""
SPOILED = """#include <errno.h>
#include <pthread.h>
#include <stdio.h>
int main(void) {
    static pthread_mutex_t lock = PTHREAD_MUTEX_INITIALIZER;
    static const struct timespec past;
    pthread_mutex_lock(&lock);
    errno = 77;
    int error = pthread_mutex_timedlock(&lock, &past);
    printf("%d %d\\n", error, errno);
    return 0;
}
"""
NO_UNWINDER = "int backtrace(void **found, int most) { (void)found, (void)most; return 0; }\n"


def stacks_of(log):
    """Returns by thread the records of each request with those of its frames."""
    found, begun = {}, {}
    for record in log.records:
        thread = record.chunk.thread
        if record.event == reader.REQUEST:
            begun[thread] = [record]
            found.setdefault(thread, []).append(begun[thread])
        elif record.event == reader.FRAME and thread in begun:
            begun[thread].append(record)
        else:
            begun.pop(thread, None)
    return found


def told(path, source, text):
    """Returns by thread the stack of each request: the names of the lines, and the functions."""
    names = {f"{source}:{number}": line.rpartition("// ")[2]
             for number, line in enumerate(text.splitlines(), 1) if "// " in line}
    texts = {number: text for number, (_, text) in texts_of(path).items()}

    def words(record):
        line, _, function = texts.get(record.place, "nowhere").partition(" ")
        return f"{names.get(line, line)} {function[1:-1]}"
    return {thread: [[*map(words, stack)] for stack in stacks]
            for thread, stacks in stacks_of(read(path)).items()}


def sizes_of(log):
    """Returns how many frames the requests of the second thread have."""
    return [len(stack) - 1 for stack in stacks_of(log).get(2, ())]


def frames_in(log):
    return sum(record.event == reader.FRAME for record in log.records)


# ---- logs by hand

PLACES = 0x401136, 0x401200
BEGUN, REQUEST = (1, 1, 0x77, 0, 0, 0), (1, 20, 0x1_0000_0000_5000, 101, 4, 0)
SAME_TIME = [1010, 1020, 1020, 1020, 1030]


def frame(index, place=2, address=0, detail=0, how=0):
    return 1, 29, place << 48 | address, index, detail, how


GRANTED = (1, 21, 0x1_0000_0000_5000, 10, 4, 0)
# What a log with these records behind the first breaks.
BROKEN = [
    ([REQUEST, frame(1), frame(2), GRANTED], []), ([REQUEST, frame(1), frame(2, place=0), GRANTED], []),
    ([REQUEST, frame(2), frame(3), GRANTED], ["record 3: its index 2 doesn't follow"]),
    ([REQUEST, frame(1), frame(1), GRANTED], ["record 4: its index 1 doesn't follow"]),
    ([frame(1), REQUEST, frame(1), GRANTED], ["record 2: it comes behind no REQUEST or FRAME"]),
    ([REQUEST, frame(1, place=3), frame(2), GRANTED], ["record 3: there is no place 3"]),
    ([REQUEST, frame(1, address=5), frame(2), GRANTED], ["record 3: its field object isn't 0"]),
    ([REQUEST, frame(1, detail=1), frame(2), GRANTED], ["record 3: its field detail isn't 0"]),
    ([REQUEST, frame(1, how=1), frame(2), GRANTED], ["record 3: its field how isn't 0"]),
]


class Stacks(Case):
    @HAS_LINES
    def test_callers_up_to_the_start(self):
        """Two threads that wait have their callers, up to main or to the start routine."""
        for level in ("-O0", "-O2"):
            program = compiled(self.folder, "nest.c", NEST, level)
            for options in ((), ("--last", "1M"), ("--last", "1M", "--contended")):
                done, path = recorded(self.folder, program, options=["--stacks", *options])
                fault = broken(read(path)) or difference((done.returncode, done.stdout, done.stderr), (0, "", ""))
                got = told(path, "nest.c", NEST)
                self.check(f"the callers of two threads, {' '.join((level, *options))}", fault or difference(
                    [got.get(thread, ())[-1:] for thread in NESTED], [*NESTED.values()]))
            _, path = recorded(self.folder, program)
            self.equal(f"without --stacks there are none, {level}", (frames_in(read(path)),), (0,))

    @HAS_LINES
    def test_where_a_lock_guard_waits(self):
        """Where a std::lock_guard waits, the stack begins in the function that has it, also if nothing is inlined."""
        for level in ("-O0", "-Og", "-O2"):
            program = compiled(self.folder, "guarded.cpp", GUARDED, level, compiler="g++")
            if not program:
                return self.skip("the callers of a std::lock_guard", "there is no g++")
            for options in (("--stacks",), ("--stacks", "--last", "1M", "--contended")):
                _, path = recorded(self.folder, program, options=options)
                got = places_told(path, ("guarded.cpp", GUARDED))
                self.check(f"the callers of a std::lock_guard, {' '.join((level, *options))}",
                           broken(read(path)) or same(got, GUARDS))

    def test_a_stack_has_16_frames_at_most(self):
        """A stack has 16 frames at most, with the call's own place, and the last ones aren't those of the C library."""
        program = compiled(self.folder, "deep.c", DEEP)
        for depth in (1, 13, 14, 15, 16, 17, 40):
            _, path = recorded(self.folder, program, str(depth), options=["--stacks"])
            log = read(path)
            self.check(f"the frames of {depth} functions",
                       broken(log) or difference(sizes_of(log), [min(depth, MOST_CALLERS)]))
            frames, = stacks_of(log)[2]
            indexes = [record.value for record in frames[1:]]
            self.check("their indexes", difference(indexes, [*range(1, len(frames))]))

    def test_the_unwinder_does_not_allocate(self):
        """The unwinder doesn't allocate while the program runs, also where that would lock a mutex."""
        program = compiled(self.folder, "allocator.c", ALLOCATOR, "-fno-builtin")
        done, path = recorded(self.folder, program, options=["--stacks"])
        log = read(path)
        self.check("a stack allocates nothing", broken(log) or difference(
            (done.returncode, done.stdout, done.stderr, sizes_of(log)), (0, "0\n", "", [0])))

    def test_a_handler_that_interrupts_the_unwinder(self):
        """A handler that interrupts the unwinder locks as in a program that isn't recorded; each call is put or counted."""
        program = compiled(self.folder, "storm.c", STORM, "-O1")
        done, path = recorded(self.folder, program, options=["--stacks"])
        log = read(path)
        put = sum(record.event in (reader.GRANTED, reader.FAILED) for record in log.records)
        calls = int(done.stdout or 0)
        fits = put <= calls <= put + log.head.left_out
        self.check("signals while a stack is unwound", broken(log) or difference((done.returncode, done.stderr), (0, "")) or
                   (None if fits else f"{calls} calls, {put} answers, {log.head.left_out} left out"))
        requests, = stacks_of(log).values()
        sizes = {len(stack) for stack in requests}
        self.check("each of its requests has a stack", None if min(sizes) > 1 else f"{sizes} frames")

    def test_frames_of_a_dropped_request_are_dropped(self):
        """With --last the frames of a request that was dropped are dropped, too."""
        program = compiled(self.folder, "cycles.c", CYCLES, "-O1")
        _, path = recorded(self.folder, program, options=["--stacks", "--last", "1M"])
        log = read(path)
        thread, = stacks_of(log)
        records = [record for record in log.records if record.chunk.thread == thread]
        first = next(record.event for record in records if record.event not in (reader.THREAD, reader.NAME))
        sizes = {len(stack) for stack in stacks_of(log)[thread]}
        self.check("the latest stacks", broken(log) or difference(
            (log.head.dropped > 0, reader.NAMES[first], sizes), (True, "failed", {7})))

    def test_a_frame_without_room_for_its_place(self):
        """A frame for whose place there is no room is put without, and counted."""
        program = compiled(self.folder, "crowd.c", CROWD, "-O0", "-no-pie")
        _, path = recorded(self.folder, program, options=["--stacks"])
        log = read(path)
        placed = [record for record in log.records
                  if record.event in reader.WITH_PLACE and record.event != reader.WAITED]  # it has its WAIT's
        self.check("the frames of a table that is full", broken(log) or difference(
            (sizes_of(log), log.head.unplaced), ([1], sum(not record.place for record in placed))))
        stack, = stacks_of(log)[2]
        self.equal("one of them has no place", (stack[1].place,), (None,))

    def test_without_an_unwinder_the_program_runs(self):
        """Without an unwinder the program runs, and a line says that it has no stacks. --kernel-only has no log."""
        program = compiled(self.folder, "nest.c", NEST)
        library = compiled(self.folder, "no_unwinder.c", NO_UNWINDER, "-shared", "-fPIC")
        environment = {**os.environ, "LD_PRELOAD": str(library)}
        done, _ = recorded(self.folder, program, options=["--stacks"], env=environment)
        said = [" ".join(word for word in line.split() if not word.isdigit()) for line in done.stderr.splitlines()]
        line = "pim-record: process has no stacks recorded: there is no libgcc_s.so.1"
        self.equal("a program without an unwinder", (done.returncode, {*said}), (0, {line}))
        done, _ = recorded(self.folder, program, options=["--stacks", "--kernel-only"])
        line = "pim-record: --kernel-only has no log, and --stacks needs one; nothing was run\n"
        self.equal("--stacks without a log", (done.returncode, done.stderr), (2, line))

    def test_a_request_keeps_errno(self):
        """A request keeps errno, whatever the unwinder does."""
        program = compiled(self.folder, "spoiled.c", SPOILED)
        library = compiled(self.folder, "spoiler.c", SPOILER, "-shared", "-fPIC")
        done, _ = recorded(self.folder, program, options=["--stacks"], env={**os.environ, "LD_PRELOAD": str(library)})
        self.equal("errno behind a request", (done.returncode, done.stdout, done.stderr), (0, "110 77\n", ""))

    def test_what_pim_log_says_of_frames(self):
        """What pim-log says of frames, and which laws they keep."""
        for number, (rows, wanted) in enumerate(BROKEN):
            log = reader.Log(log_of([BEGUN, *rows], places=PLACES, times=SAME_TIME))
            self.check(f"the laws of a stack, {number}", difference(reader.Checker(log).run(), wanted))
        rows = [BEGUN, REQUEST, frame(1), frame(2), GRANTED]
        log = reader.Log(log_of(rows, places=PLACES, times=[1010, 1020, 1021, 1020, 1030]))
        got = [line for line in reader.Checker(log).run() if "another time" in line]
        wanted = [f"record {number}: it has another time than the record before it" for number in (3, 4)]
        self.equal("the time of a frame", got, wanted)
        line = reader.line_of(log.records[2], 1000, log.place_of(log.records[2]), b"plan.c:88 (plan)")
        self.check("the line of a frame", difference((line,), (
            "3 0.000000021 t1 frame index=1 at=0x401200 plan.c:88 (plan)",)))
        data = log_of(rows, places=PLACES, times=SAME_TIME)
        data[8] = 2
        self.check("version 2 has no frames", difference(
            reader.Checker(reader.Log(data)).run(), [f"record {number}: there is no event 29" for number in (3, 4)]))
