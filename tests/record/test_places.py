"""Where in the code calls are made: the places in the records, and their lines.

record/FORMAT.md and record/INSIDE.md say what is tested.
"""
import os
import pathlib
import re
import shutil
import sys
import unittest

from tests.cases import Case
from tests.shared.checks import difference
from tests.record.test_collector import RECORD, read, run
from tests.record.test_last import does, snapshot, started
from tests.record.logs import broken, log_of, reader, setUpModule

sys.path.insert(0, str(RECORD))
import places_text

HAS_LINES = unittest.skipUnless(any(map(shutil.which, places_text.SYMBOLIZERS)), "there is no addr2line")
HAS_NM = unittest.skipUnless(shutil.which("addr2line") and shutil.which("nm"), "there is no addr2line or no nm")

CALLS_OF_MUTEXES = range(reader.REQUEST, reader.WAIT)
# A comment names a line. A thread waits for the mutex of another, and then at a condition variable.
PLAN = """#define _GNU_SOURCE
#include <pthread.h>
#include <stdlib.h>
#include <unistd.h>
static pthread_mutex_t map_lock = PTHREAD_MUTEX_INITIALIZER;
static pthread_cond_t moved = PTHREAD_COND_INITIALIZER;
static volatile int is_waiting, has_moved;
static pthread_t planner;
static void *plan(void *unused) {
    pthread_mutex_lock(&map_lock); // PLAN
    is_waiting = 1;
    while (!has_moved)
        pthread_cond_wait(&moved, &map_lock); // WAIT
    pthread_mutex_unlock(&map_lock); // PLANNED
    return unused;
}
static void update_map(void) {
    pthread_mutex_lock(&map_lock); // TAKE
    pthread_create(&planner, NULL, plan, NULL);
    while (*(volatile int *)&map_lock != 2) usleep(1000); /* until it waits: glibc's word says so */
    pthread_mutex_unlock(&map_lock); // GIVE
}
int main(int count, char **arguments) {
    (void)arguments;
    update_map();
    while (!is_waiting) usleep(1000);
    pthread_mutex_lock(&map_lock); // MOVE
    has_moved = 1;
    pthread_cond_broadcast(&moved);
    pthread_mutex_unlock(&map_lock); // MOVED
    pthread_join(planner, NULL);
    if (count > 1) abort();
    return 0;
}
"""
PLANNED = {1: ["granted TAKE update_map", "release GIVE update_map", "granted MOVE main", "release MOVED main"],
           2: ["request PLAN plan", "granted PLAN plan", "condition WAIT plan", "release WAIT plan",
               "granted WAIT plan", "release PLANNED plan"]}
CALLS = """#define _GNU_SOURCE
#include <pthread.h>
#include <time.h>
static pthread_mutex_t lock = PTHREAD_MUTEX_INITIALIZER, checked;
static pthread_cond_t never = PTHREAD_COND_INITIALIZER;
static volatile int has_left;
static void leave(void *unused) {
    (void)unused;
    pthread_mutex_unlock(&lock); // LEFT
    has_left = 1; /* else the call may be a jump, which returns to the caller */
}
static void *wait(void *unused) {
    pthread_mutex_lock(&lock); // ENTER
    pthread_cleanup_push(leave, NULL);
    for (;;) pthread_cond_wait(&never, &lock); // CANCELLED
    pthread_cleanup_pop(0);
    return unused;
}
int main(void) {
    const struct timespec past = { 0, 0 };
    pthread_mutexattr_t kind;
    pthread_t waiter;
    pthread_mutexattr_init(&kind);
    pthread_mutexattr_settype(&kind, PTHREAD_MUTEX_ERRORCHECK);
    pthread_mutex_init(&checked, &kind);
    pthread_mutex_lock(&lock); // LOCK
    pthread_mutex_trylock(&lock); // TRY
    pthread_mutex_timedlock(&lock, &past); // TIMED
    pthread_mutex_clocklock(&lock, CLOCK_MONOTONIC, &past); // CLOCK
    pthread_cond_timedwait(&never, &lock, &past); // TIMED_WAIT
    pthread_cond_clockwait(&never, &lock, CLOCK_MONOTONIC, &past); // CLOCK_WAIT
    pthread_mutex_unlock(&lock); // UNLOCK
    pthread_mutex_unlock(&checked); // REFUSED
    pthread_cond_wait(&never, &checked); // REFUSED_WAIT
    pthread_create(&waiter, NULL, wait, NULL);
    pthread_cancel(waiter);
    pthread_join(waiter, NULL);
    return 0;
}
"""
CALLED = {1: ["granted LOCK", "failed TRY", "request TIMED", "failed TIMED", "request CLOCK", "failed CLOCK",
              "condition TIMED_WAIT", "release TIMED_WAIT", "granted TIMED_WAIT", "condition CLOCK_WAIT",
              "release CLOCK_WAIT", "granted CLOCK_WAIT", "release UNLOCK", "release REFUSED", "release-failed REFUSED",
              "condition REFUSED_WAIT", "release REFUSED_WAIT", "release-failed REFUSED_WAIT"],
          2: ["granted ENTER", "condition CANCELLED", "release CANCELLED", "granted CANCELLED", "release LEFT"]}
FLEET = """#include <mutex>
namespace fleet {
std::mutex map_lock;
int value;
template <class Value> struct Map {
    [[gnu::flatten]] void add(Value by) const { /* what it calls is inlined */
        std::lock_guard<std::mutex> guard(map_lock); // ADD
        value += by;
    } // ADDED
};
}
[[gnu::flatten]] int main(int count, char **) {
    fleet::Map<int>().add(count);
    std::lock_guard<std::mutex> guard(fleet::map_lock); // OWN
    return 0;
} // LEFT
"""
FLED = {1: ["granted ADD", "release ADDED", "granted OWN", "release LEFT"]}
GUARDS = pathlib.Path(__file__).parent / "guards.cpp"
WAITED = ["condition", "release", "granted"]
GUARDED = {1: ["granted GUARD", "release GUARDED", "granted LOCK", "release UNLOCK", "granted TRY", "release TRIED",
               "granted OWN", "release OWNED", *["granted BOTH"] * 2, *["release LEFT"] * 2,
               "granted OUTER", "granted INNER", "release LEAVE", "release RETURN", "granted GENERATE",
               "release GENERATED", "granted TIMED", "release READ", "give FREE", "granted ENTER",
               *[f"{event} WAIT_FOR" for event in WAITED],
               *[f"{event} WAIT" for event in WAITED], "release LEAVE_IT"],
           2: ["granted MOVE", "give NOTIFY", "release MOVED"]}
MISREAD = "clang++", "-O2", "-gdwarf-aranges"  # addr2line of binutils 2.40 names the wrong file of functions that it inlined
BUILDS = [("g++", "-O0"), ("g++", "-Og"), ("g++", "-O1"), ("g++", "-O2"), ("clang++", "-O0"), MISREAD,
          ("g++", "-O0", "-static-libstdc++", "-static-libgcc")]
LIBCXX = "clang++", "-O0", "-stdlib=libc++"  # its timed and shared mutexes are of a mutex and a condition variable
# Each predicate is a part of std::condition_variable::wait. The frame of the inner one is shorter in each second call. So
# where it returned to in the call before, there is in one of these calls to which place the outer one returns.
PREDICATES = """#include <alloca.h>
#include <condition_variable>
#include <mutex>
static std::mutex map_lock, route_lock;
static pthread_mutex_t flag = PTHREAD_MUTEX_INITIALIZER;
static std::condition_variable moved;
struct Ready {
    int bytes;
    __attribute__((always_inline)) bool operator()() const {
        volatile char *array = (volatile char *)alloca(bytes);
        array[0] = 1;
        pthread_mutex_lock(&flag);
        pthread_mutex_unlock(&flag);
        return true;
    }
};
static void wait_for(int bytes) {
    std::unique_lock<std::mutex> lock(route_lock); // ENTER
    moved.wait(lock, Ready{bytes}); // WAIT
} // LEAVE
struct Arrived {
    __attribute__((always_inline)) bool operator()() const {
        pthread_mutex_lock(&flag);
        pthread_mutex_unlock(&flag);
        for (int less = 0; less < 1024; less += 16) {
            wait_for(2048);
            wait_for(2048 - less);
        }
        wait_for(3000000);
        return true;
    }
};
static void arrive() {
    std::unique_lock<std::mutex> lock(map_lock); // BEGIN
    moved.wait(lock, Arrived{}); // ARRIVE
} // END
int main() {
    arrive();
}
"""
# Mangled names: of functions that lock or wait for their callers, and of others whose names are alike.
LOCKING = ["_ZNSt5mutex4lockEv", "_ZNSt10lock_guardISt5mutexED2Ev", "_ZSt4lockISt5mutexS0_JEEvRT_RT0_DpRT1_",
           "_ZN9__gnu_cxx13__scoped_lockD2Ev", "_ZL20__gthread_mutex_lockP15pthread_mutex_t",
           "_ZNSt3_V222condition_variable_any10notify_oneEv", "_ZNSt3__119__shared_mutex_base4lockEv",
           "_ZNSt3__18__unlockINS_5mutexES1_EEvRT_RT0_", "_ZNSt6thread4joinEv"]
OTHERS = ["_ZNSt20discard_block_engineI5NoiseLm1ELm1EEclEv", "_ZNSt10lock_errorD2Ev", "_ZSt6uniqueIPiET_S1_S1_",
          "_ZN9__gnu_cxx24__concurrence_lock_errorD2Ev", "_ZNSt6thread6detachEv", "_ZNKSt6thread8joinableEv",
          "_ZSt5clockv", "_ZN5fleet5mutex4lockEv", "_ZN5fleet10lock_guardISt5mutexED2Ev"]
PRINT_LOCKING = """#include "wrappers.c"
#include <stdio.h>
int main(int count, char **names) {
    for (int i = 1; i < count; i++)
        if (is_wrapper(names[i])) puts(names[i]);
    return 0;
}
"""
FORKS = """#include <dlfcn.h>
#include <pthread.h>
#include <sys/wait.h>
#include <unistd.h>
pthread_mutex_t lock = PTHREAD_MUTEX_INITIALIZER;
static void both(void) {
    pthread_mutex_lock(&lock); // BOTH
    pthread_mutex_unlock(&lock); // LEFT
}
int main(int count, char **arguments) {
    void (*later)(pthread_mutex_t *);
    (void)count;
    both();
    pid_t child = fork();
    both();
    if (child == 0) {
        pthread_mutex_lock(&lock); // CHILD
        pthread_mutex_unlock(&lock); // DONE
        return 0;
    }
    wait(NULL);
    later = (void (*)(pthread_mutex_t *))dlsym(dlopen(arguments[1], RTLD_NOW), "later");
    later(&lock);
    return 0;
}
"""
LATER = """#include <pthread.h>
void later(pthread_mutex_t *lock) {
    pthread_mutex_lock(lock); // LATER
    pthread_mutex_unlock(lock); // LAST
}
"""
FORKED = {1: ["granted BOTH", "release LEFT", "granted BOTH", "release LEFT", "granted LATER", "release LAST"],
          2: ["granted BOTH", "release LEFT", "granted CHILD", "release DONE"]}
NAMED = """#include <pthread.h>
#include <stdio.h>
static pthread_mutex_t own = PTHREAD_MUTEX_INITIALIZER, pool[3];
pthread_mutex_t exported = PTHREAD_MUTEX_INITIALIZER;
static void use(pthread_mutex_t *mutex) { pthread_mutex_lock(mutex), pthread_mutex_unlock(mutex); }
int main(void)
{
    pthread_mutex_t local;
    use(&own), use(pool + 1), use(&exported);
    pthread_mutex_init(&local, NULL);
    use(&local);
    printf("%p %p %p %p\\n", (void *)&own, (void *)(pool + 1), (void *)&exported, (void *)&local);
    return 0;
}
"""
MANY_SITES = """#include <pthread.h>
#define PAIR pthread_mutex_lock(&lock); pthread_mutex_unlock(&lock);
#define TEN(what) what what what what what what what what what what
int main(void) {
    static pthread_mutex_t lock = PTHREAD_MUTEX_INITIALIZER;
    for (int i = 0; i < 2; i++) { TEN(TEN(TEN(PAIR PAIR PAIR PAIR PAIR))) }
    return 0;
}
"""
SITES, SLOTS, PROBES = 10000, 8192, 16
# Prints the numbers of 18 places of one slot, the second last, and of the first of them again; of one of the next slot;
# what is counted; and objects of an address above 2^48.
PROBED = """#include "places.h"
#include <inttypes.h>
#include <stdio.h>
union own_page log_own;
static struct header header;
static uint64_t next_of(uint64_t slot, uint64_t place) {
    while (places_slot(++place) != slot) continue;
    return place;
}
static unsigned number_of(uintptr_t place) { return (unsigned)(places_object(0x5000, &place) >> 48); }
int main(void) {
    uintptr_t first = next_of(8190, 0x1000), place = first;
    log_header = &header;
    for (int i = 0; i < 18; i++, place = next_of(8190, place)) printf("%u ", number_of(place));
    printf("%u %u %" PRIu64, number_of(first), number_of(next_of(8191, 0x1000)), (uint64_t)header.unplaced);
    for (int i = 0; i < 2; i++) printf(" %" PRIx64, places_object(0xab00000000005000, &first));
    printf(" %" PRIx64 " %" PRIu64, places_object(0x5000, &first), (uint64_t)header.left_out);
    return 0;
}
"""


# ---- programs with known lines

def compiled(folder, name, text, *options, compiler="cc"):
    """Returns the path of a program, or None where there is no such compiler."""
    source, program = pathlib.Path(folder, name), pathlib.Path(folder, name.partition(".")[0])
    source.write_text(text)
    words = [compiler, "-g", *options, "-pthread", str(source), "-o", str(program), "-ldl"]
    return program if shutil.which(compiler) and not run(*words).returncode else None


def end_in_memory(program):
    """Returns how many bytes a program takes from its load address on, in pages of 4096."""
    data = pathlib.Path(program).read_bytes()
    *_, place, size, count = places_text.ELF.unpack_from(data)
    parts = [places_text.PART.unpack_from(data, place + size * at) for at in range(count)]
    ends = [begin + length for kind, _, _, begin, _, _, length, _ in parts if kind == places_text.LOADED]
    return -(-max(ends) // 4096) * 4096


def recorded(folder, *command, options=(), **how):
    """Returns a finished recording, and its log's path."""
    path = pathlib.Path(folder, "run")
    return run(RECORD / "pim-record", "-o", path, *options, *command, **how), path


def texts_of(path):
    """Returns the text of each number of a file of places, with its address."""
    places = pathlib.Path(f"{path}.places")
    rows = [line.split(" ", 2) for line in places.read_text().splitlines()] if places.exists() else []
    return {int(number): (int(address, 16), text) for number, address, text in rows if number != "-"}


def names_of(path):
    """Returns the texts of the addresses without numbers, in the order of the file of places."""
    rows = [line.split(" ", 2) for line in pathlib.Path(f"{path}.places").read_text().splitlines()]
    return [(int(address, 16), text) for number, address, text in rows if number == "-"]


def told(path, *sources, but=(reader.WAIT, reader.WAITED, reader.GIVE)):
    """Returns by thread the event of each call, the name of its line, and its function if it isn't the file's only one;
    but for some events, as those of the waits of record_others.py.

    `sources` are files and their texts.
    """
    names = {f"{file}:{number}": line.rpartition("// ")[2]
             for file, text in sources for number, line in enumerate(text.splitlines(), 1) if "// " in line}
    log, texts, said = read(path), texts_of(path), {}
    for record in log.records:
        if record.event not in reader.WITH_PLACE or record.event in but:
            continue
        address, text = texts.get(record.place, (None, "nowhere"))
        line, _, function = text.partition(" ")
        if address != log.place_of(record):
            line = f"{address} in place of {log.place_of(record)}"
        words = [reader.NAMES[record.event], names.get(line, line), function[1:-1]]
        said.setdefault(record.chunk.thread, []).append(" ".join(words))
    return said


def same(got, wanted, has_functions=True):
    """Returns how what is told of each thread differs, or None."""
    if not has_functions:
        got = {thread: [" ".join(words.split()[:2]) for words in lines] for thread, lines in got.items()}
    return difference([*sorted(got)], [*wanted]) or next(
        filter(None, (difference(got[thread], wanted[thread]) for thread in wanted)), None)


def without_race(got):
    """The first thread may find the mutex owned for an instant, or not."""
    return {**got, 1: [words for words in got.get(1, ()) if not words.startswith("request")]}


def of_main(got):
    """Returns what is told, but for what the first thread does before and after main."""
    lines = [words.split()[1] for words in got[1]]
    if not {"GUARD", "LEAVE_IT"} <= set(lines):
        return got
    return {**got, 1: got[1][lines.index("GUARD"):len(lines) - lines[::-1].index("LEAVE_IT")]}


# ---- the table


def places_of_facts(path):
    """Returns the place of each fact of a mutex."""
    said = run(RECORD / "out/pim-facts", path).stdout.splitlines()
    return [line.split()[4] for line in said if re.match(r"\d+ \d+ (granted|waits|gave-up|released) ", line)]


# ---- logs by hand

GRANTED = (1, 21, 0x2_0000_0000_5000, 9, 4, 0)


TEXTS = {
    "plan.c:88 (plan)": [("plan", "/src/plan.c:88")],
    "plan.c:8 (plan)": [("plan inlined at /src/main.c:5:3 in main", "/src/plan.c:8:12"), ("main", "/src/main.c:5:3")],
    "plan.c:9": [("??", "plan.c:9 (discriminator 3)")],
    "map.cpp:6 (Map::add)": [("main", "/usr/include/x86_64-linux-gnu/c++/12/bits/gthr-default.h:749"),
                             ("std::mutex::lock()", "/opt/std_mutex.h:100"), ("Map::add(int)", "/src/map.cpp:6"),
                             ("main", "/src/map.cpp:11")],
    "std_mutex.h:100 (std::mutex::lock)": [("std::mutex::lock()", "/usr/include/c++/12/bits/std_mutex.h:100")],
    None: [("??", "??:0")], "a.c:3 (f)": [("g", "a.c:?"), ("f", "a.c:3")],
}
SHORT = {"main": "main", "plan(int)": "plan", "void Map::add<int>(int) const": "Map::add<int>",
         "operator()": "operator()", "main::{lambda()#1}::operator()() const": "main::{lambda()#1}::operator()",
         "(anonymous namespace)::f(std::function<void (int)>)": "(anonymous namespace)::f",
         "Map::operator bool() const": "Map::operator bool", "x" * 81: "x" * 77 + "..."}


# ---- the file

def path_without(folder, *left_out):
    """Returns a PATH with the programs of this one but for some."""
    own = pathlib.Path(folder, "bin")
    own.mkdir()
    for place in os.environ["PATH"].split(":"):
        for name in os.listdir(place) if os.path.isdir(place) else ():
            if name not in left_out and not (own / name).is_symlink():
                (own / name).symlink_to(pathlib.Path(place, name))
    return {**os.environ, "PATH": str(own)}


class Places(Case):
    @HAS_LINES
    def test_each_call_has_its_line(self):
        """Each record of a call has its line."""
        for level in ("-O0", "-O2"):
            program = compiled(self.folder, "plan.c", PLAN, level)
            done, path = recorded(self.folder, program)
            fault = broken(read(path)) or difference((done.returncode, done.stdout, done.stderr), (0, "", ""))
            self.check(f"the places of two threads, {level}",
                       fault or same(without_race(told(path, ("plan.c", PLAN))), PLANNED))
            program = compiled(self.folder, "calls.c", CALLS, level)
            done, path = recorded(self.folder, program)
            self.check(f"the places of each kind of call, {level}",
                       broken(read(path)) or same(told(path, ("calls.c", CALLS)), CALLED, False))

    @HAS_LINES
    def test_the_place_of_a_std_mutex(self):
        """The place of a std::mutex is in the function that locks it, not in a header of C++."""
        program = compiled(self.folder, "fleet.cpp", FLEET, "-O2", compiler="g++")
        if not program:
            return self.skip("the places of a program in C++", "there is no g++")
        _, path = recorded(self.folder, program)
        got = told(path, ("fleet.cpp", FLEET))
        self.check("the places of a program in C++", broken(read(path)) or same(got, FLED, False))
        function = got[1][0].partition(" ADD ")[2]
        self.equal("the function of one", (function,), ("fleet::Map<int>::add",))

    @HAS_LINES
    def test_calls_by_the_standard_library(self):
        """The place of a call by the standard library of C++ is the program's line, at each level of optimization."""
        for compiler, *options in (*BUILDS, LIBCXX):
            name = " ".join((compiler, *options))
            program = compiled(self.folder, "guards.cpp", GUARDS.read_text(), "-std=c++17", *options, compiler=compiler)
            if not program:
                self.skip(f"the places of locks by {name}", "it isn't there, or can't build")
                continue
            if (compiler, *options) == MISREAD and not shutil.which("eu-addr2line"):
                self.skip(f"the places of locks by {name}", "there is no eu-addr2line")
                continue
            done, path = recorded(self.folder, program)
            got = told(path, ("guards.cpp", GUARDS.read_text()), but=(reader.REQUEST, reader.WAIT, reader.WAITED))
            got, wanted = of_main(got), GUARDED
            if (compiler, *options) == LIBCXX:
                alike = GUARDED[1].index("release GENERATED") + 1
                its = [words for words in got[2] if "libc++" not in words]  # what begins the thread locks, too
                got, wanted = {1: got[1][:alike], 2: its}, {**GUARDED, 1: GUARDED[1][:alike]}
            self.check(f"the places of locks by {name}", broken(read(path)) or
                       difference((done.returncode,), (0,)) or same(got, wanted, False))
            self.check(f"the function of one by {name}", difference(got[1][:1], ["granted GUARD guarded"]))
            joins = told(path, ("guards.cpp", GUARDS.read_text()), but=[*CALLS_OF_MUTEXES, reader.GIVE]).get(1, ())
            is_named = all(words.split()[1] == "JOIN" for words in joins)  # there is none if the thread has ended
            self.check(f"the place of a join by {name}", None if is_named else f"{joins}")

    def test_functions_that_lock_for_their_caller(self):
        """A function of the standard library locks for its caller if its class, or it, is one of some whole names."""
        source, program = pathlib.Path(self.folder, "locking.c"), pathlib.Path(self.folder, "locking")
        source.write_text(PRINT_LOCKING)
        built = run("cc", "-I", RECORD / "library", source, RECORD / "library/symbols.c", "-o", program, "-ldl")
        got = built.stderr.split() if built.returncode else run(program, *LOCKING, *OTHERS).stdout.split()
        self.equal("the functions of C++ that lock for their callers", got, LOCKING)

    @HAS_LINES
    def test_a_predicate_that_locks(self):
        """A predicate that locks, in a wait of C++ whose frame it makes longer, has the place of the wait."""
        program = compiled(self.folder, "predicates.cpp", PREDICATES, "-O0", compiler="g++")
        if not program:
            return self.skip("the places of locks in predicates", "there is no g++")
        done, path = recorded(self.folder, program)
        inner = ["granted ENTER", "granted WAIT", "release WAIT", "release LEAVE"] * (1024 // 16 * 2 + 1)
        wanted = {1: ["granted BEGIN", "granted ARRIVE", "release ARRIVE", *inner, "release END"]}
        self.check("the places of locks in predicates", difference((done.returncode,), (0,)) or broken(read(path)) or
                          same(told(path, ("predicates.cpp", PREDICATES)), wanted, False))

    @HAS_LINES
    def test_processes_share_the_table(self):
        """Processes share the table; a library that is loaded later is told at the end."""
        library = compiled(self.folder, "later.c", LATER, "-shared", "-fPIC")
        program = compiled(self.folder, "forks.c", FORKS)
        _, path = recorded(self.folder, program, library)
        got = told(path, ("forks.c", FORKS), ("later.c", LATER))
        self.check("the places of a forked process, and of a library",
                   broken(read(path)) or same(got, FORKED, False))
        log = read(path)
        places = {(r.chunk.thread, r.event): r.place for r in reversed(log.records) if r.event in reader.WITH_PLACE}
        self.check("a number is of one place in all processes",
                   difference((places[1, reader.GRANTED],), (places[2, reader.GRANTED],)))

    @HAS_LINES
    def test_the_places_of_a_program_that_is_killed(self):
        """The places of a program that is killed are named, too, and pim-record ends as it ended."""
        program = compiled(self.folder, "plan.c", PLAN)
        done, path = recorded(self.folder, program, "abort")
        self.check("a program that aborts", difference((done.returncode, done.stderr), (-6, "")) or
                   same(without_race(told(path, ("plan.c", PLAN))), PLANNED))

    def test_a_table_that_is_full(self):
        """A table that is full: each place that has room is right, and the other records are counted."""
        program = compiled(self.folder, "sites.c", MANY_SITES, "-O0")
        _, path = recorded(self.folder, program)
        log = read(path)
        calls = [record for record in log.records if record.event in reader.WITH_PLACE]
        first, second = ([log.place_of(record) for record in half] for half in (calls[:SITES], calls[SITES:]))
        there = [place for place in first if place]
        self.check("a table that is full", broken(log) or difference(
            (len(calls), log.head.unplaced, first == second), (2 * SITES, 2 * first.count(None), True)))
        self.check("each place is another one, in the order of the code",
                   None if there == sorted(set(there)) and SLOTS // 2 < len(there) <= SLOTS else f"{len(there)} places")
        shown = run(RECORD / "pim-log", path).stdout.splitlines()
        lines_with = [line for line in shown if " at=0x" in line]
        wanted = f"# the places are missing: {log.head.unplaced} records have none"
        self.check("pim-log says how many records have no place",
                   difference((len(lines_with), shown[2]), (2 * len(there), wanted)))

    def test_a_place_is_in_one_of_16_slots(self):
        """A place is in one of 16 slots, of which the first follows the last of the table."""
        source, program = pathlib.Path(self.folder, "probed.c"), pathlib.Path(self.folder, "probed")
        source.write_text(PROBED)
        parts = [RECORD / f"library/{name}.c" for name in ("places", "wrappers", "symbols")]
        built = run("cc", "-I", RECORD / "library", source, *parts, "-o", program, "-ldl")
        numbers = [8191, 8192, *range(1, PROBES - 1), 0, 0, 8191, 15, 2]
        objects = ["1fff000000005000"] * 3
        wanted = [*map(str, numbers), *objects, "2"]
        got = built.stderr.split() if built.returncode else run(program).stdout.split()
        self.equal("the slots of a place", got, wanted)

    @HAS_LINES
    def test_last_and_contended_have_all_places(self):
        """With --last a snapshot, and the log, have the places of all calls; with --contended those of the owner's lock."""
        running = started(self.folder)
        does(running, "quiet main busy main busy " + "busy " * 20)
        taken = snapshot(running, 1)
        does(running, "quiet short")
        running.end()
        logs = [read(path) for path in (taken, running.path)]
        for name, log in zip(("a snapshot", "the latest records"), logs):
            calls = [record for record in log.records if record.event in reader.WITH_PLACE]
            missing = [record.number for record in calls if not log.place_of(record)]
            self.check(f"the places of {name}", broken(log) or difference(
                (len(missing), log.head.unplaced, log.head.dropped > 0), (0, 0, True)))
        early, late = logs
        self.check("a place stays in its slot",
                   difference([place for place in early.places if place], [b for a, b in zip(early.places, late.places) if a]))
        named = [sorted(texts_of(path)) for path in (taken, running.path)]
        self.check("the places of a snapshot and of the log are named",
                   difference(named, [[n for n, place in enumerate(log.places, 1) if place] for log in logs]))
        program = compiled(self.folder, "plan.c", PLAN)
        _, path = recorded(self.folder, program, options=["--last", "1M", "--contended"])
        got = told(path, ("plan.c", PLAN))
        got[1] = got[1][:2]  # whether the planner waits for the second lock is a race
        self.check("the places of what was waited for", same(got, {1: PLANNED[1][:2], 2: PLANNED[2]}))

    @HAS_LINES
    def test_pim_facts_has_the_place_of_each_call(self):
        """pim-facts has the place of each call: its line and function, or the file and the offset where there is no such
        text."""
        program = compiled(self.folder, "plan.c", PLAN)
        _, path = recorded(self.folder, program)
        number = {line.rpartition("// ")[2]: at for at, line in enumerate(PLAN.splitlines(), 1)}
        places = {f"plan.c:{number[words.split()[1]]}({words.split()[2]})" for words in (*PLANNED[1], *PLANNED[2])}
        got = places_of_facts(path)
        ends = {line.partition(" at=")[2].partition(" ")[2] for line in run(RECORD / "pim-log", path).stdout.splitlines()}
        wanted = {"", *(text for _, text in texts_of(path).values())}
        self.check("the lines of a listing", difference([ends], [wanted]))
        self.check("the lines of facts", difference([set(got)], [places]))
        pathlib.Path(f"{path}.places").unlink()
        offsets = places_of_facts(path)
        found = [place for place in offsets if re.fullmatch(r"plan\+0x[0-9a-f]+", place)]
        self.equal("the offsets of facts", (len(found), len(set(found))), (len(got), len(places)))

    def test_what_pim_log_says_of_places(self):
        """What pim-log says of places, in both versions."""
        begun = (1, 1, 0x77, 0, 0, 0)
        rows = [begun, GRANTED, (1, 25, 0x1_0000_0000_6000, 0, 0, 0), (1, 23, 0x5000, 0, 4, 4),
                (1, 17, 0x3_0000_0000_5000, 0, 0, 0)]
        log = reader.Log(log_of(rows, places=[0x401136, 0x401200]))
        got = [(record.object, record.place, log.place_of(record)) for record in log.records[1:]]
        wanted = [(0x5000, 2, 0x401200), (0x6000, 1, 0x401136), (0x5000, None, None), (0x3_0000_0000_5000, None, None)]
        self.equal("the objects and places of a log by hand", got, wanted)
        line = reader.line_of(log.records[1], 1000, log.place_of(log.records[1]))
        self.check("a line with a place", difference((line,), (
            "2 0.000000020 t1 granted mutex=0x5000 protocol=none type=normal call=lock took=9 at=0x401200",)))
        record = reader.Log(log_of([begun, GRANTED])).records[1]
        self.equal("an object of version 1", (record.object, record.place), (GRANTED[2], None))
        line = reader.line_of(log.records[1], 1000, log.place_of(log.records[1]), b"plan.c:88 (plan)")
        self.check("a line with the text of its place", None if line.endswith(" at=0x401200 plan.c:88 (plan)") else line)
        for place, number in ((0, 2), (8193, 8193)):
            rows = [begun, (1, 21, number << 48 | 0x5000, 9, 4, 0)]
            faults = reader.Checker(reader.Log(log_of(rows, places=[0x401136, place]))).run()
            self.check(f"a number without a place: {number}", difference(faults, [f"record 2: there is no place {number}"]))

    def test_the_text_of_a_place(self):
        """The text of a place, by what addr2line prints, and the name of a function."""
        for wanted, frames in TEXTS.items():
            self.equal(f"the text {wanted}", (places_text.text_of(frames),), (wanted,))
        for name, wanted in SHORT.items():
            self.equal(f"the function {name[:60]}", (places_text.short(name),), (wanted,))

    @HAS_LINES
    def test_each_symbolizer_says_the_same(self):
        """Each program that names addresses says the same. Without one there is no file, and no word."""
        program, wanted = compiled(self.folder, "plan.c", PLAN), None
        for name in places_text.SYMBOLIZERS:
            if not shutil.which(name):
                self.skip(f"places by {name}", "it isn't installed")
                continue
            own = pathlib.Path(self.folder, f"with-{name}")
            own.mkdir()
            environment = path_without(own, *(set(places_text.SYMBOLIZERS) - {name}))
            _, path = recorded(own, program, env=environment)
            self.check(f"places by {name}", same(without_race(told(path, ("plan.c", PLAN))), PLANNED))
        environment = path_without(self.folder, *places_text.SYMBOLIZERS)
        done, path = recorded(self.folder, program, env=environment)
        self.check("a recording without addr2line",
                   difference((done.returncode, done.stderr, texts_of(path)), (0, "", {})))
        done = run(RECORD / "pim-log", "--places", path, env=environment)
        wanted = f"pim-log: there is neither {' nor '.join(places_text.SYMBOLIZERS)}\n"
        self.equal("pim-log --places without it", (done.returncode, done.stderr), (2, wanted))

    @HAS_LINES
    def test_mutexes_of_static_variables_have_their_names(self):
        """The mutexes of static variables have their names, and the calls that initialise mutexes their lines."""
        for options in ((), ("-no-pie",), ("-s", "-rdynamic")):
            program = compiled(self.folder, "names.c", NAMED, *options)
            done, path = recorded(self.folder, program)
            own, pooled, exported, local = (int(word, 16) for word in done.stdout.split())
            wanted = {exported: "exported"}
            if "-s" not in options:
                wanted |= {own: "own", pooled: "pool+0x28"}
            lines_of = [text for address, text in names_of(path) if address not in (own, pooled, exported)]
            got = {address: text for address, text in names_of(path) if address in (own, pooled, exported, local)}
            initialised = [] if "-s" in options else ["names.c:10 (main)"]
            self.check(f"the names of static mutexes, {' '.join(options) or 'plain'}", broken(read(path)) or
                       difference((got, lines_of), (wanted, initialised)))
            self.check("the addresses ascend", difference(names_of(path), sorted(names_of(path))))

    @HAS_NM
    def test_a_file_is_asked_if_a_mutex_may_be_in_it(self):
        """A file is asked for its variables if a mutex may be one of them, and no other file is."""
        bin_folder, nm = pathlib.Path(self.folder, "bin"), shutil.which("nm")
        bin_folder.mkdir()
        (bin_folder / "nm").write_text(f'#!/bin/sh\nfor it; do :; done\necho "$it" >> {self.folder}/asked\nexec {nm} "$@"\n')
        (bin_folder / "nm").chmod(0o755)
        environment = {**os.environ, "PATH": f"{bin_folder}:{os.environ['PATH']}"}
        programs = RECORD / "out/programs"
        for program, wanted in ((programs / "pair", []), (programs / "turns", [f"{programs}/turns"])):
            pathlib.Path(self.folder, "asked").write_text("")
            recorded(self.folder, program, "9", env=environment)
            got = sorted(set(pathlib.Path(self.folder, "asked").read_text().split()))
            self.equal(f"whom nm is asked about, of {program.name}", got, wanted)
        odd = pathlib.Path(self.folder, "odd")
        for text in (b"", b"\x7fELF\x02\x01" + bytes(20), b"#!/bin/sh\n" + bytes(100)):
            odd.write_bytes(text)
            self.check(f"a file of {len(text)} bytes may have variables",
                       difference((places_text.has_variables_at(odd, [8]),), (True,)))

    @HAS_LINES
    def test_a_place_without_a_line(self):
        """A place without a line is a file and an offset, of the last byte of the call."""
        program = compiled(self.folder, "plan.c", PLAN)
        run("strip", program)
        _, path = recorded(self.folder, program)
        log = read(path)
        begin, = [r.object for r in log.records if r.event == reader.MODULE and r.text.endswith(b"/plan")]
        wanted = {n: (place, f"plan+{place - 1 - begin:#x}") for n, place in enumerate(log.places, 1) if place}
        self.check("the places of a program without debug information", difference([texts_of(path)], [wanted]))
        ends = {r.object: reader.bytes_of(r) for r in log.records if r.event == reader.MODULE}
        self.equal("the log has the end of each file in memory", (ends[begin],), (end_in_memory(program),))

    @HAS_LINES
    def test_a_file_of_places_is_replaced_with_its_log(self):
        """A file of places is replaced with its log, and no other file is."""
        program, places = compiled(self.folder, "plan.c", PLAN), pathlib.Path(self.folder, "run.places")
        _, path = recorded(self.folder, "sh", "-c", f"{program}; {program}")
        its = sorted(re.sub(r"\d+", "PID", it.name) for it in pathlib.Path(self.folder).glob("run*"))
        self.check("each program has its places", difference(its, ["run", *["run.PID"] * 2, *["run.PID.places"] * 2]))
        recorded(self.folder, program)
        had = places.exists(), [*pathlib.Path(self.folder).glob("run.[0-9]*")]
        recorded(self.folder, "true")
        self.equal("those of an earlier recording are removed", (*had, places.exists()), (True, [], False))
        places.write_text("a letter\n")
        done, _ = recorded(self.folder, program)
        self.check("a file of that name that has no places is kept",
                   difference((done.returncode, done.stderr, places.read_text()), (0, "", "a letter\n")))
        done = run(RECORD / "pim-log", "--places", path)
        said = f"pim-log: {places} is there, and has no places\n"
        self.equal("pim-log --places says so", (done.returncode, done.stderr), (2, said))
        places.unlink()
        data = path.read_bytes()
        path.write_bytes(data[:100_000])
        done = run(RECORD / "pim-log", "--places", path, f"{self.folder}/nothing")
        self.check("a log that is cut has those of its modules that are there",
                   difference((done.returncode, "Traceback" in done.stderr), (0, False)))
