"""Waits for what isn't a mutex, and about what ends them: record/FORMAT.md.

record/programs/others.c has the calls. It prints where its objects are, and what the calls
returned. A thread sleeps before its wait is ended.
"""
import pathlib
import shutil
import sys

from tests.cases import Case
from tests.shared.checks import difference
from tests.record.test_collector import RECORD, read, run, without_imports
from tests.record.logs import broken, setUpModule

sys.path.insert(0, str(RECORD))
import places_text

SOURCE = RECORD / "programs/others.c"
OPTIONS = {"": (), ", with --last": ("--last", "4M"), ", with --contended": ("--last", "4M", "--contended")}
EVENTS = {26: "wait", 27: "waited", 28: "give"}
POSTS, SIGNALLED = 20000, 100


def a_wait(line, kind, name, gift="", behind=""):
    """Returns the records of a wait that another thread ends: thread, event, kind, object, how and line."""
    records = [f"thread wait {kind} {name} 0 {line}", gift, f"thread waited {kind} {name} 0 {line}", behind]
    return [*filter(None, records)]


POST, UNLOCK, LEAVE = "main give 1 semaphore 0 POST", "main give 2 rwlock 0 UNLOCK", "thread give 2 rwlock 0 LEAVE"
SEMAPHORES = "SEM_WAIT", "SEM_TIMEDWAIT", "SEM_CLOCKWAIT"
READS, WRITES = ("RDLOCK", "TIMEDRDLOCK", "CLOCKRDLOCK"), ("WRLOCK", "TIMEDWRLOCK", "CLOCKWRLOCK")
JOINS = "JOIN", "TIMEDJOIN", "CLOCKJOIN"
SIGNALS = ["main give 6 condition 0 SIGNAL", "main give 6 condition 1 BROADCAST"]
WAITS = [
    *(record for line in SEMAPHORES for record in a_wait(line, 1, "semaphore", POST)),
    *(record for line in READS for record in a_wait(line, 2, "rwlock", UNLOCK, LEAVE)),
    *(record for line in WRITES for record in a_wait(line, 3, "rwlock", UNLOCK, LEAVE)),
    *(record for line in JOINS for record in a_wait(line, 5, "thread")),
    *SIGNALS,
    "thread wait 4 barrier 0 BARRIER", "main wait 4 barrier 0 LAST",
    "main waited 4 barrier 0 LAST", "thread waited 4 barrier 0 BARRIER",  # in either order
]
AT_ONCE = [*[POST] * 3, *[UNLOCK] * 7, "main give 2 rwlock 0 LEAVE", *SIGNALS,
           "main wait 4 barrier 0 BARRIER", "main waited 4 barrier 0 BARRIER"]


def in_vain(who, kind, name, error, line):
    return [f"{who} wait {kind} {name} 0 {line}", f"{who} waited {kind} {name} {error} {line}"]


EINTR, EDEADLK, ETIMEDOUT = 4, 35, 110
ERRORS = [
    *in_vain("main", 1, "semaphore", ETIMEDOUT, "TIMED_OUT"), *in_vain("main", 1, "semaphore", ETIMEDOUT, "CLOCKED_OUT"),
    POST, "main give 1 other 0 TOO_MANY",
    *in_vain("main", 2, "rwlock", EDEADLK, "RDLOCK"), *in_vain("main", 3, "rwlock", EDEADLK, "WRLOCK"), UNLOCK,
    *in_vain("main", 3, "rwlock", ETIMEDOUT, "WRITE_OUT"), "main give 2 rwlock 0 LEAVE",
    *in_vain("thread", 2, "rwlock", ETIMEDOUT, "READ_OUT"), "main give 2 rwlock 0 LEAVE",
    *in_vain("main", 5, "main", EDEADLK, "OWN_END"), *in_vain("main", 5, "thread", ETIMEDOUT, "JOIN_OUT"),
    *in_vain("thread", 1, "semaphore", EINTR, "SEM_WAIT"),
]
CANCELLED = [record for kind, name, lines in ((1, "semaphore", SEMAPHORES), (5, "thread", JOINS)) for line in lines
             for record in (f"thread wait {kind} {name} 0 {line}", "thread give 1 other 0 CLEANUP")]
HANDLED = a_wait("SEM_WAIT", 1, "semaphore")
HANDLED[1:1] = ["thread give 1 other 0 HANDLER", POST]
# By each case what it prints: what is called, what it returned, and errno, which is 77 before.
RESULTS = {
    "waits": """sem_wait 0 77, sem_timedwait 0 77, sem_clockwait 0 77, rdlock 0 77, timedrdlock 0 77, clockrdlock 0 77,
        wrlock 0 77, timedwrlock 0 77, clockwrlock 0 77, join 42 77, timedjoin 42 77, clockjoin 42 77, signal 0 77,
        broadcast 0 77, barrier 1 77""",
    "at-once": """sem_wait 0 77, sem_timedwait 0 77, sem_clockwait 0 77, rdlock 0 77, timedrdlock 0 77, clockrdlock 0 77,
        wrlock 0 77, timedwrlock 0 77, clockwrlock 0 77, another reader 0 77, join 43 77, timedjoin 43 77,
        clockjoin 43 77, barrier 0 77""",
    "errors": """a time that is past -1 110, a clock that is past -1 110, a wrong time -1 22, a time below 0 -1 22,
        a wrong time of a clock -1 22, a wrong clock -1 22, none of them has taken it 0 77, a post too many -1 75,
        a reader of its own lock 35 77, a writer of its own lock 35 77, a reader and a wrong time 22 77,
        a writer and a wrong time 22 77, a reader and a wrong clock 22 77, a writer and a wrong clock 22 77,
        a writer whose time is past 110 77, a reader whose time is past 110 77, its own end 35 77,
        an end whose time is past 110 77, an end and a wrong clock 22 77, sem_wait -1 4""",
    # glibc's sem_clockwait and joins act on a cancellation only where they wait
    "cancel": """sem_wait 1 0, sem_timedwait 1 0, sem_clockwait 1 0, join 1 0, timedjoin 1 0, clockjoin 1 0, pending 1 1,
        pending 1 1, pending 0 0, pending 0 0, pending 0 0, pending 0 0""",
    "handler": "sem_wait 0 77",
}
CASES = {"waits": WAITS, "at-once": AT_ONCE, "errors": ERRORS, "cancel": CANCELLED, "handler": HANDLED}


def built(folder):
    """Returns the path of the program, with lines of its source."""
    program = pathlib.Path(folder, "others")
    run("cc", "-std=c11", "-g", "-O0", "-pthread", SOURCE, "-o", program)
    return program


def printed(out, word):
    """Returns what is behind the word in the lines that begin with it."""
    return [line.partition(" ")[2] for line in out.splitlines() if line.startswith(f"{word} ")]


def line_names():
    """Returns the names of the lines of the source, by what a file of places has of them."""
    lines = enumerate(SOURCE.read_text().splitlines(), 1)
    return {f"others.c:{number}": line.rpartition("// ")[2] for number, line in lines if "// " in line}


def words_of(path, out, has_lines):
    """Returns the records of waits and gifts, in the order of their numbers, as words."""
    log, names, texts = read(path), line_names(), {}
    objects = {int(at, 16): name for name, at in (line.split() for line in printed(out, "object"))}
    if has_lines:
        texts = {number: names.get(text.decode().partition(" ")[0]) for number, text in
                 places_text.texts_of(log, path).items()}
    said = []
    for record in log.records:
        if record.event in EVENTS:
            who = "main" if record.chunk.task == record.chunk.process else "thread"
            words = [who, EVENTS[record.event], record.detail, objects.get(record.object), record.how]
            said.append(" ".join(map(str, [*words, texts.get(record.place)] if has_lines else words)))
    return said


class Others(Case):
    def test_waits_and_what_ends_them(self):
        """Each case, as it is, and with each way to keep the latest records."""
        program, path = built(self.folder), pathlib.Path(self.folder, "run")
        has_lines = any(map(shutil.which, places_text.SYMBOLIZERS))
        if not has_lines:
            self.skip("the lines of waits", "there is no addr2line")
        for case, wanted in CASES.items():
            wanted = wanted if has_lines else [line.rpartition(" ")[0] for line in wanted]
            results = [line.strip() for line in RESULTS[case].split(",")]
            self.check(f"what calls return unrecorded: {case}", difference(printed(run(program, case).stdout, "result"), results))
            for name, options in OPTIONS.items():
                done = run(RECORD / "pim-record", "-o", path, *options, program, case)
                got = done.returncode, without_imports(done.stderr), *printed(done.stdout, "result")
                self.equal(f"what calls return: {case}{name}", got, (0, "", *results))
                said = words_of(path, done.stdout, has_lines)
                if case == "waits":
                    said[-2:] = sorted(said[-2:])
                log = read(path)
                self.check(f"waits and what ends them: {case}{name}", broken(log) or difference(
                    (log.head.version, log.head.unplaced, *said), (4, 0, *wanted)))
        self.storm(program, path)

    def storm(self, program, path):
        """Each post is put, or counted: in a handler that interrupts the recorder it isn't put."""
        for name, options in OPTIONS.items():
            done = run(RECORD / "pim-record", "-o", path, *options, program, "storm")
            log, results = read(path), [line.split() for line in printed(done.stdout, "result")]
            put = sum(record.event == 28 for record in log.records)
            (_, posts, _), (_, handled, is_handled) = results
            is_whole = is_handled == "1" and int(posts) >= POSTS and int(handled) >= SIGNALLED
            self.check(f"posts in handlers{name}", broken(log) or difference(
                (done.returncode, is_whole, put + log.head.left_out), (0, True, int(posts) + int(handled))))
