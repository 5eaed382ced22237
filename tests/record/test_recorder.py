"""The recorder of record/, its wrapper, its logs and their reader.

Records each program of record/programs, and compares what each thread did with what its source says; sees what the
wrapper does with what can't be recorded, with a full log, with programs that are killed, and at the end of a recording;
records real programs where they are installed; and reads logs that are made by hand, and damaged ones.
"""
import os
import pathlib
import random
import re
import resource
import shutil
import signal
import struct
import subprocess
import time

from tests.cases import Case
from tests.shared.checks import ROOT, SECONDS, children_of, difference, ended, is_gone, until
from tests.record import test_collector
from tests.record import test_kernel
from tests.record.logs import broken, log_of, reader, setUpModule, without_places

RECORD = ROOT / "record"
PROGRAMS = RECORD / "out/programs"
HEADER_BYTES = reader.HEADER_BYTES[2]
SKIPPED = 77


def run(*command, **how):
    """Returns a finished run; one that hangs is killed, and has the status None."""
    try:
        return test_collector.run(*command, **how)
    except subprocess.TimeoutExpired:
        return subprocess.CompletedProcess(command, None, "", "it hangs")


class Recording:
    """A run under pim-record in a folder, and its log."""

    def __init__(self, folder, *command, options=(), **how):
        self.path = pathlib.Path(folder, "run")
        wrapper = how.pop("wrapper", RECORD / "pim-record")
        self.done = run(wrapper, "-o", self.path, *options, *command, **how)
        self.status, self.said = self.done.returncode, self.done.stderr
        self.log = read(self.path) if self.path.exists() else None
        self.others = without_places(self.path.parent.glob("run.*"))

    def fault(self):
        """Returns what is wrong with the log, or None."""
        if self.log is None:
            return f"status {self.status} and no log: {self.said}"
        return broken(self.log)


def read(path):
    return reader.Log(reader.used_bytes(path))


# ---- what each thread did, in words

class Words:
    """Turns the records of a log into words, in which mutexes are a, b .. as they come, and threads t1, t2 .. as they
    were created. Waits for what isn't a mutex are left out: record_others.py plays these."""

    def __init__(self, log):
        self.log, self.mutexes = log, {}
        self.names = {thread: f"t{at}" for at, thread in enumerate(created(log.records), 1)}
        self.tasks = {record.chunk.task: self.names[record.chunk.thread] for record in log.records}
        self.selves = {r.object: self.names[r.chunk.thread] for r in log.records if r.event == reader.THREAD}

    def mutex(self, address):
        return self.mutexes.setdefault(address, chr(ord("a") + len(self.mutexes)))

    def of(self, record):
        event, name = record.event, reader.NAMES[record.event]
        if event in (reader.TEXT, reader.MODULE, reader.PLACE, *reader.WITH_KIND):
            return None
        words = [name]
        if event in reader.OF_MUTEX:
            words.append(self.mutex(record.object))
        if event in (reader.INIT, reader.CEILING):
            words += [word.split("=")[-1] for word in reader.detail_words(record.detail).split()]
        if event in reader.WITH_CALL:
            words += [word.split("=")[-1] for word in reader.call_words(record.how).split()]
        words += [str(record.how)] if event in reader.WITH_ERROR else []
        words += [self.tasks.get(record.value, "?")] if event == reader.REQUEST else []
        words += [record.text.decode()] if event in (reader.NAME, reader.EXEC) else []
        words += [self.names[record.value]] if event == reader.CHILD else []
        words += [f"{record.value}"] if event == reader.END and record.how else []
        if event in reader.WITH_PRIORITY and event != reader.THREAD:
            words += [reader.POLICIES[record.detail & 15], str(record.detail >> 8)]
        if event == reader.PRIORITY:
            words.append(self.selves.get(record.object) or self.tasks.get(record.value, "?"))
        return " ".join(words)

    def threads(self):
        """Returns the words of each thread, without how it began."""
        said = {}
        for record in self.log.records:
            words = self.of(record)
            if words:
                said.setdefault(self.names[record.chunk.thread], []).append(words)
        return {thread: words[2:] for thread, words in sorted(said.items())}


def created(records):
    """Returns the log's numbers of the threads, in the order of their CREATEs. A thread without one is in that of its
    THREAD. Which thread of a program has its first record first may be a race."""
    creates, births = {}, []
    for record in records:
        if record.event == reader.CREATE:
            creates.setdefault((record.chunk.process, record.object), []).append(record.number)
    for record in records:
        if record.event == reader.THREAD:
            its = creates.get((record.chunk.process, record.object))
            births.append((its.pop(0) if its else record.number, record.chunk.thread))
    return [thread for _, thread in sorted(births)]


STORIES = {
    "calls": {"t1": """granted a lock, release a lock, granted a trylock, failed a 16, release a lock,
        granted a timedlock, release a lock, granted a clocklock, request a timedlock t1, failed a 110,
        request a clocklock t1, failed a 110, release a lock,
        granted b lock, granted b lock, release b lock, release b lock, release b lock, release-failed b 1,
        granted c lock, request c lock t1, failed c 35, release c lock, release c lock, release-failed c 1,
        granted d lock, release d lock,
        init e none normal, granted e lock, destroy e, destroy-failed e 16, release e lock, destroy e,
        init e inherit recursive, init e inherit errorcheck, init e protect normal 17, init e none adaptive,
        init e none normal shared, init e none normal robust shared, granted e lock, release e lock,
        name calls-one, name calls-two and w,
        priority batch 0 t1, priority kept 0 t1, priority other 0 t1, priority kept 0 t1, end"""},
    "inversion none": {
        "t1": "priority fifo 50 t1, init a none normal, create fifo 10, create fifo 30, create fifo 20, end",
        "t2": "name low, granted a lock, release a lock, exit",
        "t3": "name high, request a lock t2, granted a lock, release a lock, exit",
        "t4": "name medium, exit"},
    "inversion inherit": {
        "t1": "priority fifo 50 t1, init a inherit normal, create fifo 10, create fifo 30, create fifo 20, end",
        "t2": "name low, granted a lock, release a lock, exit",
        "t3": "name high, request a lock t2, granted a lock, release a lock, exit",
        "t4": "name medium, exit"},
    "chain": {
        "t1": "priority fifo 50 t1, init a inherit normal, init b inherit normal, create fifo 10, create fifo 20, "
              "create fifo 30, end",
        "t2": "granted a lock, release a lock, exit",
        "t3": "granted b lock, request a lock t2, granted a lock, release a lock, release b lock, exit",
        "t4": "request b lock t3, granted b lock, release b lock, exit"},
    "ceiling": {
        "t1": "priority fifo 50 t1, init a protect normal 40, create fifo 20, create fifo 30, priority fifo 35 t1, "
              "ceiling a protect normal 45, create fifo 46, destroy a, end",
        "t2": "granted a lock, release a lock, exit",
        "t3": "failed a 16, request a lock t2, granted a lock, release a lock, exit",
        "t4": "failed a 22, exit"},
    "raises": {
        "t1": "priority fifo 50 t1, init a protect normal 40, create fifo 20, create fifo 30, request a ceiling t2, "
              "failed a 22, destroy a, end",
        "t2": "granted a lock, release a lock, granted a lock, release a lock, exit",
        "t3": "request a ceiling t2, ceiling a protect normal 45, exit"},
    "turns 2": {
        "t1": "priority fifo 50 t1, init a inherit normal, create fifo 20, create fifo 10, end",
        "t2": "request a lock t3, granted a lock, release a lock, request a lock t3, granted a lock, release a lock, "
              "exit",
        "t3": "granted a lock, release a lock, granted a lock, release a lock, exit"},
    "recursive": {
        "t1": "init a inherit recursive, create kept 0, create kept 0, end",
        "t2": "granted a lock, granted a lock, granted a lock, release a lock, release a lock, release a lock, exit",
        "t3": "request a lock t2, granted a lock, release a lock, exit"},
    "condition": {
        "t1": "create kept 0, granted a lock, release a lock, create kept 0, create kept 0, granted a lock, "
              "release a lock, end",
        "t2": "granted a lock, condition, release a condition, granted a condition, release a lock, exit",
        "t3": "granted a lock, condition, release a condition, granted a condition, condition, release a condition, "
              "granted a condition, condition, release a condition, release-failed a 22, release a lock, exit",
        "t4": "granted a lock, condition, release a condition, granted a condition, release a lock, exit"},
    "relock": {
        "t1": "priority fifo 50 t1, init a inherit normal, create fifo 30, create fifo 10, end",
        "t2": "name high, granted a lock, condition, release a condition, granted a condition, release a lock, exit",
        "t3": "name low, granted a lock, release a lock, exit"},
    "robust": {
        "t1": "init a none normal robust, create kept 0, create kept 0, create kept 0, granted a lock owner-died, "
              "release a lock, create kept 0, granted a trylock owner-died, release a lock, failed a 131, end",
        "t2": "granted a lock, condition, release a condition, granted a condition owner-died, release a lock, exit",
        "t3": "granted a lock, exit", "t4": "granted a lock, exit", "t5": "granted a lock, exit"},
    "vforks": {"t1": "granted a lock, release a lock, end"},
    "forks": {
        "t1": "granted a lock, fork, release a lock, end",
        "t2": "child t1, release a lock, create kept 0, end 3",
        "t3": "granted a lock, release a lock, exit"},
}


RACES = {"condition": 1, "robust": 3}  # the thread that may find the mutex owned for an instant, or not


def without_races(name, recording):
    """Leaves out the REQUESTs of a thread that may have one or not."""
    if recording.log and name in RACES:
        kept = [r for r in recording.log.records if (r.event, r.chunk.thread) != (reader.REQUEST, RACES[name])]
        recording.log.records = kept


# ---- other programs of record/programs


def read_count(path):
    with open(path, "rb") as file:
        return int.from_bytes(file.read(88)[80:88], "little")


# ---- the wrapper

def compiled(folder, name, source, *flags):
    path = pathlib.Path(folder, name)
    pathlib.Path(folder, f"{name}.c").write_text(source)
    done = run("cc", path.with_suffix(".c"), "-o", path, *flags)
    return path if done.returncode == 0 else None


SAYS = '#include <stdio.h>\nint main(void) { puts("it ran"); return 0; }\n'


# With an argument it reads memory that is free.
USES_FREED = """#include <pthread.h>
#include <stdlib.h>
static pthread_mutex_t mutex = PTHREAD_MUTEX_INITIALIZER;
int main(int count, char **arguments) {
    char *memory = calloc(1, 8);
    (void)arguments;
    pthread_mutex_lock(&mutex);
    pthread_mutex_unlock(&mutex);
    if (count > 1) free(memory);
    int first = memory[0];
    if (count == 1) free(memory);
    return first;
}
"""


def made_script(folder, name, text):
    path = pathlib.Path(folder, name)
    path.write_text(text)
    path.chmod(0o755)
    return path


def status_of(program):
    """Returns the status of a program that is run as it is, 126 if the kernel refuses it."""
    try:
        return subprocess.run([program], timeout=SECONDS, check=False).returncode
    except OSError:
        return 126


def broken_recorder(folder):
    """Returns the wrapper of a copy of the recorder whose library is no library."""
    copy = pathlib.Path(folder, "copy")
    shutil.copytree(RECORD, copy, symlinks=True)
    (copy / "out/libpim_record.so").write_text("no library\n")
    return copy / "pim-record"


# ---- real programs

def random_bytes(generator, count):
    return generator.getrandbits(8 * count).to_bytes(count, "little")


# ---- logs made by hand, and damaged ones

T, G, R, K = reader.THREAD, reader.GRANTED, reader.RELEASE, 0x24
BEGIN = [(1, T, 0x77, 0, 1 | 30 << 8, 0), (2, T, 0x88, 0, 0, 0)]
INIT = [(1, reader.INIT, 0x5000, 0, K, 0), (1, reader.PLACE, 0x1234, 0, 0, 0)]
PAIR = [(1, G, 0x5000, 7, K, 0), (1, R, 0x5000, 0, K, 0)]
REQUEST = [(1, reader.REQUEST, 0x5000, 100, K, 0)]
RECURSIVE, TEXTS = 0x25, [(1, reader.NAME, 0x77, 3, 0, 0)]
LAWS = {
    "two owners": (BEGIN + PAIR[:1] + [(2, G, 0x5000, 0, K, 0)], "two owners, t1, t2"),
    "an owner that gets it again": (BEGIN + PAIR[:1] * 2, "isn't recursive"),
    "a release by another": (BEGIN + PAIR[:1] + [(2, R, 0x5000, 0, K, 0)], "doesn't own"),
    "a release of what is free": (BEGIN + PAIR + PAIR[1:], "doesn't own"),
    "a recursive one released once too often":
        (BEGIN + [(1, G, 1, 0, RECURSIVE, 0)] * 2 + [(1, R, 1, 0, RECURSIVE, 0)] * 3, "doesn't own"),
    "a thread without THREAD": (BEGIN[:1] + [(2, G, 0x5000, 0, K, 0)], "first record"),
    "a second THREAD": (BEGIN + BEGIN[:1], "first record"),
    "an unknown event": (BEGIN + [(1, 30, 0, 0, 0, 0)], "no event 30"),
    "an unknown call": (BEGIN + [(1, G, 0x5000, 0, K, 6)], "no call 6"),
    "an unknown policy": (BEGIN + [(1, reader.PRIORITY, 0, 9, 4, 0)], "no policy 4"),
    "a detail that isn't one": (BEGIN + [(1, G, 0x5000, 0, 0x2C, 0)], "no detail"),
    "a ceiling without PROTECT": (BEGIN + [(1, G, 0x5000, 0, 0x1124, 0)], "no detail"),
    "a kind that isn't known": (BEGIN + [(1, G, 0x5000, 0, 0x20, 0)], "no detail"),
    "a failure without an error": (BEGIN + [(1, reader.FAILED, 0x5000, 0, 0, 0)], "without an error"),
    "a field that means nothing": (BEGIN + [(1, reader.EXIT, 1, 0, 0, 0)], "field object"),
    "INIT without PLACE": (BEGIN + INIT[:1] + PAIR, "a PLACE"),
    "PLACE without INIT": (BEGIN + INIT[1:], "a PLACE"),
    "CONDITION without its release": (BEGIN + PAIR[:1] + [(1, reader.CONDITION, 9, 0, 0, 0)] + PAIR[1:], "CONDITION"),
    "the release of a wait alone": (BEGIN + PAIR[:1] + [(1, R, 0x5000, 0, K, 4)], "CONDITION"),
    "a child of no fork": (BEGIN + [(2, reader.CHILD, 2, 1, 0, 0)], "no such fork"),
    "an answer of another time": (BEGIN + REQUEST + [(1, G, 0x5000, 9, K, 0)], "began"),
    "an answer of another call": (BEGIN + REQUEST + [(1, G, 0x5000, 10, K, 2)], "call"),
    "a text without its end": (BEGIN + TEXTS + PAIR, "0 bytes of 3"),
    "a part of no text": (BEGIN + [(1, reader.TEXT, 0, 0, 0, 2)], "no part"),
}


def answered(data):
    """Reads, checks and prints a log that may be damaged. Returns whether a fault was found."""
    try:
        log, printed = reader.Log(data), reader.log_to_print(data)
    except reader.NotALog:
        return True
    for record in printed.records:
        reader.line_of(record, log.head.began)
    return bool(reader.Checker(log).run())


class Recorder(Case):
    def tell(self, name, recording, wanted, status=0):
        """Compares what each thread did with the lines that are wanted of it."""
        if recording.status == SKIPPED:
            return self.skip(name, recording.done.stdout.strip())
        fault = recording.fault()
        if fault or recording.status != status:
            return self.check(name, fault or f"status {recording.status}: {recording.said}")
        wanted = {thread: [line.strip() for line in lines.split(",")] for thread, lines in wanted.items()}
        got = Words(recording.log).threads()
        threads = sorted({*got, *wanted})
        self.check(name, difference([(t, got.get(t)) for t in threads], [(t, wanted.get(t)) for t in threads]))

    def test_what_each_thread_did(self):
        for command, wanted in STORIES.items():
            name, *arguments = command.split()
            recording = Recording(self.folder, PROGRAMS / name, *arguments)
            without_races(name, recording)
            self.tell(f"what each thread did: {command}", recording, wanted)
            latest = Recording(self.folder, PROGRAMS / name, *arguments, options=["--last", "1M"])
            without_races(name, latest)
            self.tell(f"what each thread did, with --last: {command}", latest, wanted)
            if name == "condition" and recording.log and shutil.which("nm"):
                self.condition_address(recording.log)
            if name == "inversion" and recording.status == 0:
                self.waited(command, recording.log)
            if name == "vforks" and recording.log:
                self.equal("calls of a child of vfork are counted", (recording.log.head.left_out,), (2,))
            if name == "ceiling" and recording.status == 0:
                told = (reader.REQUEST, reader.GRANTED, reader.RELEASE)
                details = {record.detail for record in recording.log.records if record.event in told}
                self.equal("each call of a PROTECT mutex has its ceiling", (details,), ({40 << 8 | 0x44},))
            if name == "chain" and recording.status == 0:
                self.priorities(recording.log)

    def condition_address(self, log):
        """A CONDITION names the variable, which lies as far from the mutex as in the program's file."""
        lines = [line.split() for line in run("nm", PROGRAMS / "condition").stdout.splitlines()]
        symbols = {line[-1]: int(line[0], 16) for line in lines if len(line) == 3}
        conditions = {record.object for record in log.records if record.event == reader.CONDITION}
        mutex, = {record.object for record in log.records if record.event == reader.RELEASE}
        wanted = {mutex + symbols["condition"] - symbols["mutex"]}
        self.equal("a wait names its condition variable", (conditions,), (wanted,))

    def waited(self, command, log):
        """The thread high waits while medium computes for 100 ms, or only until low unlocks, before medium ends."""
        granted, = [r for r in log.records if r.event == reader.GRANTED and r.chunk.thread == 3]
        medium_ends, = [r.time for r in log.records if r.event == reader.EXIT and r.chunk.thread == 4]
        if "none" in command:
            fits = granted.time > medium_ends and granted.value > 100_000_000
        else:
            fits = granted.time < medium_ends
        self.check(f"how long high waits: {command}", None if fits else f"{granted.value} ns, {granted.time} to {medium_ends}")

    def priorities(self, log):
        """A thread's first record has the priority that it was created with, and its pthread_t."""
        first = [r for r in log.records if r.event == reader.THREAD][1:]
        created = [r for r in log.records if r.event == reader.CREATE]
        got = [(r.object, r.detail) for r in first]
        wanted = [(r.object, 1 | prio << 8) for r, prio in zip(created, (10, 20, 30))]
        self.equal("a thread's first record has its priority", got, wanted)

    def test_programs_that_race_keep_the_laws(self):
        """Programs whose threads race: how many calls there are, and the laws."""
        counts = {"random 1 100": {"thread": 9, "init": 6}, "random 2 100": {"thread": 9, "init": 6},
                  "many": {"thread": 601, "init": 1206, "destroy": 1200, "create": 600, "granted": 4800, "release": 4800},
                  "signals": {"thread": 1}}
        for command, wanted in counts.items():
            recording = Recording(self.folder, PROGRAMS / command.split()[0], *command.split()[1:])
            fault = recording.fault() or (f"status {recording.status}" if recording.status else None)
            if not fault:
                names = [reader.NAMES[record.event] for record in recording.log.records]
                fault = difference([(name, names.count(name)) for name in wanted], list(wanted.items()))
            self.check(f"the laws hold, and all calls are there: {command}", fault)
            if command == "signals":
                records = recording.log.records
                inside = {r.object for r in records if r.event == reader.GRANTED}
                why = None if len(inside) == 2 else f"calls of {len(inside)} mutexes"
                self.check("a handler's calls are recorded, or counted", why)

    def test_a_duration_that_has_no_room(self):
        """A duration that has no room in 32 bits is the greatest number."""
        recording = Recording(self.folder, PROGRAMS / "waits")
        took = [record.value for record in recording.log.records if record.event == reader.FAILED]
        self.check("a wait of more than 4 seconds", recording.fault() or difference((took,), ([2**32 - 1],)))

    def test_a_disk_that_is_full(self):
        """Where the disk is full the log ends, and the program runs on."""
        disk = pathlib.Path(self.folder, "disk")
        disk.mkdir()
        if run("mount", "-t", "tmpfs", "-o", "size=256k", "none", disk).returncode:
            return self.skip("a full disk", "a small file system can't be mounted")
        try:
            recording = Recording(disk, PROGRAMS / "pair", "30000", "2")
            fault = recording.fault() or (None if recording.log.head.lost > 1000 else "nothing was lost")
            self.check("a full disk", f"status {recording.status}" if recording.status else fault)
            os.unlink(recording.path)
            pathlib.Path(disk, "rest").write_bytes(bytes(os.statvfs(disk).f_bavail * os.statvfs(disk).f_bsize))
            recording = Recording(disk, "echo", "it ran")
            return self.refused("a disk that is full from the start", recording, 2, "No space left on device")
        finally:
            run("umount", disk)

    def test_the_header_is_what_the_system_says(self):
        """The header says what the system says of the process."""
        before = time.monotonic_ns(), time.time_ns()
        recording = Recording(self.folder, PROGRAMS / "pair", "7", "2")
        after = time.monotonic_ns(), time.time_ns()
        data, head = recording.path.read_bytes(), recording.log.head
        real, = struct.unpack_from("<Q", data, 56)
        self.check("the log's times are the system's",
                   None if before[0] < head.began < after[0] and before[1] < real < after[1] else f"{head.began}, {real}")
        first = recording.log.records[0]
        got = (head.process, head.known, head.lost, head.left_out, head.command, len(data), head.chunks,
               head.next_thread, head.records)
        command = [str(PROGRAMS / "pair"), "7", "2"]
        length = HEADER_BYTES + head.next_chunk * 16384
        wanted = (first.chunk.process, 7, 0, 0, command, length, ((256 << 20) - HEADER_BYTES) // 16384, 6,
                  len(recording.log.raw))
        self.equal("the header", got, wanted)
        shell = Recording(self.folder, "sh", "-c", "echo $$ $PPID")
        numbers = f"{shell.log.head.process} {shell.log.head.parent}\n"
        self.equal("the process, and the one that started it", (numbers,), (shell.done.stdout,))
        self.equal("a main thread's process is its task", (first.chunk.process,), (first.chunk.task,))
        raw = b"".join(word.encode() + b"\0" for word in command)
        self.check("the command in the header", difference((data[64:68], data[256:256 + len(raw) + 1]),
                                                           (len(raw).to_bytes(4, "little"), raw + b"\0")))
        used = sum(record.event in (reader.GRANTED, reader.RELEASE) for record in recording.log.raw)
        self.equal("a lock and its unlock are two records", (used,), (2 * 2 * 2 * 7,))

    def test_a_place_is_in_the_code(self):
        """A PLACE is in the code of the program: behind CREATE the start routine, behind INIT the caller."""
        recording = Recording(self.folder, PROGRAMS / "chain")
        if recording.status == SKIPPED or not shutil.which("nm"):
            return self.skip("places lead to the source", "no SCHED_FIFO, or no nm")
        symbols = []
        for line in run("nm", PROGRAMS / "chain").stdout.splitlines():
            if line.split()[-2] in "tT":
                symbols.append((int(line.split()[0], 16), line.split()[-1]))
        modules = {r.object: r.text.decode() for r in recording.log.records if r.event == reader.MODULE}
        got, last = [], None
        for record in recording.log.records:
            if record.event == reader.PLACE:
                base = max(base for base in modules if base <= record.object)
                offset = record.object - base
                within = max((symbol for symbol in symbols if symbol[0] <= offset), default=(0, "?"))
                exact = within[0] == offset if last == reader.CREATE else within[0] < offset
                got.append((reader.NAMES[last], modules[base] == str(PROGRAMS / "chain"), within[1], exact))
            last = record.event
        wanted = [("init", True, {"main", "make"}, True)] * 2
        wanted += [("create", True, {name}, True) for name in ("low", "middle", "high")]
        fits = len(got) == 5 and all(g[:2] + g[3:] == w[:2] + w[3:] and g[2].split(".")[0] in w[2]
                                     for g, w in zip(got, wanted))
        self.check("places lead to the source", None if fits else f"{got}")
        libc = any(re.search(r"/libc[.-]", path) for path in modules.values())
        self.check("the loaded files are told", None if libc else f"{modules}")

    def test_each_exec_call(self):
        """Each exec call, with a file that is there and one that isn't: its records, and the log of what it becomes."""
        recording = Recording(self.folder, PROGRAMS / "executes")
        self.check("exec keeps its arguments", recording.fault() or (recording.said if recording.status else None))
        path, wanted = str(PROGRAMS / "executes"), []
        for how in range(9):
            tried = ("exec ", "exec-failed 22") if how == 7 else ("exec /nowhere/at-all", "exec-failed 2")
            last = "exec " if how == 7 else f"exec {path}"
            wanted.append(("child t1", "granted a lock", *tried, "release a lock", last))
        got = Words(recording.log).threads()
        got = [tuple(word for word in words if word != "fork") for thread, words in got.items() if thread != "t1"]
        errors = {"exec-failed 9": "exec-failed 22"}  # of fexecve with no file
        got = [tuple(errors.get(word, word) for word in words) for words in got]
        self.check("each exec is told, and each that failed", difference(sorted(got), sorted(wanted)))
        later = [Words(read(log)).threads() for log in recording.others]
        seen = [{"t1": ["granted a lock", "release a lock", "end"]}] * 9
        self.equal("a program that is started has a log of its own", (later,), (seen,))
        processes = {r.chunk.process for r in recording.log.records} - {recording.log.head.process}
        names = sorted(log.name for log in recording.others)
        self.equal("that log is named for its process", (names,), (sorted(f"run.{p}" for p in processes),))
        recording = Recording(self.folder, PROGRAMS / "executes", "execv", "/bin/true")
        self.tell("a program that becomes another", recording, {"t1": "exec /bin/true"})
        got = [log.name for log in recording.others]
        self.equal("an earlier recording's logs are gone, and a program without calls leaves none", (got,), ([],))

    def test_a_child_by_Fork_is_not_recorded(self):
        """A child by _Fork, and what that forks, isn't recorded. The log has all of its parent's calls."""
        recording = Recording(self.folder, PROGRAMS / "rawforks")
        events = [] if recording.log is None else [record.event for record in recording.log.records]
        got = recording.status, *map(events.count, (reader.GRANTED, reader.RELEASE, reader.FORK, reader.CHILD))
        self.check("a child without fork's handlers", recording.fault() or difference(got, (0, 2001, 2001, 0, 0)))

    def test_a_program_that_is_killed_leaves_its_log(self):
        """A program that is killed leaves its log."""
        for command, status in (("aborts", -signal.SIGABRT), ("aborts kill", -signal.SIGKILL)):
            recording = Recording(self.folder, PROGRAMS / "aborts", *command.split()[1:])
            wanted = {"t1": "granted a lock, create kept 0", "t2": "request a lock t1"}
            self.tell(f"a program that ends so: {command}", recording, wanted, status)
            loaded = [r.text.decode() for r in recording.log.records if r.event == reader.MODULE]
            program = str(PROGRAMS / "aborts")
            self.check(f"its files are told at the start: {command}", None if program in loaded else f"{loaded}")
        path = pathlib.Path(self.folder, "run")
        command = [RECORD / "pim-record", "-o", path, PROGRAMS / "pair", "100000000", "3"]
        child = subprocess.Popen([str(word) for word in command], stdout=subprocess.DEVNULL, stderr=subprocess.DEVNULL)
        until(lambda: path.exists() and read_count(path) > 5000)
        its = children_of(child.pid)
        child.kill()
        child.wait()
        until(lambda: all(map(is_gone, its)))  # its collector writes what is left
        log = read(path)
        counted = sum(record.event == reader.GRANTED for record in log.records)
        few = None if counted > 1000 else f"{counted} calls"
        self.check("the log of a killed recorder is whole", broken(log) or few)

    def test_what_is_left_of_a_program_killed_at_once(self):
        """What a program leaves that is killed as its log appears is replaced by the next recording."""
        path, got = pathlib.Path(self.folder, "run"), []
        record = [str(RECORD / "pim-record"), "-o", str(path)]
        for _ in range(20):
            path.unlink(missing_ok=True)
            child = subprocess.Popen([*record, "sleep", str(SECONDS)], stderr=subprocess.DEVNULL)
            while not path.exists() and child.poll() is None:
                pass
            child.kill()
            ended(child)
            got.append(run(*record, "true").returncode)
        self.check("what a program leaves that is killed at once is replaced", difference(got, [0] * 20))

    def test_a_log_that_is_full(self):
        """A log of one megabyte is full: the program runs on, and the log is exact up to its first lost record."""
        recording = Recording(self.folder, PROGRAMS / "pair", "30000", "2", options=["--size", "1"])
        head = recording.log.head
        self.check("a program with a full log runs on", recording.said if recording.status else None)
        fault = recording.fault()
        pathlib.Path(self.folder, "whole").mkdir()
        whole = Recording(pathlib.Path(self.folder, "whole"), PROGRAMS / "pair", "30000", "2").log.head
        # A wait for a thread's end is there or not: two records for each of four threads.
        other = abs(head.records + head.lost - whole.records)
        self.check("a full log says how many records it lacks", fault or whole.lost or (None if other <= 8 else f"{other} others"))
        room, kept = 63 * 511, head.records
        self.check("no record is lost but for room", None if room - 511 * 6 < kept <= room else f"{kept} of {room}")
        said = run(RECORD / "pim-log", recording.path).stdout.splitlines()[-1]
        self.check("a full log says so at its end",
                   difference((said,), (f"# the log was full: {head.lost} records are missing",)))

    def refused(self, name, recording, status, why):
        """Nothing ran, no log was made, and one line says why."""
        got = (recording.status, recording.done.stdout, recording.log, recording.said.count("\n"), why in recording.said)
        self.check(name, difference(got, (status, "", None, 1, True)) and f"{got[:2]} {recording.said!r}")

    def test_what_cannot_be_recorded_is_not_run(self):
        """What can't be recorded isn't run."""
        dynamic, static = compiled(self.folder, "dynamic", SAYS), compiled(self.folder, "static", SAYS, "-static")
        script = made_script(self.folder, "script", f"#! {static} -x\n")
        self.refused("a static program", Recording(self.folder, static), 2, f"{static} is static: its calls can't be recorded; with --kernel")
        self.refused("a script of a static program", Recording(self.folder, script), 2, "static")
        outer = made_script(self.folder, "outer", f"#!{script}\n")
        self.refused("a script of such a script", Recording(self.folder, outer), 2, "static")
        endless = pathlib.Path(self.folder, "endless")
        of_itself = made_script(self.folder, "endless", f"#!{endless}\n")
        self.refused("a script of itself", Recording(self.folder, of_itself), 126, "interpreters")
        self.refused("a program that isn't there", Recording(self.folder, "./nowhere"), 127, "it isn't there")
        self.refused("a name that isn't there", Recording(self.folder, "pim-no-such-program"), 127, "it isn't there")
        self.refused("an empty name", Recording(self.folder, ""), 127, "it isn't there")
        self.refused("a folder", Recording(self.folder, self.folder), 126, "can't be run")
        self.refused("a file that isn't a program", Recording(self.folder, f"{dynamic}.c"), 126, "can't be run")
        library = Recording(self.folder, dynamic, wrapper=broken_recorder(self.folder))
        self.refused("a library that can't be loaded", library, 2, "the library can't be loaded")
        self.refused("a log that can't be made", Recording(self.folder, dynamic, options=["-o", "/nowhere/run"]), 2, "No such file")
        limit = lambda: resource.setrlimit(resource.RLIMIT_FSIZE, (1 << 20, 1 << 20))
        self.refused("a log beyond the limit of a file", Recording(self.folder, dynamic, preexec_fn=limit), 2, "ulimit -f")
        loader = run("readelf", "-l", dynamic).stdout
        loader = re.search(r"interpreter: (.*)\]", loader)
        other = pathlib.Path(self.folder, "loader")
        if loader:
            shutil.copy(loader[1], other)
            of_other = compiled(self.folder, "other", SAYS, f"-Wl,--dynamic-linker={other}")
            self.refused("a program of another C library", Recording(self.folder, of_other), 2, "another C library")
        for name, at in (("a program of another machine", 18), ("a program of another class", 4)):
            machine = bytearray(dynamic.read_bytes())
            machine[at] ^= 3  # of class 2 makes 1
            pathlib.Path(self.folder, "machine").write_bytes(machine)
            os.chmod(f"{self.folder}/machine", 0o755)
            self.refused(name, Recording(self.folder, f"{self.folder}/machine"), 2, "another machine")
        for place in ("a b", "a:b"):
            shutil.copytree(RECORD, f"{self.folder}/{place}", symlinks=True)
            wrapper = pathlib.Path(self.folder, place, "pim-record")
            self.refused(f"a recorder in {place!r}", Recording(self.folder, dynamic, wrapper=wrapper), 2, "a space or a colon")
        self.interpreters(self.folder, static)
        self.rights(self.folder, dynamic)

    def interpreters(self, folder, static):
        """An interpreter's name ends at a blank; scripts are interpreters of others as often as the kernel takes it."""
        for blank in (" ", "\t"):
            script = made_script(folder, "blank", f"#!{blank}{static}{blank}-x\n")
            self.refused(f"a script of a static program, by {blank!r}", Recording(folder, script), 2, "static")
        script, got, wanted = "/bin/sh", [], []
        for depth in range(1, 8):
            script = made_script(folder, f"script{depth}", f"#!{script}\n")
            got.append(Recording(folder, script).status)
            wanted.append(status_of(script))
        self.equal("scripts of scripts", got, wanted)

    def rights(self, folder, dynamic):
        """A program that is another user's and setuid; as that user, one that can't be read."""
        if os.geteuid():
            return self.skip("a setuid program", "it takes root to make one of another user's")
        setuid = shutil.copy(dynamic, f"{folder}/setuid")
        for name, mode in (("a setuid program", 0o4755), ("a setgid program", 0o2755)):
            os.chown(setuid, 65534, 65534)
            os.chmod(setuid, mode)
            self.refused(name, Recording(folder, setuid), 2, "setuid")
        os.chown(setuid, 0, 0)
        os.chmod(setuid, 0o6755)
        self.check("one's own setuid program is recorded", Recording(folder, setuid).fault())
        os.chmod(setuid, 0o711)
        os.chmod(folder, 0o777)
        os.unlink(f"{folder}/run")
        user = lambda: os.setuid(65534)
        if run(RECORD / "pim-record", "--help", preexec_fn=user).returncode:
            return self.skip("a program that can't be read", "another user doesn't reach the recorder")
        self.refused("a program that can't be read", Recording(folder, setuid, preexec_fn=user), 2, "can't be read")
        capable = shutil.copy(dynamic, f"{folder}/capable")
        if run("setcap", "cap_net_raw+ep", capable).returncode if shutil.which("setcap") else True:
            return self.skip("a program with capabilities", "they can't be set")
        self.refused("a program with capabilities", Recording(folder, capable, preexec_fn=user), 2, "setpriv --ambient-caps")
        self.ambient(folder, capable)
        self.check("root records a program with capabilities", Recording(folder, capable).fault())

    def ambient(self, folder, capable):
        """A copy of a program with capabilities, which it has from its user."""
        copy, own = shutil.copy(capable, f"{folder}/without"), pathlib.Path(folder, "own")
        own.mkdir()
        os.chmod(own, 0o777)
        user = ("setpriv", "--reuid=65534", "--regid=65534", "--clear-groups", "--inh-caps=+net_raw",
                "--ambient-caps=+net_raw")
        if not shutil.which("setpriv") or run(*user, "true").returncode:
            return self.skip("a copy that has its capabilities from its user", "setpriv isn't there, or may not")
        shown = run(*user, RECORD / "pim-record", "-o", own / "sh", "sh", "-c", "grep CapEff /proc/self/status")
        self.check("a recorded program has the capabilities of its user",
                   difference((shown.stdout,), ("CapEff:\t0000000000002000\n",)))
        done = run(*user, RECORD / "pim-record", "-o", own / "run", copy)
        fault = broken(read(own / "run")) if done.returncode == 0 else f"{done.returncode} {done.stderr}"
        self.check("a copy that has its capabilities from its user", fault)

    def test_options_and_what_is_passed_on(self):
        """Options, and what is passed on."""
        for name, options, why in (("no program", [], "which program"), ("no such option", ["-x", "true"], "-x"),
                                   ("a size of letters", ["--size", "many", "true"], "megabytes"),
                                   ("a size of 0", ["--size=0", "true"], "megabytes"),
                                   ("a size too large", ["-s", "1000000", "true"], "megabytes"),
                                   ("a buffer too large", ["-b", "10000000", "true"], "kilobytes"),
                                   ("a long option", ["--sizes", "true"], "--sizes"),
                                   ("no value", ["-s"], "needs a value"), ("no buffer", ["--buffer"], "needs a value")):
            self.refused(name, Recording(self.folder, *options), 2, why)
        self.refused("no value of --kernel-only", Recording(self.folder, "--kernel-only=yes", "true"), 2, "--kernel-only=yes")
        self.refused("the largest values", Recording(self.folder, "-s", "999999", "-b", "9999999", "./nowhere"), 127, "it isn't there")
        helped = run(RECORD / "pim-record", "--help")
        self.equal("--help", (helped.returncode, helped.stdout[:6], helped.stderr), (0, "usage:", ""))
        text = 'printf "%s|" "$@"; cat; echo err >&2; exit 43'
        recording = Recording(self.folder, "--", "sh", "-c", text, "a b", "c'\"d", "", "$e", input="input")
        got = (recording.status, recording.done.stdout, recording.said)
        self.equal("arguments, streams and status are the program's", got, (43, "c'\"d||$e|input", "err\n"))
        self.check("its log is whole", recording.fault())
        script = made_script(self.folder, "plain", "echo $0 $1\n")
        self.check("a script without a first line is the shell's", Recording(self.folder, script, "x").fault())
        self.search(self.folder, script)
        preloaded = Recording(self.folder, "sh", "-c", "echo $LD_PRELOAD", env={**os.environ, "LD_PRELOAD": "libm.so.6"})
        wanted = f"{RECORD}/out/libpim_record.so libm.so.6\n"
        self.equal("another library that is preloaded stays", (preloaded.done.stdout,), (wanted,))
        self.sanitized(self.folder)
        self.other_files(self.folder)
        self.check_sizes_of_files(self.folder)
        self.names(self.folder)
        self.fresh(self.folder)
        named = pathlib.Path(self.folder, "named")
        named.mkdir()
        run(RECORD / "pim-record", script, cwd=named)
        found = [re.sub(r"\d+", "PID", log.name) for log in without_places(named.iterdir())]
        self.equal("a log's name, where none is given", (found,), (["plain.PID.pimlog"],))

    def other_files(self, folder):
        """A log, or what a program left that was killed as it began, is replaced. Other files are kept."""
        pathlib.Path(folder, "run").write_text("a letter\n")
        kept = run(RECORD / "pim-record", "-o", f"{folder}/run", "echo", "it ran")
        got = (kept.returncode, kept.stdout, pathlib.Path(folder, "run").read_text())
        self.equal("a file that isn't a log is kept", got, (2, "", "a letter\n"))
        for name, data in (("an empty log", b""), ("a log without its header", b"pimlog\r\n" + bytes(1 << 20))):
            for log in (pathlib.Path(folder, "run"), pathlib.Path(folder, "run.12")):
                log.write_bytes(data)
            status = run(RECORD / "pim-record", "-o", f"{folder}/run", "true").returncode
            got = (status, pathlib.Path(folder, "run.12").exists())
            self.equal(f"{name}, of a program that was killed as it began, is replaced", got, (0, False))
        pathlib.Path(folder, "run").write_bytes(bytes(1 << 20))
        kept = run(RECORD / "pim-record", "-o", f"{folder}/run", "echo", "it ran")
        self.equal("a file of zeros is kept", (kept.returncode, kept.stdout), (2, ""))
        os.unlink(f"{folder}/run")
        letter = pathlib.Path(folder, "run.12")
        letter.write_text("a letter\n")
        got = (Recording(folder, "true").status, letter.exists())
        self.equal("a file that is named as a log, and isn't one, is kept", got, (0, True))
        letter.unlink()
        beside = pathlib.Path(folder, "run.kernel")
        beside.write_text("a letter\n")
        got = (Recording(folder, "true").status, beside.read_text())
        self.equal("without --kernel a file NAME.kernel is kept", got, (0, "a letter\n"))
        beside.unlink()

    def check_sizes_of_files(self, folder):
        """A log's room, as it is given or not. Its file, and an archive of it, have what was written, and no more."""
        for name, words, chunks in (("--output= and --size=", ["--size=2"], 123), ("no size", [], 16379)):
            path = pathlib.Path(folder, "a=b")
            done = run(RECORD / "pim-record", f"--output={path}", *words, "true")
            log = read(path) if not done.returncode else None
            got = (done.returncode, log and log.head.chunks, log and log.head.next_chunk, path.exists() and path.stat().st_size)
            self.equal(f"a log's room: {name}", got, (0, chunks, 1, HEADER_BYTES + 16384))
        run("tar", "-cf", f"{folder}/archive", "-C", folder, "a=b")
        run("cp", f"{folder}/a=b", f"{folder}/copy")
        copy, archive = pathlib.Path(folder, "copy"), pathlib.Path(folder, "archive").stat().st_size
        most = HEADER_BYTES + 16384
        small = copy.stat().st_blocks * 512 <= most and archive <= most + 10240  # tar pads to 20 blocks of 512 bytes
        self.check("tar and cp of a log", (None if small else f"{archive} bytes") or broken(read(copy)))

    def sanitized(self, folder):
        """A program with AddressSanitizer is recorded, and its faults are found; the options that it is given stay."""
        told = Recording(folder, "sh", "-c", "echo $ASAN_OPTIONS", env={**os.environ, "ASAN_OPTIONS": "detect_leaks=0"})
        wanted = "detect_leaks=0:verify_asan_link_order=0\n"
        self.equal("options of AddressSanitizer stay", (told.done.stdout,), (wanted,))
        used = compiled(folder, "used", USES_FREED, "-fsanitize=address", "-pthread")
        if not used or run(used).returncode:
            return self.skip("a program with AddressSanitizer", "the compiler has none")
        recording = Recording(folder, used)
        self.tell("a program with AddressSanitizer", recording, {"t1": "granted a lock, release a lock, end"})
        found = Recording(folder, used, "freed")
        self.check("its faults are found", None if "heap-use-after-free" in found.said else f"{found.status} {found.said}")
        self.check("its log has its calls", found.fault())

    def names(self, folder):
        """What is at a log's name isn't followed, and a relative name is of the caller's folder."""
        link = pathlib.Path(folder, "link")
        link.symlink_to("/nowhere/run")
        done = run(RECORD / "pim-record", "-o", link, "echo", "it ran")
        got = (done.returncode, done.stdout, link.is_symlink())
        self.equal("a name that is a link to nowhere is kept", got, (2, "", True))
        own = {**os.environ, "PIM_KERNEL": f"{folder}/foreign", "PIM_KERNEL_KB": "8"}
        got = (Recording(folder, "true", env=own).status, pathlib.Path(folder, "foreign").exists())
        self.equal("variables of the recorder's own are left out", got, (0, False))
        relative = pathlib.Path(folder, "relative")
        relative.mkdir()
        text = f"cd / && exec {PROGRAMS}/pair 1"
        done = run(RECORD / "pim-record", "-o", "run", "sh", "-c", text, cwd=relative)
        found = sorted(re.sub(r"\d+", "PID", log.name) for log in without_places(relative.iterdir()))
        self.equal("a relative name", (done.returncode, found), (0, ["run", "run.PID"]))

    def fresh(self, folder):
        """A recorder that is older than its code is built anew."""
        copy = pathlib.Path(folder, "older")
        shutil.copytree(RECORD, copy, symlinks=True)
        library = copy / "out/libpim_record.so"
        for file in (library, copy / "out/pim-launch"):
            os.utime(file, (0, 0))
        done = run(copy / "pim-record", "-o", f"{folder}/run", "true")
        self.equal("a recorder older than its code", (done.returncode, library.stat().st_mtime > 0), (0, True))

    def search(self, folder, script):
        """A program is looked for as execvp does: in the folders of PATH, of which an empty one is the current."""
        first, second = pathlib.Path(folder, "first"), pathlib.Path(folder, "second")
        for place, mode in ((first, 0o644), (second, 0o755)):
            place.mkdir()
            shutil.copy(script, place / "plain")
            (place / "plain").chmod(mode)
        usual = os.environ["PATH"]
        for name, path, wanted in (("the second folder", f"{first}:{second}:{usual}", f"{second}/plain x\n"),
                                   ("the current folder", f"{usual}:", "plain x\n")):
            recording = Recording(folder, "plain", "x", env={**os.environ, "PATH": path}, cwd=folder)
            got = (recording.status, recording.done.stdout.replace("./plain", "plain"))
            self.equal(f"a program in {name} of PATH", got, (0, wanted))
        elsewhere = {**os.environ, "PATH": f"{first}:{usual}"}
        self.refused("a file of PATH that can't be run", Recording(folder, "plain", env=elsewhere, cwd="/"), 126, "can't be run")
        without = {name: value for name, value in os.environ.items() if name != "PATH"}
        done = Recording(folder, "echo", "it ran", env=without).done
        self.equal("a program without PATH", (done.returncode, done.stdout), (0, "it ran\n"))
        launch = [RECORD / "out/pim-launch", RECORD / "out/libpim_record.so", "echo", "it ran"]
        log = {**os.environ, "PIM_RECORD": f"{folder}/direct"}
        for size in ("5", "", "1048576x"):
            done = run(*launch, env={**log, "PIM_RECORD_BYTES": size})
            self.equal(f"a launcher that is given the size {size!r}", (done.returncode, done.stdout), (2, ""))

    def test_fields_of_glibc_at_wrong_places(self):
        """A recorder that looks for glibc's fields at wrong places finds that out, and leaves out what it can't know."""
        wrong = (("type", "DETAIL_TYPE | DETAIL_ROBUST |", "DETAIL_ROBUST |", 0),
                 ("owner", "__data.__owner", "__data.__nusers", 3), ("kind", "__data.__kind", "__data.__spins", 0),
                 ("word", "__data.__lock", "__data.__count", 1), ("ceiling", ">> 19", ">> 20", 5))
        for name, right, other, known in wrong:
            copy = pathlib.Path(self.folder, f"wrong-{name}")
            shutil.copytree(RECORD, copy, ignore=shutil.ignore_patterns("out"))
            inner = copy / "library/inner.h"
            inner.write_text(inner.read_text().replace(right, other))
            quickly = {**os.environ, "CFLAGS": "-O0"}
            recording = Recording(self.folder, PROGRAMS / "calls", wrapper=copy / "pim-record", env=quickly)
            fault = recording.fault()
            if fault:
                self.check(f"a wrong place of the {name} is found out", fault)
                continue
            events = [record.event for record in recording.log.records]
            details = {bool(r.detail) for r in recording.log.records if r.event in (reader.GRANTED, reader.RELEASE)}
            inits = [r.detail for r in recording.log.records if r.event == reader.INIT]
            got = (recording.log.head.known, details, reader.REQUEST in events, recording.log.head.left_out, inits[3])
            # 12 calls of lock, timedlock and clocklock; the fourth INIT is of a PROTECT mutex with ceiling 17
            wanted = (known, {bool(known & 1)}, bool(known & 4), 0 if known & 4 else 12, 0x1144)
            self.equal(f"a wrong place of the {name} is found out", got, wanted)

    def test_real_programs(self):
        data = pathlib.Path(self.folder, "data")
        data.write_bytes(random_bytes(random.Random(1), 400_000) + bytes(2_000_000))
        python = "import threading as t; l=t.Lock(); " \
             "x=[t.Thread(target=l.acquire, args=(True, .1)) for _ in range(4)]; " \
             "[y.start() for y in x]; [y.join() for y in x]; print(len(x))"
        commands = {"pigz": ["pigz", "-p", "4", "-b", "128", "-c", data],
                    "xz": ["xz", "--threads=4", "-0", "--block-size=200000", "-c", data],
                    "python3": ["/usr/bin/python3", "-c", python]}
        for name, command in commands.items():
            if not shutil.which(str(command[0])):
                self.skip(f"a real program: {name}", "it isn't installed")
                continue
            none = subprocess.DEVNULL
            how = {"stdin": none, "stdout": subprocess.PIPE, "stderr": none, "timeout": SECONDS}
            path = pathlib.Path(self.folder, "run")
            plain = subprocess.run(command, **how)
            done = subprocess.run([RECORD / "pim-record", "-o", path, *command], **how)
            log = read(path)
            same = (done.returncode, done.stdout) == (plain.returncode, plain.stdout)
            counted = sum(record.event == reader.GRANTED for record in log.records)
            why = None if same and counted > 10 else f"status {done.returncode}, {counted} calls"
            self.check(f"a real program: {name}", broken(log) or why)
        self.redis(self.folder)

    def redis(self, folder):
        """A server of several threads, which is asked and then ended by a signal."""
        if not all(map(shutil.which, ("redis-server", "redis-benchmark", "redis-cli"))):
            return self.skip("a real program: redis-server", "it isn't installed")
        path, socket = pathlib.Path(folder, "run"), f"{folder}/socket"
        command = [RECORD / "pim-record", "-o", path, "redis-server", "--port", "0", "--unixsocket", socket, "--save", "",
                   "--io-threads", "2", "--dir", folder]
        server = subprocess.Popen([str(word) for word in command], stdout=subprocess.DEVNULL, stderr=subprocess.DEVNULL)
        until(lambda: run("redis-cli", "-s", socket, "ping").stdout == "PONG\n")
        asked = run("redis-benchmark", "-s", socket, "-n", "2000", "-c", "8", "-t", "set,get", "-q")
        server.terminate()
        status = ended(server)
        log = read(path)
        names = {r.text.decode() for r in log.records if r.event == reader.NAME}
        named = any(name.startswith("bio_") for name in names)
        why = None if named and asked.returncode == 0 and status == 0 else f"threads {names}"
        self.check("a real program: redis-server", broken(log) or why)

    def test_the_reader_on_logs_by_hand(self):
        """The reader, on logs that are written by FORMAT.md."""
        good = BEGIN + INIT + PAIR
        good += [(2, reader.REQUEST, 0x5000, 100, K, 0), (2, G, 0x5000, 10, K, 0), (2, R, 0x5000, 0, K, 0)]
        good += [(2, reader.FORK, 0, 0, 0, 0), (1, reader.END, 0, 3, 0, 1)]
        log = reader.Log(log_of(good))
        self.check("a log by hand keeps the laws", broken(log))
        lines = ["1 0.000000010 t1 thread process=100 task=100 self=0x77 policy=fifo priority=30",
                 "2 0.000000020 t2 thread process=100 task=101 self=0x88 policy=other priority=0",
                 "3 0.000000030 t1 init mutex=0x5000 protocol=inherit type=normal",
                 "4 0.000000040 t1 place address=0x1234",
                 "5 0.000000050 t1 granted mutex=0x5000 protocol=inherit type=normal call=lock took=7",
                 "6 0.000000060 t1 release mutex=0x5000 protocol=inherit type=normal call=lock",
                 "7 0.000000070 t2 request mutex=0x5000 protocol=inherit type=normal call=lock owner=100",
                 "8 0.000000080 t2 granted mutex=0x5000 protocol=inherit type=normal call=lock took=10",
                 "9 0.000000090 t2 release mutex=0x5000 protocol=inherit type=normal call=lock",
                 "10 0.000000100 t2 fork", "11 0.000000110 t1 end status=3"]
        got = [reader.line_of(record, log.head.began) for record in log.records]
        self.equal("the lines of a log by hand", (*got, len(got)), (*lines, len(lines)))
        for name, (records, why) in LAWS.items():
            checker = reader.Checker(reader.Log(log_of(records)))
            faults = checker.run() + checker.remarks
            self.check(f"a broken law: {name}", None if any(why in fault for fault in faults) else f"{faults}")
        lost = reader.Log(log_of(good, lost=2, first=10))
        self.equal("what comes behind the first lost record is left out", (len(lost.records),), (9,))
        self.headers(log_of(BEGIN + INIT + PAIR))
        self.numbers(log_of(BEGIN + INIT + PAIR))

    def headers(self, data):
        """A header that isn't one of its version, or that contradicts itself, is refused."""
        wrong = {"the magic": (0, "<B", 0), "version 2 in the form of version 1": (8, "<I", 2), "version 3 in that form": (8, "<I", 3), "version 4": (8, "<I", 4),
                 "another byte order": (12, "<I", 0x04030201), "another header's length": (16, "<I", 8192), "another record's length": (20, "<I", 64),
                 "other chunks": (24, "<I", 511), "a command too long": (64, "<I", 2049), "no next number": (128, "<Q", 0),
                 "no next thread": (200, "<Q", 0), "lost records without a number": (208, "<Q", 1),
                 "a lost number without records": (216, "<Q", 3)}
        for name, (at, form, value) in wrong.items():
            damaged = bytearray(data)
            struct.pack_into(form, damaged, at, value)
            try:
                reader.Log(damaged)
                self.check(f"a header is refused: {name}", "it is read")
            except reader.NotALog:
                self.check(f"a header is refused: {name}")

    def numbers(self, data):
        """Numbers that are missing, doubled, out of order or beyond the end, and heads of chunks."""
        damages = {"a number twice": (4096 + 3 * 32, 5, "another's"),
                   "a number beyond the end": (4096 + 4 * 32, 99, "isn't below"),
                   "a number out of order": (4096 + 32, 3, "higher than one behind"),
                   "numbers that are missing": (128, 50, "missing"),
                   "a record that is missing": (4096 + 64, 0, "is missing")}
        for name, (at, number, why) in damages.items():
            damaged = bytearray(data)
            struct.pack_into("<Q", damaged, at, number)
            if name == "a number out of order":
                struct.pack_into("<Q", damaged, 4096 + 64, 1)  # they change places
            faults = reader.Checker(reader.Log(damaged)).run()
            self.check(f"a broken law: {name}", None if any(why in fault for fault in faults) else f"{faults}")
        heads = {"a chunk's mark": (4096, 1, "no whole head"), "a thread's number": (4096 + 16, 7, "no whole head"),
                 "a chunk's index": (4096 + 20, 1, "from 0 on"), "a time": (4096 + 4 * 32 + 8, 1, "is before")}
        for name, (at, value, why) in heads.items():
            damaged = bytearray(data)
            struct.pack_into("<I", damaged, at, value)
            faults = reader.Checker(reader.Log(damaged)).run()
            self.check(f"a broken law: {name}", None if any(why in fault for fault in faults) else f"{faults}")

    def test_damaged_logs_have_an_answer(self):
        """Each prefix and each changed byte of a small log, and random bytes: an answer."""
        recording = Recording(self.folder, PROGRAMS / "calls")
        data = reader.used_bytes(recording.path)
        used = len(data.rstrip(b"\0"))
        whole = [length for length in range(used) if not answered(data[:length])]
        self.check("each prefix of a log is found to be cut", f"not {whole[:5]}" if whole else None)
        cut = data[:used - 40]
        wanted = (len(cut) - HEADER_BYTES) // 32 - 1  # without the chunk's head
        self.equal("a cut log is read up to its cut", (len(reader.Log(cut).raw),), (wanted,))
        header_end = 256 + len(data[256:4096].rstrip(b"\0"))
        places = [at for at in range(4096, HEADER_BYTES) if data[at]]
        for at in [*range(header_end), *places, *range(HEADER_BYTES, used)]:
            for change in (0x01, 0xFF):
                answered(data[:at] + bytes([data[at] ^ change]) + data[at + 1:])
        self.check("each changed byte of a log is answered")
        generator = random.Random(7)
        for _ in range(100):
            answered(bytes(data[:HEADER_BYTES]) + random_bytes(generator, 3000))
            answered(random_bytes(generator, 5000))
        self.check("random bytes are answered")
        self.command_line(self.folder, recording.path, cut)
        self.streamed(self.folder)

    def streamed(self, folder):
        """What is printed is read meanwhile, a chunk of each thread at a time."""
        recording = Recording(folder, PROGRAMS / "pair", "3000", "3", options=["--size", "1"])
        data = reader.used_bytes(recording.path)
        whole, stream = reader.Log(data), reader.Stream(data)
        first = next(stream.records)
        threads = {chunk.thread for chunk in whole.chunks}
        self.check("the first record takes a chunk of each thread",
                   difference((len(stream.chunks), whole.head.lost > 0), (len(threads), True)))
        self.check("the records of a log as it is printed", difference((first, *stream.records), tuple(whole.records)))

    def command_line(self, folder, path, cut):
        """pim-log as a user meets it."""
        short, text = pathlib.Path(folder, "short"), pathlib.Path(folder, "text")
        short.write_bytes(cut)
        text.write_text("no log\n")
        program = RECORD / "pim-log"
        cases = {"--help": (["--help"], 0, False), "a log": ([path], 0, False),
                 "a log, checked": (["--check", path], 0, False),
                 "a cut log": ([short], 1, True), "a cut log, checked": (["--check", short], 1, False),
                 "a text": ([text], 2, True), "no file": ([f"{folder}/nothing"], 2, True),
                 "a folder": ([folder], 2, True), "no argument": ([], 2, True)}
        for name, (arguments, *wanted) in cases.items():
            done = run(program, *arguments)
            got = (done.returncode, bool(done.stderr))
            broke_off = "it broke off" if "Traceback" in done.stderr else None
            self.check(f"pim-log: {name}", difference(got, wanted) or broke_off)
        done = run("sh", "-c", f"'{program}' '{path}' | head -n 1")
        self.check("pim-log: a reader that ends early", done.stderr or None)

    def test_bench_prints_a_line_for_each_mutex(self):
        """record/bench prints a line for each mutex. A turn has four switches, two changes of a boost, three futex calls."""
        little = ["--pairs", "2000", "--runs", "1"]
        done = run(RECORD / "bench", *little)
        heads = ["mutex", "none", "inherit", "none", "inherit", "load"]
        got = (done.returncode, done.stderr, [line.split()[0] for line in done.stdout.splitlines()])
        self.equal("record/bench", got, (0, "", heads))
        numbers = [line.split()[1:] for line in done.stdout.splitlines()[1:-1]]
        # a thread's 4000 records of a protocol take 8 chunks of 16384 bytes, and the main thread's one
        sizes = [f"{(1 + 2 * threads * 8) * 16384 / (2 * 2000 * threads):.1f}" for threads in (1, 1, 2, 2)]
        whole = all(len(line) == 4 and min(map(float, line)) > 0 for line in numbers)
        self.check("its numbers", difference([line[-1] for line in numbers], sizes) if whole else f"{numbers}")
        names = done.stdout.splitlines()[0].split()
        self.equal("its names", (names,), (["mutex", "threads", "plain", "ns", "recorded", "ns", "bytes"],))
        done = run(RECORD / "bench", "--contended", *little)
        lines = [line.split() for line in done.stdout.splitlines()]
        got = (done.returncode, lines[0][4:6], {len(line) for line in lines[1:-1]})
        self.equal("record/bench --contended", got, (0, ["contended", "ns"], {6}))
        done = run(RECORD / "bench", "--others", *little)
        lines = [line.split() for line in done.stdout.splitlines()]
        # a thread's 2000 records of a kind take 4 chunks, and the main thread's one
        sizes = [f"{(1 + 2 * threads * 4) * 16384 / (2 * 2000 * threads):.1f}" for threads in (1, 1, 2, 2)]
        got = done.returncode, [line[0] for line in lines[1:-1]], [line[-1] for line in lines[1:-1]]
        self.equal("record/bench --others", got, (0, ["semaphore", "rwlock"] * 2, sizes))
        done = run(RECORD / "bench", "--memory", "1")
        lines = [line.split() for line in done.stdout.splitlines()]
        numbers = [list(map(int, line)) for line in lines[1:-2]]
        most = [max(column) for column in list(zip(*numbers))[1:]] or [0, 0, 0]
        # While the program runs, and so shares memory. What names places behind its end may take more for a moment.
        memory, shared = [max(column) for column in list(zip(*[row for row in numbers if row[2]]))[1:3]] or (0, 0)
        fits = lines[-2][2:4] == list(map(str, most[:2])) and 4096 <= shared <= memory - 1024 and memory <= 80 * 1024
        if done.returncode == SKIPPED:
            self.skip("record/bench --memory", "SCHED_FIFO isn't permitted")
        else:
            self.check("record/bench --memory", None if fits else done.stdout + done.stderr)
        self.equal("record/bench --runs 0", (run(RECORD / "bench", "--runs", "0").returncode,), (2,))
        done = run(RECORD / "bench", "--pairs", "0")
        wanted = f"record/bench: {PROGRAMS}/pair 0 1 ended with status 2\n"
        self.equal("record/bench of a run that fails", (done.returncode, done.stderr), (2, wanted))
        self.worst()
        tracefs = test_kernel.Tracefs()
        tracefs.end()
        if tracefs.missing:
            return self.skip("record/bench --kernel", tracefs.missing)
        done = run(RECORD / "bench", "--kernel", *little, "--turns", "2000")
        lines = done.stdout.splitlines()
        heads[-1:] = ["contended", "a", "load"]
        got = (done.returncode, done.stderr, [line.split()[0] for line in lines])
        why = difference(got, (0, "", heads))
        self.check("record/bench --kernel", why)
        form = r"a turn of it: ([\d.]+) events of the kernel, 0.0 lost, (\d+) bytes of NAME.kernel"
        found = None if why else re.fullmatch(form, lines[-2])
        times = [float(word) for word in lines[-3].split()[2:]] if found else []
        fits = found and 4 + 2 + 2 * 3 + 3 <= float(found[1]) < 16 and 15 * 20 < int(found[2]) < 16 * 80
        fits = fits and len(times) == 3 and 0 < min(times)
        self.check("what a turn has", None if fits else done.stdout)

    def worst(self):
        """record/bench --worst prints a line for each run, and the medians of what these say."""
        for threads, kernel in ((["1", "2"], []), (["2"], ["--kernel"])):
            name = " ".join(["record/bench --worst", *kernel])
            done = run(RECORD / "bench", "--worst", *kernel, "--runs", "3", "--milliseconds", "20", "--threads", *threads)
            if done.returncode == SKIPPED:
                return self.skip(name, "SCHED_FIFO isn't permitted, or the rights to --kernel are missing")
            lines = [line.split() for line in done.stdout.splitlines()]
            got = (done.returncode, done.stderr, [line[:2] for line in lines[1:-1]])
            wanted = [[count, line] for count in threads for line in ("1", "2", "3", "median")]
            why = difference(got, (0, "", wanted))
            if why:
                return self.check(name, why)
            numbers = [[float(word) for word in line[2:]] for line in lines[1:-1]]
            columns = 4 if kernel else 3
            fits = all(len(row) == 2 * columns and all(longest * 1000 >= mean > 0 for longest, mean in zip(row[::2], row[1::2]))
                       for row in numbers)
            self.check(name, None if fits else done.stdout)
            for at in range(0, len(numbers), 4):
                runs, medians = numbers[at:at + 3], numbers[at + 3]
                self.check("its medians", difference(medians, [sorted(column)[1] for column in zip(*runs)]))
        return None
