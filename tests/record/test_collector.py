"""The collector: the process of a recording that writes the logs to their files."""
import contextlib
import os
import pathlib
import re
import select
import shutil
import signal
import subprocess
import time

from tests.cases import Case
from tests.shared.checks import (ROOT, SECONDS, children_of, difference, ended, is_gone, orphan_of,
                                 proc_text, until)
from tests.record.logs import broken, reader, setUpModule, without_end, without_places

RECORD = ROOT / "record"
PROGRAMS = RECORD / "out/programs"
CHUNK_RECORDS, CHUNK_BYTES, MEGABYTE, HEADER_BYTES = 511, 16384, 1 << 20, 69632
SLOTS_BYTES = 256 * CHUNK_BYTES + HEADER_BYTES + 8 * 4096  # MANY_SLOTS of record/library/shared.h, and what isn't a slot
OTHER_USER = 65534


def run(*command, **how):
    """Returns a finished run, without the last lines of pim-record."""
    how = {"capture_output": True, "text": True, "timeout": SECONDS, **how}
    done = subprocess.run([str(word) for word in command], **how)
    done.stderr = without_end(done.stderr) if isinstance(done.stderr, str) else done.stderr
    return done


def without_imports(said):
    """Returns what pim-record says, but for the line that tests/record/test_unseen.py tests."""
    return re.sub(r"(?m)^pim-record: \S+ also calls .*\n", "", said)


class Running:
    """A recording that goes on, with the program's streams."""

    def __init__(self, folder, *command, options=(), **how):
        self.path = pathlib.Path(folder, "run")
        words = [RECORD / "pim-record", "-o", self.path, *options, *command]
        pipe = subprocess.PIPE
        how = {"stdin": pipe, "stdout": pipe, "stderr": pipe, "text": True, **how}
        self.child = subprocess.Popen([str(word) for word in words], **how)

    def helper(self, name):
        """Returns the process of this name that pim-record has started, and breaks off if there is none."""
        found = lambda: [it for it in children_of(self.child.pid) if proc_text(it, "comm") == f"{name}\n"]
        return until(lambda: found() or self.child.poll() is not None)[0]

    def says(self, line):
        """Gives the program a line, and returns the next one that it prints."""
        self.child.stdin.write(f"{line}\n")
        self.child.stdin.flush()
        return self.child.stdout.readline().strip()

    def end(self):
        """Ends the program's input, and returns the status and what is left of the streams."""
        out, err = self.child.communicate(timeout=SECONDS)
        return self.child.returncode, out, without_imports(without_end(err or ""))


def number_in(path, at):
    """Returns a number of the header of a log."""
    with open(path, "rb") as file:
        return int.from_bytes(file.read(256)[at:at + 8], "little")


def records_in(path):
    return number_in(path, 80)


def memory_of(process):
    """Returns how much of the recorder's memory is in the process's tables, in bytes."""
    lines = iter(proc_text(process, "smaps").splitlines())
    total = 0
    for line in lines:
        if "memfd:pim-record" in line:
            total += next(1024 * int(it.split()[1]) for it in lines if it.startswith("Rss:"))
    return total


def locked_by(process):
    """Returns how much of its memory a process has locked, in bytes."""
    line, = [it for it in proc_text(process, "status").splitlines() if it.startswith("VmLck:")]
    return 1024 * int(line.split()[1])


def open_files(process):
    """Returns what a process has open, but for what it closes meanwhile."""
    found, place = [], f"/proc/{process}/fd"
    for name in os.listdir(place):
        with contextlib.suppress(FileNotFoundError):
            found.append(os.readlink(f"{place}/{name}"))
    return found


def read(path):
    return reader.Log(reader.used_bytes(path))


def has_pairs(path):
    """Returns whether a log that is still written to is whole by now, and has the end of a program with calls: one of
    a program without calls may be removed meanwhile."""
    try:
        log = read(path)
    except (reader.NotALog, FileNotFoundError):
        return False
    return not broken(log) and counted(log, reader.END) > 0 and counted(log, reader.GRANTED) > 0


def counted(log, event):
    return sum(record.event == event for record in log.records)


# ---- the memory


CLOCK = """#define _GNU_SOURCE
#include <sys/syscall.h>
#include <time.h>
#include <unistd.h>
int clock_gettime(clockid_t clock, struct timespec *now) {
    int result = (int)syscall(SYS_clock_gettime, clock, now);
    now->tv_nsec -= now->tv_nsec % 1000000;
    return result;
}
"""
LOCKS_MEMORY = """\
#include <pthread.h>
#include <stdio.h>
#include <string.h>
#include <sys/mman.h>
static void *work(void *unused) { return unused; }
int main(void) {
    char line[256];
    pthread_t thread;
    if (mlockall(MCL_CURRENT | MCL_FUTURE)) return 77;
    pthread_create(&thread, 0, work, 0);
    pthread_join(thread, 0);
    FILE *status = fopen("/proc/self/status", "r");
    while (fgets(line, sizeof line, status))
        if (strncmp(line, "VmLck:", 6) == 0) fputs(line + 6, stdout);
    return 0;
}
"""


LOCKS_LATE = """\
#include <pthread.h>
static pthread_mutex_t mutex = PTHREAD_MUTEX_INITIALIZER;
static pthread_key_t key;
static void destroy(void *value) {
    pthread_mutex_lock(&mutex);
    pthread_mutex_unlock(&mutex);
    pthread_setspecific(key, value);
}
static void *work(void *unused) {
    pthread_mutex_lock(&mutex);
    pthread_mutex_unlock(&mutex);
    pthread_setspecific(key, &key);
    return unused;
}
int main(void) {
    pthread_t thread;
    pthread_mutex_lock(&mutex);
    pthread_key_create(&key, destroy);
    pthread_mutex_unlock(&mutex);
    for (int i = 0; i < 2; i++) {
        pthread_create(&thread, 0, work, 0);
        pthread_join(thread, 0);
    }
    return 0;
}
"""


# ---- the process


NEVER_MAPPED = """\
#define _GNU_SOURCE
#include <dlfcn.h>
#include <fcntl.h>
#include <stdlib.h>
#include <sys/socket.h>
#include <unistd.h>
ssize_t send(int to, const void *bytes, size_t length, int flags) {
    if (length == 1 && *(const char *)bytes == 'm') {
        open(getenv("SAYS_NOT_MAPPED"), O_CREAT | O_WRONLY, 0600);
        for (;;) pause();
    }
    ssize_t (*real)(int, const void *, size_t, int) = dlsym(RTLD_NEXT, "send");
    return real(to, bytes, length, flags);
}
"""

# What pim-record reads a file's first bytes with. Here the collector goes on as it does so.
READS_LATE = """\
#!/bin/sh
if [ -e {log} ]; then kill -CONT {collector}; fi
while [ -e {log} ]; do sleep 0.02; done
exec {dd} "$@"
"""


# ---- programs that get no log


def calls_of_others(folder):
    """Returns how many grants each log has but that of the recording's first program."""
    return [counted(read(path), reader.GRANTED) for path in without_places(pathlib.Path(folder).glob("run.*"))]


def begun_within(log):
    """Returns how many chunks begin while their thread asks for a mutex or owns one, in a log of threads with one at a
    time."""
    last, is_within, count = {}, {}, 0
    for record in log.records:
        thread = record.chunk.thread
        count += is_within.get(thread, False) and record.chunk.index != last[thread]
        last[thread] = record.chunk.index
        if record.event in (reader.REQUEST, reader.GRANTED, reader.RELEASE):
            is_within[thread] = record.event != reader.RELEASE
    return count


class Collector(Case):
    def test_slots_are_used_again(self):
        """Slots are used again and again. The program touches no page, and has all of its records in the file."""
        pairs, times = CHUNK_RECORDS * 50, 4  # 100 chunks in a round, of 256 slots
        running = Running(self.folder, PROGRAMS / "rounds", "pairs", pairs)
        faults = []
        for number in range(times):
            faults.append(running.says("go"))
            wanted = 2 * pairs * (number + 1)
            until(lambda: records_in(running.path) > wanted)
            if number == 0:
                program, = [it for it in children_of(running.child.pid) if proc_text(it, "comm") == "rounds\n"]
        held, locked = memory_of(program), locked_by(running.helper("pim-collector"))
        self.check("the memory of a log is that of its slots", None if 0 < held <= SLOTS_BYTES else f"{held} bytes")
        if os.geteuid():
            self.skip("its memory is locked", "another user has a limit")
        else:
            self.check("its memory is locked", None if locked >= SLOTS_BYTES - 4096 else f"{locked} bytes")
        self.check("no call of a recorded program touches a page first", difference(faults, ["0"] * times))
        status, _, said = running.end()
        self.equal("its status, and that nothing is said", (status, said), (0, ""))
        log = read(running.path)
        self.check("a log whose slots were used again is whole", broken(log))
        got = counted(log, reader.GRANTED), log.head.lost, log.head.records
        self.equal("it has each call", got, (1 + pairs * times, 0, len(log.raw)))

    def test_a_flood_of_records_loses_none(self):
        """A program that puts records faster than they are written loses none, and waits for nobody."""
        done = run(RECORD / "pim-record", "-o", f"{self.folder}/run", PROGRAMS / "pair", "30000", "2")
        log = read(f"{self.folder}/run")
        got = done.returncode, counted(log, reader.GRANTED), log.head.lost
        self.check("a flood of records", broken(log) or difference(got, (0, 2 * 2 * 30000, 0)))

    def test_a_loss_is_said_as_it_happens(self):
        """A line says that records are lost while the program still runs, once, whichever of its programs it is."""
        program = PROGRAMS / "rounds", "pairs", CHUNK_RECORDS * 40  # a round takes 1.2 MB
        said = "pim-record: the log has no room for what comes now: --size makes it larger, --last keeps the latest ones\n"
        lost = r"pim-record: the log had no room for \d+ records: --size makes it larger, --last keeps the latest ones\n"
        for name, command in ("the program", program), ("what it starts", ("sh", "-c", '"$@"; true', "sh", *program)):
            own = pathlib.Path(self.folder, name)
            own.mkdir()
            running = Running(own, *command, options=["--size", "1"])
            running.says("go")
            is_there = bool(select.select([running.child.stderr], [], [], SECONDS)[0])
            got = running.child.stderr.readline() if is_there else None
            self.check(f"a loss of {name} is said as it happens", difference((got,), (said,)))
            running.says("go")
            out, err = running.child.communicate(timeout=SECONDS)
            first = err.splitlines(True)[0]
            self.check(f"a loss of {name} is said once, and at the end how much it is",
                       None if said not in err and re.fullmatch(lost, first) else err)

    def test_while_the_collector_is_stopped_nothing_is_lost(self):
        """While the collector is stopped the program goes on in more memory, and nothing is lost."""
        pairs, times = CHUNK_RECORDS * 40, 4  # 320 chunks, of 256 slots
        running = Running(self.folder, PROGRAMS / "rounds", "pairs", pairs)
        running.says("go")  # it has its memory
        collector = running.helper("pim-collector")
        os.kill(collector, signal.SIGSTOP)
        faults = [int(running.says("go")) for _ in range(times)]
        os.kill(collector, signal.SIGCONT)
        running.end()
        self.check("a program whose collector is held up touches what it takes", None if faults[-1] > 0 else f"{faults}")
        log = read(running.path)
        got = counted(log, reader.GRANTED), log.head.lost
        self.check("its log has each call", broken(log) or difference(got, (1 + pairs * (1 + times), 0)))

    def test_no_chunk_begins_while_its_thread_owns_a_mutex(self):
        """A thread takes its next chunk before it locks: while it owns a mutex, others would wait for that."""
        for name, program in (("contended", ("locks", "20", "3", "1")), ("others", ("pair", "3000", "2"))):
            path = pathlib.Path(self.folder, name)
            done = run(RECORD / "pim-record", "-o", path, PROGRAMS / program[0], *program[1:])
            log = read(path)
            got = done.returncode, len(log.chunks) > 20, begun_within(log)
            self.check(f"chunks of {name} locks", broken(log) or difference(got, (0, True, 0)))

    def test_a_real_time_thread_finds_a_chunk_that_is_touched(self):
        """Other threads leave chunks that are touched to those of a real-time priority."""
        running = Running(self.folder, PROGRAMS / "rounds", "urgent", CHUNK_RECORDS * 150)  # 300 chunks, of 256 slots
        if not running.says("go").isdigit():
            running.end()
            return self.skip("chunks of a real-time thread", "SCHED_FIFO isn't permitted")
        collector = running.helper("pim-collector")
        os.kill(collector, signal.SIGSTOP)
        faults = [running.says("go") for _ in range(3)]
        os.kill(collector, signal.SIGCONT)
        running.end()
        self.check("no call of a real-time thread touches a page first", difference(faults, ["0"] * 3))
        log = read(running.path)
        return self.check("the log is whole", broken(log) or (f"{log.head.lost} lost" if log.head.lost else None))

    def test_a_priority_that_another_process_sets(self):
        """A thread looks at its priority after a wait of more than a millisecond, unless that may be a ceiling."""
        running = Running(self.folder, PROGRAMS / "levels")
        said = running.child.stdout.readline().strip()
        if not said.isdigit():
            running.end()
            return self.skip("a priority that another process sets", said)
        task = int(said)
        for level in (11, 12, 13, None):
            if level:
                os.sched_setscheduler(task, os.SCHED_FIFO, os.sched_param(level))
            slept = time.monotonic()
            until(lambda: time.monotonic() > slept + 0.002)  # the wait is a long one by then
            running.says("go")
        running.end()
        log = read(running.path)
        found = [(it.chunk.task, it.value, it.detail) for it in log.records if it.event == reader.PRIORITY and it.value]
        wanted = [(task, task, 1 | level << 8) for level in (11, 12, 13)]
        return self.check("a priority that another process sets", broken(log) or difference((found,), (wanted,)))

    def test_short_threads_share_chunks(self):
        """Threads that begin after others have ended use their chunks."""
        running = Running(self.folder, PROGRAMS / "rounds", "threads", "1000", options=["--size", "4"])
        running.says("go")
        status = running.end()[0]
        log, taken = read(running.path), number_in(running.path, 192)
        self.check("1,000 short threads have their records", broken(log) or difference(
            (status, counted(log, reader.THREAD), counted(log, reader.EXIT), log.head.lost), (0, 1001, 1000, 0)))
        shared = len(log.chunks) - taken
        self.check("they take chunks for their records, and not one each", None if taken < 60 and shared > 940 else f"{taken} chunks")
        told = subprocess.run([RECORD / "out/pim-facts", running.path], capture_output=True, text=True, check=False)
        names = [line for line in told.stdout.splitlines() if re.fullmatch(r"thread \d+ 0 rounds", line)]
        self.check("pim-facts finds each of them", difference((told.returncode, len(names)), (0, 1001)))

    def test_a_coarse_clock(self):
        """Where two threads may see the same time, the records are counted."""
        source, library = pathlib.Path(self.folder, "clock.c"), pathlib.Path(self.folder, "clock.so")
        source.write_text(CLOCK)
        run("cc", "-shared", "-fPIC", source, "-o", library)
        for options in ([], ["--last", "4M", "--contended"]):
            own = pathlib.Path(self.folder, f"run{len(options)}")
            own.mkdir()
            random = (PROGRAMS / "random", "1", "300", "ordinary")
            done = run(RECORD / "pim-record", "-o", own / "run", *options, *random, env={**os.environ, "LD_PRELOAD": str(library)})
            log = read(own / "run")
            self.check(f"a coarse clock {' '.join(options)}", broken(log) or difference(
                (done.returncode, log.head.has_times, counted(log, reader.EXIT)), (0, False, 8)))
        done = run(RECORD / "pim-record", "-o", f"{self.folder}/fine", *random)
        log = read(f"{self.folder}/fine")
        self.check("with a fine clock the numbers are times", broken(log) or difference((done.returncode, log.head.has_times), (0, True)))

    def test_a_short_process_takes_a_block_of_the_disk(self):
        """A short process takes a block of the disk, and no room of more."""
        running = Running(self.folder, PROGRAMS / "rounds", "processes", "100", options=["--size", "4"])
        for number in range(6):
            # What a chunk of an ended process doesn't take is room once the collector has seen the end.
            until(lambda: running.path.exists() and number_in(running.path, 32) - number_in(running.path, 192) >= 100)
            running.says("go")
            until(lambda: number_in(running.path, 192) > 100 * (number + 1))  # a chunk of each
        status = running.end()[0]
        log, data = read(running.path), running.path.stat()
        taken = number_in(running.path, 192)
        self.check("600 short processes in a log that has room for 251 chunks", broken(log) or difference(
            (status, counted(log, reader.CHILD), log.head.lost, taken >= 601), (0, 600, 0, True)))
        wanted = HEADER_BYTES + taken * 4096 + MEGABYTE // 4
        self.check("each takes a block of the disk", None if data.st_blocks * 512 <= wanted else f"{data.st_blocks} blocks")
        self.check("the file is as long as the chunks that were taken",
              difference((data.st_size, log.head.chunks > 251), (HEADER_BYTES + taken * CHUNK_BYTES, True)))

    def test_a_program_that_locks_its_memory(self):
        """A program that locks its memory locks as much of the recorder's as is mapped at a time."""
        path = pathlib.Path(self.folder, "locks")
        pathlib.Path(self.folder, "locks.c").write_text(LOCKS_MEMORY)
        built = run("cc", "-pthread", f"{path}.c", "-o", path)
        plain = run(path)
        if built.returncode or plain.returncode:
            return self.skip("a program that locks its memory", "it isn't permitted")
        done = run(RECORD / "pim-record", "-o", f"{self.folder}/run", path)
        more = 1024 * (int(done.stdout.split()[0]) - int(plain.stdout.split()[0])) if done.stdout else None
        fits = more is not None and SLOTS_BYTES - 4096 <= more < SLOTS_BYTES + MEGABYTE // 2
        self.check("a program that locks its memory", None if fits else f"{more} bytes more, {done.returncode}")

    def test_records_after_the_exit_of_a_thread(self):
        """Records behind a thread's EXIT are in another chunk of the thread."""
        path = pathlib.Path(self.folder, "late")
        pathlib.Path(self.folder, "late.c").write_text(LOCKS_LATE)
        built = run("cc", "-pthread", f"{path}.c", "-o", path)
        done = run(RECORD / "pim-record", "-o", f"{self.folder}/run", path)
        log = read(f"{self.folder}/run")
        own = [r for r in log.records if r.chunk.thread == 2]
        got = built.returncode, done.returncode, [(reader.NAMES[r.event], r.chunk.index) for r in own[-3:]]
        wanted = 0, 0, [("exit", 0), ("granted", 1), ("release", 1)]
        self.check("what a thread locks behind its EXIT", broken(log) or difference(got, wanted))

    def test_no_process_of_the_recorder_has_a_real_time_priority(self):
        """No process of the recorder has a real-time priority, whatever the program's is."""
        fifo = lambda: os.sched_setscheduler(0, os.SCHED_FIFO, os.sched_param(5))
        try:
            running = Running(self.folder, PROGRAMS / "keys", preexec_fn=fifo)
        except subprocess.SubprocessError:
            return self.skip("the priorities of a recording", "SCHED_FIFO isn't permitted")
        program = int(running.child.stdout.readline().split()[1][:-1])
        processes = (program, running.child.pid, running.helper("pim-collector"))
        policies = [os.sched_getscheduler(process) for process in processes]
        running.child.terminate()
        running.end()
        self.check("the recorder and its collector have no real-time priority",
                          difference(policies, [os.SCHED_FIFO, os.SCHED_OTHER, os.SCHED_OTHER]))

    def test_a_program_whose_collector_is_killed_runs_on(self):
        """A program whose collector is killed runs on, and the last line says what is missing."""
        running = Running(self.folder, PROGRAMS / "rounds", "pairs", "1000")
        said = [running.says("go")]
        os.kill(running.helper("pim-collector"), signal.SIGKILL)
        said += [running.says("go"), *running.end()[::2]]
        wanted = ["0", "0", 0, f"pim-record: {running.path} isn't whole: what writes it was killed\n"]
        self.equal("a collector that is killed", said, wanted)

    def test_what_was_put_is_written_if_the_recorder_is_killed(self):
        """Where pim-record is killed, or all of its group, the program ends, and the collector writes all that was put."""
        for name, kill in (("recorder", os.kill), ("group", os.killpg)):
            running = Running(self.folder, PROGRAMS / "rounds", "pairs", "1000", start_new_session=True)
            running.says("go")
            collector, program = running.helper("pim-collector"), running.helper("rounds")
            kill(running.child.pid, signal.SIGKILL)
            gone = until(lambda: is_gone(program)) and until(lambda: is_gone(collector))
            self.check(f"a {name} that is killed leaves no process", None if gone else "the program goes on, or the collector")
            running.end()
            log = read(running.path)
            calls = counted(log, reader.GRANTED)
            self.check(f"the log of a killed {name} has each call", broken(log) or difference((calls,), (1001,)))

    def test_an_unused_log_is_removed_while_the_next_recording_looks_at_it(self):
        """The collector of a killed recording removes its unused log while the next recording looks at it."""
        shim, path = pathlib.Path(self.folder, "shim.so"), pathlib.Path(self.folder, "bin")
        pathlib.Path(self.folder, "shim.c").write_text(NEVER_MAPPED)
        built = run("cc", "-shared", "-fPIC", pathlib.Path(self.folder, "shim.c"), "-o", shim)
        waits = pathlib.Path(self.folder, "waits")
        stays = {"LD_PRELOAD": str(shim), "SAYS_NOT_MAPPED": str(waits)}
        running = Running(self.folder, PROGRAMS / "pair", "10", env={**os.environ, **stays})
        until(waits.exists)
        collector = running.helper("pim-collector")
        os.kill(collector, signal.SIGSTOP)
        running.child.kill()
        running.end()
        path.mkdir()
        reads_late = pathlib.Path(path, "dd")
        reads_late.write_text(READS_LATE.format(log=running.path, collector=collector, dd=shutil.which("dd")))
        reads_late.chmod(0o755)
        there = running.path.exists()
        late = {"PATH": f"{path}:{os.environ['PATH']}"}
        next_one = Running(self.folder, PROGRAMS / "pair", "10", env={**os.environ, **late})
        status, _, said = next_one.end()
        gone = until(lambda: is_gone(collector))
        got = built.returncode, waits.exists(), there, status, said, bool(gone)
        self.equal("a log that is removed as the next recording looks at it", got, (0, True, True, 0, "", True))
        self.check("that recording's log", broken(read(next_one.path)))

    def test_what_outlives_pim_record_is_recorded_on(self):
        """What outlives pim-record is recorded on, and so is what it starts then."""
        text = f"exec 3<&0; (read line <&3; {PROGRAMS}/pair 10; echo done >&2; read line <&3; exit 7) & echo there;" \
           f" until [ -e {self.folder}/go ]; do sleep 0.02; done"
        ours, its = os.pipe()
        running = Running(self.folder, "sh", "-c", text, stderr=its)
        os.close(its)
        there = running.child.stdout.readline()
        collector = running.helper("pim-collector")
        files = open_files(collector)
        self.check("a collector keeps no stream open", f"{files}" if any(it.startswith("pipe:") for it in files) else None)
        pathlib.Path(self.folder, "go").touch()
        status = ended(running.child)
        running.child.stdin.write("go\n")
        running.child.stdin.flush()
        with os.fdopen(ours) as said:
            line = without_end(said.readline()) + said.readline()
            started = until(lambda: [it for it in pathlib.Path(self.folder).glob("run.*") if has_pairs(it)])
            goes_on = not is_gone(collector)
            running.child.stdin.close()
            rest = said.read()
        gone = until(lambda: is_gone(collector))
        running.child.stdout.close()
        got = (there, status, line, rest, goes_on, bool(gone))
        self.equal("a daemon that outlives pim-record", got, ("there\n", 0, "done\n", "", True, True))
        log = read(started[0]) if started else None
        calls = counted(log, reader.GRANTED) if log else None
        self.equal("a program that it starts has its log", (len(started), calls), (1, 20))
        log = read(running.path)
        statuses = [r.value for r in log.records if r.event == reader.END and r.how]
        self.check("its own last record is there", broken(log) or (None if 7 in statuses else f"{statuses}"))

    def test_a_program_of_another_user_runs_unrecorded(self):
        """A program of another user runs unrecorded, and the last line says so."""
        if os.geteuid() or not shutil.which("setpriv"):
            return self.skip("a program of another user", "it takes root, and setpriv")
        one = f"setpriv --reuid={OTHER_USER} --clear-groups echo it ran"
        for name, text, wanted in (
                ("a program of another user", one, "1 program that it started wasn't recorded: it ran as another user"),
                ("two of them", f"{one}; {one}",
                 "2 programs that it started weren't recorded: they ran as another user")):
            done = run(RECORD / "pim-record", "-o", f"{self.folder}/run", "sh", "-c", text)
            times = text.count("it ran")
            got = (done.returncode, done.stdout, done.stderr)
            self.equal(name, got, (0, "it ran\n" * times, f"pim-record: {wanted}\n"))

    def test_a_library_that_reaches_no_collector_records_nothing(self):
        """A library that reaches no collector records nothing, says so, and changes nothing else."""
        library = {"LD_PRELOAD": f"{RECORD}/out/libpim_record.so"}
        for name in ("pim-record-nobody", f"{self.folder}/direct", "n" * 200):
            done = run(PROGRAMS / "pair", "10", env={**os.environ, **library, "PIM_RECORD": name})
            lines = [line.split()[0] for line in done.stdout.splitlines()]
            got = (done.returncode, lines, done.stderr.count("\n"), "isn't recorded" in done.stderr, os.listdir(self.folder))
            self.equal(f"a library without a collector: {name[:20]}", got, (0, ["none", "inherit"], 1, True, []))

    def test_a_program_whose_file_cannot_be_made_runs_unrecorded(self):
        """A program that is started, and whose file can't be made, runs unrecorded, and the last line says why."""
        name, text = "n" * 254, f"{PROGRAMS}/pair 10 > /dev/null; echo it ran"
        done = run(RECORD / "pim-record", "-o", f"{self.folder}/{name}", "sh", "-c", text)
        wanted = "pim-record: 1 of the programs that it started got no log: File name too long\n"
        self.check("a program whose log can't be made", difference((done.returncode, done.stdout, done.stderr),
                                                                   (0, "it ran\n", wanted)))

    def namespace(self, name, *flags):
        """Returns whether a namespace can be made, and says so if not."""
        if shutil.which("unshare") and run("unshare", *flags, "true").returncode == 0:
            return True
        self.skip(name, "none can be made")
        return False

    def test_a_program_in_another_network_namespace(self):
        """A program in another network namespace finds the collector by a path, which is gone at the end."""
        name = "a program in another network namespace"
        if not self.namespace(name, "--net"):
            return
        sockets, long_name = pathlib.Path(self.folder, "sockets"), pathlib.Path(self.folder, "n" * 90)
        recorder = [RECORD / "pim-record", "-o", f"{self.folder}/run", "unshare", "--net", PROGRAMS / "pair", "10"]
        for place in (sockets, long_name):
            place.mkdir()
        for words, folders in (("XDG_RUNTIME_DIR", {"XDG_RUNTIME_DIR": sockets, "TMPDIR": "/nowhere"}),
                               ("TMPDIR", {"XDG_RUNTIME_DIR": "/nowhere", "TMPDIR": sockets}),
                               ("a path that is too long", {"XDG_RUNTIME_DIR": long_name, "TMPDIR": sockets}),
                               ("a relative path", {"XDG_RUNTIME_DIR": "sockets", "TMPDIR": sockets})):
            done = run(*recorder, env={**os.environ, **{k: str(v) for k, v in folders.items()}}, cwd=self.folder)
            got = (done.returncode, done.stderr, calls_of_others(self.folder), [*sockets.iterdir(), *long_name.iterdir()])
            self.equal(f"{name}, by {words}", got, (0, "", [20], []))
        hidden = f"mount -t tmpfs none {sockets}; exec {PROGRAMS}/pair 10"
        for flags, wanted in ((["--mount"], ([20], "")), (["--mount", "--net"], ([], "isn't recorded"))):
            done = run(*recorder[:-3], "unshare", *flags, "sh", "-c", hidden,
                       env={**os.environ, "XDG_RUNTIME_DIR": str(sockets)})
            got = ([calls for calls in calls_of_others(self.folder) if calls], wanted[1] in done.stderr)
            why = difference((done.returncode, *got, [*sockets.iterdir()]), (0, wanted[0], True, []))
            self.check(f"a program that doesn't see the path, in another {' and '.join(flags)}", why)

    def test_the_socket_is_gone_whoever_was_killed(self):
        """The path is gone whoever was killed: the collector, pim-record, or nobody, where a daemon goes on."""
        sockets = pathlib.Path(self.folder, "sockets")
        sockets.mkdir()
        own = {"env": {**os.environ, "XDG_RUNTIME_DIR": str(sockets)}}
        got = []
        for name in ("pim-collector", "pim-record"):
            running = Running(self.folder, PROGRAMS / "rounds", "pairs", "1", **own)
            running.says("go")
            collector = running.helper("pim-collector")
            there = len([*sockets.glob("pim-record-*/socket")])
            os.kill(collector if name == "pim-collector" else running.child.pid, signal.SIGKILL)
            running.end()
            until(lambda: is_gone(collector))
            got += [there, [*sockets.iterdir()]]
        self.check("a socket's path is removed by who is left", difference(got, [1, [], 1, []]))

    def test_a_program_with_another_root(self):
        """A program with another folder as its root has its log beside the others."""
        if os.geteuid() or not shutil.which("chroot"):
            return self.skip("a program with another root", "it takes root, and chroot")
        root = pathlib.Path(self.folder, "root")
        root.mkdir()
        text = f"mount --bind / {root} && exec chroot {root} {PROGRAMS}/pair 10"
        done = run("unshare", "--mount", RECORD / "pim-record", "-o", f"{self.folder}/run", "sh", "-c", text)
        calls = calls_of_others(self.folder)
        self.equal("a program with another root", (done.returncode, done.stderr, 20 in calls), (0, "", True))

    def test_a_program_that_cannot_be_executed_leaves_no_log(self):
        """A program that can't be executed after all leaves no log, and no process."""
        busy = shutil.copy("/bin/true", f"{self.folder}/busy")
        with open(busy, "r+b"):
            done = run(RECORD / "pim-record", "-o", f"{self.folder}/run", busy)
        got = (done.returncode, done.stdout, "Text file busy" in done.stderr, done.stderr.count("\n"), os.listdir(self.folder))
        self.equal("a program that can't be executed", got, (126, "", True, 1, ["busy"]))

    def test_an_allocator_that_calls_prctl(self):
        """An allocator that calls prctl under a lock of its own, before any constructor, doesn't wait for itself: the lock
        and the unlock that follow are there."""
        path = pathlib.Path(self.folder, "run")
        done = run(RECORD / "pim-record", "-o", path, "timeout", "200", PROGRAMS / "allocates")
        logs = [read(its) for its in sorted(path.parent.glob("run.[0-9]*")) if its.suffix != ".places"]
        counts = [[counted(log, event) for event in (reader.GRANTED, reader.RELEASE)] for log in logs]
        self.check("an allocator that calls prctl", next(filter(None, map(broken, logs)), None) or difference(
            (done.returncode, counts), (0, [[1, 1]])))

    def test_a_recording_leaves_no_process(self):
        """A recording that has ended leaves no process, dead or alive, to the one that adopts orphans."""
        status, left, said = orphan_of(RECORD / "pim-record", "-o", f"{self.folder}/run", PROGRAMS / "pair", "10")
        self.equal("a recording leaves no process behind", (status, left, without_end(said)), (0, ["none"], ""))
