"""pim-record --pid, which records the kernel's events of a program that runs already.

What is waited for is seen in the instance, or said by the program: no check waits for a time.
"""
import ctypes
import errno
import mmap
import os
import pathlib
import platform
import re
import signal
import subprocess

from tests.cases import Case
from tests.shared.checks import difference, ended, proc_text, stat_of, threads_of, until
from tests.record.test_futex import differs, said_waits
from tests.record.logs import setUpModule, without_end
from tests.record.test_kernel import (PROGRAMS, RECORD, Traced, end_started, faults_of, kernel_text, run,
                                      start)

FUTEX = {"x86_64": 202, "aarch64": 98}  # the number of the call
WAKE = 1


def started(*words, **how):
    return start(*words, **{"stdin": subprocess.PIPE, **how})


def sleeper():
    """Starts a program that runs until it is killed, and says its number itself."""
    child = started("sh", "-c", "echo ready; exec sleep 100000")
    child.stdout.readline()
    until(lambda: proc_text(child.pid, "comm") == "sleep\n")
    return child


class Attached:
    """A recording of a program that runs, which has begun."""

    def __init__(self, tracefs, folder, process, *options, **how):
        self.path = pathlib.Path(folder, "run.kernel")
        self.before = self.path.read_bytes() if self.path.exists() else None
        words = ("--pid", process, "-o", pathlib.Path(folder, "run"), *options)
        self.child = started(RECORD / "pim-record", *words, **how)
        self.has_begun = until(lambda: self.is_whole_head() or self.child.poll() is not None)
        self.instances = tracefs.own()

    def is_whole_head(self):
        """Returns whether the head is there. An earlier file is removed as the recording begins."""
        try:
            data = self.path.read_bytes()
        except FileNotFoundError:
            return False
        return data != self.before and data.count(b"\n") >= len(kernel_text.HEAD)

    def end(self):
        """Waits for its end. Returns the status and what it said."""
        status = ended(self.child)
        return status, self.child.stdout.read() + without_end(self.child.stderr.read())

    def text(self):
        return kernel_text.KernelText(self.path.read_bytes())


def wake_outside(path, process):
    """Wakes a process that waits at the first word of a file. Returns whether it slept."""
    call = ctypes.CDLL(None, use_errno=True).syscall
    with open(path, "r+b") as file, mmap.mmap(file.fileno(), 4) as words:
        word = ctypes.c_uint32.from_buffer(words)
        number = FUTEX[platform.machine()]
        asleep = until(lambda: stat_of(process)[:1] == ["S"])
        woken = until(lambda: call(number, ctypes.byref(word), WAKE, 1, None, None, 0) == 1)
        del word
    return bool(asleep and woken)


ALONE = "records the kernel's events alone"
REFUSED = {
    "a program": (("--pid", "1", "true"), "it takes no program, as true"),
    "a program behind --": (("--pid", "1", "--", "true"), "it takes no program, as true"),
    "--size": (("--pid", "1", "--size", "1"), f"{ALONE}: --size"),
    "--last": (("--last", "4M", "--pid", "1"), f"{ALONE}: --last"),
    "--kernel": (("--pid", "1", "--kernel"), f"{ALONE}: --kernel"),
    "--kernel-only": (("--kernel-only", "--pid", "1"), f"{ALONE}: --kernel"),
    "--contended": (("--pid", "1", "--contended"), f"{ALONE}: --contended"),
    "--trigger": (("--pid", "1", "--trigger", "1s"), f"{ALONE}: --trigger"),
    "--snapshots": (("--pid", "1", "--snapshots", "2"), f"{ALONE}: --snapshots"),
    "no number": (("--pid",), "--pid needs a value"),
    "nothing": (("--pid=",), "is its number"),
    "letters": (("--pid", "1a"), "is its number"),
    "0": (("--pid", "0"), "is its number"),
    "a path": (("--pid", "self"), "is its number"),
    "a time without a unit": (("--pid", "1", "--for", "10"), "the time of --for"),
    "no time": (("--pid", "1", "--for="), "the time of --for"),
    "0 minutes": (("--pid", "1", "--for", "0m"), "the time of --for"),
    "a minute of letters": (("--pid", "1", "--for", "xm"), "the time of --for"),
    "hours": (("--pid", "1", "--for", "1h"), "the time of --for"),
    "minutes beyond what fits": (("--pid", "1", "--for", "1000000m"), "the time of --for"),
    "--for alone": (("--for", "1s", "true"), "--for goes with --pid"),
    "a buffer of letters": (("--pid", "1", "--buffer", "x"), "kilobytes"),
}


def files_of(folder):
    return {path.name: path.read_text() for path in pathlib.Path(folder).glob("none*")}


class OfAProgramThatRuns(Traced):
    def test_a_program_with_threads(self):
        """A program with threads, which waits and makes one more after the recording has begun, and goes on after it."""
        words = pathlib.Path(self.folder, "words")
        words.write_bytes(bytes(4))
        program = started(PROGRAMS / "futexes", "attach", words)
        self.equal("attached: the program is ready", (program.stdout.readline(),), ("ready\n",))
        before = threads_of(program.pid)
        status = proc_text(program.pid, "status")
        recording = Attached(self.tracefs, self.folder, program.pid)
        self.equal("attached: the recording has begun", (recording.has_begun, recording.instances and True), (True, True))
        chosen = (self.tracefs.instances / recording.instances[0] / "set_event_pid").read_text().split()
        self.equal("attached: its threads are chosen", (set(map(int, chosen)), len(before)), (before, 3))
        traced = [line for line in proc_text(program.pid, "status").splitlines() if line.startswith("TracerPid")]
        self.equal("attached: the program isn't traced", (traced, "TracerPid:\t0" in status), (["TracerPid:\t0"], True))
        program.stdin.write("go\n")
        program.stdin.flush()
        said = [program.stdout.readline() for _ in range(4)]
        outside = wake_outside(words, program.pid)
        said += [program.stdout.readline() for _ in range(2)]
        self.equal("attached: the program did all", (said[3], outside, said[5]), ("outside\n", True, "done\n"))
        recording.child.send_signal(signal.SIGINT)
        self.check("attached: SIGINT ends the recording, not the program",
                   difference((*recording.end(), program.poll(), self.tracefs.own()), (0, "", None, [])))
        self.waits_attached(recording, program, said)
        program.stdin.write("go\n")
        program.stdin.flush()
        self.equal("attached: the program ends as it would", (ended(program), program.stderr.read()), (0, ""))

    def waits_attached(self, recording, program, said):
        """The waits are those that the program knows of; of the one that had begun before nothing is said."""
        early, new = map(int, re.fullmatch(r"early (\d+) new (\d+)\n", said[0]).groups())
        wanted = said_waits([*said[1:3], said[4]], outside=os.getpid())
        self.check("attached: the waits and the wakes are those of the program", differs(recording.path.read_bytes(), wanted))
        text = recording.text()
        self.equal("attached: the head has the process", (text.head.process, text.head.version), (program.pid, 2))
        of_early = {event.what for event in text.events if event.task == early and event.what in ("wait", "return")}
        woken = {event.what for event in text.events if event.what == "wake" and event.values == (early,)}
        ran = any(event.what == "switch" and event.task == early for event in text.events)
        self.equal("attached: a wait that had begun before", (of_early, woken, ran), (set(), set(), True))
        ran = any(event.what == "switch" and event.task == new for event in text.events)
        self.check("attached: a thread that was made later is recorded", None if ran else f"{new} isn't")
        done = run(RECORD / "pim-log", "--check", recording.path)
        self.equal("attached: pim-log --check", (done.returncode, done.stderr), (0, ""))

    def test_the_recording_ends_with_the_program(self):
        """The recording ends with the program, also while the program's threads are looked for."""
        program = sleeper()
        recording = Attached(self.tracefs, self.folder, program.pid)
        program.kill()
        program.wait()
        self.equal("--pid of a program that ends", (*recording.end(), self.tracefs.own()), (0, "", []))
        self.check("the file of a program that ends is whole", "; ".join(faults_of(recording.path.read_bytes())))

    def test_signals_and_for_end_the_recording(self):
        """--for ends it, no sooner; SIGTERM and SIGHUP do. The program goes on."""
        program = sleeper()
        for option, least in ((("--for", "300ms"), 300), (("--for=200000us",), 200), (("-f", "1s"), 1000)):
            recording = Attached(self.tracefs, self.folder, program.pid, *option)
            self.equal(f"--pid with {' '.join(option)}", (*recording.end(), self.tracefs.own()), (0, "", []))
            text = recording.text()
            took = (text.end[0] - text.head.began) / 1e6
            self.check("it takes as long", None if least <= took else f"{took} ms")
        for number in (signal.SIGTERM, signal.SIGHUP):
            recording = Attached(self.tracefs, self.folder, program.pid, "--for", "2m")
            recording.child.send_signal(number)
            self.equal(f"{number.name} ends it", (*recording.end(), self.tracefs.own()), (0, "", []))
            self.check("its file is whole", "; ".join(faults_of(recording.path.read_bytes())))
        self.ignores(self.tracefs, self.folder, program)
        self.equal("the program goes on", (program.poll(),), (None,))
        program.kill()

    def ignores(self, tracefs, folder, program):
        """What nohup or the & of a script has ignored doesn't end it: SIGTERM does."""
        def ignore():
            for number in (signal.SIGHUP, signal.SIGINT):
                signal.signal(number, signal.SIG_IGN)
        recording = Attached(tracefs, folder, program.pid, "--for", "1s", preexec_fn=ignore)
        for number in (signal.SIGHUP, signal.SIGINT):
            recording.child.send_signal(number)
        got = (*recording.end(), (recording.text().end[0] - recording.text().head.began) >= 10**9)
        self.equal("signals that are ignored don't end it", got, (0, "", True))
        recording = Attached(tracefs, folder, program.pid, "--for", "2m", preexec_fn=ignore)
        recording.child.send_signal(signal.SIGTERM)
        self.equal("SIGTERM ends it then", (*recording.end(), tracefs.own()), (0, "", []))

    def test_SIGKILL_leaves_no_instance(self):
        """SIGKILL leaves no instance, and the program goes on."""
        program = sleeper()
        recording = Attached(self.tracefs, self.folder, program.pid)
        there = len(recording.instances)
        recording.child.kill()
        ended(recording.child)
        gone = until(lambda: not self.tracefs.own())
        self.equal("--pid that is killed leaves no instance", (there, gone, program.poll()), (1, True, None))
        self.check("its file says that it isn't whole", None if faults_of(recording.path.read_bytes()) else "it doesn't")
        again = Attached(self.tracefs, self.folder, program.pid, "--for", "1ms")
        self.equal("what it left is replaced", (*again.end(), faults_of(again.path.read_bytes())), (0, "", []))
        program.kill()

    def test_threads_that_make_threads_are_all_chosen(self):
        """Threads that make threads while the recording is attached are all chosen."""
        program = started(PROGRAMS / "spawns")
        program.stdout.readline()
        recording = Attached(self.tracefs, self.folder, program.pid, "--buffer", "32768")
        chosen = lambda: set(map(int, (self.tracefs.instances / recording.instances[0] / "set_event_pid").read_text().split()))
        there = threads_of(program.pid)
        left = there - chosen() & threads_of(program.pid)
        # a thread that has just been made may be so for a moment
        is_chosen = until(lambda: not left & threads_of(program.pid) - chosen())
        self.check("the threads of a program that makes threads are chosen", None if is_chosen else f"not {left}")
        program.kill()
        program.wait()
        self.equal("--pid of a program that makes threads", (*recording.end(), self.tracefs.own()), (0, "", []))

    def test_names_of_the_files(self):
        """NAME.kernel alone is written, by the default name, too; what was a recording is replaced, and nothing else."""
        program = sleeper()
        before = (pathlib.Path(self.folder, "run"), pathlib.Path(self.folder, "run.kernel"))
        run(RECORD / "pim-record", "--kernel", "-o", before[0], "true")
        there = [path.read_bytes() for path in before]
        attached_again = RECORD / "pim-record", "-p", program.pid, "-f", "1ms", "-o", before[0]
        done = run(*attached_again)
        got = done.returncode, " is there: --pid writes no log" in done.stderr, [path.read_bytes() for path in before]
        self.equal("--pid leaves a log of its name alone", got, (2, True, there))
        before[0].unlink()
        done = run(*attached_again)
        now = before[1].read_bytes()
        got = (done.returncode, done.stderr, before[0].exists(), now == there[1], faults_of(now))
        self.equal("--pid replaces the kernel's events", got, (0, "", False, False, []))
        empty = pathlib.Path(self.folder, "empty")
        empty.mkdir()
        done = run(RECORD / "pim-record", "--pid", program.pid, "--for", "1ms", cwd=empty)
        name = f"sleep.{program.pid}.pimlog.kernel"
        got = (done.returncode, f"pim-record: {name} is kept; " in done.stderr, [path.name for path in empty.iterdir()])
        self.equal("the default name", got, (0, True, [name]))
        before[1].write_text("a letter\n")
        done = run(RECORD / "pim-record", "--pid", program.pid, "--for", "1ms", "-o", before[0])
        got = (done.returncode, "isn't a recording; nothing was recorded" in done.stderr, before[1].read_text())
        self.equal("another file is kept", got, (2, True, "a letter\n"))
        program.kill()


class Refused(Case):
    def tearDown(self):
        end_started()

    def test_another_user_has_no_rights(self):
        """Another user has no rights: one line, and status 77."""
        os.chmod(self.folder, 0o777)
        user = lambda: os.setuid(65534)
        if run(RECORD / "pim-record", "--help", preexec_fn=user).returncode:
            return self.skip("--pid without the rights", "another user doesn't reach the recorder")
        how = {"preexec_fn": user} if os.geteuid() == 0 else {}
        done = run(RECORD / "pim-record", "--pid", os.getpid(), "-o", f"{self.folder}/none", **how)
        said = (done.stderr.count("\n"), done.stderr.startswith("pim-record: --pid needs root"), "was recorded" in done.stderr)
        got = (done.returncode, done.stdout, *said, os.path.exists(f"{self.folder}/none.kernel"))
        self.equal("--pid without the rights", got, (77, "", 1, True, True, False))

    def test_what_does_not_go_together_is_refused(self):
        """What doesn't go together has the status 2 and one line, and nothing is written."""
        for name, (words, why) in REFUSED.items():
            done = run(RECORD / "pim-record", "-o", f"{self.folder}/none", *words)
            got = (done.returncode, done.stdout, done.stderr.count("\n"), why in done.stderr)
            left = list(pathlib.Path(self.folder).glob("none*"))
            self.check(f"--pid with {name}", difference((*got, left), (2, "", 1, True, [])) and f"{got} {done.stderr!r}")

    def test_processes_that_are_not_there(self):
        """A number of no process, of a thread, and of a process that has ended."""
        gone = int(pathlib.Path("/proc/sys/kernel/pid_max").read_text()) + 1  # of no process, whatever is started
        unseen = started("true")
        until(lambda: stat_of(unseen.pid)[:1] == ["Z"])
        program = started(PROGRAMS / "futexes", "attach", "/dev/null")
        program.stdout.readline()
        thread = max(threads_of(program.pid) - {program.pid})
        numbers = {"a process that isn't there": (gone, f"there is no process {gone}; nothing was recorded"),
                   "a process that has ended": (unseen.pid, "it has ended; nothing was recorded"),
                   "a thread": (thread, "it is a thread, and not a process's number; nothing was recorded")}
        older = {"none.1": "", "none.kernel": "pim-kernel 2\n"}
        for file, text in older.items():
            pathlib.Path(self.folder, file).write_text(text)
        for name, (number, why) in numbers.items():
            done = run(RECORD / "pim-record", "--pid", number, "-o", f"{self.folder}/none")
            got = (done.returncode, done.stdout, done.stderr.count("\n"), why in done.stderr)
            left = files_of(self.folder)
            self.check(f"--pid of {name}", difference((*got, left), (2, "", 1, True, older)) and f"{got} {left} {done.stderr!r}")
        for file in older:
            pathlib.Path(self.folder, file).unlink()
        # by the launcher, if it ends after pim-record has looked
        variables = {**os.environ, "PIM_KERNEL": f"{self.folder}/none", "PIM_KERNEL_KB": "8192"}
        done = run(RECORD / "out/pim-launch", "--pid", gone, "0", env=variables)
        wanted = f"pim-record: process {gone}: {os.strerror(errno.ESRCH)}; nothing was recorded\n"
        self.equal("--pid of one that has just gone", (done.returncode, done.stderr), (2, wanted))
        program.kill()
