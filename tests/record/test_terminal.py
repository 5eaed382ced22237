"""At a terminal: keys that stop and end a program under pim-record, with --kernel and without.

A small shell is the first process of the terminal's session. It runs pim-record as a job, as a
shell with job control does, and reports each change of the job's status.
"""
import os
import pathlib
import pty
import resource
import select
import signal
import time

from tests.cases import Case
from tests.record.logs import setUpModule
from tests.shared.checks import ROOT, SECONDS, answer, difference, is_gone, stat_of, threads_of, until
from tests.record.test_kernel import Tracefs, faults_of, guard_of, is_descendant
from tests.record.test_places import compiled

INTERRUPT, QUIT, SUSPEND = b"\x03", b"\x1c", b"\x1a"
KEYS = str(ROOT / "record/out/programs/keys")


def shell(command, notes, orders):
    """Runs the command as a job. Writes the job's process and each status, and continues it when it is ordered to."""
    signal.signal(signal.SIGTTOU, signal.SIG_IGN)
    resource.setrlimit(resource.RLIMIT_CORE, (0, 0))
    job = os.fork()
    if job == 0:
        os.setpgid(0, 0)
        os.tcsetpgrp(0, os.getpid())
        signal.signal(signal.SIGTTOU, signal.SIG_DFL)
        signal.signal(signal.SIGTSTP, signal.SIG_IGN)  # keys stops by it, and so is pim-record to
        os.execv(command[0], command)
    os.write(notes, b"%d\n" % job)
    while True:
        _, status = os.waitpid(job, os.WUNTRACED)
        os.write(notes, b"%d\n" % status)
        if not os.WIFSTOPPED(status):
            os._exit(0)
        if os.read(orders, 1) == b"f":
            os.killpg(job, signal.SIGCONT)


def stopped(process):
    """Returns whether a thread of the process is stopped by a signal. None is if the process is gone."""
    return any(stat_of(f"{process}/task/{thread}")[:1] == ["T"] for thread in threads_of(process))


LEFT = []  # the terminals that haven't ended


class Terminal:
    """A terminal, what is printed there, and the job that runs there."""

    def __init__(self, folder, kernel, *arguments, before=()):
        command = [*before, str(ROOT / "record/pim-record"), *kernel, "-o", f"{folder}/run", KEYS, *arguments]
        self.notes, notes = os.pipe()
        orders, self.orders = os.pipe()
        self.shell, self.keys = pty.fork()
        if self.shell == 0:
            shell(command, notes, orders)
        os.close(notes)
        os.close(orders)
        LEFT.append(self)
        self.text, self.job = "", self.note()
        self.program = int(self.text.split()[1][:-1]) if self.prints(".") else None

    def note(self):
        """Returns the next number that the shell writes, or None if there is none in time."""
        if not select.select([self.notes], [], [], SECONDS)[0]:
            return None
        line = b""
        while not line.endswith(b"\n"):
            line += os.read(self.notes, 1) or b"-1\n"
        return int(line)

    def prints(self, words, times=1):
        """Returns whether the words are printed, so many times."""
        end = time.monotonic() + SECONDS
        while self.text.count(words) < times and time.monotonic() < end:
            if select.select([self.keys], [], [], 1)[0]:
                try:
                    self.text += os.read(self.keys, 4096).decode()
                except OSError:  # nobody has the terminal open any more
                    break
        return self.text.count(words) >= times

    def presses(self, key):
        os.write(self.keys, key)

    def is_stopped(self, by=signal.SIGTSTP):
        """Returns whether the shell sees that the job was stopped by the signal, and the program is."""
        status = self.note() or 0
        return os.WIFSTOPPED(status) and os.WSTOPSIG(status) == by and until(lambda: stopped(self.program))

    def runs(self):
        """Returns whether neither the program nor pim-record is stopped, in time."""
        return until(lambda: not stopped(self.program) and not stopped(self.job))

    def sleeps(self):
        """Returns whether the job waits for what comes, in time: pim-record has told its guard that it goes on."""
        return until(lambda: stat_of(self.job)[:1] == ["S"])

    def end(self):
        """Returns the job's last status by the convention of waitstatus_to_exitcode."""
        status = self.note()
        while status is not None and os.WIFSTOPPED(status):
            status = self.note()
        if status is None:
            self.kill()
        self.close()
        return None if status is None else -os.WTERMSIG(status) if os.WIFSIGNALED(status) else os.WEXITSTATUS(status)

    def kill(self):
        """Kills what runs of the job, and the shell."""
        for process in filter(None, (self.program, self.job, self.shell)):
            if is_descendant(process) and not is_gone(process):
                os.kill(process, signal.SIGKILL)

    def close(self):
        os.waitpid(self.shell, 0)
        for file in (self.keys, self.notes, self.orders):
            os.close(file)
        LEFT.remove(self)


def stops(folder, kernel, tracefs):
    """Ctrl-Z stops the program, the shell sees it, 'fg' continues it, and Ctrl-C ends it."""
    job = Terminal(folder, kernel)
    job.presses(SUSPEND)
    got = [job.is_stopped(), len(tracefs.own()) if kernel else 1]
    os.write(job.orders, b"f")
    got.append(job.prints("goes on"))
    job.presses(SUSPEND)
    got.append(job.is_stopped())
    os.write(job.orders, b"f")
    until(lambda: not stopped(job.program))
    job.presses(INTERRUPT)
    return difference((*got, job.end()), (True, 1, True, True, -signal.SIGINT))


# waitid as where the program stops between the kernel's two looks: the first call waits for that, and finds nothing.
FINDS_NOTHING = """\
#define _GNU_SOURCE
#include <dlfcn.h>
#include <sys/wait.h>

int waitid(idtype_t type, id_t process, siginfo_t *info, int options) {
    int (*real)(idtype_t, id_t, siginfo_t *, int) = dlsym(RTLD_NEXT, "waitid");
    static int calls;
    int first = ++calls == 1;
    int answer = real(type, process, info, first ? WSTOPPED | WNOWAIT : options);
    if (first) info->si_pid = 0;
    return answer;
}
"""


def stops_at_once(folder, kernel, _):
    """Ctrl-Z holds that comes while pim-record, which a shell has continued, looks whether the program was."""
    shim = compiled(folder, "nothing.c", FINDS_NOTHING, "-shared", "-fPIC")
    job = Terminal(folder, kernel, before=("/usr/bin/env", f"LD_PRELOAD={shim}"))
    job.presses(SUSPEND)
    got = [job.is_stopped()]
    os.write(job.orders, b"f")
    got.append(job.prints("goes on"))
    job.presses(SUSPEND)
    got.append(job.is_stopped())
    os.write(job.orders, b"f")
    got.append(job.prints("goes on", 2))
    job.presses(INTERRUPT)
    return difference((*got, job.end()), (True, True, True, True, -signal.SIGINT))


def stops_again(folder, kernel, _):
    """What others do to the program while pim-record is stopped holds: pim-record continues no stop that is new."""
    job = Terminal(folder, kernel)
    job.presses(SUSPEND)
    got = [job.is_stopped()]
    os.kill(guard_of(job.job), signal.SIGSTOP)  # so that it doesn't continue pim-record meanwhile
    os.kill(job.program, signal.SIGCONT)
    got.append(job.prints("goes on"))
    os.kill(job.program, signal.SIGTSTP)
    until(lambda: stopped(job.program))
    os.write(job.orders, b"-")
    os.kill(job.job, signal.SIGCONT)
    got.append(job.is_stopped())
    os.write(job.orders, b"f")
    got.append(job.prints("goes on", 2))
    job.presses(INTERRUPT)
    return difference((*got, job.end()), (True, True, True, True, -signal.SIGINT))


def handles(folder, kernel, _):
    """A program that handles Ctrl-C and ignores Ctrl-Z goes on. Each key reaches it once, and Ctrl-\\ ends it."""
    job = Terminal(folder, kernel, "handle")
    job.presses(SUSPEND)
    for count in range(1, 21):
        job.presses(INTERRUPT)
        job.prints("told", count)
    os.kill(job.job, signal.SIGTERM)
    sent = job.prints("sent")
    return difference((sent, job.text.count("told"), job.end()), (True, 20, 5))


def quits(folder, kernel, _):
    job = Terminal(folder, kernel)
    job.presses(QUIT)
    return difference((job.end(),), (-signal.SIGQUIT,))


def one_process(folder, kernel, _):
    """SIGTSTP and SIGCONT that a process sends to pim-record alone are the program's, too."""
    job, got = Terminal(folder, kernel), []
    for times in (1, 2):
        os.kill(job.job, signal.SIGTSTP)
        got.append(job.is_stopped())
        os.write(job.orders, b"-")
        os.kill(job.job, signal.SIGCONT)
        got.append(job.prints("goes on", times))
    job.presses(INTERRUPT)
    return difference((*got, job.end()), (True, True, True, True, -signal.SIGINT))


def few_files(guard):
    """Returns whether a guard has no more open than its three descriptors, and the two of a look at the program."""
    return len(os.listdir(f"/proc/{guard}/fd")) <= 5


def program_alone(folder, kernel, _):
    """A stop that a process sends to the program alone is the job's, and so is its end by SIGCONT to the program."""
    got = []
    for arguments, number in (((), signal.SIGTSTP), ((), signal.SIGSTOP), (("thread",), signal.SIGSTOP)):
        job = Terminal(folder, kernel, *arguments)
        os.kill(job.program, number)
        got.append(job.is_stopped(number))
        os.write(job.orders, b"-")
        time.sleep(0.2)
        got.append(stopped(job.job) and few_files(guard_of(job.job)))
        os.kill(job.program, signal.SIGCONT)
        got += [job.prints("goes on"), job.runs()]
        job.presses(INTERRUPT)
        got.append(job.end())
    return difference(got, [True, True, True, True, -signal.SIGINT] * 3)


def stays(folder, kernel, _):
    """Once the program goes on, nobody continues pim-record when it alone is stopped."""
    job = Terminal(folder, kernel)
    job.presses(SUSPEND)
    got = [job.is_stopped()]
    os.write(job.orders, b"f")
    got.append(job.runs() and job.sleeps())
    os.kill(job.job, signal.SIGSTOP)
    status = job.note() or 0
    time.sleep(0.2)
    got += [os.WIFSTOPPED(status), stopped(job.job)]
    os.write(job.orders, b"f")
    got.append(job.runs())
    job.presses(INTERRUPT)
    return difference((*got, job.end()), (True, True, True, True, True, -signal.SIGINT))


def unguarded(folder, kernel, _):
    """If the guard was killed, a shell still stops and continues the program."""
    job, got = Terminal(folder, kernel), []
    os.kill(guard_of(job.job), signal.SIGKILL)
    for times in (1, 2):
        job.presses(SUSPEND)
        got.append(job.is_stopped())
        os.write(job.orders, b"f")
        got.append(job.prints("goes on", times))
    job.presses(INTERRUPT)
    return difference((*got, job.end()), (True, True, True, True, -signal.SIGINT))


def killed(folder, kernel, _):
    """A stopped program that is killed ends the job."""
    job = Terminal(folder, kernel)
    job.presses(SUSPEND)
    got = job.is_stopped()
    os.write(job.orders, b"-")
    os.kill(job.program, signal.SIGKILL)
    return difference((got, job.end()), (True, -signal.SIGKILL))


def in_quick_succession(folder, kernel, _):
    """Wherever pim-record is when the group is stopped and continued, it goes on as the program does."""
    job = Terminal(folder, kernel)
    os.write(job.orders, b"-" * 400)
    times = 0
    while job.runs() and times < 200:
        os.killpg(job.job, signal.SIGTSTP)
        time.sleep(times / 1e6)
        os.killpg(job.job, signal.SIGCONT)
        time.sleep(0.005)
        times += 1
    job.presses(INTERRUPT)
    return difference((times, job.end()), (200, -signal.SIGINT))


def leaves(folder, kernel, _):
    """A program whose terminal is closed ends by SIGHUP, with nothing left."""
    job = Terminal(folder, kernel)
    os.kill(job.shell, signal.SIGKILL)
    return None if until(lambda: is_gone(job.job)) else "it runs on"


OUTSIDE = """\
"$0" -o "$1/run" sh -c 'echo > "$0"; exec sleep 100000' "$1/begun" &
until [ -s "$1/begun" ]; do sleep 0.02; done
of_job() { cut -d ' ' -f "$1" "/proc/$job/stat"; }
job=$! before=$(of_job 5)
kill -TSTP $job
until [ "$(of_job 3)" = T ]; do sleep 0.02; done
kill -CONT $job
until [ "$(of_job 3)" = S ]; do sleep 0.02; done
echo "$before $(of_job 5)"
kill -TERM $job
wait $job
"""


def end_left():
    """Ends the jobs that a part has left, as one that broke off."""
    for job in [*LEFT]:
        job.kill()
        job.close()


class AtATerminal(Case):
    KERNEL = []

    def setUp(self):
        self.tracefs = Tracefs()
        self.addCleanup(self.tracefs.end)
        self.addCleanup(end_left)
        if self.KERNEL and self.tracefs.missing:
            self.skipTest(self.tracefs.missing)

    def plays(self, part):
        """Plays a part, after which the kernel's events keep the laws, and no instance is left."""
        self.assertFalse(part(self.folder, self.KERNEL, self.tracefs))
        if self.KERNEL:
            self.assertEqual(faults_of(pathlib.Path(self.folder, "run.kernel").read_bytes()), [])
            self.assertTrue(until(lambda: not self.tracefs.own()), "it left an instance")

    def test_ctrl_z_fg_and_ctrl_c(self):
        self.plays(stops)

    def test_stopped_again_at_once(self):
        self.plays(stops_at_once)

    def test_stopped_again_by_others(self):
        self.plays(stops_again)

    def test_a_program_that_handles_the_keys(self):
        self.plays(handles)

    def test_ctrl_backslash(self):
        self.plays(quits)

    def test_SIGTSTP_to_pim_record_alone(self):
        self.plays(one_process)

    def test_a_stop_of_the_program_alone(self):
        self.plays(program_alone)

    def test_SIGSTOP_to_pim_record_alone(self):
        self.plays(stays)

    def test_a_guard_that_was_killed(self):
        self.plays(unguarded)

    def test_a_stopped_program_that_is_killed(self):
        self.plays(killed)

    def test_stops_in_quick_succession(self):
        self.plays(in_quick_succession)

    def test_a_terminal_that_is_closed(self):
        self.plays(leaves)


class AtATerminalWithKernel(AtATerminal):
    KERNEL = ["--kernel"]


class OutsideOfTheNamespace(Case):
    def test_stopped_in_a_group_of_another_PID_namespace(self):
        """In a process group whose first process is outside of the namespace, pim-record stays in its group."""
        apart = ["unshare", "--pid", "--fork", "--mount-proc", "--kill-child"]
        if answer([*apart, "true"])[0]:
            self.skipTest("a PID namespace can't be made")
        # An orphaned group can't be stopped.
        own = {"start_new_session": False, "preexec_fn": lambda: os.setpgid(0, 0)}
        status, out, _ = answer([*apart, "sh", "-c", OUTSIDE, ROOT / "record/pim-record", self.folder], **own)
        self.assertEqual((status, out), (128 + signal.SIGTERM, b"0 0\n"))
