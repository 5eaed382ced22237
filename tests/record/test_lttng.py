"""record/from-lttng: what it makes of events by hand, and of a program that LTTng traces.

The last part is skipped without Debian's lttng-tools, liblttng-ust-dev and babeltrace2.
"""
import os
import pathlib
import re
import shutil
import signal
import subprocess
from contextlib import contextmanager

from tests.cases import Case
from tests.record.logs import setUpModule
from tests.shared.checks import ROOT, answer, difference, until
from tests.record.test_report import REPORT, ROWS

SCRIPT, PROGRAM = ROOT / "record/from-lttng", ROOT / "record/out/programs/inversion"
TOOLS = ("lttng", "lttng-sessiond", "babeltrace2")
WRAPPER = "liblttng-ust-pthread-wrapper.so"
NAMES = {1: "low", 2: "high", 3: "map server", 7: "low"}


def line(time, thread, what, mutex, status=None, process=9, clock="1795778223.{:09}"):
    """Returns a line as babeltrace2 prints it."""
    said = f"mutex = 0x{mutex:X}" + ("" if status is None else f", status = {status}")
    context = f'vpid = {process}, vtid = {thread}, procname = "{NAMES[thread]}"'
    return (f"[{clock.format(time * 1000)}] (+0.000000001) vm lttng_ust_pthread:pthread_mutex_{what}:"
            f" {{ cpu_id = 0 }}, {{ {context} }}, {{ {said} }}\n")


def facts(text, *options):
    """Returns status, the facts between the declarations and the end, what was said, and all lines."""
    status, out, err = answer([str(SCRIPT), *options], text.encode())
    lines = out.decode().splitlines()
    return status, [it for it in lines if it[0].isdigit() and not it.endswith(" end")], err.decode(), lines


def events(*rows):
    return "".join(line(*row) for row in rows)


# By name: events, each with microseconds, thread, what, mutex and status; their facts, in nanoseconds; what is said.
CASES = {
    "a lock of a mutex that another thread owns is a wait": (
        [(0, 1, "lock_req", 16), (1, 1, "lock_acq", 16, 0), (5, 2, "lock_req", 16), (9, 1, "unlock", 16, 0),
         (10, 2, "lock_acq", 16, 0), (12, 2, "unlock", 16, 0)],
        ["1000 1 granted 16", "5000 2 waits 16", "9000 1 released 16", "10000 2 granted 16", "12000 2 released 16"], ""),
    "an unlock may be told behind the next grant": (
        [(1, 1, "lock_acq", 16, 0), (5, 2, "lock_req", 16), (8, 2, "lock_acq", 16, 0), (9, 1, "unlock", 16, 0),
         (12, 2, "unlock", 16, 0)],
        ["0 1 granted 16", "4000 2 waits 16", "7000 1 released 16", "7000 2 granted 16", "11000 2 released 16"], ""),
    "a mutex that is free as it is asked for may go to another": (
        [(0, 2, "lock_req", 16), (1, 1, "trylock", 16, 0), (4, 1, "unlock", 16, 0), (5, 2, "lock_acq", 16, 0)],
        ["0 2 waits 16", "1000 1 took 16", "4000 1 released 16", "5000 2 granted 16"], ""),
    "a condition wait releases its mutex, and locks it again": (
        [(0, 1, "lock_acq", 16, 0), (5, 2, "lock_req", 16), (6, 2, "lock_acq", 16, 0), (8, 2, "unlock", 16, 0),
         (9, 1, "unlock", 16, 0)],
        ["0 1 granted 16", "5000 2 waits 16", "6000 1 released 16", "6000 2 granted 16", "8000 2 released 16"],
        "from-lttng: 1 unlocks"),
    "a mutex of a timed lock is told by its unlock if another thread waits": (
        [(0, 2, "lock_req", 16), (7, 1, "unlock", 16, 0), (8, 2, "lock_acq", 16, 0)],
        ["0 2 waits 16", "7000 1 granted 16", "7000 1 released 16", "8000 2 granted 16"], "from-lttng: 1 ownerships"),
    "an unlock without a lock is left out": (
        [(0, 1, "unlock", 16, 0), (1, 2, "trylock", 32, 0)], ["1000 2 took 32"], "from-lttng: 1 unlocks"),
    "a recursive mutex": (
        [(0, 1, "lock_acq", 16, 0), (1, 1, "lock_req", 16), (2, 1, "lock_acq", 16, 0), (3, 2, "lock_req", 16),
         (4, 1, "unlock", 16, 0), (5, 1, "unlock", 16, 0), (6, 2, "lock_acq", 16, 0)],
        ["0 1 granted 16", "2000 1 granted 16", "3000 2 waits 16", "4000 1 released 16", "5000 1 released 16",
         "6000 2 granted 16"], ""),
    "a thread that locks its own mutex and goes no further": (
        [(0, 1, "lock_acq", 16, 0), (2, 1, "lock_req", 16)], ["0 1 granted 16", "2000 1 waits 16"], ""),
    "the same of a recursive mutex, whose lock would have been granted": (
        [(0, 1, "lock_acq", 16, 0), (1, 1, "lock_acq", 16, 0), (2, 1, "lock_req", 16)],
        ["0 1 granted 16", "1000 1 granted 16"], ""),
    "a lock that is refused, and tries of an owned mutex": (
        [(0, 1, "lock_acq", 16, 0), (1, 1, "lock_req", 16), (2, 1, "lock_acq", 16, 35), (3, 2, "trylock", 16, 16),
         (4, 2, "unlock", 16, 1), (5, 2, "lock_req", 16), (6, 2, "lock_acq", 16, 22), (7, 1, "unlock", 16, 0)],
        ["0 1 granted 16", "5000 2 waits 16", "6000 2 gave-up 16", "7000 1 released 16"], ""),
    "a wait whose end isn't told": (
        [(0, 1, "lock_acq", 16, 0), (1, 2, "lock_req", 16), (3, 2, "trylock", 32, 0)],
        ["0 1 granted 16", "1000 2 waits 16", "3000 2 gave-up 16", "3000 2 took 32"], ""),
    "an owner that died": (
        [(0, 1, "lock_acq", 16, 0), (1, 2, "lock_req", 16), (4, 2, "lock_acq", 16, 130)],
        ["0 1 granted 16", "1000 2 waits 16", "4000 1 released 16", "4000 2 granted 16"], ""),
}


# ---- a program that LTTng traces

@contextmanager
def daemon(folder):
    """Has LTTng's daemon run: the one that runs already, or an own one, which is ended."""
    if subprocess.run(["lttng", "--no-sessiond", "list"], capture_output=True).returncode == 0:
        yield
        return
    number = pathlib.Path(folder, "daemon")
    subprocess.run(["lttng-sessiond", "--daemonize", "--pidfile", str(number)], check=True, capture_output=True)
    process = int(number.read_text())
    try:
        yield
    finally:
        os.kill(process, signal.SIGTERM)
        until(lambda: not pathlib.Path(f"/proc/{process}").exists())


def traced(folder, *command):
    """Returns the status of a command whose mutexes LTTng traces, and what babeltrace2 prints of them."""
    def lttng(*words):
        subprocess.run(["lttng", "--no-sessiond", *words], check=True, capture_output=True)

    name = pathlib.Path(folder).name
    with daemon(folder):
        lttng("create", name, f"--output={folder}/trace")
        lttng("enable-event", "-u", "-s", name, "lttng_ust_pthread:*")
        lttng("add-context", "-u", "-s", name, "-t", "vpid", "-t", "vtid", "-t", "procname")
        lttng("start", name)
        environment = {**os.environ, "LD_PRELOAD": WRAPPER, "LTTNG_UST_REGISTER_TIMEOUT": "-1"}
        done = answer([str(word) for word in command], env=environment)
        lttng("destroy", name)
    _, text, _ = answer(["babeltrace2", "--clock-seconds", f"{folder}/trace"])
    return done, text.decode()


class Lttng(Case):
    def test_events_by_hand(self):
        """Events whose facts are known, and how what is said of them begins."""
        for name, (rows, wanted, said) in CASES.items():
            status, got, err, lines = facts(events(*rows))
            is_said = err.startswith(said) if said else not err
            fault = answer(ROWS.split(), "".join(f"{it}\n" for it in lines).encode())[2].decode()
            self.check(f"from-lttng: {name}", difference((status, got), (0, wanted)) or fault or (None if is_said else err))

    def test_threads_and_mutexes_are_declared(self):
        """Threads and mutexes are declared, with what the options say of them."""
        text = events((0, 1, "lock_acq", 16, 0), (1, 1, "lock_acq", 16, 0), (2, 2, "trylock", 32, 0), (3, 3, "trylock", 48, 0))
        given = {
            (): ["thread 1 0 low", "thread 2 0 high", "thread 3 0 map.server", "mutex 16 recursive none 0x10",
                 "mutex 32 none 0x20", "mutex 48 none 0x30"],
            ("--level", "high=80", "--level", "3=40", "--protocol", "inherit", "--protocol", "0x20=protect:90"):
                ["thread 1 0 low", "thread 2 80 high", "thread 3 40 map.server", "mutex 16 recursive inherit 0x10",
                 "mutex 32 protect 90 0x20", "mutex 48 inherit 0x30"],
        }
        for options, wanted in given.items():
            status, _, err, lines = facts(text, *options)
            begin = ["facts 1", "unseen timed locks, condition variables, and all but POSIX mutexes"]
            why = difference((status, err, lines[:8], lines[-1]), (0, "", [*begin, *wanted], "3000 end"))
            self.check(f"from-lttng declares {' '.join(options) or 'all'}", why)

    def test_a_name_that_is_cut_within_a_character(self):
        """A name may be cut within a character. Each byte of it that is none becomes a dot."""
        text = events((0, 1, "trylock", 16, 0)).encode().replace(b'"low"', b'"caf\xc3"')
        status, out, err = answer([str(SCRIPT)], text, env={**os.environ, "PYTHONIOENCODING": "utf-8:strict"})
        self.check("from-lttng: a name that is cut within a character",
                   difference((status, b"thread 1 0 caf.\n" in out, err), (0, True, b"")))

    def test_times_of_day_go_on_after_midnight(self):
        """Times of day go on behind midnight, and events of others are passed over."""
        evening, morning = "23:59:59.{:09}", "00:00:00.{:09}"
        text = line(999998, 1, "trylock", 16, 0, clock=evening) + "[00:00:00.000000000] vm sched_switch: { }, { }\n"
        text += line(3, 1, "unlock", 16, 0, clock=morning)
        got = facts(text)[:3]
        self.equal("from-lttng: times of day", got, (0, ["0 1 took 16", "5000 1 released 16"], ""))

    def test_what_cannot_be_read_is_refused(self):
        """What can't be read is said, with status 2 and no facts."""
        one = line(0, 1, "trylock", 16, 0)
        several = one + line(1, 2, "trylock", 16, 0, process=8)
        cases = {
            "no events": ("", (), "no event of lttng_ust_pthread"),
            "a thread that is no number": (one.replace("vtid = 1", "vtid = x"), (), "line 1: a field of it is no number"),
            "no context": (one.replace("vtid", "tid"), (), "line 1: it has no vtid: record with 'lttng add-context -u"),
            "cycles for a time": (one.replace("1795778223.000000000", "00000123456"), (), "line 1: its time should be"),
            "several processes": (several, (), "events of the processes 8, 9: choose one by --pid"),
            "a process that isn't there": (one, ("--pid", "7"), "no event of lttng_ust_pthread of process 7"),
            "a thread that isn't there": (one, ("--level", "hihg=80"), "the events have no thread hihg"),
            "a mutex that isn't there": (one, ("--protocol", "0x40=inherit"), "the events have no mutex 0x40"),
        }
        for name, (text, options, wanted) in cases.items():
            status, _, err, lines = facts(text, *options)
            got = (status, lines, err.startswith(f"from-lttng: {wanted}"))
            self.check(f"from-lttng refuses {name}", difference(got, (2, [], True)) and err)
        got = answer(["sh", "-c", 'exec "$0" <&-', str(SCRIPT)])
        self.equal("from-lttng without an input", got, (2, b"", b"from-lttng: standard input is closed\n"))
        status, got, err, _ = facts(several, "--pid", "8")
        self.equal("from-lttng --pid", (status, got, err), (0, ["0 2 took 16"], ""))
        for options in (("--level", "high=100"), ("--protocol", "ceiling"), ("--protocol", "protect:0"), ("nothing",)):
            status, _, err, lines = facts(one, *options)
            self.equal(f"from-lttng {' '.join(options)}", (status, lines, bool(err)), (2, [], True))

    def test_an_inversion_that_lttng_traces(self):
        """The classic inversion, as LTTng traces it: high waits for low, which owns a NONE mutex."""
        name = "what LTTng traces of an inversion"
        lacking = [tool for tool in TOOLS if not shutil.which(tool)]
        found = subprocess.run(["ldconfig", "-p"], capture_output=True, text=True).stdout
        lacking += [] if WRAPPER in found else [WRAPPER]
        if lacking:
            return self.skip(name, f"there is no {lacking[0]}")
        done, text = traced(self.folder, PROGRAM, "none", "20")
        if done[0] == 77:
            return self.skip(name, "threads may have no real-time priority here")
        status, _, err, lines = facts(text, "--level", "high=30", "--level", "low=10")
        self.check(f"the facts of {name}", None if status == 0 else f"{done}: {err}")
        status, out, err = answer([str(REPORT), "--findings", ROWS, "--facts", "-"], "\n".join(lines).encode())
        wanted = r"Worst: high \(30\) waited \S+ ms for low \(10\)\."
        is_told = any(re.match(wanted, it) for it in out.decode().splitlines())
        self.check(f"the report of {name}", None if (status, is_told) == (1, True) else f"{status}: {out}{err}")
