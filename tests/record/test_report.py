"""What a recorder's user is told: pim-record and pim-report of programs whose source says who held
up whom, and of real ones.

The rows are made by tests/facts/plain/rows.py, and for a user by pim-findings: ./test facts
compares both.
"""
import json
import os
import pathlib
import random
import re
import shutil
import sys

from tests.cases import Case
from tests.record.logs import setUpModule
from tests.shared.checks import ROOT, difference
from tests.record.test_collector import CHUNK_BYTES, number_in, run
from tests.record.test_last import does, is_permitted, started
from tests.record.test_places import PLAN, compiled, recorded
from tests.record.test_stacks import NEST

PROGRAMS, SKIPPED = ROOT / "record/out/programs", 77
SOURCES, REPORT = ROOT / "record/programs", ROOT / "report/pim-report"
ROWS = f"{sys.executable} {ROOT}/tests/facts/plain/rows.py"
MOST_RECORDINGS = 40
MILLISECOND = 1_000_000

# By program the status of its report, and its waits for mutexes. Each is inverted, bounded, or
# plain: for no thread of a lower level.
WAITS = {
    "inversion none 2000": (1, ["high (30) for none mutex of low (10): inverted"]),
    "inversion inherit 2000": (0, ["high (30) for inherit mutex of low (10): bounded"]),
    "chain": (0, ["chain (20) for inherit a of chain (10): bounded",
                  "chain (30) for inherit b of chain (20): bounded"]),
    "ceiling": (0, ["ceiling (30) for protect mutex of ceiling (20): bounded"]),
    "recursive": (0, ["recursive (0) for inherit mutex of recursive (0): plain"]),
    "relock": (0, []),
    "forks": (0, []),
    "aborts": (0, ["aborts (0) for none mutex of aborts (0): plain"]),
    "deadlock": (1, ["one (0) for none second of two (0): plain",
                     "two (0) for none first of one (0): plain"]),
    "orders": (0, []),
    "passes": (0, ["passes (10) for none mutex of passes (50): plain"]),
    "executes": (0, []),
    "vforks": (0, []),
    "waits": (0, ["waits (0) for none mutex of waits (0): plain"]),
}
# What the text says of some of these: expressions of lines, in order. Others may lie between.
PLACE = r"\S+(?: \(\w+\))?"
LINES = {
    "inversion none 2000": [
        r"high ran late because of mutex\.",
        rf"Worst: high \(30\) waited \d\.\d\d s at {PLACE} for low \(10\)\.",
        rf"Make mutex, from {PLACE}, PTHREAD_PRIO_INHERIT\."],
    "inversion inherit 2000": [
        r"No priority inversion, and no deadlock\.",
        r"The longest wait for a lower thread: high \(30\), \S+ ms for low \(10\) at mutex\."],
    "deadlock": [
        r"Deadlock: one and two wait for each other since \S+ s\.",
        rf"one waits for second at {PLACE} and two for first at {PLACE}\.",
        r"Lock second and first in one order everywhere\."],
    "orders": [
        r"Worth a look: map and io are locked in both orders, so that plan and log can deadlock\.",
        r"Lock map and io in one order everywhere\."],
    "relock": [
        rf"Worth a look: high \(30\) waited \S+ ms at {PLACE} for condition variable condition,"
        r" until low"],
    "vforks": [r"  The recorder couldn't see: 2 calls that the recorder couldn't see whole\."],
}
# Programs whose threads race: their facts are a text.
RACING = "random 1 400", "random 2 400 ordinary", "signals", "robust", "condition", "many"


class Report:
    """What pim-report says of a recording: its status, and what is in the JSON."""

    def __init__(self, log, *options):
        self.command = REPORT, "--findings", ROWS, *options, log
        done = run(*self.command, "--json")
        self.status, self.said = done.returncode, done.stderr
        self.found = json.loads(done.stdout) if self.status in (0, 1) else {}
        self.threads = {one["number"]: one["name"] for one in self.found.get("threads", ())}
        self.mutexes = {one["number"]: one for one in self.found.get("mutexes", ())}

    def fault(self):
        """Returns why there is no report, or a thread that holds up itself; or None."""
        if not self.found:
            return f"status {self.status}: {self.said}"
        own = (wait for wait in self.found["waits"]
               if wait["thread"] == wait["owner"] and wait["inverted"])
        return next(map(self.wait, own), None)

    def wait(self, wait):
        """Returns a wait for a mutex in words."""
        kind = "inverted" if wait["inverted"] else "bounded" if wait["lower"] else "plain"
        mutex, owner = self.mutexes[wait["mutex"]], self.threads.get(wait["owner"], "-")
        return (f"{self.threads[wait['thread']]} ({wait['gets']}) for {mutex['protocol']}"
                f" {mutex['name']} of {owner} ({wait['owner_level']}): {kind}")

    def waits(self):
        return [self.wait(wait) for wait in self.found.get("waits", ())]

    def findings(self, *kinds):
        """Returns the findings of some kinds: kind, what was awaited, by whom, and of whom."""
        return [(one["kind"], one["what"], self.named(one["who"]), self.named(one["by"]))
                for one in self.found.get("findings", ()) if one["kind"] in kinds]

    def named(self, threads):
        return " ".join(f"{self.threads[one['thread']]} ({one['level']})" for one in threads)

    def lacks(self, expressions):
        """Returns the first expression that no line of the text is after those before, or None."""
        text = run(*self.command).stdout if expressions else ""
        lines = iter(text.splitlines())
        for expression in expressions:
            if not any(re.fullmatch(expression, line) for line in lines):
                return f"no line {expression!r} in {text}"
        return None


def report_of(folder, command, *options):
    """Records a program of record/programs. Returns its report, or None if it can't run here."""
    name, *words = command.split()
    done, log = recorded(folder, PROGRAMS / name, *words, options=options)
    return None if done.returncode == SKIPPED else Report(log)


def line_with(source, text):
    """Returns the number of the line of a source that has a text."""
    lines = source.splitlines()
    return next(number for number, line in enumerate(lines, 1) if text in line)


def has_lines(log):
    return pathlib.Path(f"{log}.places").exists()


# ---- programs of record/programs


# How the program inversion may be started. The report is of all programs of a recording.
WRAPPERS = "env A=1 {}", "timeout 60 {}", "nice -n 0 env A=1 {}", "sh -c '{}'", "sh -c 'true; {} && true'"


# A thread waits for a mutex until the program is killed, a tenth of a second later or more.
HANGS = """#define _GNU_SOURCE
#include "common.h"
#include <signal.h>
static pthread_mutex_t mutex = PTHREAD_MUTEX_INITIALIZER;
static _Atomic pid_t waits;
static void *wait_for(void *nothing) {
    comes(&waits);
    pthread_mutex_lock(&mutex);
    return nothing;
}
int main(int count, char **arguments) {
    (void)arguments;
    pthread_mutex_lock(&mutex);
    start(wait_for, NULL);
    while (!waits) rest(1);
    until_waits(&waits);
    rest(100);
    if (count > 1) abort();
    return raise(SIGKILL);
}
"""


OBJECTS = {"semaphore": "semaphore storage_free", "rwlock": "read-write lock storage_lock",
           "condition": "condition variable storage_changed"}


# ---- places


# A program, or a child that it forks, initialises a mutex in the line with the word INIT.
INITIALISES = """#include <pthread.h>
#include <sys/wait.h>
#include <unistd.h>
static pthread_mutex_t mutex;
int main(int count, char **arguments) {
    (void)arguments;
    if (count > 1 && fork() > 0) return wait(NULL) < 0;
    pthread_mutex_init(&mutex, NULL); /* INIT */
    pthread_mutex_lock(&mutex);
    pthread_mutex_unlock(&mutex);
    return 0;
}
"""


class Reports(Case):
    def test_programs(self):
        for command, (status, waits) in WAITS.items():
            found, name = report_of(self.folder, command), f"the report of {command}"
            if not found:
                self.skip(name, "SCHED_FIFO isn't permitted")
                continue
            got = found.status, sorted(found.waits())
            self.check(name, found.fault() or difference(got, (status, waits))
                       or found.lacks(LINES.get(command, ())))
            if command == "inversion none 2000":
                lasted = min(wait["inverted"] for wait in found.found["waits"])
                self.check("high is held up while medium computes",
                           None if lasted >= 2000 * MILLISECOND else f"{lasted}")
        for command in RACING:
            found = report_of(self.folder, command)
            self.check(f"the facts of {command} are a text", found and found.fault())

    def test_waits_of_what_a_wrapper_starts(self):
        """A wait of a program is in the report, whatever starts it. Its threads have their names and levels."""
        program = f"{PROGRAMS / 'inversion'} none 20"
        for wrapper in WRAPPERS:
            done, log = recorded(self.folder, "sh", "-c", f"exec {wrapper.format(program)}")
            name = f"the report of {wrapper.format('inversion')}"
            if done.returncode == SKIPPED:
                self.skip(name, "SCHED_FIFO isn't permitted")
                continue
            found = Report(log)
            wanted = 1, ["high (30) for none mutex of low (10): inverted"]
            self.check(name, found.fault() or difference((found.status, found.waits()), wanted))

    def test_what_holds_as_a_program_is_killed(self):
        """What holds as a program is killed or aborted lasts until then, though no record comes."""
        program = compiled(self.folder, "hangs.c", HANGS, f"-I{SOURCES}")
        for name, words, options in (("is killed", [], []), ("aborts", ["abort"], []),
                                     ("is killed, with --last", [], ["--last", "1M"])):
            _, log = recorded(self.folder, program, *words, options=options)
            found = Report(log)
            lasted = [wait["lasted"] // (100 * MILLISECOND) for wait in found.found.get("waits", ())]
            self.check(f"a wait of a program that {name}",
                       found.fault() or (None if len(lasted) == 1 and lasted[0] >= 1 else f"{lasted}"))

    def test_waits_that_begin_while_the_mutex_is_free(self):
        """Each wait of high in missed is for low, also one that began while the mutex was free: low
        was quicker. There may be none where the two seldom run at one time: then there is another
        recording."""
        name = "each wait of high in missed is for low"
        for _recording in range(MOST_RECORDINGS):
            found = report_of(self.folder, "missed")
            if not found:
                return self.skip(name, "SCHED_FIFO isn't permitted, or there is one CPU")
            waits = [wait for wait in found.waits() if wait.startswith("high")]
            if waits:
                break
        # Low may wait for high, too, if it begins late.
        # Waits at one lock are several findings if what is known of low's place differs.
        got = found.status, {*found.findings("late")}, {wait.rpartition(" ")[2] for wait in waits}
        wanted = 1, {("late", "mutex", "high (80)", "low (10)")}, {"inverted"}
        self.check(name, found.fault() or difference(got, wanted))

    def test_inversions_at_other_objects(self):
        """Inversions at what isn't a mutex: control waits for storage while camera computes."""
        source = (SOURCES / "objects.c").read_text()
        program = compiled(self.folder, "objects.c", source, f"-I{SOURCES}")
        for how, what in OBJECTS.items():
            done, log = recorded(self.folder, program, how)
            name = f"an inversion at a {what.rpartition(' ')[0]}"
            if done.returncode == SKIPPED:
                self.skip(name, "SCHED_FIFO isn't permitted")
                continue
            found = Report(log)
            # main waits, too, for what storage does first
            looks = [one for one in found.findings("look") if one[2].startswith("control")]
            long = [wait for wait in found.found.get("blocked", ())
                    if found.threads[wait["thread"]] == "control"
                    and wait["lasted"] >= 50 * MILLISECOND]
            wanted = [("look", what, "control (80)", "storage (10)")]
            self.check(name, found.fault() or difference((found.status, looks, len(long)), (0, wanted, 1)))
            if has_lines(log):
                line = f"objects.c:{line_with(source, f'control waits: {how}')}"
                got = [wait["at"][0].partition("(")[0] for wait in long]
                self.check(f"its line: {how}", difference(got, [line]))

    def test_who_ran_in_place_of_the_owner(self):
        """With the kernel's events the report says who ran in place of the owner, and for how long."""
        done, log = recorded(self.folder, PROGRAMS / "inversion", "none", "300", options=["--kernel"])
        if done.returncode == SKIPPED:
            return self.skip("who ran meanwhile", "no rights, no tracefs or no SCHED_FIFO")
        found = Report(log)
        ran = [(found.threads[one["thread"]], one["level"]) for wait in found.found["waits"]
               for one in wait["meanwhile"] if one["time"] >= 250 * MILLISECOND]
        self.check("who ran meanwhile", found.fault() or difference((found.status, ran),
                                                                    (1, [("medium", 20)])))
        pathlib.Path(log).unlink()
        alone = Report(log)
        self.check("the kernel's events alone have a report", alone.fault()
                          or difference((alone.waits(),), ([],)))

    def test_a_program_without_a_log(self):
        """A program without a log: by the kernel's events high waits for a futex while low computes."""
        program, name = pathlib.Path(self.folder, "static"), "the report of a static program"
        words = "cc", "-O2", "-pthread", "-static", SOURCES / "inversion.c", "-o", program
        if run(*words).returncode:
            return self.skip(name, "there is no static C library")
        done, log = recorded(self.folder, program, "inherit", options=["--kernel"])
        if done.returncode == SKIPPED:
            return self.skip(name, "no rights, no tracefs or no SCHED_FIFO")
        found = Report(log)
        waits = [(found.threads[wait["thread"]], wait["lasted"] >= 30 * MILLISECOND)
                 for wait in found.found["blocked"] if wait["level"] == 30]
        self.check(name, found.fault() or difference((found.status, waits), (0, [("high", True)])))

    def test_lines_of_waits_and_owners(self):
        """A wait has the line of its call, and that at which the owner took the mutex; without the
        file of lines the offsets."""
        _, log = recorded(self.folder, compiled(self.folder, "plan.c", PLAN))
        places = lambda: [(wait["at"][0], wait["taken_at"][0]) for wait in Report(log).found["waits"]
                          if wait["taken_at"]]
        name = "the lines of a wait and of its owner"
        if has_lines(log):
            wanted = (f"plan.c:{line_with(PLAN, '// PLAN')}(plan)",
                      f"plan.c:{line_with(PLAN, '// TAKE')}(update_map)")
            self.check(name, None if wanted in places() else f"{places()}")
            pathlib.Path(f"{log}.places").unlink()
        else:
            self.skip(name, "there is no addr2line")
        offset = r"plan\+0x[0-9a-f]+"
        fits = any(re.fullmatch(offset, at) and re.fullmatch(offset, taken) for at, taken in places())
        self.check("the offsets of a wait and of its owner", None if fits else f"{places()}")

    def test_the_place_of_a_mutex(self):
        """The place of a mutex is in the line of the call that initialised it, also in a process that
        was forked."""
        program = compiled(self.folder, "initialises.c", INITIALISES, "-O0")
        line = f"initialises.c:{line_with(INITIALISES, 'INIT */')}(main)"
        for name, words in {"a program": [], "a forked process": ["fork"]}.items():
            _, log = recorded(self.folder, program, *words)
            place = lambda: [mutex["place"] for mutex in Report(log).found["mutexes"]]
            if has_lines(log):
                self.check(f"the line of a mutex of {name}", difference(place(), [line]))
                pathlib.Path(f"{log}.places").unlink()
            fits = all(re.fullmatch(r"initialises\+0x[0-9a-f]+", it) for it in place())
            self.check(f"the place of a mutex of {name}", None if fits else f"{place()}")

    def test_callers_come_after_the_place(self):
        """After the place of a wait are the functions that called; without --stacks there are none."""
        program, stacks = compiled(self.folder, "nest.c", NEST), []
        for options in (["--stacks"], []):
            _, log = recorded(self.folder, program, options=options)
            stacks += [wait["at"][1:] for wait in Report(log).found["waits"]
                       if "(read_map)" in wait["at"][0]]
        if not has_lines(log):
            return self.skip("who called a lock that waits", "there is no addr2line")
        wanted = [f"nest.c:{line_with(NEST, '// PLAN')}(plan)",
                  f"nest.c:{line_with(NEST, '// DRIVE')}(drive)"]
        self.check("who called a lock that waits",
                          difference((stacks[0][:2], stacks[1]), (wanted, [])))

    def test_facts_of_real_programs_are_texts(self):
        """The facts of real programs are texts."""
        data = pathlib.Path(self.folder, "data")
        data.write_bytes(random.Random(1).randbytes(2_000_000))
        commands = {"pigz": ["-p", "4", "-b", "128", "-c", data],
                    "xz": ["--threads=4", "-0", "-c", data],
                    "pbzip2": ["-p4", "-b1", "-c", data], "pi_stress": ["-D", "2", "-q"]}
        for name, words in commands.items():
            if not shutil.which(name):
                self.skip(f"the facts of {name} are a text", "it isn't installed")
                continue
            options = ["--size", "1"] if name == "pi_stress" else []  # it locks as often as it can
            _, log = recorded(self.folder, name, *words, options=options, text=False)
            self.check(f"the facts of {name} are a text", Report(log).fault())

    def test_the_report_of_the_latest_records(self):
        """The report of the latest records has a wait, and says how much wasn't seen."""
        running = started(self.folder)
        if is_permitted():
            does(running, "busy " * 15 + "wait quiet")
        running.end()
        found, unseen = Report(running.path), number_in(running.path, 224)
        if not is_permitted():
            return self.skip("the report of the latest records", "SCHED_FIFO isn't permitted")
        wait = "last (80) for none awaited of last (0): inverted"
        said = f"  The recorder couldn't see: {unseen} calls that the recorder couldn't see whole."
        self.check("the report of the latest records", found.fault() or found.lacks([said])
                          or (None if wait in found.waits() else f"{found.waits()}"))

    def test_facts_of_a_few_chunks_are_a_text(self):
        """What is left in a few chunks of threads that race has facts that are a text."""
        launch = ROOT / "record/out/pim-launch", ROOT / "record/out/libpim_record.so"
        for chunks in (2, 5, 20):
            for command in ("random 1 300 ordinary", "robust", "forks", "condition", "many"):
                name, *words = command.split()
                log = pathlib.Path(self.folder, f"{name}-{chunks}")
                size = {"PIM_RECORD": str(log), "PIM_RECORD_LAST": str(chunks * CHUNK_BYTES)}
                done = run(*launch, PROGRAMS / name, *words, env={**os.environ, **size})
                self.check(f"the facts of {command} in {chunks} chunks",
                           Report(log).fault() or difference((done.returncode,), (0,)))

    def test_hooks_of_a_made_up_rtos(self):
        """The hooks of a made-up RTOS print a text whose findings these are: log holds the map for 4
        ms; plan waits for 3 of them, and spare for 1 until it gives up."""
        program = pathlib.Path(self.folder, "hooks")
        flags = "-std=c11", "-Wall", "-Wextra", "-Werror"
        built = run("cc", *flags, "-o", program, ROOT / "examples/hooks.c")
        self.check("examples/hooks.c is built without a warning", built.stderr or None)
        text = run(program).stdout
        done = run(REPORT, "--findings", ROWS, "--json", "--facts", "-", input=text)
        found = json.loads(done.stdout)["findings"] if done.stdout else []
        got = [(one["kind"], one["what"], one["who"][0]["level"], one["worst"]) for one in found]
        wanted = [("gave-up", "map_lock", 20, MILLISECOND),
                  ("bounded", "map_lock", 30, 3 * MILLISECOND)]
        self.equal("the report of the example", (done.returncode, got), (0, wanted))
