"""The traces that pim-report makes: by hand, and of random facts, as pim judges them."""
import pathlib
import itertools
import re

from tests.cases import Case
from tests.report.texts import said as run
from tests.shared.checks import ROOT, answer, difference, own_program
from facts_text import Facts
from judged_trace import trace_of
from lines import line_of
from other_programs import Fault
from random_facts import RandomText
import rows
from rows_text import Rows
import trace_window
from trace_window import priorities_of
from words import nanoseconds_of
from world import World

ALWAYS = 0, 10**19
THREADS = "thread 1 30 high;thread 2 10 low;thread 3 20 mid;"
# A name; facts after the first line; from when to when, if not all; declarations and steps.
EXAMPLES = (
    ("an inherited boost", THREADS + "mutex 5 inherit m;0 2 granted 5;10 1 waits 5;20 2 released 5;"
     "20 1 granted 5;30 1 released 5", ALWAYS,
     "task 1 30;task 2 10;mutex 1 inherit;2 lock 1 = granted;1 lock 1 = queued;"
     "2 unlock 1 = handed 1;1 unlock 1 = freed"),
    ("a ceiling", "thread 7 20 a;thread 8 70 b;mutex 9 protect 50 c;0 7 took 9;5 7 ceiling 9 60;"
     "6 8 waits 9;9 7 released 9;10 8 granted 9;11 8 released 9;12 8 granted 9", ALWAYS,
     "task 1 20;task 2 70;mutex 1 protect 50;1 try 1 = granted;1 ceil 1 60 = set;"
     "2 base 2 1 = set;2 lock 1 = queued;1 base 2 70 = set;1 unlock 1 = handed 2;"
     "2 unlock 1 = freed;2 base 2 1 = set;2 lock 1 = granted;2 base 2 70 = set"),
    ("a newcomer", THREADS + "mutex 5 none m;0 2 granted 5;10 1 waits 5;20 2 released 5;"
     "21 3 granted 5;30 3 released 5;31 1 granted 5", ALWAYS,
     "task 1 30;task 2 10;task 3 20;mutex 1 none;2 lock 1 = granted;1 lock 1 = queued;"
     "1 cancel 1 = withdrawn;2 unlock 1 = freed;3 lock 1 = granted;1 lock 1 = queued;"
     "3 unlock 1 = handed 1"),
    ("the second waiter", THREADS + "mutex 5 inherit m;0 2 granted 5;10 1 waits 5;11 3 waits 5;"
     "20 2 released 5;20 3 granted 5;30 3 released 5;30 1 granted 5", ALWAYS,
     "task 1 30;task 2 10;task 3 20;mutex 1 inherit;2 lock 1 = granted;1 lock 1 = queued;"
     "3 lock 1 = queued;1 cancel 1 = withdrawn;2 unlock 1 = handed 3;1 lock 1 = queued;"
     "3 unlock 1 = handed 1"),
    ("the first of two waiters of one level", "thread 1 20 a;thread 2 10 b;thread 3 20 c;"
     "mutex 5 none m;0 2 granted 5;10 3 waits 5;11 1 waits 5;20 2 released 5;20 3 granted 5",
     ALWAYS, "task 1 20;task 2 10;task 3 20;mutex 1 none;2 lock 1 = granted;3 lock 1 = queued;"
     "1 lock 1 = queued;2 unlock 1 = handed 3"),
    ("a waiter that gave up before its next grant", THREADS + "mutex 5 none m;0 2 granted 5;"
     "10 1 waits 5;20 2 released 5;21 1 gave-up 5;22 1 took 5", ALWAYS,
     "task 1 30;task 2 10;mutex 1 none;2 lock 1 = granted;1 lock 1 = queued;"
     "1 cancel 1 = withdrawn;2 unlock 1 = freed;1 try 1 = granted"),
    ("a time-out", THREADS + "mutex 5 inherit m;0 2 granted 5;10 1 waits 5;20 1 gave-up 5;"
     "30 2 released 5", ALWAYS, "task 1 30;task 2 10;mutex 1 inherit;2 lock 1 = granted;"
     "1 lock 1 = queued;1 cancel 1 = withdrawn;2 unlock 1 = freed"),
    ("a recursive mutex", THREADS + "mutex 5 recursive inherit m;0 2 granted 5;1 2 took 5;"
     "10 1 waits 5;20 2 released 5;30 2 released 5;30 1 granted 5;31 1 granted 5", ALWAYS,
     "task 1 30;task 2 10;mutex 1 inherit;2 lock 1 = granted;1 lock 1 = queued;"
     "2 unlock 1 = handed 1"),
    ("a deadlock, and its end", THREADS + "mutex 5 none a;mutex 6 none b;0 1 granted 5;"
     "1 2 granted 6;2 1 waits 6;3 2 waits 5;9 1 gave-up 6;10 1 released 5;10 2 granted 5", ALWAYS,
     "task 1 30;task 2 10;mutex 1 none;mutex 2 none;1 lock 1 = granted;2 lock 2 = granted;"
     "1 lock 2 = queued;2 lock 1 = refused deadlock;1 cancel 1 = withdrawn;2 lock 1 = queued;"
     "1 unlock 1 = handed 2"),
    ("a thread that waits for its own mutex", THREADS + "mutex 5 none a;0 1 granted 5;1 1 waits 5",
     ALWAYS, "task 1 30;mutex 1 none;1 lock 1 = granted;1 lock 1 = refused deadlock"),
    ("a wait for a free mutex", THREADS + "mutex 5 none a;0 1 waits 5;1 2 granted 5", ALWAYS,
     "task 1 30;task 2 10;mutex 1 none;2 lock 1 = granted;1 lock 1 = queued"),
    ("levels of threads that wait", THREADS + "mutex 5 none a;0 2 granted 5;1 1 waits 5;"
     "2 1 priority 5;3 3 priority 6;4 2 priority 10", ALWAYS,
     "task 1 30;task 2 10;mutex 1 none;2 lock 1 = granted;1 lock 1 = queued;2 base 1 5 = set"),
    ("a ceiling that is set by an owner that waits", "thread 1 30 a;thread 2 10 b;thread 3 30 c;"
     "mutex 5 none a;mutex 6 protect 40 b;0 2 granted 5;1 1 granted 6;2 1 waits 5;3 3 waits 5;"
     "4 1 ceiling 6 30;5 2 released 5;5 1 granted 5", ALWAYS,
     "task 1 30;task 2 10;task 3 30;mutex 1 none;mutex 2 protect 40;2 lock 1 = granted;"
     "1 lock 2 = granted;1 lock 1 = queued;3 lock 1 = queued;1 cancel 1 = withdrawn;"
     "3 cancel 3 = withdrawn;1 ceil 2 30 = set;1 lock 1 = queued;3 lock 1 = queued;"
     "2 unlock 1 = handed 1"),
    ("a ceiling of a free mutex", THREADS + "mutex 5 none a;mutex 6 protect 40 b;0 2 granted 5;"
     "1 1 waits 5;2 1 ceiling 6 25;3 2 granted 6", ALWAYS,
     "task 1 30;task 2 10;mutex 1 none;mutex 2 protect 40;2 lock 1 = granted;1 lock 1 = queued;"
     "2 ceil 2 25 = set;2 lock 2 = granted"),
    # Thread 3 has no number.
    ("a ceiling by a thread that has no part", THREADS + "mutex 6 protect 40 b;0 3 ceiling 6 25;"
     "1 2 granted 6;2 2 released 6;3 3 ceiling 6 26", ALWAYS,
     "task 1 10;mutex 1 protect 40;1 ceil 1 25 = set;1 lock 1 = granted;1 unlock 1 = freed;"
     "1 ceil 1 26 = set"),
    ("levels 0 and 1", "thread 1 0 a;thread 2 1 b;mutex 5 protect 98 m;0 1 granted 5;"
     "mutex 6 none n;1 2 granted 6", ALWAYS, "task 1 1;task 2 2;mutex 1 protect 99;mutex 2 none;"
     "1 lock 1 = granted;2 lock 2 = granted"),
    ("nothing", "thread 1 0 a;0 1 on 0", ALWAYS, ""),
    # Threads 4 and 5 and mutexes 7 and 8 have no part in the window.
    ("a window", THREADS + "thread 4 50 x;thread 5 60 y;mutex 5 inherit m;mutex 6 protect 15 p;"
     "mutex 7 none q;mutex 8 none r;0 2 granted 5;1 2 granted 6;2 2 granted 7;3 1 waits 5;"
     "4 4 granted 8;5 2 priority 12;10 3 waits 5;11 5 priority 61;20 2 released 5;25 1 granted 5;"
     "30 1 released 5;30 3 granted 5", (10, 20),
     "task 1 30;task 2 12;task 3 20;mutex 1 inherit;mutex 2 protect 15;2 lock 1 = granted;"
     "2 lock 2 = granted;1 lock 1 = queued;3 lock 1 = queued;2 unlock 1 = handed 1"),
    ("a window within a wait", THREADS + "mutex 5 inherit m;0 2 granted 5;1 1 waits 5;"
     "20 2 runs 10;30 2 released 5", (15, 25),
     "task 1 30;task 2 10;mutex 1 inherit;2 lock 1 = granted;1 lock 1 = queued"),
    ("a window of waiters of one level", "thread 8 20 a;thread 2 10 b;thread 3 20 c;mutex 5 none m;"
     "0 2 granted 5;10 3 waits 5;11 8 waits 5;20 2 released 5;20 3 granted 5", (15, 30),
     "task 1 20;task 2 10;task 3 20;mutex 1 none;2 lock 1 = granted;3 lock 1 = queued;"
     "1 lock 1 = queued;2 unlock 1 = handed 3"),
    ("a window after a release", THREADS + "mutex 5 inherit m;0 2 granted 5;1 1 waits 5;"
     "2 3 waits 5;9 2 released 5;11 1 granted 5;12 1 released 5;12 3 granted 5", (10, 11),
     "task 1 30;task 2 20;mutex 1 inherit;1 lock 1 = granted;2 lock 1 = queued"),
)
LIMITED = [f"thread {t} 9 t{t}" for t in range(1, 258)] + ["mutex 1 none m", "mutex 2 none n"]


def text_of(facts):
    return ("\n".join(["facts 1", *facts]) + "\n").encode()


def read(text):
    """Returns the facts of a text, and its rows."""
    return Facts(text), Rows.read(rows.answer(text)[0])


def judged(pim, trace):
    """Returns the lines of pim's report of a trace, and why it isn't that of the facts."""
    _, report, err = answer([pim], trace.text().encode())
    return report.decode().splitlines(), err.decode() or trace.fault(report)


def fault_of(made):
    try:
        made()
    except Fault as fault:
        return str(fault)
    return None


# ---- random facts, by the plain world

class Replayed:
    """What a report says after each step, by the numbers of the trace."""

    def __init__(self, text):
        lines = [line.split() for line in text.splitlines()]
        self.prios = {int(one[1]): int(one[2]) for one in lines if one[0] == "task"}
        self.owners, self.waits = {}, {}
        self.steps = [line for line in lines if line[0].isdigit()]

    def step(self, step, reply, changes):
        actor, word, number = int(step[0]), reply[1], int(step[2])
        if word == "granted":
            self.owners[number] = actor
        elif word == "queued":
            self.waits[actor] = number
        elif word in ("freed", "handed"):
            self.owners.pop(number)
        if word == "handed":
            self.owners[number] = int(reply[2])
            self.waits.pop(int(reply[2]))
        if word == "withdrawn":
            self.waits.pop(number)
        self.prios.update((int(one[1]), int(one[3])) for one in changes)

    def after_marks(self, report, marks):
        """Yields the lines of the marks, as this is after their steps."""
        answers = [line.split() for line in report]
        groups, at = [], 0
        for is_change, group in itertools.groupby(answers, key=lambda one: one[0] == "task"):
            group = list(group)
            if is_change:
                groups[-1][1] += group
            else:
                groups += [[one, []] for one in group]
        for line, count in marks:
            for step, group in zip(self.steps[at:count], groups[at:count]):
                self.step(step, *group)
            at = count
            yield line


class Agreement:
    """Looks whether a report is that of facts, by the plain definitions."""

    def __init__(self, text, trace):
        self.lines, self.trace, self.world = text.splitlines(), trace, World()
        self.threads = {number: one for one, number in trace.window.tasks.items()}
        self.mutexes = {number: one for one, number in trace.window.mutexes.items()}
        self.at, self.replayed = 1, Replayed(trace.text())

    def fault(self, report):
        first = self.trace.window.lines[0][0] if self.trace.window.lines else 0
        for line in self.replayed.after_marks(report, self.trace.marks):
            for one in self.lines[self.at:(line or first - 1)]:
                self.world.apply(line_of(one))
            self.at = max(self.at, line or first - 1)
            why = self.difference()
            if why:
                return f"line {line}: {why}"
        return None

    def difference(self):
        owners = {self.mutexes[mutex]: self.threads[thread]
                  for mutex, thread in self.replayed.owners.items()}
        waits = {self.threads[thread]: self.mutexes[mutex]
                 for thread, mutex in self.replayed.waits.items()}
        for mutex in self.mutexes.values():
            if owners.get(mutex) != self.world.owner.get(mutex) and not (
                    self.is_handed(mutex, owners.get(mutex))):
                return f"the owner of {mutex}"
        for thread in self.threads.values():
            if waits.get(thread) != self.wait_wanted(thread, owners, waits):
                return f"the wait of {thread}"
        return self.levels(owners, waits)

    def is_handed(self, mutex, thread):
        """Returns whether a free mutex has been released to this thread, which waits for it still
        as it is granted it."""
        world = self.world
        if mutex in world.owner or world.awaits.get(thread) != mutex:
            return False
        for one in map(line_of, self.lines[self.at:]):
            if one.what in ("granted", "took") and one.mutex == mutex:
                return one.thread == thread
            if one.what == "gave-up" and one.thread == thread:
                return False
        return False

    def wait_wanted(self, thread, owners, waits):
        """Returns the mutex that a thread awaits in the trace. One wait of a cycle is left out."""
        mutex, way = self.world.awaits.get(thread), self.world.way(thread)
        if owners.get(mutex) in (None, thread):
            return None
        left = [one for one in set(way) if one not in waits]
        return waits.get(thread) if thread in way[1:] and len(left) == 1 else mutex

    def levels(self, owners, waits):
        """What each thread gets by the trace's owners and waits is what it executes at."""
        world, kept = self.world, (self.world.owner, self.world.awaits)
        world.owner, world.awaits = {**world.owner, **owners}, waits
        priority = self.trace.window.priorities
        wrong = [thread for number, thread in self.threads.items() if thread in world.level
                 if self.replayed.prios[number] != priority[world.gets(thread)]]
        world.owner, world.awaits = kept
        return f"the level of {wrong[0]}" if wrong else None


class Traces(Case):
    def test_traces_by_hand(self):
        for name, facts, window, wanted in EXAMPLES:
            trace = trace_of(*read(text_of(facts.split(";"))), *window)
            got = tuple(trace.text().splitlines())
            why = difference(got, ("pim 2", *filter(None, wanted.split(";"))))
            self.check(f"the trace of {name}", why or judged(own_program(), trace)[1])
        page = (ROOT / "docs/TEXT.md").read_text()
        facts, wanted = (re.sub(r"(?m)^    ", "", one) for one in re.findall(
            r"(?m)^(    (?:facts 1|pim 2)\n(?:    .*\n)+)", page))
        got = trace_of(*read(facts.encode()), *ALWAYS).text()
        self.equal("the trace that its page shows", (got,), (wanted,))

    def test_limits(self):
        """A window that is too large isn't made, and a shorter one is named that is made."""
        most = trace_window.MOST_TASKS, trace_window.MOST_MUTEXES, trace_window.MOST_STEPS
        self.equal("the limits of a trace", most, (256, 256, 65536))
        pair = "{0} {1} granted 1", "{0} {1} released 1"
        many = [one.format(10 * t, t) for t in range(1, 258) for one in pair]
        mutexes = [f"mutex {m} none m{m}" for m in range(3, 300)]
        locks = [f"{10 * m} 1 granted {m}" for m in range(1, 300)]
        steps = [one.format(10 * at, at % 2 + 1) for at in range(32769) for one in pair]
        for what, facts, last in (("256 threads", many, 2569), ("256 mutexes", mutexes + locks, 2569),
                                  ("65,536 steps", steps, 327679)):
            parts = read(text_of(LIMITED + facts))
            wanted = f"a trace has no room for more than {what}: a window up to {last}ns has"
            got = fault_of(lambda: trace_of(*parts, *ALWAYS))
            self.equal(f"more than {what}", (got,), (wanted,))
            trace = trace_of(*parts, 0, last)
            is_full = 256 in (len(trace.window.tasks), len(trace.window.mutexes)) or (
                len(trace.steps) == 65536)
            self.check(f"{what}", None if is_full else f"{len(trace.steps)} steps")
        parts = read(text_of(LIMITED + [one.format(5, t) for t in range(1, 258) for one in pair]))
        wanted = ("a trace has no room for more than 256 threads:"
              " a window of a later time may have")
        got = fault_of(lambda: trace_of(*parts, 5, 9))
        self.equal("257 threads at one time", (got,), (wanted,))
        parts = read(text_of(LIMITED + [one.format(10**18 + t, t) for t in range(1, 258)
                                        for one in pair]))
        named = fault_of(lambda: trace_of(*parts, *ALWAYS)).split(" ")[-2]
        why = difference((nanoseconds_of(named),), (10**18 + 256,))
        self.check("--to has the window that is named", why)

    def test_priorities_of_levels(self):
        wrong = []
        for levels, wanted in (({0, 10}, {0: 1, 10: 10}), ({1, 100}, {1: 1, 100: 99}),
                               ({0, 1, 98}, {0: 1, 1: 2, 98: 99}), ({0, 1, 99}, {0: 1, 1: 2, 99: 3}),
                               ({98, 99, 100}, {98: 1, 99: 2, 100: 3}), ({99}, {99: 99}), (set(), {})):
            wrong += [] if priorities_of(levels) == wanted else [str(levels)]
        self.check("priorities of levels", ", ".join(wrong))
        most = priorities_of({*range(50), *range(52, 101)})
        self.equal("priorities of 99 levels", (*most.values(),), (*range(1, 100),))
        why = "a trace has no room for more than 99 levels"
        got = fault_of(lambda: priorities_of({*range(50), *range(51, 101)}))
        self.equal("100 levels", (got,), (why,))

    def test_what_the_command_writes(self):
        """What the command writes. `run` runs pim-report with some arguments and a text."""
        file, facts = pathlib.Path(self.folder) / "run.pim", text_of(EXAMPLES[0][1].split(";"))

        def said(*words, judge=own_program(), to=file):
            file.unlink(missing_ok=True)
            words = "--facts", "-", "--trace", to, "--judge", judge, *words
            status, out, err = run(*words, text=facts)
            return status, bool(out), " ".join(err.split()), file.read_text() if file.exists() else None

        declared, steps = "pim 2\ntask 1 30\ntask 2 10\nmutex 1 inherit\n", (
            "2 lock 1 = granted\n", "1 lock 1 = queued\n", "2 unlock 1 = handed 1\n",
            "1 unlock 1 = freed\n")
        called = "task 1 is high; task 2 is low; mutex 1 is m"
        for words, count, lines in (((), 4, "6 to 10"), (("--to", "10ns"), 2, "6 to 7"),
                                    (("--from", "10ns", "--to", "20ns"), 3, "7 to 9")):
            note = f"{file}: {count} steps, of lines {lines}; {called}"
            wanted = 0, True, note, declared + "".join(steps[:count])
            self.check(" ".join(("--trace", *words)), difference(said(*words), wanted))
        none = "no trace is written"
        changed = "sh -c '" + own_program() + " | sed \"{}\"'"
        for judge, why in (
                (changed.format("s/at 30/at 29/"), f"{none}: line 7, 10 1 waits 5: the level of thread"
             " 2 is another one by pim, 30 by the facts"),
                (changed.format("s/handed 1/freed/"), f"{none}: line 8, 20 2 released 5: pim answers"
             " '3 freed' to step 3, 2 unlock 1 = handed 1"),
                (changed.format("/at 10/d"), f"{none}: line 8, 20 2 released 5: the level of thread 2"
             " is 30 by pim, 10 by the facts"),
                (changed.format("2,\\$d"), f"{none}: line 7, 10 1 waits 5: pim answers '' to step 2,"
             " 1 lock 1 = queued"),
                (changed.format("\\$d"), f"{none}: the report of pim doesn't end with the last step"),
                ("sh -c 'echo pim: no >&2; exit 2'", "no"),
                ("sh -c 'exit 5'", "sh judged nothing, with status 5"),
                ("/nowhere", "/nowhere: No such file or directory")):
            self.check(f"--judge {judge[-16:]}",
                       difference(said(judge=judge), (2, True, f"pim-report: {why}", None)))
        why = "pim-report: /no/where: No such file or directory"
        self.check("a trace that can't be written", difference(said(to="/no/where"), (2, True, why, None)))

    def test_traces_of_random_facts(self):
        """Traces of random facts are accepted, and their reports are those of the facts."""
        wrong, words = [], set()
        for seed in range(100):
            text = RandomText(seed).data()
            facts, found = read(text)
            third = found.ended // 3
            for window in (ALWAYS, (third, 2 * third), (third, 10**19)):
                trace = trace_of(facts, found, *window)
                report, why = judged(own_program(), trace)
                why = why or Agreement(text, trace).fault(report)
                wrong += [f"{seed} from {window[0]}: {why}"] if why else []
                words |= {re.sub(r" \d+", "", step.partition(" ")[2]) for step in trace.steps}
        self.check("random facts and their traces agree", "; ".join(wrong[:3]))
        wanted = {"lock = granted", "lock = queued", "lock = refused deadlock", "try = granted",
                  "unlock = freed", "unlock = handed", "cancel = withdrawn", "base = set", "ceil = set"}
        self.check("each step and reply was made", ", ".join(wanted - words))
