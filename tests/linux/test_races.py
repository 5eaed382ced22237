"""linux/races.py and linux/race: orders of steps, in the model."""
import random

from tests.linux.cases import LINUX, LinuxCase, setUpModule
from tests.shared.checks import answer, program

import compare
import fuzz
import races
import walker

# By hand: the task that executes at a wrong priority if a part of the first change is left out, at
# what it does, and at what it should.
WRONG = {"stop": (1, 90, 60), "released": (6, 50, 30), "inline": (1, 60, 40),
         "deadlock": (5, 90, 30)}
TABLE = """\
| The changes | stop | released | inline | deadlock | two calls | three calls |
|---|---|---|---|---|---|---|
| as they are | 0 of 1 | 0 of 1 | 0 of 2 | 0 of 1 | 0 of 3 | 0 of 3 |
| without stop | 1 of 1 | 0 of 1 | 0 of 2 | 0 of 1 | 0 of 3 | 0 of 3 |
| without released | 0 of 1 | 1 of 2 | 0 of 2 | 0 of 1 | 0 of 3 | 0 of 3 |
| without inline | 0 of 1 | 0 of 1 | 1 of 3 | 3 of 4 | 0 of 3 | 0 of 3 |
| without deadlock | 0 of 1 | 0 of 1 | 0 of 2 | 1 of 2 | 0 of 3 | 1 of 3 |
| without all of them | 1 of 1 | 0 of 1 | 1 of 3 | 1 of 2 | 0 of 3 | 1 of 3 |
"""
ENDING = ["    adjust 2", "    blocked 3 2", "task 1 executes at 60, should at 40", ""]


def last(model, s, actors):
    """Returns the state when all is done, where no order is left open."""
    while True:
        found = list(races.nexts(model, s, actors))
        if not found:
            return s
        _, s, actors = found[0]


class Races(LinuxCase):
    def test_each_part_of_the_change_is_needed(self):
        """Each part of the first change is needed in its schedule, and with all no end is wrong."""
        for name, schedule in races.SCHEDULES.items():
            text = races.text_of(schedule)
            found = races.explore(text, schedule.calls)
            self.same(f"the schedule {name}", (found.ends > 0, found.wrong), True, [])
            found = races.explore(text, schedule.calls, (name,))
            task, real, should = WRONG[name]
            got = {(s.prio[task], s.should()[task]) for s, _ in found.wrong}
            self.same(f"the schedule {name} without its part", got, {(real, should)})
            others = {it for s, _ in found.wrong for it, (a, b) in enumerate(zip(s.prio, s.should()))
                      if a != b}
            self.same(f"the other priorities of {name}", others, {task})

    def test_orders_counted_by_hand(self):
        """Orders that can be counted by hand."""
        free = compare.Text("pim 1\ntask 1 10\ntask 2 20\nmutex 1 inherit\n")
        found = races.explore(free, ["1 lock 1", "2 lock 1"])
        self.same("either of two gets a free mutex", (found.ends, found.wrong), 2, [])
        found = races.explore(free, ["1 lock 1; 1 unlock 1", "2 lock 1; 2 unlock 1"])
        self.same("both get it, and it is free", (found.ends, found.wrong), 1, [])
        circle = compare.Text("pim 1\ntask 1 10\ntask 2 20\nmutex 1 inherit\nmutex 2 inherit\n"
                          "1 lock 1\n2 lock 2\n")
        found = races.explore(circle, ["1 lock 2", "2 lock 1"])
        # Who is refused depends on the order, and both may be, as each walk meets the other.
        self.same("of two that lock crosswise one waits, or none", (found.ends, found.wrong), 3, [])
        self.same("too many states", races.explore(circle, ["1 lock 2", "2 lock 1"], (), 9), None)

    def test_after_a_single_call(self):
        """After a single call the model's priorities are those of pim's report."""
        rng, wrong, count = random.Random(4), None, 0
        while count < 100:
            text = compare.Text(fuzz.random_source(rng, "inherit"))
            actor, request, *numbers = text.steps[-1].split()
            steps = compare.reported(program(), text)
            if request in ("try", "release") or steps[-1].reply == "refused waiting":
                continue
            count += 1
            call = f"{numbers[0]} cancel {numbers[0]}" if request == "cancel" else text.steps[-1]
            before = compare.Text("\n".join(text.lines[:-1]) + "\n")
            for lacks in ((), ("released", "inline", "deadlock")):
                model, (s, actors) = races.Model(lacks), races.start(before, [call])
                s = last(model, s, actors)
                real = dict(text.bases)
                for step in steps:
                    real.update(step.changes)
                if [real[t] for t in sorted(real)] != s.prio[1:]:
                    wrong = wrong or text.bare()
        self.check("the model agrees with pim after a single call, in 100 random texts", wrong)

    def test_random_orders(self):
        """Random texts with calls behind them have no wrong end with the changes, and some without."""
        status, out, _ = answer([LINUX / "race", "--random", "3", "--seed", "5"])
        self.same("the table of orders", (status, out.decode()), 0, TABLE)

    def test_the_command_line(self):
        """What linux/race takes, and prints."""
        for name, (task, real, should) in WRONG.items():
            status, out, _ = answer([LINUX / "race", "--steps", name])
            end = out.decode().splitlines()[-1]
            self.same(f"the steps of {name}", (status, end), 0,
                      f"task {task} executes at {real}, should at {should}")
        out = answer([LINUX / "race", "--steps", "inline"])[1].decode()
        self.same("the last steps of inline", out.split("\n")[-4:], ENDING)
        status, out, _ = answer([LINUX / "race", "--help"])
        self.same("race --help", (status, b"Status: 0" in out, b"released" in out), 0, True, True)
        for words in (["--random", "-1"], ["--most", "0"], ["--steps", "none"], ["x"]):
            self.same(f"race: {' '.join(words)}", answer([LINUX / "race", *words])[0], 2)

    def test_what_a_walker_is_given(self):
        """What the walker of a source is given; and a folder that isn't one of a source.

        tests.linux.test_mended builds it, where a source is installed.
        """
        text = compare.Text("pim 1\ntask 1 10\ntask 2 20\nmutex 1 inherit\n"
                        "1 lock 1\n2 lock 1\n2 base 1 5\n1 release\n")
        steps = walker.steps_of(text)
        self.same("the calls of steps", steps, [["0 1 1"], ["0 2 1"], [], ["2 1 1"]])
        wanted = "2 10 20\n1\n3\n0 1 1\n0 2 1\n2 1 1\n"
        self.same("a walker's input", walker.given(text, steps), f"{wanted}0\n")
        got = walker.given(text, steps, ["1 base 2 30; 1 base 2 20", "2 cancel 2"])
        self.same("its input with calls", got, f"{wanted}2\n2\n4 2 30\n4 2 20\n1\n3 2 0\n")
        status, out, err = answer([LINUX / "race", "--source", self.folder])
        said = "rtmutex.c isn't there: it isn't the folder of a Linux source\n"
        self.same("another folder", (status, out, err.decode()), 2, b"",
                  f"race: {self.folder}/kernel/locking/{said}")
