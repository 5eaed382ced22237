"""linux/storm where no thread needs a right: stops by hand."""
import os

from tests.linux.cases import LINUX, LinuxCase, setUpModule
from tests.shared.checks import answer, program
from tests.conform.cases import parsed_as, script_module

import storms

STORM = """Linux 6.12.9, glibc 2.36, 5 threads
mutex 1 inherit
mutex 2 inherit
mutex 3 protect 91
stop 1
thread 1 base 10 at 90 owns 1
thread 2 base 20 at 90 waits 1 owns 2
thread 3 base 90 at 90 waits 2
thread 4 base 30 at 91 owns 3
thread 6 base 40 at 40 waits 3
stop 2
thread 1 base 10 at 30 owns 1
thread 2 base 20 at 60 waits 1 owns 2
thread 3 base 60 at 60 waits 2
thread 4 base 30 at 30 waits 1
thread 5 base 5 at 55
thread 7 base 50 at 40
stopped 2, locks 4, waits 2, timeouts 0, cancels 0, priorities 1
"""
SAID = """stop 2, thread 1:
    pim 1
    task 1 10
    task 2 20
    task 3 60
    mutex 1 inherit
    mutex 2 inherit
    1 lock 1
    2 lock 2
    2 lock 1
    3 lock 2
    task 1 executes at 30, should at 60 (waiter 2 mutex 1)
stop 2, thread 5:
    pim 1
    task 1 5
    task 1 executes at 55, should at 5 (base)
stop 2, thread 7:
    pim 1
    task 1 50
    task 1 executes at 40, should at 50 (base)
Linux 6.12.9, glibc 2.36, 5 threads
stopped 2, locks 4, waits 2, timeouts 0, cancels 0, priorities 1
2 stops: 1 with a wrong priority, 1 threads above, 2 below
"""


# ---- the command line

WRONG = {"--threads 1": "--threads is from 2 to 64", "--mutexes 65": "--mutexes is from 1 to 64",
         "--seconds 0": "--seconds is from 1 to 86400",
         "--cpus 9999": "--cpus has one that isn't there",
         "--cpus x": "argument --cpus: 'x' isn't a list of CPUs, as 0,1"}


class Storm(LinuxCase):
    def test_each_wrong_priority_of_a_stop_is_told(self):
        """What linux/storm says of stops: each wrong priority, with the smallest text."""
        stored = self.folder / "stored"
        stored.write_text(STORM)
        command = [LINUX / "storm", "--pim", program(), "--from", stored]
        self.same("a storm with wrong priorities", answer(command), 1, SAID.encode(), b"")
        right = STORM.replace("at 30 owns 1", "at 60 owns 1").replace("at 55", "at 5")
        right = right.replace("at 40\nstopped", "at 50\nstopped")
        stored.write_text(right)
        status, out, _ = answer(command)
        self.same("a storm without one", (status, out.splitlines()[-1]), 0,
                  b"2 stops: 0 with a wrong priority, 0 threads above, 0 below")
        cases = {"a storm that didn't end": (right.partition("stopped")[0], "the storm didn't end"),
                 "a line that can't be read": (right.replace("base 20 at", "base at"),
                                               "the storm's line can't be read: thread"),
                 "what storm says itself": (right + "storm: lock\n", "the storm said: storm: lock"),
                 "a mutex that nobody owns": (right.replace(" owns 2", ""),
                                              "thread 3 waits for a mutex that nobody owns"),
                 "two owners": (right.replace("owns 3", "owns 3 owns 1"),
                                "the state of a stop isn't one of a run")}
        for name, (text, wanted) in cases.items():
            stored.write_text(text)
            status, _, err = answer(command)
            self.same(f"a fault: {name}", (status, f"storm: {wanted}" in err.decode()), 2, True)

    def test_the_text_of_a_stop(self):
        """The text of a stop: owners lock, then waiters; threads and mutexes are numbered anew."""
        threads = {7: storms.Thread(10, 60, None, (4, 9)), 3: storms.Thread(60, 60, 9, ())}
        got = storms.text_of(threads, {4: "protect 91", 9: "inherit", 2: "inherit"})
        text = ("pim 1\ntask 1 60\ntask 2 10\nmutex 1 protect 91\nmutex 2 inherit\n"
            "2 lock 1\n2 lock 2\n1 lock 2\n")
        self.same("the text of a stop", got, text, {3: 1, 7: 2})

    def test_options(self):
        """What linux/storm takes, and what it doesn't; and what its program refuses."""
        module, cpus = script_module("linux/storm"), sorted(os.sched_getaffinity(0))[-2:]
        usual = {"seconds": 60, "cpus": cpus, "threads": 40, "mutexes": 30, "seed": 1, "pim": None,
                 "stored": None}
        self.same("storm: what isn't given", parsed_as(module), usual)
        self.same("storm: CPUs", parsed_as(module, "--cpus", f"{cpus[0]},{cpus[0]}")["cpus"], cpus[:1])
        for words, wanted in WRONG.items():
            self.same(f"storm: {words}", parsed_as(module, *words.split()), 2, wanted)
        status, out, _ = answer([LINUX / "storm", "--help"])
        self.same("storm --help", (status, b"'ulimit -r 99'" in out, b"Status: 0" in out), 0, True, True)
        for words in ("--threads 1", "--mutexes 65", "--seconds 0", "--seed x"):
            status, out, err = answer([LINUX / "out/storm", *words.split()])
            said = b"isn't a number from " in err
            self.same(f"the threads' program: {words}", (status, out, said), 2, b"", True)
