"""The traces of suite/ and examples/, performed by threads on the kernel's mutexes, and on libpim behind those of C."""
import os
import re

from tests.cases import Case
from tests.conform.cases import setUpModule
from tests.shared.checks import ROOT, SECONDS, answer, made
from tests.shared.suite_texts import traces

import compare
import fuzz
from walk import HABITS, Walk

CPU = max(os.sched_getaffinity(0))


class Performed:
    """A trace that threads can perform: its report accepts, and no priority is that of the performer's controller."""

    def __init__(self, text, report):
        self.text = compare.Text(text.decode())
        self.wanted = compare.steps_of(report.decode().splitlines())

    def is_as_linux(self):
        """Returns whether nothing is known that Linux and glibc do otherwise than the report says.

        conform/walk.py knows what they do with texts of version 1 whose numbers are all declared.
        """
        has_unknown = any(it.reply in ("refused no-task", "refused no-mutex") for it in self.wanted)
        if self.text.lines[0] != "pim 1" or has_unknown:
            return True
        return fuzz.same(Walk(self.text, frozenset(HABITS)).run(), self.wanted)

    def sets_a_ceiling(self):
        """Returns whether a step sets one, which c/pthreads can do only where the task could lock the mutex."""
        return any(" ceil " in step and it.reply == "set" for step, it in zip(self.text.steps, self.wanted))

    def differs(self, *before):
        """Performs it, and returns the first difference, or None."""
        words = [*before, compare.PERFORMER, "--cpu", CPU, "--seconds", SECONDS]
        status, out, err = answer([str(word) for word in words], self.text.bare().encode(), 2 * SECONDS)
        if status != 0:
            return f"status {status}, {err.decode()}"
        done = compare.performance(out.decode(), len(self.text.steps))
        return next(iter(compare.differences(self.text, done.steps, self.wanted)), None)


def performable():
    """Returns the accepted traces without priority 99, the controller's, in which no lock is one too many.

    Threads may lock a recursive mutex more often than the 255 times of the manager.
    """
    controllers = re.compile(rb"^(?:.*protect |task \d+ |.*(?:base|ceil) \d+ )99\b", re.M)
    return {name: Performed(text, report) for name, (text, (status, report, _)) in traces().items()
            if status == 0 and not controllers.search(text) and b" refused again\n" not in report}


def may_perform():
    """Returns whether the performer may use SCHED_FIFO."""
    return answer([str(compare.PERFORMER), "--cpu", str(CPU)], b"pim 1\n")[0] != compare.NO_RIGHTS


class Performers(Case):
    def perform(self, player, texts, *before):
        wrong = ((name, text.differs(*before)) for name, text in texts.items())
        none = None if texts else "all are left out"
        self.check(f"{player}: {len(texts)} traces", next((f"{name}: {why}" for name, why in wrong if why), none))

    def test_the_running_kernel_performs(self):
        """The running kernel's mutexes, on the traces that they are known to perform as the report says."""
        if not may_perform():
            self.skipTest("SCHED_FIFO isn't permitted")
        self.perform("the kernel", {name: text for name, text in performable().items() if text.is_as_linux()})

    def test_libpim_behind_the_c_library_performs(self):
        """libpim behind the C library's mutexes."""
        if not may_perform():
            self.skipTest("SCHED_FIFO isn't permitted")
        made("c", "pthreads")
        texts = {name: text for name, text in performable().items() if not text.sets_a_ceiling()}
        self.perform("libpim-pthreads.so", texts, "env", f"LD_PRELOAD={ROOT / 'c/out/libpim-pthreads.so'}")
