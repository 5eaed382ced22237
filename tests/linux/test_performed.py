"""The storm and the programs of docs/LINUX.md on the running kernel, where SCHED_FIFO is permitted."""
import platform
import re
import unittest

from tests.conform.cases import is_known, last_cpu
from tests.linux.cases import LINUX, LinuxCase, setUpModule
from tests.shared.checks import SECONDS, answer, difference, program

import compare


def clock(name, *words):
    """Returns the milliseconds that a program of the page says that a thread waited."""
    return int(re.search(r" waited (\d+) ms ", answer([str(LINUX / "out" / name), *words])[1].decode())[1])


class Performed(LinuxCase):
    @classmethod
    def setUpClass(cls):
        if answer([compare.PERFORMER, "--cpu", str(last_cpu())], b"pim 1\n")[0] == compare.NO_RIGHTS:
            raise unittest.SkipTest("SCHED_FIFO isn't permitted")

    def test_storms_of_seconds(self):
        """Threads on two CPUs stop, are judged, and end: whatever the kernel's priorities are."""
        done = answer([LINUX / "storm", "--seconds", "3", "--pim", program()], seconds=2 * SECONDS)
        lines = done[1].decode().splitlines()
        stops = re.fullmatch(r"([1-9]\d*) stops: (\d+) with a wrong priority, .*", lines[-1] if lines else "")
        self.check("threads storm on two CPUs", None if stops and lines[0].startswith("on CPUs ") else f"{done}")
        if stops:
            self.check("the status of a storm", difference(done[:1], (1 if stops[2] != "0" else 0,)))

    def test_programs_of_the_page(self):
        """What the page's programs print, with the difference and without: how long a thread waits, in milliseconds."""
        if not is_known():
            return self.skip("the clocks of the page's programs", "what is expected of this kernel isn't known")
        least = {"lost_boost": 300, "misplaced_boost": 300, "stale_boost": 70}
        for name, wait in least.items():
            long, short = clock(name), clock(name, "without")
            for _ in range(5):  # other load only makes a wait longer
                short = short if short < wait / 2 else min(short, clock(name, "without"))
            self.check(f"the clock of {name}", None if long >= wait > 2 * short else f"{long} ms, {short} ms without")

    def test_a_lost_boost_does_not_come_back(self):
        """Without PREEMPT_RT a lost boost doesn't come back by a spinlock of the kernel."""
        status, out, _ = answer([LINUX / "out/regained_boost"])
        if not is_known() or "PREEMPT_RT" in platform.version() or status == 77:
            return self.skip("a boost that is lost stays so", out.decode().strip() or "it is another kernel")
        said = re.sub(r" \d+ ms ", " .. ms ", out.decode())
        wanted = "the owner is lowered, and executes at 20\nafter .. ms it executes at 20\n"
        self.equal("a boost that is lost stays so", (status, said), (0, wanted))
