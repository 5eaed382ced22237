"""Reads and writes that fail, are interrupted or move less than was asked.

The fault comes at each read of standard input and each write to standard output in turn, and at all of
them in one run.
"""
import itertools

from tests.cases import Case, temporary_folder
from tests.shared.checks import Faulty, difference, program

STEPS = 8_000
TEXT = b"pim 1\n" + b"65535 base 65535 65535 = refused no-task\n" * STEPS
REPORT = b"".join(b"%d refused no-task\n" % k for k in range(1, STEPS + 1))
REPORT += b"accepted %d\n" % STEPS


class Streams(Case):
    @classmethod
    def setUpClass(cls):
        cls.pim, cls.faulty = program(), Faulty(temporary_folder(cls.addClassCleanup))

    def run_with(self, call, kind, number):
        return self.faulty.run([self.pim], call, kind, number, TEXT)

    def failures(self, call, kind, may_write):
        """Checks that the program reports the fault at each of the calls, and counts the calls."""
        for number in itertools.count(1):
            status, out, err = self.run_with(call, kind, number)
            if status == 0 and out == REPORT:
                return number - 1
            got, wanted = (status, may_write(out), err), (2, True, b"pim: %s\n" % call.encode())
            self.assertEqual(got, wanted, f"{call} {number}")

    def unharmed(self, call, count):
        """Checks that report and status are the same if any of the counted calls is interrupted or does less."""
        for kind in ("interrupt", "short"):
            wrong = (difference(self.run_with(call, kind, number), (0, REPORT, b"")) for number in range(1, count + 1))
            why = next((f"{call} {number}: {why}" for number, why in enumerate(wrong, 1) if why), None)
            self.check(f"each of {count} {call}s with '{kind}'", why)

    def test_each_read_fails_is_interrupted_or_gives_less(self):
        count = self.failures("read", "fail", lambda out: out == b"")
        self.assertGreater(count, len(TEXT) // 65_536, f"too few reads for {len(TEXT)} bytes")
        self.unharmed("read", count)

    def test_each_write_fails_is_interrupted_or_takes_less(self):
        count, pages = self.failures("write", "fail", REPORT.startswith), len(REPORT) // 65_536
        self.assertIn(count, range(pages, 2 * pages + 2), f"writes of {len(REPORT)} bytes")
        self.unharmed("write", count)

    def test_a_write_that_takes_nothing_is_a_fault(self):
        self.failures("write", "nothing", REPORT.startswith)

    def test_reads_of_one_byte_each(self):
        self.assertEqual(self.run_with("read", "short", 0), (0, REPORT, b""))

    def test_writes_of_one_byte_each(self):
        self.assertEqual(self.run_with("write", "short", 0), (0, REPORT, b""))

    def test_nothing_is_read_after_the_end(self):
        self.assertEqual(self.run_with("read", "nothing", 1), (2, b"", b"pim: line 1\n"))
