"""Each allocation of the calls that allocate, and of the program, fails.

Makes each call of crates/pim_soak that allocates: its first allocation fails, then its second, until no
failing one is left. The call must succeed, or report that it was out of memory, and then it changed nothing.
The program must then end with status 2, a prefix of the report, and the line 'pim: memory'. A script that
the program runs or checks must then end with status 2, no output, and one of three lines; so it must if one
of its threads can't be started. Of the program, 'check' and 'run' must be out of memory in the run at least
once: one that printed its output without a run would never be. The log of a run must have room for the
run's entries, and for no more.
"""
import re
import subprocess

from tests.cases import Case, temporary_folder
from tests.shared.checks import Faulty, answer, difference, program, soak

MOST = 5_000
STEPS = 5_000
TASKS = b"".join(b"task %d 10\n" % task for task in range(1, 257))
TEXT = b"pim 1\n" + TASKS + b"1 release\n" * STEPS
REPORT = b"".join(b"%d released 0\n" % k for k in range(1, STEPS + 1)) + b"accepted %d\n" % STEPS

ONE_TASK = b"pim 1\ntask 1 10\nmutex 1 protect 20\n1 lock 1\n"
TWO_TASKS = b"pim 1\ntask 1 10\ntask 2 20\nmutex 1 inherit\nmutex 2 inherit\n" + b"".join(
    b"%d lock 1\n%d lock 2\n%d unlock 2\n%d unlock 1\n" % (4 * (task,)) for task in (1, 2)
)
SIXTEEN = b"pim 1\n" + b"".join(b"task %d 10\n" % task for task in range(1, 17))
SIXTEEN += b"mutex 1 inherit\n"
SIXTEEN += b"".join(b"%d lock 1\n%d unlock 1\n" % (task, task) for task in range(1, 17))
# The jobs, with their scripts and what they write. The trace of the run of two tasks depends on the schedule.
RUNS = (
    ("run", "one task", ONE_TASK, ONE_TASK[:-1] + b" = granted\n1 release = released 1\n"),
    ("run", "two tasks", TWO_TASKS, None),
    ("check", "two tasks", TWO_TASKS, b"accepted 10\n"),
)
LINES = (b"pim: memory\n", b"pim: shared memory\n", b"pim: shared no place\n")
# How a call ends without memory. The last line is the toolchain's: it is printed if the arguments can't be read.
NO_MEMORY = r"out of memory (in|before) the call|^Error: Kind\(OutOfMemory\)$"


def sweep(faulty, command, text=b""):
    """Yields the number of each allocation, with what the command answers if it fails."""
    quiet = 0
    for number in range(1, MOST):
        answer = faulty.run(command, "alloc", "fail", number, text)
        # The program itself does without some of its allocations.
        quiet = quiet + 1 if answer[0] == 0 else 0
        if quiet == 8:
            return
        yield number, answer
    yield MOST, (1, b"", b"allocations without an end")


def trace_by_schedule(pim, script, trace):
    """Returns the trace if it is one of a run of the script, by its judge and its lines, else what it should be."""
    declared = [line for line in script.splitlines() if not line[:1].isdigit()]
    steps = [line for line in script.splitlines() if line[:1].isdigit()] + [b"1 release", b"2 release"]
    lines = [line.partition(b" = ")[0] for line in trace.splitlines()]
    made = lines[len(declared):]
    in_order = sorted(made, key=lambda line: line[0]) == sorted(steps, key=lambda line: line[0])
    judged = answer([pim, "judge"], trace)
    is_one = lines[:len(declared)] == declared and in_order and judged[0] == 0
    return trace if is_one else b"a trace of the script"


def steps_of(out):
    """Returns how many steps a trace has, or its judge accepted."""
    accepted = re.fullmatch(rb"accepted (\d+)\n", out)
    return int(accepted[1]) if accepted else out.count(b" = ")


class FailingAllocations(Case):
    @classmethod
    def setUpClass(cls):
        cls.pim, cls.soak, cls.faulty = program(), soak(), Faulty(temporary_folder(cls.addClassCleanup))

    def test_each_call_that_allocates(self):
        names = subprocess.run([self.soak, "allocations"], stdout=subprocess.PIPE, text=True).stdout.split()
        # The calls 'judge', 'check' and 'run' are those of the program.
        self.assertGreaterEqual(len(names), 17, names)
        for name in names:
            with self.subTest(name):
                self.assertGreater(self.failed_in(name), 0, "no allocation of it failed")

    def failed_in(self, name):
        """Checks a call, and counts the allocations that the call itself makes."""
        failed = 0
        for number, (status, out, err) in sweep(self.faulty, [self.soak, "allocations", name]):
            said = (out + err).decode(errors="replace")
            failed += "out of memory in the call" in said
            if status != 0 and not re.search(NO_MEMORY, said, re.MULTILINE):
                self.fail(f"allocation {number}: status {status}, {said.strip()[-200:]}")
        return failed

    def test_pim_ends_with_a_prefix_of_its_report(self):
        failed = 0
        for number, (status, out, err) in sweep(self.faulty, [self.pim], TEXT):
            failed += status != 0
            wanted = (2, REPORT[:len(out)], b"pim: memory\n") if status else (0, REPORT, b"")
            self.assertFalse(difference((status, out, err), wanted), f"allocation {number}")
        self.assertGreater(failed, 10, "too few to be all")

    def test_a_run_writes_nothing(self):
        for job, whose, script, output in RUNS:
            with self.subTest(f"pim {job} of {whose}"):
                self.assertIn(LINES[1], self.faults_of(job, script, output), "no allocation of the run failed")

    def faults_of(self, job, script, output):
        """Checks a run with each allocation refused, and returns the lines that it then wrote to standard error."""
        faults = set()
        for number, (status, out, err) in sweep(self.faulty, [self.pim, job], script):
            if status == 0:
                wanted = trace_by_schedule(self.pim, script, out) if output is None else output
                self.assertEqual((out, err), (wanted, b""), f"allocation {number}")
            else:
                self.assertEqual((status, out, err in LINES), (2, b"", True), f"allocation {number}: {err}")
                faults.add(err)
        return faults

    def test_a_job_of_16_tasks_writes_nothing_if_a_thread_cannot_be_started(self):
        for job in ("run", "check"):
            for number in range(1, 18):
                wanted = (2, b"", LINES[1]) if number <= 16 else (0, 48, b"")
                status, out, err = self.faulty.run([self.pim, job], "thread", "fail", number, SIXTEEN)
                self.equal(f"{job}, thread {number}", (status, out if status else steps_of(out), err), wanted)

    def test_a_log_has_room_for_its_entries_and_for_no_more(self):
        """The numbers of entries are primes. Nothing else has as many items, or a multiple of that: so the sizes of
        the allocations that are multiples of them are those of the logs, and have one quotient."""
        for job in ("run", "check"):
            with self.subTest(job):
                common = set.intersection(*(self.quotients(job, *sizes) for sizes in
                                            ((1, 1_009), (3, 2_003), (16, 4_001))))
                self.assertEqual(len(common), 1, f"bytes for an entry: {sorted(common)}")

    def quotients(self, job, tasks, entries):
        """Returns the sizes of a run's allocations that are multiples of its entries, divided by these."""
        declared = b"".join(b"task %d 10\n" % task for task in range(1, tasks + 1))
        script = b"pim 1\n" + declared + b"1 release\n" * (entries - tasks)
        status, out, err = self.faulty.run([self.pim, job], "sizes", "told", 0, script)
        self.assertEqual((status, steps_of(out)), (0, entries), err[-200:])
        sizes = {int(size) for size in err.split()}
        return {size // entries for size in sizes if size and size % entries == 0}
