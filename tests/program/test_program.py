"""What a user meets of the program: arguments, streams, faults and statuses."""
import contextlib
import os
import re
import resource
import signal
import subprocess
import tempfile
import time

from tests.cases import Case
from tests.shared.checks import ROOT, SECONDS, answer, built, difference, ended, program

ACCEPTED = b"pim 1\ntask 1 10\nmutex 1 none\n1 lock 1 = granted\n"
REPORT = b"1 granted\naccepted 1\n"
REJECTED = b"pim 1\ntask 1 10\nmutex 1 none\n1 lock 1 = queued\n"
REJECTION = b"1 granted but recorded queued\nrejected 1\n"
INVALID = b"pim 1\ntask 1 100\n"
SCRIPT = b"pim 1\ntask 1 10\nmutex 1 protect 20\n1 lock 1\n"
SEVENTEEN = b"pim 1\n" + b"".join(b"task %d 10\n" % n for n in range(1, 18))

# A step line of 41 bytes, so that 40,000 of them are more than a megabyte.
STEP = b"65535 base 65535 65535 = refused no-task\n"


def run(arguments=(), text=b"", streams="", before=None, pim=None):
    """Returns status, standard output and standard error of a run, redirected as by the shell."""
    command = ["sh", "-c", f'exec "$0" "$@" {streams}', pim or program(), *arguments]
    return answer(command, text, preexec_fn=before)


def long_trace(count, last=b""):
    return b"pim 1\n" + STEP * count + last


def long_report(count):
    return b"".join(b"%d refused no-task\n" % k for k in range(1, count + 1))


def few_bytes():
    """Leaves a program 100 MB."""
    resource.setrlimit(resource.RLIMIT_AS, (100_000_000, 100_000_000))


def early_reader(text, *arguments):
    """Returns status and standard error of a run whose standard output isn't read to the end."""
    with tempfile.TemporaryFile() as trace:
        trace.write(text)
        trace.seek(0)
        pipes = dict(stdin=trace, stdout=subprocess.PIPE, stderr=subprocess.PIPE)
        child = subprocess.Popen([program(), *arguments], **pipes)
        child.stdout.read(1000)
        child.stdout.close()
        return ended(child), child.stderr.read()


def by_pieces(text, size):
    """Returns status, standard output and standard error of a run that gets its input by pieces."""
    with tempfile.TemporaryFile() as out, tempfile.TemporaryFile() as err:
        child = subprocess.Popen([program()], stdin=subprocess.PIPE, stdout=out, stderr=err, bufsize=0)
        with contextlib.suppress(BrokenPipeError):
            for at in range(0, len(text), size):
                child.stdin.write(text[at : at + size])
                time.sleep(0.001)
        child.stdin.close()
        status = ended(child)
        out.seek(0), err.seek(0)
        return status, out.read(), err.read()


class Program(Case):
    def expect(self, name, got, status, out=b"", err=b""):
        self.equal(name, got, (status, out, err))

    def test_long_and_late_lines_are_invalid(self):
        lines = {
            "a line of 100,000 bytes": (b"pim 1\n" + b"1" * 100_000, 2),
            "a line of two million bytes": (b"pim 1\n" + b"1" * 2_000_000 + b"\n", 2),
            "a task of 100,000 digits": (b"pim 1\ntask " + b"1" * 100_000, 2),
            "a mutex of 100,000 digits": (b"pim 1\ntask 1 10\n1 lock " + b"1" * 100_000, 3),
            "a line behind 40,000 others": (long_trace(40_000, b"1 lock\n"), 40_002),
            "step line 65,537": (long_trace(65_537), 65_538),
            "line '1 release' 65,537": (b"pim 1\n" + b"1 release\n" * 65_537, 65_538),
        }
        for name, (text, number) in lines.items():
            self.expect(f"{name} is invalid", run(text=text), 2, err=b"pim: line %d\n" % number)
        releases = b"1 release\n" * 65_537
        scripts = {
            "65,537 lines '1 release' of no task": (b"pim 1\n" + releases, 2),
            "65,537 lines '1 release' of a task": (b"pim 1\ntask 1 10\n" + releases, 65_539),
        }
        for name, (text, number) in scripts.items():
            for job in ("run", "check"):
                line = b"pim: line %d\n" % number
                self.expect(f"{job}: {name} are invalid", run([job], text), 2, err=line)

    def test_each_fault_is_a_line_and_status_2(self):
        """Each fault is a line on standard error and status 2, also where standard error is closed."""
        endless = dict(streams="< /dev/zero", before=few_bytes)
        full = dict(text=SCRIPT, streams="> /dev/full")
        too_many = b"pim: too many workers\n"
        cases = {
            "line": (dict(text=INVALID), b"pim: line 2\n"),
            "a folder as input": (dict(streams="< ."), b"pim: read\n"),
            "standard input closed": (dict(streams="<&-"), b"pim: read\n"),
            "a full disk": (dict(text=ACCEPTED, streams="> /dev/full"), b"pim: write\n"),
            "standard output closed": (dict(text=ACCEPTED, streams=">&-"), b"pim: write\n"),
            "an input without an end": (endless, b"pim: memory\n"),
            "run, a recorded reply": (dict(arguments=["run"], text=ACCEPTED), b"pim: line 4\n"),
            "check, a recorded reply": (dict(arguments=["check"], text=ACCEPTED), b"pim: line 4\n"),
            "run, 17 tasks": (dict(arguments=["run"], text=SEVENTEEN), too_many),
            "check, 17 tasks": (dict(arguments=["check"], text=SEVENTEEN), too_many),
            "run, a folder as input": (dict(arguments=["run"], streams="< ."), b"pim: read\n"),
            "run, a full disk": (dict(arguments=["run"], **full), b"pim: write\n"),
            "check, a full disk": (dict(arguments=["check"], **full), b"pim: write\n"),
        }
        for name, (how, line) in cases.items():
            self.expect(f"fault: {name}", run(**how), 2, err=line)
            for stream, other in {"closed": "2>&-", "full": "2> /dev/full"}.items():
                unread = {**how, "streams": f"{how.get('streams', '')} {other}"}
                self.expect(f"fault: {name}, standard error {stream}", run(**unread), 2)
        for stream, other in {"closed": "2>&-", "full": "2> /dev/full"}.items():
            self.expect(f"accepted, standard error {stream}", run(text=ACCEPTED, streams=other), 0, REPORT)
            got = run(text=REJECTED, streams=other)
            self.expect(f"rejected, standard error {stream}", got, 1, REJECTION)

    def test_a_write_that_fails_after_others_leaves_a_prefix(self):
        """A write that fails behind others leaves a prefix of the report."""
        text, report = long_trace(40_000), long_report(40_000)
        with tempfile.TemporaryDirectory() as folder:
            def small_files():
                signal.signal(signal.SIGXFSZ, signal.SIG_IGN)
                resource.setrlimit(resource.RLIMIT_FSIZE, (100_000, 100_000))

            file = os.path.join(folder, "report")
            got = run(text=text, streams=f"> {file}", before=small_files)
            with open(file, "rb") as written:
                got += (written.read(),)
            wanted = (2, b"", b"pim: write\n", report[:100_000])
            self.equal("a disk that is full after 100,000 bytes", got, wanted)
        got = early_reader(text)
        self.equal("a reader of the report that leaves early", got, (2, b"pim: write\n"))

    def test_long_texts_are_read_and_written_completely(self):
        """A text is read to its end and a report written whole, however long, in whichever pieces."""
        for count in (1_700, 40_000):
            text, report = long_trace(count), long_report(count)
            whole = report + b"accepted %d\n" % count
            self.expect(f"{len(text):,} bytes of input", run(text=text), 0, whole)
            wrong = long_trace(count, b"1 lock 1 = granted\n")
            last = b"%d refused no-task but recorded granted\nrejected %d\n" % (count + 1, count + 1)
            name = f"{len(wrong):,} bytes of input, rejected at the last line"
            self.expect(name, run(text=wrong), 1, report + last)
        most = run(text=long_trace(65_536))
        whole = long_report(65_536) + b"accepted 65536\n"
        self.expect("65,536 steps", most, 0, whole)
        self.expect("65,536 lines '1 release'", run(text=b"pim 1\n" + b"1 release\n" * 65_536), 0, whole)
        pieces = by_pieces(long_trace(1_700), 1_000)
        self.expect("input by 1,000 bytes", pieces, 0, long_report(1_700) + b"accepted 1700\n")
        slow = (ROOT / "examples/ceilings.pim").read_bytes()
        report = (ROOT / "examples/ceilings.report").read_bytes()
        self.expect("input byte by byte", by_pieces(slow, 1), 0, report)

    def test_scripts_of_as_many_steps_as_a_trace(self):
        """A script may have as many steps as a trace, and its run more."""
        tasks = b"".join(b"task %d 10\n" % n for n in range(1, 17))
        steps = b"".join(b"%d release\n" % (n % 16 + 1) for n in range(65_536))
        most = b"pim 1\n" + tasks + steps
        self.expect("check of 65,536 steps by 16 tasks", run(["check"], most), 0, b"accepted 65552\n")
        status, trace, err = run(["run"], most)
        got = (status, trace.count(b" = released 0\n"), err)
        self.equal("run of 65,536 steps by 16 tasks", got, (0, 65_552, b""))
        self.expect("the judge of more steps than a trace has", run(text=trace), 2, err=b"pim: line 65554\n")
        got = early_reader(most, "run")
        self.equal("a reader of the trace that leaves early", got, (2, b"pim: write\n"))
        first = ["sh", "-c", '("$0" run; echo $? >&2) | head -1', program()]
        got = answer(first, most)
        self.equal("pim run | head -1", got, (0, b"pim 1\n", b"pim: write\n2\n"))

    def test_arguments(self):
        self.expect("the argument judge", run(["judge"], ACCEPTED), 0, REPORT)
        for asked in (["--help"], ["-h"], ["help"]):
            status, out, err = run(asked, ACCEPTED)
            told = (b"judge", b"pim run < SCRIPT | pim judge", b"Exit status: 0 accepted, 1 rejected, 2")
            tells = all(words in out for words in told)
            self.equal(f"the arguments {asked}", (status, tells, err), (0, True, b""))
        for asked in (["--version"], ["-V"]):
            status, out, err = run(asked, ACCEPTED)
            wanted = b"pim " + (ROOT / "VERSION").read_bytes()
            self.equal(f"the arguments {asked}", (status, out, err), (0, wanted, b""))
        status, out, err = run(["--help"], streams="> /dev/full")
        self.equal("help on a full disk", (status, out), (2, b""))
        wrong = (["foo"], [""], ["-"], ["--foo"], ["Judge"], ["judge", "x"], ["judge", "judge"])
        wrong += (["judge", "run"], ["judge", "--foo"], ["judge", "x", "y"], ["run", "x"])
        wrong += (["check", "judge"],)
        for asked in wrong:
            status, out, err = run(asked, ACCEPTED)
            self.equal(f"the wrong arguments {asked}", (status, out, bool(err)), (2, b"", True))
            self.expect(f"the wrong arguments {asked}, standard error closed", run(asked, ACCEPTED, "2>&-"), 2)
        not_text = b"pim: an argument is not UTF-8\n"
        self.expect("an argument that is not UTF-8", run([b"\xff"], ACCEPTED), 2, err=not_text)

    def test_a_stack_of_64_kib_is_enough(self):
        """A stack of 64 KiB is enough for the program and for each of its threads: as much as the pages say."""
        def small_stack():
            resource.setrlimit(resource.RLIMIT_STACK, (65_536, 65_536))

        tasks = b"".join(b"task %d %d\n" % (n, 10 + n // 3) for n in range(1, 257))
        mutexes = b"".join(b"mutex %d inherit\n" % n for n in range(1, 256))
        chain = b"".join(b"%d lock %d\n" % (n, n) for n in range(1, 256))
        chain += b"".join(b"%d lock %d\n" % (n + 1, n) for n in range(1, 256)) + b"1 release\n"
        workers = b"".join(b"task %d 10\n" % n for n in range(1, 17)) + b"mutex 1 inherit\n"
        steps = b"".join(b"%d lock 1\n%d unlock 1\n" % (n, n) for n in range(1, 17))
        cases = {
            "judge": (b"pim 1\n" + tasks + mutexes + chain, b"\naccepted 511\n"),
            "run": (b"pim 1\n" + workers + steps, b" = released 0\n"),
            "check": (b"pim 1\n" + workers + steps, b"accepted 48\n"),
        }
        for job, (text, last) in cases.items():
            why = None
            for _ in range(50):
                status, out, err = answer([program(), job], text, env={}, preexec_fn=small_stack)
                why = why or difference((status, out.endswith(last), err), (0, True, b""))
            self.check(f"a stack of 64 KiB, {job}, 50 times", why)

    def test_the_launcher_prints_what_the_program_prints(self):
        """./pim answers from its files what the program prints, and the manual page has an example."""
        asked = [["--help"], ["-h"], ["help"], ["--version"], ["-V"]]
        for word in ("judge", "run", "check"):
            asked += [[word, "--help"], [word, "-h"], ["help", word]]
        for arguments in asked:
            done = subprocess.run([ROOT / "pim", *arguments], capture_output=True, timeout=SECONDS)
            told = (done.returncode, done.stdout, done.stderr)
            name = f"./pim {' '.join(arguments)} prints what the program prints"
            self.check(name, difference(told, run(arguments)))
        page = (ROOT / "launcher/pim.1.in").read_text().replace("\\(aq", "'").replace("\\e", "\\")
        shown = re.search(r"^\.EX\n\$ ([^\n]*) \| pim\n(.*?)^\.EE$", page, re.M | re.S)
        text = subprocess.run(["sh", "-c", shown[1]], capture_output=True).stdout
        self.expect("the example of the manual page", run(text=text), 0, shown[2].encode())

    def test_pim_judging_judges_as_pim_does(self):
        """pim_judging judges as the whole program does."""
        alone = built("pim_judging", "pim_judging", "sh", "-c", "rt run < stdin")
        whole = long_report(40_000) + b"accepted 40000\n"
        cases = {
            "a trace": (dict(text=ACCEPTED, arguments=["judge"]), 0, REPORT, b""),
            "40,000 steps": (dict(text=long_trace(40_000)), 0, whole, b""),
            "a wrong reply": (dict(text=REJECTED), 1, REJECTION, b""),
            "an invalid line": (dict(text=INVALID), 2, b"", b"pim: line 2\n"),
            "a folder as input": (dict(streams="< ."), 2, b"", b"pim: read\n"),
            "a full disk": (dict(text=ACCEPTED, streams="> /dev/full"), 2, b"", b"pim: write\n"),
            "no memory": (dict(streams="< /dev/zero", before=few_bytes), 2, b"", b"pim: memory\n"),
            "standard error closed": (dict(text=INVALID, streams="2>&-"), 2, b"", b""),
        }
        for name, (how, *wanted) in cases.items():
            self.expect(f"pim_judging: {name}", run(**how, pim=alone), *wanted)
