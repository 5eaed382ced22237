"""What pim-record says at the end of a recording: the report, or how to see it.

It plays a copy of the recorder, laid out as in a release, in which tests/facts/plain/rows.py stands
for pim-findings.
"""
import os
import pathlib
import re
import shutil
import signal
import subprocess

from tests.cases import Case
from tests.record.logs import setUpModule
from tests.shared.checks import ROOT, SECONDS, difference

PROGRAMS = ROOT / "record/out/programs"
KEPT = r"pim-record: ({0}) is kept; \S*pim-report \1 says this again"
AGAIN = "pim-record: {} is recorded; {} {} says who was held up\n"


def after_notice(said):
    """Returns what pim-record says, but for a loss that it says before the program ends, if it is that quick."""
    return re.sub(r"\Apim-record: the log has no room for what comes now: .*\n", "", said)


class Release:
    """A copy of the recorder and of the report, in a folder."""

    def __init__(self, folder):
        self.root, self.place = pathlib.Path(folder, "release"), pathlib.Path(folder, "place")
        left_out = shutil.ignore_patterns("library", "programs", "__pycache__")
        shutil.copytree(ROOT / "record", self.root / "record", symlinks=True, ignore=left_out)
        shutil.copytree(ROOT / "report", self.root / "report")
        self.place.mkdir()
        self.findings("exec python3", f"{ROOT}/tests/facts/plain/rows.py")

    def findings(self, *words):
        """Makes a script that stands for pim-findings."""
        path = self.root / "pim-findings"
        path.write_text(f"#!/bin/sh\n{' '.join(words)}\n")
        path.chmod(0o755)

    def record(self, *words, cwd=None, **how):
        """Records in an empty folder. Returns the status, both outputs, and the files it leaves."""
        cwd = cwd or self.place
        for path in cwd.iterdir():
            path.unlink()
        command = [str(word) for word in (self.root / "record/pim-record", *words)]
        done = subprocess.run(command, capture_output=True, text=True, timeout=SECONDS, cwd=cwd,
                              check=False, **how)
        files = sorted(path.name for path in cwd.iterdir() if path.suffix != ".places")
        return done.returncode, done.stdout, done.stderr, files


class Shown(Case):
    def setUp(self):
        self.release = Release(self.folder)

    def test_without_o_the_report_goes_to_standard_error(self):
        """Without -o the report goes to standard error, after what the program wrote."""
        text = f"{PROGRAMS}/pair 9 > /dev/null; echo out; echo err >&2; exit 3"
        status, out, said, files = self.release.record("sh", "-c", text)
        lines, name = said.splitlines(), "sh\\.\\d+\\.pimlog"
        log = next((file for file in files if re.fullmatch(name, file)), None)
        got = status, out, lines[0]
        self.equal("the program's status and output are its own", got, (3, "out\n", "err"))
        is_named = re.fullmatch(KEPT.format(name), lines[-1]) and log
        self.check("the log is kept, and the last line names it", None if is_named else said)
        is_report = "Nothing to worry about: no thread waited for a mutex." in lines
        self.check("the report is on standard error", None if is_report else said)
        others = [file for file in files if file != log]
        wanted = f"pim-record: programs that it started have logs of their own: {', '.join(others)}"
        is_named = wanted in lines and len(others) == 1
        self.check("the logs of programs that it started are named", None if is_named else said)
        stale = f"echo stale > run.100; {PROGRAMS}/pair 9 > /dev/null"
        _, _, said, files = self.release.record("-o", "run", "sh", "-c", stale)
        is_named = "run.100" in files and "run.100" not in said and "logs of their own: run." in said
        self.check("another file isn't named as a log", None if is_named else said)
        many = "for i in 1 2 3 4 5; do " + f"{PROGRAMS}/pair 9 > /dev/null; done"
        _, _, said, files = self.release.record("-o", "run", "sh", "-c", many)
        is_named = f"own: {', '.join(files[1:4])} and 2 more\n" in said and len(files) == 6
        self.check("three of many logs are named", None if is_named else f"{said} {files}")

    def test_a_log_without_room_says_so(self):
        """A log that has no room for all says so at the end, and so does the first line of the report."""
        program = PROGRAMS / "pair", "30000", "2"
        _, _, said, _ = self.release.record("-o", "run", "--size", "1", *program)
        loss = r"pim-record: the log had no room for [1-9]\d* records: --size makes it larger, .*"
        lines = after_notice(said).splitlines()
        self.check("a full log is said", None if re.fullmatch(loss, lines[0]) and len(lines) == 2 else said)
        _, _, said, _ = self.release.record("--size", "1", *program)
        lines = after_notice(said).splitlines()
        is_said = re.fullmatch(loss, lines[0]) and " % of the events are missing, from " in lines[1]
        self.check("the report of a full log", None if is_said else said)

    def test_a_program_that_a_signal_ends(self):
        """A program that a signal ends has a report, and pim-record ends by the signal, too."""
        status, _, said, _ = self.release.record("sh", "-c", "kill -9 $$")
        is_told = bool(re.fullmatch(KEPT.format(r"sh\.\d+\.pimlog"), said.splitlines()[-1]))
        self.check("a program that is killed has a report",
                   difference((status, is_told), (-signal.SIGKILL, True)) and said)

    def test_the_report_of_an_inversion(self):
        """The report of an inversion, as a user without a checkout sees it."""
        status, _, said, _ = self.release.record(PROGRAMS / "inversion", "none")
        if status == 77:
            return self.skip("the report of an inversion as the program ends", "SCHED_FIFO isn't permitted")
        lines = said.splitlines()
        wanted = ["high ran late because of mutex.", "Worst: high (30) waited"]
        got = status, lines[0], lines[1][:len(wanted[1])], len(lines) < 50
        self.equal("the report of an inversion as the program ends", got, (0, *wanted, True))

    def test_with_o_a_line_says_how_to_see_the_report(self):
        """With -o one line says how to see the report. A name that a shell wouldn't take is quoted."""
        for name, shown in (("run", "run"), ("it's", r"'it'\''s'")):
            got = self.release.record("-o", name, "true")
            wanted = AGAIN.format(name, f"{self.release.root}/report/pim-report", shown)
            self.equal(f"with -o {name}", got, (0, "", wanted, [name]))
        own = {**os.environ, "PATH": f"{self.release.root}/report:/usr/bin:/bin"}
        said = self.release.record("-o", "run", "true", env=own)[2]
        self.equal("a report that is on PATH", (said,), (AGAIN.format("run", "pim-report", "run"),))

    def test_a_recording_builds_no_pim_findings(self):
        """In a checkout pim-findings proves and builds the program first: a recording never starts it."""
        started = self.release.place.parent / "started"
        self.release.findings(f"touch {started}; exit 2")
        (self.release.root / "crates").mkdir()
        self.lacks(self.release, "a checkout whose pim-findings isn't built",
                   f"says once {self.release.root}/pim-findings is built\n")
        self.check("pim-findings isn't started", "it is" if started.exists() else None)
        (self.release.root / "crates").rmdir()
        (self.release.root / "pim-findings").unlink()
        self.lacks(self.release, "no pim-findings", "says who was held up, isn't there\n")
        shutil.rmtree(self.release.root / "report")
        self.lacks(self.release, "no pim-report", "pim-report, which says who was held up, isn't there\n")

    def lacks(self, release, name, wanted):
        """What isn't there is said in a line, and the log is kept."""
        status, out, said, files = release.record("true")
        got = status, out, said.count("\n"), said.endswith(wanted), len(files)
        self.check(name, difference(got, (0, "", 1, True, 1)) and f"{got} {said}")

    def test_a_disk_that_is_full(self):
        """The report needs no room on the disk: of what there is in the log."""
        disk = self.release.place.parent / "disk"
        disk.mkdir()
        mount = ["mount", "-t", "tmpfs", "-o", "size=256k", "none", disk]
        if subprocess.run(mount, capture_output=True, check=False).returncode:
            return self.skip("a report on a full disk", "a small file system can't be mounted")
        try:
            status, _, said, _ = self.release.record(PROGRAMS / "pair", "30000", "2", cwd=disk)
            is_said = " % of the events are missing, from " in said
            why = difference((status, is_said), (0, True)) and f"{status} {said}"
            self.check("a report on a full disk", why)
            is_named = re.match(r"pim-record: the log had no room for \d+ records: the disk is full;", after_notice(said))
            self.check("a full disk is named", None if is_named else said)
            pathlib.Path(disk, "rest").write_bytes(bytes(os.statvfs(disk).f_bavail * os.statvfs(disk).f_bsize))
            return self.elsewhere(self.release, "a folder that is full", disk)
        finally:
            subprocess.run(["umount", disk], check=True)

    def elsewhere(self, release, name, folder):
        """Where the folder takes no log, it is in that of temporary files, and there is a report."""
        place = release.place.parent / f"{name.rpartition(' ')[2]}-tmp"
        place.mkdir()
        before, command = sorted(os.listdir(folder)), [release.root / "record/pim-record", "sh", "-c", "echo out"]
        done = subprocess.run(command, capture_output=True, text=True, timeout=SECONDS, cwd=folder, check=False,
                              env={**os.environ, "TMPDIR": str(place)})
        lines, log = done.stderr.splitlines(), rf"{re.escape(str(place))}/sh\.\d+\.pimlog"
        got = done.returncode, done.stdout, lines[0], bool(re.fullmatch(KEPT.format(log), lines[-1]))
        wanted = 0, "out\n", "Nothing to worry about: no thread waited for a mutex.", True
        self.check(f"the report in {name}", difference(got, wanted) and f"{got} {done.stderr}")
        if folder != "/proc":
            self.equal(f"nothing is left in {name}", (sorted(os.listdir(folder)),), (before,))

    def test_a_folder_that_is_read_only(self):
        """Nobody can make a file in /proc. With -o nothing is run."""
        self.elsewhere(self.release, "a folder that is read-only", "/proc")
        command = [self.release.root / "record/pim-record", "-o", "run", "echo", "it ran"]
        done = subprocess.run(command, capture_output=True, text=True, timeout=SECONDS, cwd="/proc", check=False)
        got = done.returncode, done.stdout, done.stderr.endswith("; nothing was run\n")
        self.equal("with -o a log that can't be made is refused", got, (2, "", True))
