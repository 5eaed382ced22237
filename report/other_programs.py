"""The programs that pim-report and pim-picture run: pim-facts, pim-findings and pim."""
import os
import pathlib
import shlex
import shutil
import subprocess
import sys
import threading

from program import NAME, Fault, say
from spans_text import WORDS

HERE = pathlib.Path(__file__).resolve().parent
# Where they are next to this folder's programs: in one folder, or in this repository.
FOLDERS = HERE, HERE.parent, HERE.parent / "record", HERE.parent / "record/out"
PATIENCE, PERIOD = 2, 1  # seconds before anything is said, and between two lines


class Progress:
    """Says on a terminal what takes long. Nothing is left of it."""

    def __init__(self, what):
        self.what, self.is_over, self.seconds = what, threading.Event(), PATIENCE
        self.thread = threading.Thread(target=self.run, daemon=True)

    def run(self):
        wait = PATIENCE
        while not self.is_over.wait(wait):
            say(f"\r{NAME}: {self.what}, {self.seconds} s")
            self.seconds, wait = self.seconds + PERIOD, PERIOD

    def __enter__(self):
        if sys.stderr.isatty():
            self.thread.start()
        return self

    def __exit__(self, *_):
        self.is_over.set()
        if self.thread.ident:
            self.thread.join()
        self.clear()

    def clear(self):
        if self.seconds > PATIENCE:
            say("\r\033[K")

    def pass_on(self, line):
        """Writes what another program says, in place of what is shown. It speaks for pim."""
        self.clear()
        say(f"{NAME}{line[3:]}" if line.startswith("pim: ") else line)
        return line


def words_of(given, option):
    """Returns the words of a command, as a shell has them."""
    try:
        words = shlex.split(given)
    except ValueError:  # a quote that isn't closed
        words = []
    if not words:
        raise Fault(f"{option}: '{given}' isn't a command")
    return words


def command_of(name, given, option):
    """Returns the words of a command that is given by an option, or found."""
    if given:
        return words_of(given, option)
    for folder in FOLDERS:
        if (folder / name).is_file() and os.access(folder / name, os.X_OK):
            return [str(folder / name)]
    found = shutil.which(name)
    if not found:
        raise Fault(f"{name} isn't next to {NAME}, nor on PATH: {option} names it")
    return [found]


def started(command, data, errors):
    try:
        return subprocess.Popen(command, stdin=None if data is None else subprocess.PIPE,
                                stdout=subprocess.PIPE, stderr=errors)
    except OSError as fault:
        raise Fault(f"{command[0]}: {fault.strerror}") from fault


def run(command, what, data=None, is_quiet=False):
    """Returns the status and the output of a command, and its lines of standard error.

    These are passed on as they come, unless it is quiet: it may have to be built first.
    """
    reads, writes = os.pipe()
    with open(reads, errors="replace", newline="") as errors, Progress(what) as progress:
        with open(writes, "wb") as end:
            child = started(command, data, end)
        said = []
        thread = threading.Thread(daemon=True, target=lambda: said.extend(
            errors if is_quiet else map(progress.pass_on, errors)))
        thread.start()
        try:
            out, _ = child.communicate(data)
        except BaseException:
            child.kill()  # the thread listens until it has ended
            raise
        thread.join()
    return child.returncode, out, said


def facts_of(recording, given):
    """Returns the facts of a recording, which pim-facts makes."""
    command = [*command_of("pim-facts", given, "--converter"), "--", recording]
    status, out, has_said = run(command, "reading the recording")
    if status:
        raise Fault("" if has_said else f"{command[0]} made no facts of {recording}")
    return out


def rows_of(facts, given):
    """Returns the rows of a text of facts. A fault of pim-findings is passed on."""
    command = command_of("pim-findings", given, "--findings")
    status, out, has_said = run(command, "looking for what follows", facts)
    if status not in (0, 1):
        raise Fault("" if has_said else f"{command[0]} found nothing, with status {status}")
    if not out.endswith(b"\n") or b"end " not in out[-200:]:
        raise Fault(f"{command[0]} wrote no rows")
    return out.decode("ascii", "replace")


def spans_of(facts, given):
    """Returns the spans of a text of facts, of which there are rows."""
    command = [*command_of("pim-findings", given, "--findings"), "--spans"]
    status, out, said = run(command, "looking for when", facts, is_quiet=True)
    if status and any("--spans" in line for line in said):
        raise Fault(f"{command[0]} doesn't know --spans, by which a page and tracks are made")
    if status not in (0, 1):
        say("".join(said))
        raise Fault("" if said else f"{command[0]} wrote no spans, with status {status}")
    text = out.decode("ascii", "replace")
    words = {line.partition(" ")[0] for line in text.splitlines()}
    if status or out[-1:] not in (b"", b"\n") or not words.issubset(WORDS):
        raise Fault(f"{command[0]} wrote something else than spans")
    return text
