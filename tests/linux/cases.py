"""What the tests of linux/ share: its programs, and scripts that stand for what boots kernels."""
import contextlib
import os
import signal
import subprocess
import sys

from tests.conform import cases
from tests.conform.cases import ConformCase, script
from tests.shared.checks import ROOT, ended, is_gone, made, program, until

LINUX, STORED = ROOT / "linux", ROOT / "conform/performed"
sys.path.insert(0, str(LINUX))
from walk import Walk


def setUpModule():
    """Builds the performer and the programs of the page, without a warning."""
    cases.setUpModule()
    made("linux", "CFLAGS=-O2 -Werror")


@contextlib.contextmanager
def first_on_path(folder):
    """Lets commands be found in the folder before all others, or there alone."""
    kept = os.environ["PATH"]
    os.environ["PATH"] = f"{folder}:{kept}" if folder.is_dir() else str(folder)
    try:
        yield
    finally:
        os.environ["PATH"] = kept


def with_tools(folder):
    """Returns an environment in which the folder's tools are found, and files are made in it."""
    for name in ("tools", "tmp"):
        (folder / name).mkdir()
    (folder / "image").write_text("kernel")
    script(folder / "tools", "busybox", "")
    path = f"{folder / 'tools'}:{os.environ['PATH']}"
    return {**os.environ, "PATH": path, "TMPDIR": str(folder / "tmp")}


def guest_output(release, habits, texts, changes=()):
    """Returns what a guest prints, in which the model performs random texts with these habits."""
    lines = [f"=== system\nLinux {release} #1 SMP PREEMPT Debian 9.1.2-1 (2026)"]
    for name, text in texts.items():
        lines.append(f"=== text {name}")
        if not name.startswith("random"):
            lines.append((STORED / f"{name}.performed").read_text().rstrip("\n"))
            continue
        lines.append(f"Linux {release}, glibc 2.36, CPU 1")
        for number, done in enumerate(Walk(text, frozenset(habits)).run(), 1):
            lines.append(f"{number} {done.reply}")
            lines += [f"  task {t} at {priority}" for t, priority in done.changes.items()]
        lines.append(f"performed {len(text.steps)}")
    lines += ["=== program lost_boost", "the thread at 40 waited 405 ms more",
              "the thread at 40 waited 5 ms more", "=== program stale_boost",
              "SCHED_FIFO isn't permitted", "=== messages", "=== end"]
    out = "\n".join(lines) + "\n"
    for old, new in changes:
        assert out.count(old) > 0, old
        out = out.replace(old, new, 1)
    return out


def number_in(file):
    """Returns the number that a file has, or None if it has none yet."""
    text = file.read_text() if file.exists() else ""
    return int(text) if text.endswith("\n") else None


class LinuxCase(ConformCase):
    def ends_by_signals(self, what, environment, *words):
        """A signal to linux/kernels ends what noted its process in the file `begun`, and nothing is left behind.

        After SIGKILL its folder is left.
        """
        begun = self.folder / "begun"
        for number, status in ((signal.SIGTERM, 143), (signal.SIGHUP, 129), (signal.SIGKILL, -9)):
            begun.unlink(missing_ok=True)
            command = [LINUX / "kernels", "--random", "0", "--pim", program(), *words]
            with subprocess.Popen(command, env=environment, stderr=subprocess.DEVNULL) as child:
                process = until(lambda: number_in(begun))
                child.send_signal(number)
                got = ended(child)
                is_ended = until(lambda: is_gone(process))
            self.same(f"{what} is ended by {number.name}", (got, is_ended), status, True)
            if number != signal.SIGKILL:
                left = list((self.folder / "tmp").iterdir())
                self.same(f"nothing of {what} is left by {number.name}", left, [])
