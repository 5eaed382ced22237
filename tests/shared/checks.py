"""What tests of several parts share: differences, runs that end, programs, and calls that fail."""
import fcntl
import functools
import os
import pathlib
import signal
import subprocess
import sys
import time

ROOT = pathlib.Path(__file__).resolve().parents[2]
# What takes longer hangs, on the busiest machine. A check waits for what it needs.
SECONDS = 300
# What nohup or a shell's & starts ignores these signals. What a check starts must not.
for number in signal.SIGHUP, signal.SIGINT, signal.SIGQUIT:
    if signal.getsignal(number) == signal.SIG_IGN:
        signal.signal(number, lambda *_: None)


def difference(got, wanted):
    """Says where two tuples first differ, or returns None where they don't."""
    if len(got) != len(wanted):
        return f"{len(got)} values in place of {len(wanted)}: {short(got)} in place of {short(wanted)}"
    return next((f"{short(a)} in place of {short(b)}" for a, b in zip(got, wanted) if a != b), None)


def short(value):
    text = repr(value)
    return text if len(text) <= 100 else f"{text[:60]} .. {text[-30:]}"


def answer(command, text=b"", seconds=SECONDS, **settings):
    """Returns status, standard output and standard error of a command that is given the text.

    A command that hasn't ended after so many seconds is killed, with all that it started. Its
    status says so, so that the check which ran it fails, and the others are made.
    """
    pipes = {"stdin": subprocess.PIPE, "stdout": subprocess.PIPE, "stderr": subprocess.PIPE}
    settings = {**pipes, "start_new_session": True, **settings}
    with subprocess.Popen(command, **settings) as child:
        try:
            out, err = child.communicate(text, timeout=seconds)
            return child.returncode, out, err
        except subprocess.TimeoutExpired:
            os.killpg(child.pid, signal.SIGKILL)
            return f"no end within {seconds} s", *child.communicate()
        except BaseException:
            os.killpg(child.pid, signal.SIGKILL)
            raise


def ended(child, seconds=SECONDS):
    """Returns the status of a child, which is killed if it hasn't ended after so many seconds."""
    try:
        return child.wait(seconds)
    except subprocess.TimeoutExpired:
        child.kill()
        child.wait()
        return f"no end within {seconds} s"


def until(what, seconds=SECONDS):
    """Waits until what the function returns is true, or so many seconds are over, and returns it."""
    deadline = time.monotonic() + seconds
    while not (found := what()) and time.monotonic() < deadline:
        time.sleep(0.02)
    return found


def proc_text(process, file):
    """Returns the text of a file that /proc has of a process, or nothing if the process is gone."""
    try:
        return pathlib.Path(f"/proc/{process}/{file}").read_text(errors="replace")
    except ProcessLookupError:
        return ""
    except FileNotFoundError:
        if os.path.exists(f"/proc/{process}"):
            raise
        return ""


def stat_of(process):
    """Returns what /proc/PROCESS/stat has behind the name, the state first: nothing if the process is gone."""
    return proc_text(process, "stat").rpartition(")")[2].split()


def is_gone(process):
    """Returns whether a process has ended, even if nobody waited for it yet.

    A process whose first thread alone has ended counts as gone, too.
    """
    return stat_of(process)[:1] in ([], ["Z"], ["X"])


def children_of(process):
    """Returns the processes that a process's first thread started and hasn't waited for."""
    return {int(word) for word in proc_text(process, f"task/{process}/children").split()}


def threads_of(process):
    """Returns the threads of a process, which has none if it is gone."""
    try:
        return {int(name) for name in os.listdir(f"/proc/{process}/task")}
    except (FileNotFoundError, ProcessLookupError):
        return set()


ADOPTS = """\
import ctypes, os, subprocess, sys
ctypes.CDLL(None).prctl(36, 1)  # PR_SET_CHILD_SUBREAPER
status = subprocess.run(sys.argv[1:]).returncode
try:
    print(os.waitpid(-1, os.WNOHANG))
except ChildProcessError:
    print("none")
sys.exit(status)
"""


def orphan_of(*command):
    """Runs a command under a process that adopts orphans.

    Returns its status, the orphan that it left, dead or alive, or 'none', and its standard error.
    """
    status, out, err = answer([sys.executable, "-c", ADOPTS, *map(str, command)])
    return status, out.decode().splitlines()[-1:], err.decode()


@functools.lru_cache(maxsize=None)
def program():
    """Returns the path of the program to test: that of `./test --program`, or the repository's own."""
    return os.environ.get("PIM_PROGRAM") or own_program()


@functools.lru_cache(maxsize=None)
def own_program(name="pim", crate="pim", text=b"pim 1\n"):
    """Returns the path of a program of the repository, and builds it if it is older than the code.

    The text is one for which its status is 0.
    """
    command = [ROOT / name, *(["check"] if name == "pim" else [])]
    if subprocess.run(command, input=text, stdout=subprocess.DEVNULL).returncode:
        sys.exit(f"the program {name} was not built")
    return str(ROOT / "crates" / crate / "out" / crate)


def built(crate, file, *command):
    """Returns the path of what the command makes of a crate, and makes it if it is older than the code."""
    made = ROOT / "crates" / crate / "out" / file
    newest = max(os.path.getmtime(source) for source in ROOT.glob("crates/*/src/**/*.rt"))
    if not made.exists() or made.stat().st_mtime < newest:
        print(f"proving and building crates/{crate}", flush=True)
        folder = ROOT / "crates" / crate
        subprocess.run(command, cwd=folder, check=True, stdout=subprocess.DEVNULL)
        os.utime(made)
    return str(made)


def soak():
    """Returns the path of crates/pim_soak, which runs what the tests and measurements of the manager ask for."""
    return built("pim_soak", "pim_soak", "rt", "run", "--", "0")


def made(folder, *goals):
    """Makes goals in a folder of the repository. Of several that do so at the same time one waits for the other."""
    with open(ROOT / folder / "Makefile", encoding="utf-8") as lock:
        fcntl.flock(lock, fcntl.LOCK_EX)
        words = ["make", "-s", "-C", ROOT / folder, *goals]
        done = subprocess.run(words, stdout=subprocess.PIPE, stderr=subprocess.STDOUT, text=True)
    if done.returncode:
        raise OSError(f"make -C {folder}: {done.stdout[-2000:]}")


def compiled(source, folder, *flags):
    """Returns the path of what g++ makes of a C++ file, in the folder."""
    made = os.path.join(folder, pathlib.Path(source).stem)
    subprocess.run(["g++", "-std=c++17", "-O2", *flags, str(source), "-o", made], check=True)
    return made


def files_of(folder, name):
    """Returns the texts of the files NAME.END of a folder, by END."""
    return {path.name[len(name) + 1:]: path.read_text() for path in folder.glob(f"{name}.*")}


class Faulty:
    """Runs of a command in which a call fails, is interrupted or does less than was asked."""

    def __init__(self, folder):
        flags = ["-shared", "-fPIC", "-Wl,--as-needed"]
        self.library = compiled(ROOT / "tests/program/faults.cpp", folder, *flags)

    def run(self, command, call, kind, number, text=b""):
        """Returns status and both outputs of the command, in which the call of this number goes wrong."""
        fault = {"FAULT_CALL": call, "FAULT_KIND": kind, "FAULT_AT": str(number)}
        environment = {"LD_PRELOAD": self.library, **fault}
        return answer(command, text, env=environment)
