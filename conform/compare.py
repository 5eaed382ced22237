"""Compares what a system did with a trace with what pim reports of it."""
import os
import pathlib
import re
import signal
import subprocess
from collections import namedtuple

HERE = pathlib.Path(__file__).resolve().parent
PERFORMER = HERE / "out/perform"
NO_RIGHTS, GRACE = 77, 10

# What a step did: its reply, {task: priority} and {task: reason} of changes, and lines that no reply tells.
Done = namedtuple("Done", "reply changes reasons others")
# What a system did: its first line, and what each step did.
Performance = namedtuple("Performance", "system steps")


class Fault(Exception):
    """A text that can't be compared. `status` is 77 if rights are missing, else 2."""

    def __init__(self, why, status=2):
        super().__init__(why)
        self.status = status


class Text:
    """A trace without its recorded replies."""

    def __init__(self, source):
        self.lines = [line.split(" = ")[0] for line in source.splitlines()]
        self.steps = [line for line in self.lines[1:] if line[:1].isdigit()]
        declared = [line.split() for line in self.lines[1:] if line.startswith("task ")]
        self.bases = {int(words[1]): int(words[2]) for words in declared if len(words) == 3}

    def bare(self):
        return "\n".join(self.lines) + "\n"


def steps_of(lines):
    """Returns what each step of a report did. Lines of another form are left out."""
    steps = []
    for line in lines:
        change = re.fullmatch(r"  task (\d+) at (-?\d+)(?: (.+))?", line)
        reply = re.fullmatch(r"\d+ (.+)", line)
        if change and steps:
            steps[-1].changes[int(change[1])] = int(change[2])
            steps[-1].reasons[int(change[1])] = change[3]
        elif line.startswith("  ! ") and steps:
            steps[-1].others.append(line[4:])
        elif reply:
            steps.append(Done(reply[1], {}, {}, []))
    return steps


def run(command, text, seconds):
    """Returns status and both outputs of a command, which is killed if it doesn't end, or if this script does."""
    pipes = {"stdin": subprocess.PIPE, "stdout": subprocess.PIPE, "stderr": subprocess.PIPE}
    with subprocess.Popen(command, text=True, **pipes) as child:
        try:
            out, err = child.communicate(text, timeout=seconds)
        except subprocess.TimeoutExpired:
            raise Fault(f"{os.path.basename(command[0])} didn't end within {seconds} s") from None
        finally:
            child.kill()
    return child.returncode, out, err.strip()


def own_pim():
    """Returns the repository's program, which its launcher builds if it must, or that of a release."""
    root = HERE.parent
    if not (root / "crates").is_dir():
        return str(root / "pim")
    if subprocess.run([root / "pim", "check"], input=b"pim 1\n", stdout=subprocess.DEVNULL).returncode:
        raise Fault("pim can't be built; say where it is by --pim")
    return str(root / "crates/pim/out/pim")


def reported(pim, text):
    """Returns what pim reports of each step."""
    status, out, err = run([pim], text.bare(), 60)
    if status != 0 or len(steps_of(out.splitlines())) != len(text.steps):
        raise Fault(err or f"{pim} ended with status {status}")
    return steps_of(out.splitlines())


def performance(out, count):
    """Returns what the output of the performer says. It must be whole."""
    lines = out.splitlines()
    if len(lines) < 2 or lines[-1] != f"performed {count}" or len(steps_of(lines[1:-1])) != count:
        raise Fault("what was performed isn't whole, or is of another text")
    return Performance(lines[0], steps_of(lines[1:-1]))


def performed(text, cpu, seconds):
    """Performs a text. Returns the performer's output."""
    command = [str(PERFORMER), "--cpu", str(cpu), "--seconds", str(seconds)]
    status, out, err = run(command, text.bare(), seconds + GRACE)
    if status == NO_RIGHTS:
        raise Fault(err, NO_RIGHTS)
    if status < 0:
        raise Fault(f"the performer was ended by {signal.Signals(-status).name}")
    if status != 0:
        raise Fault(err.removeprefix("perform: ") or f"the performer ended with status {status}")
    return out


def differences(text, done, wanted):
    """Returns a line for each difference. A task that executes at a wrong priority is told once, until it's right."""
    lines, real, right, wrong = [], dict(text.bases), dict(text.bases), set()
    reasons = dict.fromkeys(text.bases, "base")
    for number, (words, one, other) in enumerate(zip(text.steps, done, wanted), 1):
        place = f"step {number} '{words}': "
        if one.reply != other.reply:
            lines.append(f"{place}the answer is {one.reply}, should be {other.reply}; later steps aren't compared")
            return lines + [place + it for it in one.others]
        real.update(one.changes)
        right.update(other.changes)
        reasons.update(other.reasons)
        apart = {task for task in real if real[task] != right[task]}
        lines += [f"{place}task {task} executes at {real[task]}, should at {right[task]} ({reasons[task]})"
                  for task in sorted(apart - wrong)]
        lines += [place + it for it in one.others]
        wrong = apart
    return lines


def kernel_of(system):
    """Returns 'linux-6.18' of 'Linux 6.18.44-arch1, glibc 2.36, CPU 3'."""
    found = re.match(r"(\w+) (\d+\.\d+)", system)
    return f"{found[1].lower()}-{found[2]}" if found else "unknown"


def kernels_of(system):
    """Returns the names of a kernel, the narrowest first: 'linux-6.12-rt', 'linux-6.12'."""
    release = system.partition(",")[0]
    narrow = [f"{kernel_of(system)}-rt"] if re.search(r"\brt\b", release) else []
    return [*narrow, kernel_of(system)]


def expected(path, kernels):
    """Returns what is said to differ there: the cause, and the lines of the first file NAME.KERNEL that there is."""
    files = [path.with_suffix(f".{kernel}") for kernel in kernels]
    file = next((it for it in files if it.exists()), None)
    if not file:
        return "", []
    lines = file.read_text().splitlines()
    cause = " ".join(line[1:].strip() for line in lines if line.startswith("#"))
    return cause, [line for line in lines if line and not line.startswith("#")]
