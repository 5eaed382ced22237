"""Shared by the scripts that measure: the programs, the cost of a run, and tables."""
import argparse
import functools
import os
import pathlib
import re
import shutil
import subprocess
import sys
import textwrap

ROOT = pathlib.Path(__file__).resolve().parent.parent
JUDGE = ROOT / "bench/judge.cpp"
# As rt compiles pim: the same level, the same CPU, and the C library as the only shared one.
FLAGS = ["-std=c++17", "-O3", "-march=x86-64-v2", "-static-libstdc++", "-static-libgcc"]
PAGE = ROOT / "docs/SPEED.md"
PIM = ROOT / "crates/pim/out/pim"
MOST_TASKS, MOST_STEPS = 256, 65536
TIME = "/usr/bin/time"
STATUSES = """exit status:
  0  measured
  1  the two programs' answers differ, so their costs can't be compared
  2  wrong arguments, or a tool or a program is missing"""


def give_up(status, why):
    """Exits: with status 1 if two programs differ, 2 if the script can't measure."""
    print(f"{pathlib.Path(sys.argv[0]).name}: {why}", file=sys.stderr)
    sys.exit(status)


def need(*tools):
    for tool in tools:
        if not shutil.which(tool):
            give_up(2, f"it needs {tool}")


# ---- arguments


def parser(doc, names, program):
    """Returns a parser with the arguments that all scripts take, and with this help."""
    as_written = argparse.RawDescriptionHelpFormatter
    made = argparse.ArgumentParser(description=doc, epilog=STATUSES, formatter_class=as_written)
    measured = f"the program to measure, in place of {program}"
    made.add_argument("program", nargs="?", metavar="PROGRAM", help=measured)
    only = f"one of {', '.join(names)}; may be repeated"
    made.add_argument("--only", metavar="NAME", choices=names, action="append", help=only)
    return made


def within_limits(parser, **least):
    """Returns the options of the command line, or gives up if a number is out of its limits."""
    options = parser.parse_args()
    if getattr(options, "docs", False) and options.only:
        parser.error("--docs needs all traces, so it can't be used with --only")
    limits = {"tasks": (2, MOST_TASKS), "steps": (1, MOST_STEPS), "repeat": (1, 10**6)}
    for name, (low, high) in limits.items():
        number = getattr(options, name, None)
        if number is not None and not least.get(name, low) <= number <= high:
            parser.error(f"--{name} is {least.get(name, low):,} to {high:,}")
    return options


# ---- programs


def own_program():
    """Returns the path of the repository's program, and builds it if it is older than the code."""
    if PIM.exists() or shutil.which("rt"):
        check = [ROOT / "pim", "check"]
        if not subprocess.run(check, input=b"pim 1\n", stdout=subprocess.DEVNULL).returncode:
            return str(PIM)
    return give_up(2, "./pim wasn't built")


def program(path):
    """Returns the path of a named program."""
    if not os.access(path, os.X_OK) or os.path.isdir(path):
        give_up(2, f"{path} is no program")
    return os.path.abspath(path)


def judge(folder):
    """Returns the path of the judge in C++, built in the folder."""
    need("g++")
    built = f"{folder}/judge"
    if subprocess.run(["g++", *FLAGS, JUDGE, "-o", built]).returncode:
        give_up(2, f"{JUDGE} wasn't built")
    return built


def stepper():
    """Returns the path of c/bench/steps.cpp, built with libpim."""
    need("make", "g++")
    made = ROOT / "c/out/steps"
    command = ["make", "-s", "-C", ROOT / "c", "out/steps"]
    if subprocess.run(command, stdout=subprocess.DEVNULL).returncode:
        give_up(2, "c/out/steps wasn't built")
    return str(made)


def knows(command, trace):
    """Returns whether the program reads texts of the version of this one."""
    with open(trace, "rb") as file:
        return subprocess.run(command, input=file.readline(), capture_output=True).returncode != 2


def compare(commands, trace):
    """Returns how many bytes two programs write for a trace. Both must write the same."""
    runs = []
    for command in commands:
        with open(trace, "rb") as stdin:
            runs.append(subprocess.Popen(command, stdin=stdin, stdout=subprocess.PIPE))
    length = line = 0
    while any(blocks := [run.stdout.read(1 << 20) for run in runs]):
        if len(set(blocks)) > 1:
            line += os.path.commonprefix(blocks).count(b"\n") + 1
            [run.kill() for run in runs]
            give_up(1, f"{pathlib.Path(trace).name}: the reports differ in line {line}")
        length += len(blocks[0])
        line += blocks[0].count(b"\n")
    statuses = {run.wait() for run in runs}
    if len(statuses) > 1 or statuses & {2, *range(-64, 0)}:
        give_up(1, f"{pathlib.Path(trace).name}: the programs ended with status {statuses}")
    return length


# ---- the cost of a run


def seconds(command, trace):
    """Returns the CPU time of a run with this trace as its input."""
    with open(trace, "rb") as stdin, open(os.devnull, "wb") as out:
        streams = [(os.POSIX_SPAWN_DUP2, file.fileno(), to) for to, file in enumerate((stdin, out))]
        run = os.posix_spawn(command[0], command, os.environ, file_actions=streams)
        used = os.wait4(run, 0)[2]
        return used.ru_utime + used.ru_stime


def least_seconds(commands, trace, repeat):
    """Returns the least CPU time of each command. The commands run by turns."""
    runs = [[seconds(command, trace) for command in commands] for _ in range(repeat)]
    return [min(column) for column in zip(*runs)]


def megabytes(command, trace):
    """Returns the peak memory of a run, or None if there is no GNU time to measure it."""
    if not os.path.exists(TIME):
        return None
    return int(said([TIME, "-f", "%M", *command], trace).split()[-1]) / 1024


@functools.lru_cache(maxsize=None)
def counter():
    """Returns what counts instructions here: perf if the machine permits it, valgrind, or None."""
    if shutil.which("perf"):
        counts = ["perf", "stat", "-x", ",", "-e", "instructions:u", "true"]
        done = subprocess.run(counts, stderr=subprocess.PIPE, text=True)
        if done.stderr.split(",")[0].isdigit():
            return "perf"
    return "valgrind" if shutil.which("valgrind") else None


def instructions(command, trace):
    """Returns how many instructions a run executes, without those of the kernel."""
    if counter() == "perf":
        tool, shown = ["perf", "stat", "-x", ",", "-e", "instructions:u"], r"(\d+),.*instructions"
    else:
        need("valgrind")
        # callgrind gives the same counts, and takes three times as long.
        tool = ["valgrind", "--tool=cachegrind", "--cache-sim=no"]
        tool += ["--cachegrind-out-file=/dev/null"]
        shown = r"I +refs: +([\d,]+)"
    told = re.search(shown, said([*tool, *command], trace))
    if not told:
        give_up(2, f"{tool[0]} doesn't tell what {command[0]} takes")
    return int(told[1].replace(",", ""))


def step_instructions(program, how, trace, steps):
    """Returns the cost of a step of c/bench/steps.cpp in libpim and in the plain manager."""
    found = []
    for who in ("libpim", "plain"):
        commands = [[program, who, how, str(count)] for count in (steps, 2 * steps)]
        short, long = (instructions(command, trace) for command in commands)
        found.append((long - short) / steps)
    return found


def numbers(program, how, repeat, trace):
    """Returns the numbers that c/bench/steps.cpp prints."""
    with open(trace, "rb") as stdin:
        how = {"args": [program, how, str(repeat)], "stdin": stdin, "stdout": subprocess.PIPE}
        return [float(word) for word in subprocess.run(**how, check=True).stdout.split()]


def said(command, trace):
    """Returns what a run writes to standard error."""
    with open(trace, "rb") as stdin:
        how = {"stdin": stdin, "stdout": subprocess.DEVNULL, "stderr": subprocess.PIPE}
        return subprocess.run(command, text=True, **how).stderr


# ---- output


def machine():
    """Returns lines that name the machine and the compilers."""
    with open("/proc/cpuinfo") as file:
        told = dict(re.findall(r"^(model name|cpu family|model)\s*: (.*)$", file.read(), re.M))
    kernel = os.uname()
    cores, load = len(os.sched_getaffinity(0)), os.getloadavg()[0]
    versions = [first_line("g++", "--version"), first_line("rt", "version")]
    return [
        f"{told.get('model name', kernel.machine)} (family {told.get('cpu family', '?')}, model "
        f"{told.get('model', '?')}), {cores} cores, load {load:.1f}",
        "; ".join([f"{kernel.sysname} {kernel.release}", *filter(None, versions)]),
    ]


def first_line(*command):
    if shutil.which(command[0]):
        return subprocess.run(command, capture_output=True, text=True).stdout.partition("\n")[0]


def ratio(ours, theirs):
    """Returns the text of the ratio. There is none to a figure that was too small to measure."""
    return f"{ours / theirs:.2f}" if theirs > 0 else "-"


def table(head, rows):
    """Returns the lines of a Markdown table. Its columns are as wide as their widest cells."""
    wide = [max(map(len, column)) for column in zip(head, *rows)]

    def line(row):
        cells = [row[0].ljust(wide[0]), *map(str.rjust, row[1:], wide[1:])]
        return f"| {' | '.join(cells)} |"

    dashes = "|".join("-" * (width + 2) for width in wide)
    return [line(head), f"|{dashes}|", *map(line, rows)]


def publish(part, told, lines):
    """Replaces a part of a page with these sentences and lines."""
    sentences = textwrap.fill(". ".join([*told, ""]).rstrip(), 120)
    begin, end = f"<!-- by {part} -->\n", "<!-- end -->\n"
    before, found, rest = PAGE.read_text().partition(begin)
    if not found:
        give_up(2, f"{PAGE} has no line {begin!r}")
    after = rest.partition(end)[2]
    PAGE.write_text("\n".join([before + begin, sentences, "", *lines, "", end + after]))
