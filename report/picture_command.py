"""The arguments of pim-picture, and what it does."""
import argparse
import math
import os
import shutil
import sys

from other_programs import command_of
from program import Fault, Parser, exit_with, version
from trace_report import JudgedTrace, Window

HELP = r"""Draw a trace: which task executes at which priority after each step, and why

Usage: pim-picture [OPTIONS] < TRACE

Options:
      --svg              Draw lanes over the steps, as an SVG file
      --perfetto         Draw tracks over the steps, as Trace Event JSON for ui.perfetto.dev
      --from <STEP>      The first step to draw; 0 is the state before the first step
      --to <STEP>        The last step to draw
      --judge <COMMAND>  What judges the trace; without it, pim is looked for next to pim-picture,
                         and on PATH
  -h, --help             Print help
  -V, --version          Print version

To draw a trace: pim-picture < TRACE

    $ printf 'pim 1\ntask 1 10\ntask 2 50\nmutex 1 inherit\n1 lock 1\n2 lock 1\n' | pim-picture
    step  request   reply    task 1    task 2
       0                     10        50
       1  1 lock 1  granted  10 [1]    50
       2  2 lock 1  queued   50^2 [1]  50 ~1
    90^3 boosted to 90 by task 3  40*2 boosted to 40 by the ceiling of mutex 2
    [1]  owns mutex 1             ~1   waits for mutex 1
    accepted 2

The table has a row for each step, below the state before the first one, and a column for each task.
A cell has the task's priority after the step, what boosts it, up to three of the mutexes that it
owns, and the mutex that it waits for. Tasks that don't fit next to each other follow in further
tables. The last lines are those of the report of 'pim'. 'pim --help' says what a trace is.

It judges nothing itself: the replies and the priorities are those of that report. A recording of a
program is shown by 'pim-report'.

With --svg it draws a lane for each task instead, with its priority over the steps; boosts have a
colour, a mark and what gives them; filled bars are mutexes that the task owns, dashed ones those
that it waits for.

With --perfetto it draws tracks as Trace Event JSON, which ui.perfetto.dev opens: for each task its
priority, and slices of what boosts it, what it owns and what it waits for, with a flow to the
owner. A step takes a millisecond there: a trace doesn't say when its steps were made.

COLUMNS is how wide a table may be. If it isn't set, that is the terminal's width, or 80. On a
terminal boosts are bold, unless NO_COLOR is set.

Input is standard input, results go to standard output, faults to standard error.
Exit status: 0 accepted, 1 rejected, 2 any fault: 'pim-picture: line <n>' where line n is the first
that is invalid, 'pim-picture: read' or 'pim-picture: write' where that failed, 'pim-picture:
memory' when out of memory, or why 'pim' didn't judge; or a wrong command line.
"""
LONGEST = 4_000_000  # bytes: a valid trace is shorter
COLUMNS = 80  # of a table, where nothing says how wide it may be


def step_of(text):
    if not text.isascii() or not text.isdigit():
        raise argparse.ArgumentTypeError(f"{text} isn't the number of a step")
    return int(text)


def arguments(words):
    parser = Parser(prog="pim-picture", add_help=False, allow_abbrev=False)
    form = parser.add_mutually_exclusive_group()
    for name in ("svg", "perfetto"):
        form.add_argument(f"--{name}", action="store_true")
    parser.add_argument("--from", dest="first", type=step_of, default=0)
    parser.add_argument("--to", dest="last", type=step_of, default=math.inf)
    parser.add_argument("--judge")
    return parser.parse_args(words)


def read():
    """Returns standard input, as far as it can be a trace: what is longer has an invalid line."""
    try:
        return sys.stdin.buffer.read(LONGEST)
    except OSError as fault:
        raise Fault("read") from fault


def write(parts):
    try:
        for part in parts:
            sys.stdout.buffer.write(part.encode())
        sys.stdout.buffer.flush()
    except OSError as fault:
        # What is left to write goes nowhere.
        os.dup2(os.open(os.devnull, os.O_WRONLY), sys.stdout.fileno())
        raise Fault("write") from fault


def parts_of(trace, given):
    """Returns the parts of what is asked for, which are made as they are written."""
    window = Window(given.first, given.last)
    if given.svg:
        from step_lanes import lanes
        return lanes(trace, window)
    if given.perfetto:
        from step_tracks import tracks
        return tracks(trace, window)
    from step_table import table
    is_bold = sys.stdout.isatty() and "NO_COLOR" not in os.environ
    return table(trace, window, shutil.get_terminal_size().columns or COLUMNS, is_bold)


def answer(words):
    """Writes what is asked for. Returns the status."""
    if not sys.stdin or not sys.stdout:
        raise Fault("write" if sys.stdin else "read")
    if any(word in ("-h", "--help") for word in words):
        write([HELP])
        return 0
    if any(word in ("-V", "--version") for word in words):
        write([f"pim-picture {version()}\n"])
        return 0
    given = arguments(words)
    trace = JudgedTrace(read(), command_of("pim", given.judge, "--judge"))
    write(parts_of(trace, given))
    return int(trace.is_rejected)


def main():
    exit_with(answer)
