#!/usr/bin/env python3
"""Compares the time, memory and instructions of pim with those of a judge in plain C++.

Measures the repository's program, which ./pim builds, or PROGRAM, and bench/judge.cpp, compiled by
g++ -O3, or the program of --beside in its place. Both judge each trace of bench/texts.py, and must
write the same bytes and exit with the same status. Then they run in turn, with the trace from a
file and the report to /dev/null. The minimum of each counts, because other load only makes a run
longer.

Prints a table in Markdown: milliseconds of CPU time, user and system; the peak memory, if GNU time
is installed; and the size of the report. --instructions adds the number of executed instructions,
by perf or valgrind. It doesn't depend on other load.

examples:
  bench/measure.py                                the table of docs/SPEED.md
  bench/measure.py --only chain --repeat 15       one trace, more often
  bench/measure.py --instructions --steps 4096    short traces, counted
  bench/measure.py --beside /tmp/older/pim        this build and an older one
"""
import argparse
import pathlib
import tempfile

import runs
from texts import TEXTS


def columns(numbers, digits):
    """Returns a number for each program and their ratio, if they are known."""
    told = ["-" if number is None else f"{number:,.{digits}f}" for number in numbers]
    return [*told, "-" if None in numbers else runs.ratio(*numbers)]


def row(name, commands, trace, options):
    """Returns the row of a trace. A program that doesn't know its version has no figures."""
    known = [command for command in commands if runs.knows(command, trace)]
    if commands[0] not in known:
        runs.give_up(2, f"{commands[0][0]} doesn't read the text {name}")

    def both(figures):
        return [*figures, *[None] * (len(commands) - len(known))]

    length = runs.compare(known, trace)
    times = both(runs.least_seconds(known, trace, options.repeat))
    memory = both([runs.megabytes(command, trace) for command in known])
    cells = [name, *columns([time and time * 1000 for time in times], 2), *columns(memory, 1)[:2]]
    if options.instructions:
        counts = both([runs.instructions(command, trace) / 1e6 for command in known])
        cells += columns(counts, 2)
    return [*cells, f"{length / 1e6:.2f}"]


def main():
    options = arguments()
    with tempfile.TemporaryDirectory() as folder:
        ours = runs.program(options.program) if options.program else runs.own_program()
        theirs = runs.program(options.beside) if options.beside else runs.judge(folder)
        its = "its" if options.beside else "C++"
        head = ["Trace", "ms", f"{its} ms", "ratio", "MB", f"{its} MB"]
        head += ["M instr.", f"{its} M instr.", "ratio"] if options.instructions else []
        rows = []
        for name in options.only or TEXTS:
            trace = pathlib.Path(folder, f"{name}.pim")
            trace.write_text(TEXTS[name](options.tasks, options.steps))
            rows.append(row(name, [[ours], [theirs]], trace, options))
    lines = runs.table([*head, "report MB"], rows)
    size = f"{options.steps:,} steps over {options.tasks} tasks"
    told = [f"{size}, least of {options.repeat}", *runs.machine()]
    print("\n".join([*told, "", *lines]))
    if options.docs:
        runs.publish("bench/measure.py", told, lines)


def arguments():
    """Returns the options of the command line."""
    parser = runs.parser(__doc__, list(TEXTS), "the repository's own")
    parser.add_argument("--docs", action="store_true", help="also write the table into docs/SPEED.md")
    beside = "the program to compare with, in place of the judge in C++"
    parser.add_argument("--beside", metavar="PROGRAM", help=beside)
    parser.add_argument("--repeat", type=int, default=7, help="runs of each program (7)")
    parser.add_argument("--tasks", type=int, default=runs.MOST_TASKS, help="2 to 256 (256)")
    parser.add_argument("--steps", type=int, default=runs.MOST_STEPS, help="1 to 65,536 (65,536)")
    counted = "count instructions, too: minutes at full length"
    parser.add_argument("--instructions", action="store_true", help=counted)
    return runs.within_limits(parser)


main()
