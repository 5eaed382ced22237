#!/usr/bin/env python3
"""Measures how the cost of a step grows: with the tasks, a queue, or a chain of waiting tasks.

pim and the judge in plain C++ (bench/judge.cpp, by g++ -O3) judge traces of bench/texts.py of
several sizes, and must write the same bytes. A second trace begins like the first and has twice as
many steps. The cost of a step is the difference between the two, divided by the steps that were
added, so the start of the program and the declarations don't count. It includes reading the step's
line and writing its report.

Prints a table in Markdown of executed instructions, by perf or valgrind, which are the same in each
run. With --time it is of nanoseconds of CPU time, the minimum of --repeat runs in turn. --plot FILE
draws it as SVG.

examples:
  bench/growth.py                             what docs/SPEED.md plots; takes minutes
  bench/growth.py --docs                      and write the plot there
  bench/growth.py --time --plot /tmp/t.svg    in time, on an idle machine
  bench/growth.py --sizes 4 8 --steps 64      a trial that takes seconds
"""
import pathlib
import tempfile
from collections import namedtuple

import plot
import runs
from texts import TEXTS

# A kind of trace that grows: its title, what is counted, and how many tasks have that count.
Panel = namedtuple("Panel", "kind title across tasks")
PANELS = [
    Panel("free", "free: no task waits", "tasks, and as many mutexes", lambda n: n),
    Panel("mixed", "mixed: all kinds of steps", "tasks, and as many mutexes", lambda n: n),
    Panel("wide", "wide: a single queue", "waiters in the queue", lambda n: n + 1),
    Panel("chain", "chain: each waits for the one before", "tasks in the chain", lambda n: n),
]
# A queue has a waiter less than there are tasks.
SIZES = [4, 16, 64, 128, 192, 256]
STEPS, STEPS_TIMED = 8192, 32768
FIGURE = runs.ROOT / "docs/growth.svg"


def costs(commands, panel, size, folder, options):
    """Returns the cost of a step in each program. Both must write the same."""
    traces = []
    for steps in (options.steps, 2 * options.steps):
        trace = pathlib.Path(folder, f"{panel.kind}-{size}-{steps}.pim")
        trace.write_text(TEXTS[panel.kind](panel.tasks(size), steps))
        traces.append(trace)
    runs.compare(commands, traces[1])
    if options.time:
        short, long = (runs.least_seconds(commands, trace, options.repeat) for trace in traces)
        return [(more - less) * 1e9 / options.steps for less, more in zip(short, long)]
    short, long = ([runs.instructions(command, trace) for command in commands] for trace in traces)
    return [(more - less) / options.steps for less, more in zip(short, long)]


def grown(commands, panel, folder, options):
    """Returns the sizes of a panel and, for each program, the cost of a step at each size."""
    sizes = sorted({min(size, runs.MOST_TASKS - panel.tasks(0)) for size in options.sizes})
    found = [costs(commands, panel, size, folder, options) for size in sizes]
    return sizes, list(zip(*found))


def rows(panel, sizes, curves):
    """Returns the lines of a panel's table."""
    head = [f"{panel.title}; {panel.across}", *map(str, sizes)]
    ours, theirs = ([f"{cost:,.0f}" for cost in curve] for curve in curves)
    return [*runs.table(head, [["pim", *ours], ["C++", *theirs], ["ratio", *ratios(curves)]]), ""]


def ratios(curves):
    """Returns what pim takes at each size, in parts of what the other program takes."""
    return [runs.ratio(ours, theirs) for ours, theirs in zip(*curves)]


def main():
    options = arguments()
    unit = "nanoseconds" if options.time else "instructions"
    panels = []
    with tempfile.TemporaryDirectory() as folder:
        ours = runs.program(options.program) if options.program else runs.own_program()
        commands = [[ours], [runs.judge(folder)]]
        steps = f"of the steps {options.steps + 1:,} to {2 * options.steps:,}"
        told = [f"{unit.capitalize()} a step, {steps}", *runs.machine()]
        print("\n".join([*told, ""]))
        for panel in PANELS:
            if options.only and panel.kind not in options.only:
                continue
            sizes, curves = grown(commands, panel, folder, options)
            panels.append((panel.title, panel.across, f"{unit} a step", sizes, curves))
            print("\n".join(rows(panel, sizes, curves)), flush=True)
    drawn = plot.figure("What a step takes", ["pim, proved", "plain C++"], panels)
    if options.docs:
        FIGURE.write_text(drawn)
    if options.plot:
        pathlib.Path(options.plot).write_text(drawn)


def arguments():
    """Returns the options of the command line."""
    parser = runs.parser(__doc__, [panel.kind for panel in PANELS], "the repository's own")
    sizes = {"nargs": "+", "default": SIZES, "metavar": "N", "help": "2 to 256"}
    parser.add_argument("--sizes", type=int, **sizes)
    steps = f"of the shorter text ({STEPS}, in time {STEPS_TIMED})"
    parser.add_argument("--steps", type=int, help=steps)
    parser.add_argument("--time", action="store_true", help="time in place of instructions")
    parser.add_argument("--repeat", type=int, default=7, help="runs of each program (7)")
    parser.add_argument("--plot", metavar="FILE", help="write the plot to FILE")
    parser.add_argument("--docs", action="store_true", help="write the plot to docs/growth.svg")
    options = runs.within_limits(parser)
    options.steps = options.steps or (STEPS_TIMED if options.time else STEPS)
    if not all(2 <= size <= runs.MOST_TASKS for size in options.sizes):
        parser.error("--sizes are 2 to 256")
    if 2 * options.steps > runs.MOST_STEPS:
        parser.error(f"--steps is at most {runs.MOST_STEPS // 2:,}")
    if options.docs and options.time:
        parser.error("--docs is for instructions, without --time")
    return options


main()
