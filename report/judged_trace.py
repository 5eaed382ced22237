"""A trace of a recording, which pim judges before it is kept: docs/TEXT.md."""
import pathlib
import textwrap

from model_world import ModelWorld, hand_overs
from other_programs import Progress, command_of, run
from program import Fault, say
from reported import Rejected, Reported
from steps import Steps
from trace_window import MOST_STEPS, TooLarge, Window
from words import count, listed


class Trace:
    """`marks` has, as the window begins and for each of its lines, how many steps there are."""

    def __init__(self, window):
        self.window, self.facts = window, window.facts
        made = Steps(window.begin, window)
        self.steps, self.marks = made.steps, [(0, len(made.steps))]
        for number, clock in window.lines:
            made.apply(number, self.facts.lines[number - 1])
            if len(self.steps) > MOST_STEPS:
                raise TooLarge(f"{MOST_STEPS:,} steps", clock)
            self.marks.append((number, len(self.steps)))

    def text(self):
        begin, priorities = self.window.begin, self.window.priorities
        lines = ["pim 2"]
        lines += [f"task {number} {priorities[begin.level[thread]]}"
                  for thread, number in self.window.tasks.items()]
        for mutex, number in self.window.mutexes.items():
            protocol = self.facts.mutexes[mutex].protocol
            if protocol == "protect":
                protocol += f" {priorities[begin.ceiling[mutex]]}"
            lines.append(f"mutex {number} {protocol}")
        return "".join(f"{line}\n" for line in [*lines, *self.steps])

    def fault(self, report):
        """Says at which line a report of pim isn't that of the facts, or returns None."""
        window = self.window
        world, reported = ModelWorld(self.facts, window.begin.handed), Reported(window, report)
        world.take(window.begin, window.tasks, window.mutexes)
        for line, made in self.marks:
            if line:
                world.apply(line, self.facts.lines[line - 1])
            try:
                reported.read(self.steps[reported.made:made])
                why = reported.difference(world)
            except Rejected as fault:
                why = str(fault)
            if why:
                said = f"line {line}, {self.facts.lines[line - 1].decode()}"
                return f"{said if line else 'as the window begins'}: {why}"
        return None if reported.is_over() else "the report of pim doesn't end with the last step"

    def notes(self, names):
        """Returns what the numbers are: a trace has no comments."""
        window = self.window
        called = [f"task {number} is {names.thread(thread)}"
                  for thread, number in window.tasks.items()]
        called += [f"mutex {number} is {names.mutex(mutex)}"
                   for mutex, number in window.mutexes.items()]
        lines = f", of lines {window.lines[0][0]} to {window.lines[-1][0]}" if window.lines else ""
        shifted = {level: one for level, one in window.priorities.items() if level != one}
        said = [f"{count(len(self.steps), 'step')}{lines}", *called]
        if shifted:
            levels, priorities = map(sorted, (shifted, shifted.values()))
            said.append(f"priority {listed(map(str, priorities), 100)}"
                        f" is level {listed(map(str, levels), 100)}")
        return "; ".join(said)


def trace_of(facts, rows, since, until):
    """Returns the trace of what happened from one time to another."""
    try:
        return Trace(Window(facts, hand_overs(facts, rows), since, until))
    except TooLarge as fault:
        advice = f"a window up to {fault.time - 1}ns has" if fault.time > since else (
            "a window of a later time may have")
        raise Fault(f"a trace has no room for more than {fault.what}: {advice}") from fault


def write_trace(file, recording, since, until, judge):
    """Writes a trace if pim accepts it and its report is that of the facts."""
    command = command_of("pim", judge, "--judge")
    with Progress("making the trace"):
        trace = trace_of(recording.facts, recording.all_rows, since, until)
        text = trace.text()
    status, report, has_said = run(command, "judging the trace", text.encode())
    if status not in (0, 1):
        raise Fault("" if has_said else f"{command[0]} judged nothing, with status {status}")
    why = trace.fault(report)
    if why:
        raise Fault(f"no trace is written: {why}")
    try:
        pathlib.Path(file).write_text(text)
    except OSError as fault:
        raise Fault(f"{file}: {fault.strerror}") from fault
    said = f"{file}: {trace.notes(recording.names)}"
    say(f"{textwrap.fill(said, 100)}\n")
