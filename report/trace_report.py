"""A trace and the report of pim on it. Only pim judges: its replies and priorities are drawn."""
import math
import re
from collections import namedtuple
from itertools import chain

from other_programs import run
from program import Fault
from task_states import State

# A step in a report: its reply, and the lines of the priorities that it changed.
STEP = re.compile(r"^\d+ (.*)\n((?:  .*\n)*)", re.M)
VERDICT = re.compile(r"^(?:\d+ .* but recorded .*\n)?(?:accepted|rejected) (\d+)\n\Z", re.M)
LONGEST = 100  # bytes: a verdict is shorter

# The steps that are drawn. Step 0 is the state before the first one.
Window = namedtuple("Window", "first last", defaults=(0, math.inf))
Moment = namedtuple("Moment", "step request reply state")


def report_of(command, data):
    """Returns whether a trace is rejected, its report, and what that ends with: the verdict."""
    status, out, has_said = run(command, "judging the trace", data)
    if status not in (0, 1):
        raise Fault("" if has_said else f"{command[0]} judged nothing, with status {status}")
    report = out.decode("ascii", "replace")
    verdict = VERDICT.search(report, max(len(report) - LONGEST, 0))
    if not verdict:
        raise Fault(f"{command[0]} wrote no report")
    return status == 1, report, verdict


class JudgedTrace:
    """A valid trace, with the replies and priorities of its report up to the verdict."""

    def __init__(self, data, command):
        """Has the command judge a trace. A fault of the command is passed on."""
        self.is_rejected, self.report, verdict = report_of(command, data)
        self.verdict, self.last = verdict[0], int(verdict[1])
        first, *lines = data.decode("ascii").splitlines()
        self.requests = [line.partition(" = ")[0] for line in lines if line[0].isdigit()]
        self.declarations = lines[:len(lines) - len(self.requests)]
        self.tasks = sum(line.startswith("task ") for line in self.declarations)
        if self.is_rejected:
            # The report has no priorities after its last step. Without recorded replies it has.
            lines = first, *self.declarations, *self.requests[:self.last], ""
            _, self.report, _ = report_of(command, "\n".join(lines).encode())

    def moments(self, window):
        """Yields the state after each step of a window. In the first one all tasks have changed."""
        state = State(self.declarations)
        made = ((request, *step.groups())
                for request, step in zip(self.requests, STEP.finditer(self.report)))
        for number, (request, reply, levels) in enumerate(chain([("", "", "")], made)):
            if window.last < number:
                return
            if number:
                state.make(number, request, reply, levels)
            if window.first <= number:
                yield Moment(number, request, reply, state)
                state.changed.clear()
                state.moved.clear()
