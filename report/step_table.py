"""The table of a trace: a row for each step, and a column for each task."""
from sys import intern

LEGEND = """\
90^3 boosted to 90 by task 3  40*2 boosted to 40 by the ceiling of mutex 2
[1]  owns mutex 1             ~1   waits for mutex 1
"""
TITLES = "step", "request", "reply"
LISTED = 3  # mutexes of a cell, so that a row fits 80 columns
GAP = "  "
BOLD, PLAIN = "\033[1m", "\033[0m"


def cell_of(state, task):
    """Returns the cell of a task: '50^2 [1,3] ~4' is boosted to 50 by task 2, owns 1 and 3, and
    waits for 4."""
    boost, owned = state.boost(task), state.owned[task]
    words = [f"{state.prios[task]:>2}"]
    if boost:
        words[0] += f"^{boost.waiter}" if boost.waiter else f"*{boost.mutex}"
    if owned:
        words.append(f"[{','.join(map(str, owned[:LISTED]))}{'..' * (len(owned) > LISTED)}]")
    if task in state.waits:
        words.append(f"~{state.waits[task]}")
    return " ".join(words)


def is_boosted(cell):
    return "^" in cell or "*" in cell


class Table:
    """The rows of the steps of a window."""

    def __init__(self, trace, window):
        self.titles = {task: f"task {task}" for task in range(1, trace.tasks + 1)}
        # The cells of each task, with the row from which on it is there.
        self.cells = {task: [] for task in self.titles}
        lefts = [TITLES]
        for row, moment in enumerate(trace.moments(window)):
            lefts.append((moment.step, moment.request, moment.reply))
            for task in moment.state.changed:
                self.cells[task].append((row, intern(cell_of(moment.state, task))))
        self.widths = {task: max(len(title), *(len(cell) for _, cell in self.cells[task]), 0)
                       for task, title in self.titles.items()}
        step, request, reply = (max(len(str(value)) for value in column) for column in zip(*lefts))
        layout = f"{{:>{step}}}{GAP}{{:<{request}}}{GAP}{{:<{reply}}}{GAP}"
        self.head, *self.lefts = (layout.format(*left) for left in lefts)

    def blocks(self, width):
        """Yields the tasks of each table: as many as fit next to each other, and at least one."""
        left = len(self.head) - len(GAP)
        block, used = [], left
        for task, own in self.widths.items():
            if block and width < used + len(GAP) + own:
                yield block
                block, used = [], left
            block.append(task)
            used += len(GAP) + own
        yield block

    def lines(self, block, is_bold):
        """Yields the titles and the rows of some tasks."""
        changes = {}
        for place, task in enumerate(block):
            for row, cell in self.cells[task]:
                changes.setdefault(row, []).append((place, self.padded(task, cell, is_bold)))
        cells = [self.padded(task, self.titles[task], False) for task in block]
        right = GAP.join(cells)
        yield f"{self.head}{right}".rstrip()
        for row, left in enumerate(self.lefts):
            if row in changes:
                for place, cell in changes[row]:
                    cells[place] = cell
                right = GAP.join(cells)
            yield f"{left}{right}".rstrip()

    def padded(self, task, cell, is_bold):
        spaces = " " * (self.widths[task] - len(cell))
        return f"{BOLD}{cell}{PLAIN}{spaces}" if is_bold and is_boosted(cell) else cell + spaces


def table(trace, window, width, is_bold):
    """Yields the tables of all tasks, what their marks mean, and the verdict."""
    drawn = Table(trace, window)
    for block in drawn.blocks(width):
        yield "".join(f"{line}\n" for line in drawn.lines(block, is_bold))
    yield LEGEND
    yield trace.verdict
