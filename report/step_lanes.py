"""The lanes of a trace, as SVG: a task's priority over the steps, what it owns and waits for."""
from collections import namedtuple

from step_spans import Spans, is_owned, rows_of, what, why

# Pixels: left of the first step, right of the last one, above and below the lanes.
SIDE, RIGHT, TOP, BOTTOM = 96, 16, 32, 32
# From the top of a lane to priority 0. A priority is half a pixel high.
TALL = 62
# From priority 0 to the first bar, from one bar to the next, and below the last one.
ABOVE_BARS, BAR, BELOW_BARS = 5, 15, 8
ALL_STEPS, NARROWEST, WIDEST = 904, 26, 84  # the width of all steps, and of one
FONT = "system-ui, -apple-system, 'Segoe UI', Roboto, 'Liberation Sans', sans-serif"
MARKS = "▲ boosted by a waiter · ◆ boosted by a ceiling · filled: owns · dashed: waits for"
HUES = "#22689c", "#1f7060", "#a2417c", "#5f6a12", "#7d5a41", "#4f6089"  # of mutexes, in turn
Boosted = namedtuple("Boosted", "mark fill ink")
BY_WAITER, BY_CEILING = Boosted("▲", "#f7a94a", "#8f4700"), Boosted("◆", "#a37be0", "#6d3bb8")

Lane = namedtuple("Lane", "task top floor end base levels bars marks")


def pixels(length):
    """Returns a length, which has halves of a pixel at most."""
    return f"{length:.1f}".removesuffix(".0")


def words(x, y, style, text):
    return f'<text x="{x}" y="{pixels(y)}" {style}>{text}</text>\n'


def rule(x, past, y, style):
    return f'<path d="M{x} {pixels(y)}H{past}" {style}/>\n'


def look(boost):
    return BY_WAITER if boost.waiter else BY_CEILING


def hue(mutex):
    return HUES[(mutex - 1) % len(HUES)]


class Lanes:
    """Where everything is, and the parts of the file."""

    def __init__(self, spans):
        self.first, self.past = spans.first, spans.past
        count = max(self.past - self.first, 1)
        self.column = min(max(ALL_STEPS // count, NARROWEST), WIDEST)
        self.width = SIDE + count * self.column + RIGHT
        self.lanes = list(self.lanes_of(spans))
        self.height = (self.lanes[-1].end if self.lanes else TOP) + BOTTOM
        self.right = self.x(self.past)

    def lanes_of(self, spans):
        """Yields a lane for each task, one below the other."""
        levels, bars, marks = ({task: [] for task in spans.tasks} for _ in range(3))
        for level in spans.levels:
            levels[level.task].append(level)
        for bar, row in zip(spans.bars, rows_of(spans.bars)):
            bars[bar.task].append((bar, row))
        for mark in spans.marks:
            if mark.task in marks:
                marks[mark.task].append(mark)
        top = TOP
        for task in spans.tasks:
            rows = 1 + max((row for _, row in bars[task]), default=0)
            floor = top + TALL
            end = floor + ABOVE_BARS + rows * BAR + BELOW_BARS
            base = levels[task][0].base if levels[task] else None
            yield Lane(task, top, floor, end, base, levels[task], bars[task], marks[task])
            top = end

    def x(self, step):
        """Returns where the column of a step begins."""
        return SIDE + (step - self.first) * self.column

    def parts(self):
        yield self.head()
        yield from self.numbers()
        for lane in self.lanes:
            yield self.name(lane)
            yield from (self.area(lane, level) for level in lane.levels if level.boost)
            yield self.line(lane)
            yield from (self.level(lane, level) for level in lane.levels)
            yield from (self.bar(lane, bar, row) for bar, row in lane.bars)
            yield from (self.mark(lane, mark) for mark in lane.marks)
        if 480 <= self.width:
            yield words(12, self.height - 12, 'font-size="10.5" fill="#59616c"', MARKS)
        yield "</svg>\n"

    def head(self):
        size = f'width="{self.width}" height="{self.height}"'
        return (f'<svg xmlns="http://www.w3.org/2000/svg" {size}'
                f' viewBox="0 0 {self.width} {self.height}" font-family="{FONT}">\n'
                f"<title>Priorities after the steps {self.first} to {self.past - 1}</title>\n"
                f'<rect {size} fill="#f7f7f5"/>\n')

    def numbers(self):
        """Yields the numbers of the steps: each, or each fifth where they wouldn't fit."""
        style = 'font-size="11" fill="#656d78"'
        yield words(12, 24, style, "step")
        every = 1 if self.past < 1000 else 5
        for step in range(self.first, self.past):
            if step % every == 0:
                x = self.x(step) + self.column // 2
                yield words(x, 24, f'{style} text-anchor="middle"', step)

    def name(self, lane):
        """Returns the name and the base of a task, and the lines of its lane."""
        style = 'font-size="13" font-weight="600" fill="#1d2127"'
        name = words(12, lane.top + 30, style, f"task {lane.task}")
        if lane.base:
            style = 'font-size="11.5" fill="#59616c"'
            name += words(12, lane.top + 45, style, f"base {lane.base}")
        return (name + rule(12, self.right, lane.end, 'stroke="#e4e4e0"')
                + rule(SIDE, self.right, lane.floor, 'stroke="#efefec"'))

    def area(self, lane, level):
        """Returns the area between the base and the priority of a boosted task."""
        x, past = self.x(level.first), self.x(level.past)
        top, bottom = lane.floor - level.prio / 2, lane.floor - level.base / 2
        return (f'<rect x="{x}" y="{pixels(top)}" width="{past - x}"'
                f' height="{pixels(bottom - top)}" fill="{look(level.boost).fill}"'
                f' fill-opacity="0.27"><title>{why(level)}</title></rect>\n'
                + rule(x, past, bottom, 'stroke="#8d97a3" stroke-dasharray="2 3"'))

    def line(self, lane):
        """Returns the priorities of a lane as one line."""
        steps = "".join(f"V{pixels(lane.floor - level.prio / 2)}H{self.x(level.past)}"
                        for level in lane.levels)
        begin = f"M{SIDE} {steps[1:]}" if steps else ""
        return f'<path d="{begin}" fill="none" stroke="#33536f" stroke-width="1.75"/>\n'

    def level(self, lane, level):
        """Returns the number of a priority, and of a boost its line, its mark and its giver."""
        x, past, y = self.x(level.first), self.x(level.past), lane.floor - level.prio / 2
        at = y - 4 if lane.top + 9 <= y - 4 else y + 13
        if not level.boost:
            return words(x + 4, at, 'font-size="11" fill="#33536f"', level.prio)
        (mark, _, ink), (mutex, waiter) = look(level.boost), level.boost
        text = f"{level.prio} {mark}" if 36 <= past - x else f"{level.prio}"
        if 80 <= past - x:
            text += f" task {waiter}" if waiter else f" m{mutex}"
        style = f'font-size="11" font-weight="650" fill="{ink}"'
        return (rule(x, past, y, f'stroke="{ink}" stroke-width="2.5"')
                + words(x + 4, at, style, text))

    def bar(self, lane, bar, row):
        """Returns a mutex that a task owns, filled, or waits for, dashed."""
        left, top = self.x(bar.first) + 1, lane.floor + ABOVE_BARS + row * BAR
        width, ink = self.x(bar.past) - left - 1, hue(bar.mutex)
        fill = ink if is_owned(bar) else f'none" stroke="{ink}" stroke-dasharray="3 2'
        verb, needed = ("owns ", 56) if is_owned(bar) else ("waits for ", 76)
        style = f'font-size="10" font-weight="550" fill="{"#fff" if is_owned(bar) else ink}"'
        return (f'<rect x="{left}" y="{top}" width="{width}" height="13" rx="3" fill="{fill}">'
                f"<title>task {bar.task} {what(bar)}</title></rect>\n"
                + words(left + 5, top + 10, style, f"{verb * (needed < width)}m{bar.mutex}"))

    def mark(self, lane, mark):
        """Returns the mark of a step that the task made: a dot, or a cross if it was refused."""
        x, y = self.x(mark.step), lane.floor - mark.prio / 2
        if mark.is_refused:
            return (f'<path d="M{x - 3} {pixels(y - 3)}l6 6m0 -6l-6 6" stroke="#b3261e"'
                    f' stroke-width="2"><title>step {mark.step} is refused</title></path>\n')
        return (f'<circle cx="{x}" cy="{pixels(y)}" r="3.5" fill="#33536f" stroke="#f7f7f5"'
                f' stroke-width="1.5"><title>step {mark.step}</title></circle>\n')


def lanes(trace, window):
    """Yields the parts of an SVG file."""
    return Lanes(Spans(trace, window)).parts()
