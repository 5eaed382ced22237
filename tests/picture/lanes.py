"""What an SVG of pim-picture says of each task after each step, by the places of its parts."""
import re
import xml.etree.ElementTree as xml

SVG = "{http://www.w3.org/2000/svg}"
SIDE = 96  # pixels left of the first step
RIGHT = 16  # pixels right of the last one


class Lane:
    """A task's lane: what it says of the steps, by their numbers."""

    def __init__(self, steps):
        self.prio, self.why = {}, {step: "base" for step in steps}
        self.owned, self.waits = {step: [] for step in steps}, {}
        self.made, self.floor = {}, None


class Lanes:
    """The lanes of a picture of some steps."""

    def __init__(self, drawn, steps):
        root = xml.fromstring(drawn)
        self.steps, self.column = steps, (int(root.get("width")) - SIDE - RIGHT) // len(steps)
        self.lanes, lane = {}, None
        for part in root:
            name = part.tag.removeprefix(SVG)
            if name == "text" and re.fullmatch(r"task \d+", part.text) and part.get("x") == "12":
                lane = self.lanes[int(part.text.split()[1])] = Lane(steps)
            elif lane:
                self.take(lane, name, part, part.findtext(f"{SVG}title") or "")

    def step(self, x):
        """Returns the step whose column begins here."""
        return self.steps[0] + round((float(x) - SIDE) / self.column)

    def between(self, part):
        """Returns the steps that a rectangle covers."""
        first = self.step(part.get("x"))
        return range(first, self.step(float(part.get("x")) + float(part.get("width"))))

    def take(self, lane, name, part, title):
        """Notes what a part says."""
        if name == "path" and part.get("fill") == "none":
            self.line(lane, part.get("d"))
        elif name == "path" and part.get("stroke") == "#efefec":
            lane.floor = float(re.match(r"M\d+ (\d+)H", part.get("d"))[1])
        elif name == "rect" and " owns mutex " in title:
            for step in self.between(part):
                lane.owned[step].append(int(title.split()[-1]))
        elif name == "rect" and part.get("fill") == "none":
            for step in self.between(part):
                lane.waits[step] = int(title.split()[-1])
        elif name == "rect":
            for step in self.between(part):
                lane.why[step] = title.split(" at ")[1]
        elif title.startswith("step "):
            lane.made[int(title.split()[1])] = name == "path"

    def line(self, lane, commands):
        """Notes the priorities that a line has: a priority is half a pixel high."""
        at = y = None
        for kind, first, second in re.findall(r"([MHV])([\d.]+)(?: ([\d.]+))?", commands):
            if kind == "M":
                at, y = self.step(first), float(second)
            elif kind == "V":
                y = float(first)
            else:
                for step in range(at, self.step(first)):
                    lane.prio[step] = round(2 * (lane.floor - y))
                at = self.step(first)


def reason_in(state, task):
    """Returns what a picture says of why a task has its priority."""
    kind, *words = state.reason(task).split()
    if kind == "ceiling":
        return f"{state.prio[task]}: the ceiling of mutex {words[0]}"
    if kind == "waiter":
        return f"{state.prio[task]}: task {words[0]} waits for mutex {words[2]}"
    return "base"


def facts(state, task):
    """Returns what a lane should say of a task in a state."""
    why = reason_in(state, task)
    return state.prio[task], why, state.owned(task), state.waits.get(task)


def shown(lanes, task, step):
    """Returns what a lane says."""
    lane = lanes.lanes[task]
    return lane.prio.get(step), lane.why[step], sorted(lane.owned[step]), lane.waits.get(step)
