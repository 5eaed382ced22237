"""What a Trace Event file of pim-picture says of each task, and the rules of the format."""
import collections
import json

STEP = 1000  # microseconds
NAMES = {"process_name": "name", "thread_name": "name"}
NAMES |= {"process_sort_index": "sort_index", "thread_sort_index": "sort_index"}
FIELDS = {
    "M": {"args"},
    "C": {"ts", "args"},
    "X": {"ts", "dur", "args"},
    "s": {"ts", "cat", "id"},
    "f": {"ts", "cat", "id", "bp"},
}


def event_fault(it):
    """Returns what is wrong with an event by itself, or None."""
    wanted = {"ph", "pid", "tid", "name"} | FIELDS.get(it.get("ph"), set())
    if set(it) != wanted:
        return f"fields {sorted(it)}"
    numbers = [it[key] for key in ("pid", "tid", "id") if key in it]
    times = [it[key] for key in ("ts", "dur") if key in it]
    are_numbers = all(type(number) is int for number in numbers)
    if not are_numbers or not all(type(time) is int for time in times):
        return "a number"
    if min(numbers + times) < 0:
        return "a number below 0"
    if it["ph"] == "M" and list(it["args"]) != [NAMES.get(it["name"])]:
        return "metadata"
    if it["ph"] == "C" and not all(type(value) is int for value in it["args"].values()):
        return "a counter"
    if it["ph"] == "X" and it["dur"] == 0:
        return "an empty slice"
    return "a flow without bp" if it["ph"] == "f" and it["bp"] != "e" else None


def nesting_fault(slices):
    """Returns two slices of a track that are neither apart nor one in the other, or None."""
    open_until = []
    for it in sorted(slices, key=lambda it: (it["ts"], -it["dur"])):
        while open_until and open_until[-1] <= it["ts"]:
            open_until.pop()
        if open_until and open_until[-1] < it["ts"] + it["dur"]:
            return f"{it['name']} at {it['ts']}"
        open_until.append(it["ts"] + it["dur"])
    return None


def flow_fault(flows, tracks):
    """Returns a flow that doesn't lead from a slice to a slice, or None."""
    for (cat, number), ends in flows.items():
        if sorted(it["ph"] for it in ends) != ["f", "s"] or ends[0]["name"] != ends[1]["name"]:
            return f"flow {number} has {len(ends)} ends"
        first, last = sorted(ends, key=lambda it: it["ph"] == "f")
        if first["ts"] > last["ts"]:
            return f"flow {number} leads back"
        for it in ends:
            slices = tracks[it["pid"], it["tid"]]
            if not any(at["ts"] <= it["ts"] < at["ts"] + at["dur"] for at in slices):
                return f"flow {number} is in no slice"
    return None


class Tracks:
    """The events of a file, by their kind and track."""

    def __init__(self, drawn):
        file = json.loads(drawn)
        self.events = file["traceEvents"]
        self.unit = file["displayTimeUnit"]
        self.slices, self.flows = collections.defaultdict(list), collections.defaultdict(list)
        self.counters, self.called = collections.defaultdict(list), {}
        for it in self.events:
            if it["ph"] == "X":
                self.slices[it["pid"], it["tid"]].append(it)
            elif it["ph"] in "sf":
                self.flows[it["cat"], it["id"]].append(it)
            elif it["ph"] == "C":
                self.counters[it["pid"]].append((it["ts"], it["args"]["priority"]))
            else:
                self.called[it["name"], it["pid"], it["tid"]] = it["args"]

    def fault(self):
        """Returns the first rule of the format that the file breaks, or None."""
        faults = [fault for fault in map(event_fault, self.events) if fault]
        if faults:
            return faults[0]
        faults = [fault for fault in map(nesting_fault, self.slices.values()) if fault]
        faults += [fault for fault in [flow_fault(self.flows, self.slices)] if fault]
        numbers = collections.Counter(tid for _, tid in self.slices)
        faults += [f"track {tid} twice" for tid, count in numbers.items() if count > 1]
        for pid, tid in self.slices:
            if ("thread_name", pid, tid) not in self.called:
                faults.append(f"track {tid} has no name")
        faults = faults or [*self.misplaced(), *self.wrong_arguments()]
        return faults[0] if faults else None

    def misplaced(self):
        """Returns the groups and tracks that aren't in the order of their numbers."""
        order = {name: [] for name in ("process_sort_index", "thread_sort_index")}
        for (name, pid, tid), arguments in self.called.items():
            if name in order:
                order[name].append((pid, arguments["sort_index"], tid))
        groups = [(pid, place) for pid, place, _ in order["process_sort_index"]]
        faults = [f"group {pid} at {at}" for pid, at in groups if at != pid]
        tracks = sorted(order["thread_sort_index"])
        are_apart = len({it[:2] for it in tracks}) == len(tracks)
        if not are_apart or tracks != sorted(tracks, key=lambda it: (it[0], it[2])):
            faults.append(f"tracks {tracks}")
        return faults

    def wrong_arguments(self):
        """Returns the slices with another owner than who owns, or a base not below the boost."""
        ends = [sorted(ends, key=lambda it: it["ph"] == "f") for ends in self.flows.values()]
        awaited = {(first["pid"], first["tid"], first["ts"]): last["pid"] for first, last in ends}
        faults = []
        for (pid, tid), slices in self.slices.items():
            for it in slices:
                prios = [value for ts, value in self.counters[pid] if ts <= it["ts"]]
                owner = pid if it["name"].startswith("owns ") else awaited.get((pid, tid, it["ts"]))
                is_boost = "base" in it["args"]
                right = it["args"]["base"] < prios[-1] if is_boost else it["args"]["owner"] == owner
                faults += [] if right else [f"{it['name']} with {it['args']}"]
        return faults

    def at(self, task, step):
        """Returns the names of the slices of a task after a step."""
        moment, names = step * STEP, []
        for (pid, _), slices in self.slices.items():
            if pid == task:
                names += [it["name"] for it in slices if it["ts"] <= moment < it["ts"] + it["dur"]]
        return names

    def shown(self, task, step):
        """Returns the task's priority, why it has that, what it owns and what it waits for."""
        prio = [value for ts, value in self.counters[task] if ts <= step * STEP][-1]
        names = self.at(task, step)
        why = [name.split(" at ")[1] for name in names if name.startswith("task ")]
        owned = sorted(int(name.split()[-1]) for name in names if name.startswith("owns "))
        waits = [int(name.split()[-1]) for name in names if name.startswith("waits ")]
        return prio, "".join(why) or "base", owned, waits[0] if waits else None

    def arrows(self):
        """Returns each flow as its step, the task that waits and the owner."""
        ends = [sorted(ends, key=lambda it: it["ph"] == "f") for ends in self.flows.values()]
        return sorted((a["ts"] // STEP, a["pid"], b["pid"]) for a, b in ends)
