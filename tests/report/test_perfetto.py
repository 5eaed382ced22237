"""The tracks that pim-report writes for ui.perfetto.dev: by hand, and of random facts."""
import json
import re
from collections import Counter, defaultdict
from decimal import Decimal

from tests.cases import Case
from tests.report.texts import random_findings, tracks_of
from tests.shared.checks import difference
from facts_text import Facts
from lines import line_of, lines_of
from recording import Recording
import rows
from rows_text import Rows
from world import World

THREADS = "thread 1 30 high;thread 2 10 low;thread 3 20 mid"
NAMES = {"process_name": "name", "thread_name": "name", "process_sort_index": "sort_index",
         "thread_sort_index": "sort_index"}
FIELDS = {"M": {"args"}, "C": {"ts", "args"}, "X": {"ts", "dur", "args"},
          "s": {"ts", "cat", "id"}, "f": {"ts", "cat", "id", "bp"}}
# A name; facts after the first line; what the file has: 'group: track: slice begin-end arguments',
# 'group = time priority ..' and 'flow time group track > group track', with times in microseconds.
EXAMPLES = (
    ("an inherited boost", THREADS + ";mutex 5 inherit map@map.c:7(main);"
     "500 2 granted 5 low.c:1(f);1500 1 waits 5 high.c:2;3000 2 released 5;3000 1 granted 5;"
     "4000 1 released 5;9000 end",
     "high = 0 30;low = 0 10 1.5 30 3 10;mid = 0 20;"
     "high: waits: waits for map from map.c:7 (main) 1.5-3"
     " at=high.c:2,owner=low (10),taken at=low.c:1 (f);"
     "high: owns: owns map from map.c:7 (main) 3-4;"
     "low: boosted: low at 30: high waits for map from map.c:7 (main) 1.5-3 base=10;"
     "low: owns: owns map from map.c:7 (main) 0.5-3 at=low.c:1 (f);"
     "flow 1.5 high waits > low owns"),
    ("an inversion", THREADS + ";mutex 5 none m;0 2 granted 5;1000 1 waits 5;2000 2 priority 30;"
     "3000 2 priority 5;4000 2 released 5;5000 1 granted 5;6000 end",
     "high = 0 30;low = 0 10 2 30 3 5;mid = 0 20;high: waits: waits for m 1-5 owner=low (10);"
     "high: waits: inverted: held up by low 1-2 mutex=m;"
     "high: waits: inverted: held up by low 3-4 mutex=m;high: owns: owns m 5-6;"
     "low: owns: owns m 0-4;flow 1 high waits > low owns"),
    ("ceilings", "thread 1 30 a;mutex 5 protect 50 m;mutex 4 protect 40 n;0 1 took 5;"
     "500 1 priority 35;1000 1 took 4;2000 1 ceiling 4 50;3000 1 released 4;4000 1 ceiling 5 20;"
     "5000 1 priority 10;6000 end",
     "a = 0 50 4 35 5 20;a: boosted: a at 50: the ceiling of m 0-0.5 base=30;"
     "a: boosted: a at 50: the ceiling of m 0.5-2 base=35;"
     "a: boosted: a at 50: the ceiling of n 2-3 base=35;"
     "a: boosted: a at 50: the ceiling of m 3-4 base=35;"
     "a: boosted: a at 20: the ceiling of m 5-6 base=10;a: owns: owns m 0-6;a: owns: owns n 1-3"),
    ("whose wait boosts", "thread 1 10 a;thread 2 30 b;thread 3 30 c;thread 4 40 d;"
     "thread 5 15 e;mutex 8 inherit m;mutex 7 inherit n;0 1 granted 8;0 1 granted 7;500 5 waits 7;"
     "1000 3 waits 8;2000 2 waits 8;3000 4 waits 7;4000 4 gave-up 7;5000 3 gave-up 8;6000 end",
     "a = 0 10 0.5 15 1 30 3 40 4 30;b = 0 30;c = 0 30;d = 0 40;e = 0 15;"
     "a: boosted: a at 15: e waits for n 0.5-1 base=10;e: waits: waits for n 0.5-6 owner=a (10);"
     "flow 0.5 e waits > a owns;"
     "a: boosted: a at 30: c waits for m 1-3 base=10;"
     "a: boosted: a at 40: d waits for n 3-4 base=10;"
     "a: boosted: a at 30: c waits for m 4-5 base=10;"
     "a: boosted: a at 30: b waits for m 5-6 base=10;"
     "a: owns: owns m 0-6;a: owns: owns n 0-6;b: waits: waits for m 2-6 owner=a (10);"
     "c: waits: waits for m 1-5 owner=a (10);d: waits: waits for n 3-4 owner=a (10);"
     "flow 1 c waits > a owns;flow 2 b waits > a owns;flow 3 d waits > a owns"),
    ("a chain", THREADS + ";mutex 5 inherit m;mutex 6 none n;0 2 granted 5;0 3 granted 6;"
     "1000 2 waits 6;2000 1 waits 5;3000 end", "high = 0 30;low = 0 10 2 30;mid = 0 20;"
     "high: waits: waits for m 2-3 owner=low (10);"
     "high: waits: inverted: held up by mid 2-3 mutex=n;"
     "low: boosted: low at 30: high waits for m 2-3 base=10;low: owns: owns m 0-3;"
     "low: waits: waits for n 1-3 owner=mid (20);low: waits: inverted: held up by mid 2-3 mutex=n;"
     "mid: owns: owns n 0-3;flow 1 low waits > mid owns;flow 2 high waits > low owns"),
    ("objects", THREADS + ";object 1 semaphore q;object 2 condition -;0 1 blocks 1 h.c:1;"
     "1000 1 resumes 1 by 2 l.c:9;2000 1 blocks 2;3000 1 resumes 2 timed-out;4000 1 blocks 1;"
     "5000 1 resumes 1 failed;5500 1 blocks 1;6000 1 resumes 1;7000 1 blocks 1;8000 end",
     "high = 0 30;low = 0 10;mid = 0 20;"
     "high: waits: blocked at semaphore q 0-1 at=h.c:1,ended=by low (10);"
     "high: waits: blocked at condition variable 2 2-3 ended=timed out;"
     "high: waits: blocked at semaphore q 4-5 ended=failed;"
     "high: waits: blocked at semaphore q 5.5-6;high: waits: blocked at semaphore q 7-8"),
    ("CPUs", THREADS + ";mutex 5 protect 50 m;0 1 on 0;1000 2 on 2;2000 1 off ready;2000 3 on 0;"
     "3000 2 runs 40;4000 2 runs 40;5000 2 took 5;6000 lost 3;7000 2 on 2;8000 2 released 5;"
     "9000 2 off asleep;9000 end",
     "high = 0 30;low = 0 10 5 50 8 10;mid = 0 20;CPUs: CPU 0: high 0-2 level=30;"
     "CPUs: CPU 0: mid 2-6 level=20;CPUs: CPU 2: low 1-3 level=10;CPUs: CPU 2: low 3-6 level=40;"
     "CPUs: CPU 2: low 7-8 level=50;CPUs: CPU 2: low 8-9 level=10;"
     "low: boosted: low at 50: the ceiling of m 5-8 base=10;low: owns: owns m 5-8"),
    ("what lasts no time, and a late owner", 'thread 1 30 "a\\;thread 2 10 -;thread 3 20 a;'
     "thread 4 20 a;mutex 5 none m;mutex 6 none m;0 1 granted 6;0 1 released 6;1 1 waits 5;"
     "2 2 took 5;2 2 released 5;5 1 gave-up 5;5 1 waits 5;5 1 gave-up 5;9 end",
     '"a\\ = 0 30;thread 2 = 0 10;a[3] = 0 20;a[4] = 0 20;'
     '"a\\: waits: waits for m#5 0.001-0.005 owner=none'),
)


class File:
    """The events of a file, by what their groups and tracks are called."""

    def __init__(self, text):
        self.events = json.loads(text, parse_float=Decimal)["traceEvents"]
        self.called, self.place = {}, {}
        for it in self.events:
            if it["ph"] == "M":
                what, into = it["name"].split("_", 1)
                number = it["pid"] if what == "process" else it["tid"]
                value = self.called if into == "name" else self.place
                value[what, it["pid"], number] = it["args"][NAMES[it["name"]]]

    def of(self, *kinds):
        return [it for it in self.events if it["ph"] in kinds]

    def group(self, it):
        return self.called["process", it["pid"], it["pid"]]

    def track(self, it):
        return self.called["thread", it["pid"], it["tid"]]

    def shown(self):
        """Returns the lines of an example, in any order."""
        lines, counters, flows = [], defaultdict(str), defaultdict(dict)
        for it in self.of("X"):
            args = ",".join(f"{key}={value}" for key, value in sorted(it["args"].items()))
            lines.append(f"{self.group(it)}: {self.track(it)}: {it['name']} {number(it['ts'])}-"
                         f"{number(it['ts'] + it['dur'])} {args}".rstrip())
        for it in self.of("C"):
            counters[self.group(it)] += f" {number(it['ts'])} {it['args']['priority']}"
        for it in self.of("s", "f"):
            flows[it["id"]][it["ph"]] = f"{self.group(it)} {self.track(it)}", number(it["ts"])
        lines += [f"flow {ends['s'][1]} {ends['s'][0]} > {ends['f'][0]}" for ends in flows.values()]
        return sorted([*lines, *(f"{name} ={values}" for name, values in counters.items())])

    # ---- the rules of the format

    def fault(self):
        """Returns the first rule that the file breaks, or None."""
        tracks, numbers = defaultdict(list), {}
        for it in self.events:
            keys = set(it) - {"ph", "pid", "tid", "name"}
            if keys != FIELDS[it["ph"]] or any(it[key] < 0 for key in ("ts", "dur") if key in it):
                return f"the fields of {it}"
            if it["ph"] in "Xsf" and numbers.setdefault(it["tid"], it["pid"]) != it["pid"]:
                return f"track {it['tid']} of two groups"
            if it["ph"] == "X":
                tracks[it["tid"]].append(it)
        if {it["pid"] for it in self.events} & set(numbers):
            return "a track has the number of a group"
        if any(("thread", pid, tid) not in self.called for tid, pid in numbers.items()):
            return "a track has no name"
        return next(filter(None, map(self.nesting, tracks.values())), None) or (
            self.order() or self.flows(tracks))

    @staticmethod
    def nesting(slices):
        """Slices of a track are apart, or one is in the other."""
        ends = []
        for it in sorted(slices, key=lambda it: (it["ts"], -it["dur"])):
            while ends and ends[-1] <= it["ts"]:
                ends.pop()
            if not it["dur"] or ends and ends[-1] < it["ts"] + it["dur"]:
                return f"{it['name']} at {it['ts']}"
            ends.append(it["ts"] + it["dur"])
        return None

    def order(self):
        """CPUs are above the threads; a thread has boosts, waits, and then what it owns."""
        for (what, group, at), place in self.place.items():
            name = self.called[what, group, at]
            wanted = {"boosted": 1, "waits": 2, "owns": max(3, place)}.get(name, place)
            if what == "process":
                wanted = 0 if name == "CPUs" else group
            if place != wanted:
                return f"{name} is at {place}"
        return None

    def flows(self, tracks):
        ends = defaultdict(dict)
        for it in self.of("s", "f"):
            ends[it["id"]][it["ph"]] = it
        for two in ends.values():
            if set(two) != {"s", "f"} or two["f"]["bp"] != "e" or two["s"]["ts"] != two["f"]["ts"]:
                return f"the flow {two}"
            for it, word in ((two["s"], "waits for "), (two["f"], "owns ")):
                found = [one["name"] for one in tracks[it["tid"]]
                         if one["ts"] <= it["ts"] < one["ts"] + one["dur"]]
                if not any(name.startswith(word) for name in found):
                    return f"a flow at {it['ts']} is in {found}"
        return None


def number(value):
    text = f"{Decimal(value):.3f}"
    return re.sub(r"\.?0*$", "", text)


def file_of(text):
    """Returns the file of some facts."""
    recording = Recording(Facts(text), Rows.read(rows.answer(text)[0]))
    return File(tracks_of(recording))


# ---- random facts, by the plain world

def lasted(text):
    """Returns by what a thread does, or what runs on a CPU, for how many nanoseconds."""
    found, world = Counter(), World()
    for line in map(line_of, lines_of(text)[1:]):
        stretch = world.time_passes(line)
        for thread, level in world.level.items():
            gets = world.gets(thread)
            found["priority", thread, gets] += stretch
            found["boosted", thread, gets, level] += stretch * (gets != level)
            found["waits", thread, world.awaits.get(thread)] += stretch * (thread in world.awaits)
            found["blocked", thread] += stretch * (thread in world.blocked)
            found["inverted", thread] += stretch * (
                thread in world.awaits and world.is_inverted(thread))
        for mutex, owner in world.owner.items():
            found["owns", owner, mutex] += stretch
        for cpu, thread in world.on.items():
            level = world.runs.get(thread, world.gets(thread))
            found["CPU", cpu, thread, level] += stretch
        world.apply(line)
    return +found, world.clock


def lasted_in(file, clock):
    """Returns the same of a file. Threads are called t1, t2 .. in these texts."""
    found, changes = Counter(), defaultdict(list)
    for it in file.of("C"):
        changes[thread_of(file.group(it))].append((it["ts"] * 1000, it["args"]["priority"]))
    for thread, values in changes.items():
        for (begin, value), (end, _) in zip(values, [*values[1:], (clock, 0)]):
            found["priority", thread, value] += end - begin
    for it in file.of("X"):
        track, args, word = file.track(it), it["args"], it["name"].split()[0]
        if track.startswith("CPU"):
            key = "CPU", int(track.split()[1]), thread_of(it["name"]), args["level"]
        else:
            key = key_of(track, thread_of(file.group(it)), it["name"], args)
        found[key] += it["dur"] * 1000
    return +found


def key_of(track, thread, name, args):
    number = int(re.findall(r"\d+", name)[-1]) if "mutex" in name else None
    if track == "boosted":
        return track, thread, int(re.search(r" at (\d+): ", name)[1]), args["base"]
    if name.startswith(("owns", "waits for")):
        return track, thread, number
    return name.split()[0].rstrip(":"), thread


def thread_of(name):
    return int(name[1:])


class PerfettoTracks(Case):
    def test_tracks_by_hand(self):
        for name, facts, wanted in EXAMPLES:
            file = file_of(("\n".join(["facts 1", *facts.split(";")]) + "\n").encode())
            wanted = tuple(sorted(wanted.split(";")))
            self.check(f"the tracks of {name}", file.fault() or difference(tuple(file.shown()), wanted))

    def test_tracks_of_random_facts(self):
        """In random texts threads are for as long in each state as the plain definitions say."""
        wrong = []
        for seed, text in enumerate([text for text, _, _ in random_findings()]):
            file = file_of(text)
            wanted, clock = lasted(text)
            got = lasted_in(file, clock)
            late = {key for key in {**got, **wanted} if got[key] != wanted[key]}
            # A thread has its level before it is declared, too.
            late = {key for key in late if key[0] != "priority" or got[key] < wanted[key]}
            why = file.fault() or (f"{sorted(late, key=str)[0]}" if late else None)
            wrong += [f"{seed}: {why}"] if why else []
        self.check("tracks of random facts", "; ".join(wrong[:3]))
