"""The forms of a report say the same: the text, the JSON and the page."""
import base64
import html
import json
import re
import time
import zlib
from collections import Counter, defaultdict

from tests.cases import Case
from tests.report.texts import (
    SUITE, all_findings, found_in, large, large_spans, page_of, random_findings, said, spans, spans_of)
from tests.shared.checks import ROOT
from asleep import Sleeps
from bounds import Bounds
from facts_text import Facts
from findings import Findings
from json_report import json_of
from lines import line_of, lines_of
import pack
from recording import Recording
from rows_text import Rows, Wait
from stretches import Stretches
from terminal import Terminal
from words import duration
from world import World

# What the first thread used at a lower level doesn't block it: the second one does, for 20 ns.
RAISED = b"""facts 1
thread 1 10 high
thread 2 5 low
mutex 1 inherit a
mutex 2 inherit b
0 1 granted 1
7 1 released 1
7 1 priority 50
8 1 granted 1
8 1 released 1
8 1 granted 2
8 1 released 2
10 2 granted 1
30 2 released 1
30 2 granted 2
50 2 released 2
50 end
"""
HOSTILE = b"facts 1\nthread 1 9 <!--<script>\nmutex 1 none </script>\n0 1 granted 1 <img>\n"
READ = ("waits", "blocks", "granted", "took", "gave-up", "released", "resumes", "on", "off",
        "lost")
TIME = r"([\d.,]+ (?:s|ms|us|ns))"
PAGE = (ROOT / "docs/COMMANDS.md").read_text()


def keys_in(value):
    """Yields the keys of a value of JSON, at any depth."""
    if isinstance(value, dict):
        for key, inner in value.items():
            yield key
            yield from keys_in(inner)
    elif isinstance(value, list):
        for inner in value:
            yield from keys_in(inner)


def documented():
    """Returns the keys that the layouts of the page have, and with those of their objects in braces."""
    part = PAGE.partition("\n## The JSON of a report\n")[2].partition("\n## ")[0]
    listed = {key for keys in re.findall(r"(?m)^    ((?:\w+, )*\w+)(?:  |$)", part) for key in keys.split(", ")}
    inner = {key for keys in re.findall(r"\{([\w, ]+)\}", part) for key in keys.split(", ")}
    return listed, listed | inner


def numbers_of(row):
    """Returns a row of JSON as its numbers, in the order of docs/ROWS.md."""
    ended = {"by": 1, "timed-out": 2, "failed": 3}
    return [ended.get(value, 0) if key == "ended" else value for key, value in row.items()
            if not isinstance(value, list)]


def rows_again(value):
    """Yields the rows of which the JSON was made."""
    for wait in value["waits"]:
        yield ["wait", *numbers_of(wait)]
        for word, key in (("inverted", "parts"), ("stalled", "stalls"), ("meanwhile",) * 2):
            yield from ([word, wait["line"], *part.values()] for part in wait[key])
    for word, key in (("blocked",) * 2, ("ran",) * 2, ("section", "sections"), ("nests",) * 2):
        yield from ([word, *numbers_of(row)] for row in value[key])
    yield from (["deadlock", *cycle] for cycle in value["deadlocks"])
    one = value["recording"]
    yield ["end", *(one[key] for key in ("lines", "lasted", "waits", "inverted", "deadlocks"))]


def placed(found):
    """Yields the rows of JSON with the keys of places, and what these should be."""
    value = json.loads(json_of(found))
    for name in ("waits", "blocked", "sections", "nests"):
        for row in value[name]:
            for key, line in (("at", "line"), ("taken_at", "taken"), ("ended_at", "until")):
                yield row, key, list(found.facts.places(row.get(line, 0)))


def figures(text, titles):
    """Returns times, worst and sum of each finding that a text has, by section."""
    found, kind = [], None
    for line in text.splitlines():
        if re.match(r"[A-Z]{3}", line):
            kind = next((kind for kind, title in titles.items() if line.startswith(title)), None)
        row = re.match(fr" {{0,6}}([\d,]+) +{TIME} +{TIME}  ", line)
        if kind and row:
            found.append((kind, *row.groups()))
    return found


# ---- the page

class Packed:
    """What a page has packed, read again."""

    def __init__(self, data):
        self.bytes, self.at = zlib.decompress(base64.b64decode(data["packed"])), 0
        self.shares = []  # by lane of owning and of being on a CPU
        lanes = [self.lane(data) for _ in data["threads"]]
        columns = zip(*lanes) if lanes else [()] * 6
        self.waits, self.blocked, self.owns, self.stays, self.gets, self.ran = columns
        self.spots = [[self.numbers(4) for _ in range(self.next())] for _ in data["findings"]]

    def next(self):
        number, size = 0, 0
        while True:
            byte, self.at = self.bytes[self.at], self.at + 1
            number |= (byte & 127) << size
            size += 7
            if byte < 128:
                return number

    def numbers(self, count):
        return [self.next() for _ in range(count)]

    def ascending(self, rest):
        """Returns items of a time, as a distance, and other numbers."""
        items, at = [], 0
        for _ in range(self.next()):
            at += self.next()
            items.append((at, *self.numbers(rest)))
        return items

    def lane(self, data):
        found, at = ([], [], []), 0
        for _ in range(self.next()):
            at += self.next()
            lasted, kind = self.numbers(2)
            read = (lambda: self.numbers(2), self.wait, lambda: self.numbers(8))[kind % 3]
            found[kind % 3].append((at, lasted, read()))
        others = [self.ascending(rest) for rest in (1, 2, 3)]
        if data["windows"] is not None:
            self.shares.append([self.numbers(data["columns"]) for _ in range(2)])
        owns, waits, blocked = found
        return (waits, blocked, owns, *others)

    def wait(self):
        numbers = self.numbers(10)
        late = [self.numbers(4) for _ in range(self.next())]
        return numbers, late, [self.numbers(3) for _ in range(self.next())]


def data_of(page):
    """Returns the data of a page."""
    return json.loads(re.search(r'<script type="application/json" id="data">(.*?)</', page)[1])


def waits_of(packed, data, value):
    """Returns the waits of a page as the JSON has them: who, when, for how long, why."""
    threads = {one["called"]: one["number"] for one in value["threads"]}
    number = [threads[one["name"]] for one in data["threads"]]
    mutex = [one["number"] for one in value["mutexes"]]
    for at, waits in enumerate(packed.waits):
        for begin, lasted, (numbers, late, meanwhile) in waits:
            parts = Counter()
            for _, time, blamed, runner in late:
                parts[mutex[blamed], number[runner]] += time
            owner = number[numbers[4] - 1] if numbers[4] else 0
            yield (number[at], begin, lasted, mutex[numbers[0]], *numbers[2:4], owner, numbers[5],
                   *numbers[7:10], sorted(parts.items()),
                   sorted((number[lane], level, time) for lane, level, time in meanwhile))


def waits_wanted(value):
    for one in value["waits"]:
        parts = Counter()
        for part in one["parts"]:
            parts[part["mutex"], part["runner"]] += part["time"]
        yield (one["thread"], one["from"], one["lasted"], one["mutex"], one["level"], one["gets"],
               one["owner"], one["owner_level"], int(one["until"] == 0), one["lower"],
               one["stalled"], sorted(parts.items()),
               sorted(tuple(ran.values()) for ran in one["meanwhile"]))


def sections_of(packed, data, value):
    """Returns by thread and mutex how often it was owned, and for how long at most."""
    found, threads = {}, {one["called"]: one["number"] for one in value["threads"]}
    for at, owns in enumerate(packed.owns):
        for _, lasted, (mutex, _) in owns:
            key = threads[data["threads"][at]["name"]], value["mutexes"][mutex]["number"]
            count, longest = found.get(key, (0, 0))
            found[key] = count + 1, max(longest, lasted)
    return found


def sections_wanted(value, text):
    """Returns the same of rows. What lasted no time isn't on the page."""
    found = {key: (-count, 0) for key, count in owned_for_no_time(text).items()}
    for one in value["sections"]:
        count, longest = found.get((one["thread"], one["mutex"]), (0, 0))
        found[one["thread"], one["mutex"]] = (
            count + one["count"], max(longest, one["longest"]))
    return {key: one for key, one in found.items() if one != (0, 0)}


def owned_for_no_time(text):
    """Returns by thread and mutex how often that was so, by the plain world."""
    found, begun, world = Counter(), {}, World()
    for line in map(line_of, lines_of(text)[1:]):
        world.time_passes(line)
        owner = world.owner.get(line.mutex)
        world.apply(line)
        if owner is None and line.mutex in world.owner:
            begun[line.mutex] = world.clock
        elif owner and line.mutex not in world.owner:
            found[owner, line.mutex] += begun[line.mutex] == world.clock
    found.update((owner, mutex) for mutex, owner in world.owner.items() if begun[mutex] == world.clock)
    return +found


def blocked_of(packed):
    return sorted((begin, lasted, numbers[2], numbers[4], numbers[6], numbers[7])
                  for lane in packed.blocked for begin, lasted, numbers in lane)


def blocked_wanted(value):
    ended = {None: 0, "by": 1, "timed-out": 2, "failed": 3}
    return sorted((one["from"], one["lasted"], one["level"], one["by_level"],
                   int(one["until"] == 0), ended[one["ended"]]) for one in value["blocked"])


def has_spots(spots, finding, value):
    """Returns whether a finding has a spot in the picture for each of its rows."""
    if finding["kind"] == "orders":
        return len(spots) == 2
    key = {"ran": "ran", "look": "blocked", "other": "blocked"}.get(finding["kind"], "waits")
    threads = {one["thread"] for one in finding["who"]}
    rows = {row["line"]: row for row in value[key] if row["thread"] in threads}
    wanted = [(rows[line]["from"], rows[line]["lasted"]) for line in finding["rows"]]
    return [(begin, lasted) for _, begin, lasted, _ in spots] == wanted


def page_difference(one):
    """Says where a page and the JSON differ, or returns None."""
    page, value = page_of("title", one), json.loads(json_of(one))
    data = data_of(page)
    packed = Packed(data)
    if sorted(waits_of(packed, data, value)) != sorted(waits_wanted(value)):
        return "waits"
    if sections_of(packed, data, value) != sections_wanted(value, one.facts.data):
        return "sections"
    if blocked_of(packed) != blocked_wanted(value):
        return "blocked"
    ran = sorted((row["from"], row["lasted"], row["level"], row["gets"]) for row in value["ran"])
    if sorted(row for lane in packed.ran for row in lane) != ran:
        return "ran"
    keys = "kind", "what", "where", "taken", "callers", "times", "worst", "total", "why", "advice"
    if [[it[key] for key in keys] for it in data["findings"]] != [
            [it[key] for key in keys] for it in value["findings"]]:
        return "findings"
    if not all(map(has_spots, packed.spots, value["findings"], [value] * len(data["findings"]))):
        return "spots"
    text, heading = (html.unescape(re.search(rf"(?s)<{tag}>(.*?)</{tag}>", page)[1])
                     for tag in ("pre", "h1"))
    is_same = text == Terminal(one).text() and heading == value["verdict"][0]
    return None if is_same else "text"


def times_of(changes, first, ended):
    """Returns for how long each value was there, by (time, value) in order, and the first value."""
    found, begin, had = Counter(), 0, first
    for time, value in [*changes, (ended, None)]:
        found[had] += time - begin
        begin, had = time, value
    return +found


def sleeps_wanted(text, ended):
    """Returns by thread for how long it was asleep, by what each line says of it."""
    lines = [line for line in map(line_of, lines_of(text)[1:]) if line.what in READ]
    found, world = Counter(), World()
    clocks = [max(line.time for line in lines[:at + 1]) for at in range(len(lines))]
    for at, line in enumerate(lines):
        if line.what == "off" and not line.ready and not {line.thread} & {
                *world.awaits, *world.blocked}:
            later = ((one, clock) for one, clock in zip(lines[at + 1:], clocks[at + 1:])
                     if one.what == "lost" or one.thread == line.thread)
            one, clock = next(later, (None, ended))
            if one is None or one.what == "on" or (one.what == "off" and one.ready):
                found[line.thread] += clock - clocks[at]
        if line.what in ("waits", "granted", "gave-up"):
            world.awaits.pop(line.thread, None)
        if line.what in ("blocks", "resumes"):
            world.blocked.pop(line.thread, None)
        if line.what in ("waits", "blocks"):
            (world.awaits if line.what == "waits" else world.blocked)[line.thread] = True
    return +found


def table_wanted(text, listed):
    """Returns by mutex locks, those that waited, how long it was owned, and its waits."""
    locks, owned, world = Counter(), Counter(), World()
    granted, waits = Counter(), defaultdict(list)
    for line in map(line_of, lines_of(text)[1:]):
        stretch = world.time_passes(line)
        owned.update({mutex: stretch for mutex in world.owner})
        locks[line.mutex] += line.what in ("granted", "took") and line.mutex not in world.owner
        world.apply(line)
    for wait in listed.waits:
        granted[wait.mutex] += text.split(b"\n")[wait.until - 1].split()[2:3] == [b"granted"]
        waits[wait.mutex].append(wait.lasted)
    return {mutex: (locks[mutex], granted[mutex], owned[mutex], sorted(waits[mutex]))
            for mutex in world.mutexes if locks[mutex] or waits[mutex]}


def ring(count):
    """Returns facts of threads of which each owns a mutex, and waits for that of the next one."""
    facts = ["facts 1", *(f"thread {t} {t % 90} t{t}" for t in range(1, count + 1)),
             *(f"mutex {m} none m{m}" for m in range(1, count + 1)),
             *(f"0 {t} granted {t}" for t in range(1, count + 1))]
    first, rows = len(facts) + 1, []
    for t in range(1, count + 1):
        following = t % count + 1
        facts.append(f"1 {t} waits {following}")
        rows.append(f"wait {first + t - 1} 0 {t} {following} 1 {count - 1} {t % 90} {t % 90}"
                    f" {following} {following % 90} {first - count + following - 1} 0 0 0")
    facts.append(f"{count} end")
    rows += [f"section {t} {t} {t % 90} 1 {count} {first - count + t - 1} {count}"
             for t in range(1, count + 1)]
    rows += [f"nests {t} {t} {t % count + 1} 1 {first - count + t - 1} {first + t - 1}"
             for t in range(1, count + 1)]
    rows.append(f"deadlock {' '.join(map(str, range(1, count + 1)))}")
    rows.append(f"end {len(facts)} {count} {count} 0 1")
    return "\n".join(facts).encode(), "\n".join(rows)


def in_vain(count):
    """Returns facts of threads that wait for one mutex in vain, with names that differ."""
    facts = ["facts 1", *(f"thread {t} {t % 90} t{t}" for t in range(1, count + 1)),
             "mutex 1 none m", "0 1 granted 1"]
    first, rows = len(facts) + 1, []
    for t in range(2, count + 1):
        inverted = (2 * count - t) * (t % 90 > 1)
        facts.append(f"{t} {t} waits 1 pool.c:{t % 700}")
        rows.append(f"wait {first + t - 2} 0 {t} 1 {t} {2 * count - t} {t % 90} {t % 90} 1 1"
                    f" {first - 1} {inverted} {inverted} 0")
        rows += [f"inverted {first + t - 2} 1 1 1 {inverted}"] * (inverted > 0)
    facts.append(f"{2 * count} end")
    rows += [f"section 1 1 1 1 {2 * count} {first - 1} {2 * count}"]
    rows.append(f"end {len(facts)} {2 * count} {count - 1} {count - 1 - count // 45} 0")
    return "\n".join(facts).encode(), "\n".join(rows)


def is_counted(use, wanted):
    """Returns whether a row of the table of mutexes is what a plain count gives."""
    locks, granted, owned, waits = wanted
    last = max([at for at in range(len(waits)) if 100 * at < 99 * len(waits)], default=0)
    sums = [sum(it[key] for it in use["callers"]) for key in ("waits", "total")]
    return (use["locks"], use["contended"], use["waits"], use["total"], use["p99"]) == (
        locks, granted, len(waits), sum(waits), (waits or [0])[last]) and (
        sums == [use["waits"], use["total"]]
        and abs(use["mean"] * max(1, locks) - owned) < max(1, locks))


def plain_bound(value, thread):
    """Returns the bounds of a thread as docs/FINDINGS.md defines them, with *used* of sections."""
    number, level, used = thread["number"], thread["highest"], Counter()
    for one in value["sections"]:
        used[one["thread"], one["mutex"], one["level"]] = one["used"]
    for one in value["waits"]:
        used[one["thread"], one["mutex"], one["level"]] += 0
    at_level = {mutex for other, mutex, at in used if other == number or at >= level}
    reached = set(at_level)
    for _ in value["nests"]:
        reached |= {nest["inner"] for nest in value["nests"] if nest["outer"] in reached}
    threads, mutexes, protect = Counter(), Counter(), 0
    for (other, mutex, at), time in used.items():
        if other != number and at < level and mutex in reached:
            threads[other], mutexes[mutex] = max(threads[other], time), max(mutexes[mutex], time)
            protect = max(protect, time * (mutex in at_level))
    waited = max((one["lower"] for one in value["waits"] if one["thread"] == number), default=0)
    inherit = min(sum(threads.values()), sum(mutexes.values()))
    return {"thread": number, "level": level, "inherit": inherit, "protect": protect,
            "waited": waited}


def is_in(windows, begin, end):
    return any(begin <= until and end >= since for since, until in windows)


def shares_wanted(items, data):
    """Returns the share of each column that (begin, end) fill, of 63 parts."""
    wide, found = max(1, -(-data["ended"] // data["columns"])), [0] * data["columns"]
    for at in range(min(data["columns"], data["ended"] // wide + 1)):
        time = sum(max(0, min(end, (at + 1) * wide) - max(begin, at * wide))
                   for begin, end in items)
        found[at] = min(63, -(-63 * time // wide))
    return found


def ways_in(text):
    """Returns by the line of a wait the ways, of (mutex, owner), that ever lead from it."""
    found, begun, world = defaultdict(set), {}, World()
    for number, line in enumerate(map(line_of, lines_of(text)[1:]), 2):
        world.apply(line)
        if line.what == "waits":
            begun[line.thread] = number
        for thread in world.awaits:
            way, one = [], thread
            while world.awaits.get(one) in world.owner and len(way) < 99:
                way.append((world.awaits[one], world.owner[world.awaits[one]]))
                one = way[-1][1]
            found[begun[thread]].add(tuple(way))
    return found


def windowed():
    """Returns random findings, and those of a long text."""
    facts, listed = large(200)
    return [*random_findings()[:30], (facts, Findings(Recording(Facts(facts), Rows.read(listed))), listed)]


class Forms(Case):
    def test_each_key_of_the_JSON_is_on_the_page(self):
        """Each key of the JSON is on the page, and each key of a table there is in some JSON."""
        used = {key for one in all_findings() for key in keys_in(json.loads(json_of(one, True)))}
        listed, named = documented()
        self.check("each key is on the page", ", ".join(sorted(used - named)))
        self.check("each key of the page is there", ", ".join(sorted(listed - used)))

    def test_rows_can_be_read_again_from_the_JSON(self):
        """The rows can be read again from the JSON, with the places of their lines."""
        wrong = []
        for seed, (_, one, out) in enumerate(random_findings()):
            again = [" ".join(map(str, row)) for row in rows_again(json.loads(json_of(one)))]
            is_placed = all(row.get(key, places) == places for row, key, places in placed(one))
            if sorted(again) != sorted(out.splitlines()) or not is_placed:
                wrong.append(str(seed))
        self.check("the JSON has all rows", ", ".join(wrong[:5]))

    def test_text_and_JSON_have_the_same_findings(self):
        """The text and the JSON have the same findings, with the same numbers and sentences."""
        import terminal
        wrong = []
        for seed, one in enumerate(all_findings()):
            text, value = Terminal(one, most=10**9).text(), json.loads(json_of(one))
            wanted = [(it["kind"], f"{it['times']:,}", duration(it["worst"]), duration(it["total"]))
                      for it in value["findings"] if it["kind"] not in ("deadlock", "orders")]
            said = " ".join(text.split())
            lacks = [line for line in value["verdict"] + value["unseen"]
                     if " ".join(line.split()) not in said]
            if figures(text, terminal.TITLES) != wanted or lacks:
                wrong.append(f"{seed} {lacks}")
        self.check("the text and the JSON say the same", ", ".join(wrong[:5]))

    def test_the_page_has_the_numbers_of_the_JSON(self):
        """The page has the numbers of the JSON; its stretches add up to the sums of the rows."""
        wrong = []
        for at, one in enumerate(all_findings()):
            why = page_difference(one)
            wrong += [f"{at}: {why}"] if why else []
        self.check("the page and the JSON say the same", ", ".join(wrong[:5]))

    def test_a_page_asks_for_nothing(self):
        """A page asks for nothing, and is small."""
        found = re.findall(r"https?:|//\w+\.|\bsrc=|@import|url\(|fetch\(|XMLHttp|WebSocket|sendBeacon"
                       r"|EventSource|import\(|<link(?! rel=\"icon\" href=\"data:,\")", page_of("chain", found_in((SUITE / "chain.facts").read_bytes())[0]))
        self.check("the page asks for nothing", ", ".join(found))
        policy = re.search(r'Content-Security-Policy"\s+content="([^"]*)"', page_of("chain", found_in((SUITE / "chain.facts").read_bytes())[0]))
        self.check("its policy forbids it", None if policy and "default-src 'none'" in policy[1] else "no")
        size = len(page_of("chain", found_in((SUITE / "chain.facts").read_bytes())[0]).encode()) - len(data_of(page_of("chain", found_in((SUITE / "chain.facts").read_bytes())[0]))["packed"])
        self.check("it has less than 150 KB beside its data", None if size < 150_000 else str(size))

    def test_names_cannot_become_parts_of_the_page(self):
        """Names can't become parts of the page."""
        page = page_of("<b>&'\"", found_in(HOSTILE)[0])
        data, script = data_of(page), page.partition("id=\"data\">")[2]
        is_kept = data["threads"][0]["name"] == "<!--<script>" and data["title"] == "<b>&'\""
        self.check("names like tags", None if is_kept and "<!--" not in page and "<b>" not in page.partition(
            "<main")[0].replace("<b>&lt;b&gt;", "") and script else "they are parts of the page")

    def test_stretches_are_those_of_the_plain_definitions(self):
        """By the plain definitions threads got as much, and were on a CPU as long, as the lanes say."""
        wrong = []
        for seed, (text, one, _) in enumerate(random_findings()):
            gets, on = defaultdict(Counter), Counter()
            world = World()
            for line in map(line_of, lines_of(text)[1:]):
                stretch = world.time_passes(line)
                for thread in world.level:
                    gets[thread][world.gets(thread), world.level[thread]] += stretch
                    on[thread] += stretch * world.is_on(thread)
                world.apply(line)
            shown = Stretches(one.facts, spans_of(one.facts))
            for thread, declared in one.facts.threads.items():
                column = shown.levels.get(thread, [])
                changes = [(column[at], tuple(column[at + 1:at + 3]))
                           for at in range(0, len(column), 3)]
                got = times_of(changes, (declared.level,) * 2, world.clock)
                stays = shown.stays.get(thread, [])
                time = sum(stays[1::2]) - sum(stays[::2])
                lacks = world.clock - sum(gets[thread].values())
                gets[thread][(declared.level,) * 2] += lacks  # before it was declared
                wrong += [] if got == +gets[thread] else [f"{seed}: what {thread} gets"]
                wrong += [] if time == on[thread] else [f"{seed}: when {thread} is on a CPU"]
        self.check("what threads get, and when they have a CPU", ", ".join(wrong[:5]))

    def test_spans_of_many_facts(self):
        """The spans that are written here for a large text are those of the plain definitions."""
        self.check("the spans of a large text", None if spans.answer(large(20)[0])[0] == large_spans(20) else "others")

    def test_who_slept(self):
        """By a plain reading threads were asleep for as long. Time passes by the lines read."""
        wrong, many = [], 0
        for seed, (text, one, _) in enumerate(random_findings()):
            known = Sleeps(one.facts, one.rows.ended)
            got = Counter({thread: known.between(thread, 0, one.rows.ended) for thread in known.of})
            many += len(got)
            wrong += [] if got == sleeps_wanted(text, one.rows.ended) else [str(seed)]
        self.check("who slept", ", ".join(wrong[:5]) or (None if many > 15 else f"{many} slept"))

    def test_the_table_of_all_mutexes(self):
        """The table is what a plain count gives, in the text as in the JSON."""
        wrong, facts = [], large(200)[0]
        for seed, (text, one, out) in enumerate([*random_findings(), (facts, *found_in(facts))]):
            wanted = table_wanted(text, Rows.read(out))
            table = json.loads(json_of(one, True))["mutex_table"]
            same = all(is_counted(use, wanted.pop(use["mutex"], (0, 0, 0, []))) for use in table)
            is_sorted = table == sorted(table, key=lambda use: -use["total"])
            said = Terminal(one, has_table=True).text().partition("\nALL MUTEXES")[2]
            lines = re.findall(r"(?m)^ *([\d,]+) +([\d.]+) % +\S+ \S+ +\S+ \S+", said)
            shown = [(f"{use['locks']:,}", f"{100 * use['contended'] / max(1, use['locks']):.1f}")
                     for use in table]
            wrong += [] if same and is_sorted and shown == lines and not wanted else [str(seed)]
        self.check("the table of all mutexes", ", ".join(wrong[:5]))

    def test_many_threads(self):
        """What 1,000 threads do at one lock, or in one deadlock, is said in a screen or two."""
        for name, (facts, rows) in (("a deadlock", ring(1000)), ("one lock", in_vain(1000))):
            begin = time.process_time()
            text = Terminal(Findings(Recording(Facts(facts), Rows.read(rows)))).text()
            took, lines = time.process_time() - begin, text.count("\n")
            is_short = lines < 100 and took < 3  # 0.1 s
            self.check(f"1,000 threads at {name}", None if is_short else f"{lines} lines, {took:.2f} s")

    def test_bounds_are_those_of_the_definitions(self):
        """The bounds are those of the definitions, for real-time threads that can be blocked."""
        wrong = []
        for at, one in enumerate([*all_findings(), found_in(RAISED)[0]]):
            value = json.loads(json_of(one))
            wanted = [plain_bound(value, thread) for thread in value["threads"]
                      if 1 <= thread["highest"] <= 99]
            wanted = [bound for bound in wanted if bound["inherit"]]
            if sorted(value["bounds"], key=str) != sorted(wanted, key=str):
                wrong.append(str(at))
        self.check("the bounds are those of docs/FINDINGS.md", ", ".join(wrong[:5]))

    def test_a_page_that_cannot_keep_all(self):
        """A page that can't keep all has all waits, what is near the worst of them, and shares."""
        wrong, most = [], pack.MOST_ITEMS
        pack.MOST_ITEMS = 1
        for seed, (_, one, _) in enumerate(windowed()):
            if not one.all or one.recording.all_rows.ended < 9:
                continue
            data, value = data_of(page_of("title", one)), json.loads(json_of(one))
            packed, every = Packed(data), spans_of(one.facts)
            if data["windows"] is None:
                continue
            threads = {one["called"]: one["number"] for one in value["threads"]}
            same = sorted(waits_of(packed, data, value)) == sorted(waits_wanted(value))
            for at, lane in enumerate(data["threads"]):
                column = every.owns.get(threads[lane["name"]], [])
                owns = [tuple(column[at:at + 2]) for at in range(0, len(column), 4)]
                kept = {(begin, begin + lasted) for begin, lasted, _ in packed.owns[at]}
                inside = {own for own in owns if is_in(data["windows"], *own)}
                within = {own for own in owns if is_in(data["windows"], own[0] + 1, own[1] - 1)}
                same &= within <= kept <= inside
                same &= shares_wanted(owns, data) == packed.shares[at][0]
            wrong += [] if same else [str(seed)]
        pack.MOST_ITEMS = most
        self.check("a page of windows", ", ".join(wrong))

    def test_ways_to_runners(self):
        """The way from a wait to each of its runners was there, as the plain definitions say."""
        wrong, chains = [], 0
        for seed, (text, one, _) in enumerate(random_findings()):
            there = ways_in(text)
            for wait in one.rows.waits:
                for runner in {part.runner for part in (*wait.parts, *wait.stalls)}:
                    way = tuple(one.recording.way(wait, runner))
                    chains += len(way) > 1
                    is_there = way in there[wait.line] and way[-1:] and way[-1][1] == runner
                    wrong += [] if is_there else [f"{seed}: line {wait.line}"]
        self.check("ways to runners", ", ".join(wrong[:5]) or (None if chains > 9 else "no chains"))

    def test_only_waits_between_two_lines_are_looked_at(self):
        """Of the waits of a thread only those are looked at that are there between two lines."""
        facts = Facts(b"facts 1\nthread 1 5 low\nmutex 1 none m\n" + b"0 1 took 1\n")
        listed, lines = Rows(), 80_000
        listed.waits = [Wait((line, line + 3, 1, 1, line, 1 + line * 7 % 31, 5, 5, 0, 0, 0, 0, 0, 0))
                        for line in range(10, lines, 4)] + [Wait((lines, 0, 1, 1, 0, 9, *[0] * 7, 0))]
        found, wrong = Recording(facts, listed), []
        for line, until in ((9, 11), (10, 12), (12, 15), (13, 14), (100, 900), (1, lines + 1)):
            there = [wait.lasted for wait in listed.waits
                     if wait.line < until and (not wait.until or wait.until > line)]
            got = [wait.lasted for wait in found.waits_between(1, line, until)]
            wrong += [] if got == sorted(there, reverse=True)[:20] else [f"{line} to {until}: {got}"]
        self.check("the longest waits between two lines", ", ".join(wrong))
        begin = time.process_time()
        for line in range(5_000):
            found.waits_between(1, line, line + 9)
        took = time.process_time() - begin  # 0.02 s, or 5 s if each wait is looked at
        self.check("5,000 looks for some of 20,000 waits", None if took < 1 else f"{took:.2f} s of 1")

    def test_bounds_of_many_threads(self):
        """The bounds of threads that used mutexes at two levels don't look at all sections each."""
        facts, rows = ["facts 1"], []
        facts += [f"thread {t} 1 t{t}" for t in range(1, 301)]
        facts += [f"mutex {m} inherit m{m}" for m in range(1, 601)]
        facts += [f"0 {t} priority {2 + t % 90}" for t in range(1, 301)]
        for at in range(24_000):
            thread, mutex = 1 + at % 300, 1 + (at + at // 300 * 7) % 600
            level = 1 if at % 5 else 2 + thread % 90
            rows.append(f"section {thread} {mutex} {level} 1 {at % 97} 2 {at % 97}")
        rows.append(f"end {len(facts)} 0 0 0 0")
        one = Recording(Facts("\n".join(facts).encode()), Rows.read("\n".join(rows)))
        begin = time.process_time()
        Bounds(one.facts, one.rows).all()
        took = time.process_time() - begin  # 0.6 s, or 7 s if each thread looks at each section
        self.check("the bounds of 300 threads and 600 mutexes", None if took < 3 else f"{took:.2f} s of 3")

    def test_the_JSON_of_the_command(self):
        _, text, _ = said("--facts", SUITE / "chain.facts", "--json")
        self.assertEqual(text, json_of(found_in((SUITE / "chain.facts").read_bytes())[0]))
