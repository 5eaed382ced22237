"""The page of web/, and the module that it contains.

In Node the module's reports, faults and states are compared with those of the program, and with the
report. In a headless Chromium the page is opened from the file system and used: typed into, stepped
through, by the keyboard, at three sizes; its lanes are compared with the report. The environment variable
SHOTS names a folder for pictures of it, and with FIGURES=1 it is measured what the page takes, on an idle machine.
"""
import base64
import hashlib
import json
import os
import pathlib
import random
import re
import shutil
import subprocess
import sys
import unittest
import xml.etree.ElementTree as xml

from tests.cases import Case, temporary_folder
from tests.web import module as web_module
from tests.shared.checks import ROOT, answer, difference, program
from tests.web.module import NODE, WEB

sys.path.insert(0, str(ROOT / "bench"))
from texts import TEXTS, mixed, second  # noqa: E402

EXAMPLES = sorted(path.stem for path in (ROOT / "examples").glob("*.pim"))
SIZES = [(2, 30), (3, 100), (5, 200), (17, 400), (64, 800), (256, 2_000)]
# milliseconds of CPU time of the page's own thread: five times what slow CPUs take, or more
MOST = {
    "full size": 5_000, "the last step": 1_000, "a scroll in full size": 500, "keys in full size": 1_000,
    "256 tasks": 5_000, "a key": 150,
}
LIMIT = 250_000  # bytes of the page
STACK = 131_072  # bytes of the module's stack
# The most of a frame of a key in a text of 200 lines: what is counted doesn't depend on how busy the machine is
FRAME = {
    "most": "elements that are made", "painted": "characters of the report and the picture",
    "restyled": "elements that are restyled", "laid": "objects that are placed", "layouts": "layouts"}
# The page stops at 6,500 characters, behind the element with which it is there. The boxes of the lanes are more.
MOST_OF_A_FRAME = {"most": 200, "painted": 12_000, "restyled": 260, "laid": 320, "layouts": 3}
MOST_OF_A_LINE = 24  # elements of a key that changes the line of the caret alone
# Half of the keys hold the page's thread no longer than making so many thousand elements. They take half of one.
HELD = 3
# What the keys are taken for where the browser showed none.
NO_KEYS = {
    "made": [{"most": 10**6, "all": 10**6, "painted": 10**6, "took": 10**6}] * 11, "held": [10**6], "making": [1],
    "restyled": [10**6], "laid": [10**6], "layouts": [10**6],
}


def example(name, kind="pim"):
    return (ROOT / f"examples/{name}.{kind}").read_text()


def spoiled(draw, text):
    """Returns the text with a byte changed or left out, something put in, its end cut, or a line doubled or gone."""
    kind, at = draw.randrange(5), draw.randrange(len(text))
    lines = text.split(b"\n")
    line = draw.randrange(len(lines))
    put_in = draw.choice([b"\r", b" ", b"\n", b"0", b" = granted", b" = queued"])
    return [
        text[:at] + bytes([draw.randrange(256)]) + text[at + 1:],
        text[:at] + text[at + 1:],
        text[:at] + put_in + text[at:],
        text[:at],
        b"\n".join(lines[:line] + draw.choice([[], [lines[line]] * 2]) + lines[line + 1:]),
    ][kind]


def recorded(report, text, draw):
    """Returns the text with the report's replies behind its steps, one of them changed or none."""
    replies = [line.partition(" ")[2] for line in report.splitlines() if line[:1].isdigit()]
    lines = text.splitlines()
    first = len(lines) - len(replies)
    if draw.random() < 0.7:
        replies[draw.randrange(len(replies))] = draw.choice(["granted", "set", "freed", "refused busy"])
    return "".join(f"{line}\n" for line in lines[:first]) + "".join(
        f"{line} = {reply}\n" for line, reply in zip(lines[first:], replies))


def generated(pim):
    """Returns 1,000 texts of both versions, and ten of full size."""
    draw = random.Random(7)
    whole = [make(*size).encode() for make in TEXTS.values() for size in SIZES]
    for make in (mixed, second):
        whole += [make(2 + seed % 11, 40 + seed, seed).encode() for seed in range(100)]
    small = whole[-200:]
    with_replies = [recorded(answer([pim], text)[1].decode(), text.decode(), draw).encode() for text in small[::2]]
    texts = whole + with_replies
    while len(texts) < 1_000:
        texts.append(spoiled(draw, draw.choice(small)))
    # The report of a chain of 256 tasks would have 609 MB.
    full = [make(tasks, 65_536) for name, make in TEXTS.items() if name not in ("start", "chain") for tasks in (8, 256)]
    full += [TEXTS["chain"](8, 65_536), TEXTS["chain"](256, 4_096)]
    return texts + [text.encode() for text in full]


def name_of(number, why):
    return f"text {number}: {why}" if why else None


# ---- the page

INVALID = example("inversion_avoided") + "3 lock 2\n2 lokc 1\n1 lock 2\n"
STEP = ("a step is '<task> ..' and 'lock', 'try' or 'unlock <mutex>', 'release', 'cancel <task>', "
        "'base <task> <priority>' or 'ceil <mutex> <ceiling>'")
VERSION = "line 1: a text begins with 'pim 1' or 'pim 2'\n"
TYPED = {
    "an invalid line": (INVALID, ["line 13 is invalid", [13], f"line 13\nline 13: {STEP}\n", 6, True]),
    "an invalid line 2": (
        "pim 1\ntask 1 100\n", ["line 2 is invalid", [2], "line 2\nline 2: priorities are 1 to 99\n", 0, True]),
    "an invalid line 1": ("hello", ["line 1 is invalid", [1], f"line 1\n{VERSION}", 0, False]),
    "nothing": ("", ["line 1 is invalid", [1], f"line 1\n{VERSION}", 0, False]),
    "a rejected line": (
        example("recording_rejected"),
        ["rejected at step 3", [7], example("recording_rejected", "report"), 3, True]),
}
STEPS = [
    "Step 6: 4 lock 3 → queued", "Step 7: 5 lock 3 → queued", "Step 6: 4 lock 3 → queued",
    "Step 5: 3 lock 2 → queued", "Before the first step", "Step 8: 1 base 4 15 → set",
    "Step 6: 4 lock 3 → queued",
]
WHY = [
    "▲ Task 1 executes at 90 instead of 10: task 2 waits for mutex 1.",
    "▲ Task 2 executes at 90 instead of 20: task 3 waits for mutex 2.",
    "▲ Task 3 executes at 90 instead of 30: task 4 waits for mutex 3.",
]
GRAPH = [
    "mutex 1, inherit: task 1 owns it", "mutex 2, inherit: task 2 owns it", "mutex 3, inherit: task 3 owns it",
    "task 1 at 90: task 2 waits for mutex 1", "task 2 at 90: task 3 waits for mutex 2",
    "task 3 at 90: task 4 waits for mutex 3", "task 4 at its base, 90", "task 5 at its base, 40",
]
# owns or waits, the task, the mutex, and from which step to which; by hand
BARS = {
    "boost_through_a_chain": [
        ["owns", 1, 1, 1, 9], ["owns", 2, 2, 2, 9], ["waits", 2, 1, 4, 9], ["owns", 3, 3, 3, 9],
        ["waits", 3, 2, 5, 9], ["waits", 4, 3, 6, 9], ["waits", 5, 3, 7, 9]],
    "inversion_avoided": [
        ["owns", 1, 1, 1, 4], ["owns", 2, 2, 3, 6], ["owns", 3, 1, 4, 5], ["waits", 3, 1, 2, 4]],
    "ceilings": [
        ["owns", 1, 1, 2, 6], ["owns", 1, 2, 1, 6], ["owns", 1, 3, 3, 6], ["owns", 2, 1, 6, 8],
        ["owns", 3, 2, 6, 8], ["waits", 2, 1, 4, 6], ["waits", 3, 2, 5, 6]],
}
# of boost_through_a_chain at step 6, by hand: the boosts of a task, from which step on, how many steps, and up to
# which priority; the lines' priorities, each from its step on; and the thick parts of the lines, from step to step
BOOSTED = [
    [1, 4, 1, 20], [1, 5, 1, 30], [1, 6, 2, 90], [1, 8, 1, 40], [2, 5, 1, 30], [2, 6, 2, 90], [2, 8, 1, 40],
    [3, 6, 2, 90], [3, 8, 1, 40]]
LINES = [
    [[0, 10], [4, 20], [5, 30], [6, 90], [8, 40]], [[0, 20], [5, 30], [6, 90], [8, 40]], [[0, 30], [6, 90], [8, 40]],
    [[0, 90], [8, 15]], [[0, 40]]]
THICK = [[[4, 5], [5, 6], [6, 8], [8, 9]], [[5, 6], [6, 8], [8, 9]], [[6, 8], [8, 9]], [], []]
NAMES = ["step", "task 1", "base 10", "task 2", "base 20", "task 3", "base 30", "task 4", "base 90", "task 5", "base 40"]
DETAILS = {
    "names": NAMES, "numbers": [[k, k + .5] for k in range(9)], "picks": [[k, k] for k in range(9)], "now": [[6, 1]],
    "rejected": [], "boosts": BOOSTED, "bases": [10] * 4 + [20] * 3 + [30] * 2, "thick": THICK, "lines": LINES,
    # a number is 4 pixels above its line, or 13 below
    "above": [-4, 13], "graph": True, "beside": [True] * 5,
}
# a dot or a cross, the task, and the step
MADE = [
    ["circle", 1, "step 1: 1 lock 1, granted"],
    ["path", 2, "step 2: 2 try 1, refused busy"],
    ["circle", 2, "step 3: 2 lock 1, queued but recorded granted"],
]
OPENED = "pim 1\ntask 1 10\nmutex 1 protect 40\n1 lock 1\n"
DROPPED = "pim 1\ntask 1 10\n1 lock 1 = granted\n"
FULL = (
    "Of 65,554 lines, the text area holds those near the ones in view: the browser's search, a screen reader and a "
    "selection reach no further. Undo, select all, copy and paste do. A saved picture has up to 1,200 steps near the chosen one."
)
# A text with so many steps is a little shorter than what the text area holds whole, or longer.
EDITED = [1_980, 2_300]
# A column is 26 pixels wide. Task 1 is boosted from step 2 to the end, which is far to the right.
BOOSTS = {
    "a waiter": "pim 1\ntask 1 10\ntask 2 90\ntask 3 50\nmutex 1 inherit\nmutex 2 none\n1 lock 1\n2 lock 1\n"
                + "3 try 2\n" * 300,
    # of task 1 by task 2 at steps 2 and 3, and then by task 3
    "two waiters": "pim 1\ntask 1 10\ntask 2 90\ntask 3 90\nmutex 1 inherit\n1 lock 1\n2 lock 1\n3 lock 1\n2 cancel 2\n"
                   + "2 cancel 2\n" * 300,
    # from step 1 to step 7
    "a ceiling": "pim 1\ntask 1 10\ntask 2 20\nmutex 1 protect 50\n1 lock 1\n" + "2 base 2 20\n" * 6 + "1 unlock 1\n"
                 + "2 base 2 20\n" * 300,
}
# Two mutexes at a time; by the order in which they are unlocked they would take three rows.
ROWS = "pim 1\ntask 1 10\n" + "".join(f"mutex {mutex} none\n" for mutex in range(1, 5)) + "".join(
    f"1 {step}\n" for step in ("lock 1", "lock 2", "unlock 1", "lock 3", "unlock 2", "lock 4", "unlock 4", "unlock 3"))
WAITER, SECOND, CEILING = "90 ▲ task 2 waits for m1", "90 ▲ task 3 waits for m1", "50 ◆ ceiling of m1"
LEFT_EDGE = {
    "a waiter": [
        [[1, WAITER], [2, "90"], [3, "50"]], ["owns m1", "waits for m1", "owns m2"],
        # at the first step, so far from it that 10 has room, and has none, where the boost begins, and behind it
        [[], *[[[1, "10"], [2, "90"], [3, "50"]]] * 2, *[[[2, "90"], [3, "50"]]] * 2,
         *[[[1, WAITER], [2, "90"], [3, "50"]]] * 7]],
    # It ends at 208 pixels: from 176 on its mark has no room, from 188 on its number, and from 196 on neither has.
    "a ceiling": [
        [[1, "10"], [2, "20"]], [],
        [[], [[2, "20"]], [[2, "20"]], *[[[1, CEILING], [2, "20"]]] * 3, *[[[1, "50 ◆"], [2, "20"]]] * 2,
         [[1, "50"], [2, "20"]], [[1, "◆"], [2, "20"]], [[2, "20"]], [[1, "10"], [2, "20"]]]],
    # From 104 pixels on another waiter boosts task 1. Its number is the same, and so the lane has none there.
    "two waiters": [
        [[1, SECOND], [2, "90"], [3, "90"]], ["owns m1", "waits for m1"],
        [[], *[[[1, "10"], [2, "90"], [3, "90"]]] * 2, *[[[2, "90"], [3, "90"]]] * 2,
         *[[[1, "90 ▲"], [2, "90"], [3, "90"]]] * 2, *[[[1, SECOND], [2, "90"], [3, "90"]]] * 5]],
}
LEFTS = [0, 5, 26, 40, 52, 60, 100, 104, 176, 188, 196, 1_000]  # pixels that the lanes are scrolled to
NARROW = (
    "pim 1\ntask 1 10\ntask 2 20\nmutex 1 inherit\n1 lock 1 = granted\n2 cancel 2 = refused not-waiting\n"
    "2 lock 1 = queued\n1 unlock 1\n1 unlock 1 = refused not-waiting\n")
# A reply that is the recorded one isn't said again. The last line is rejected.
REPLIES = ["✓", "✓", "✓", "handed 2", "refused not-owner"]
# 20 tasks, of which only 1 and 20 make a step, and 3 is named by one
FOLDED = "pim 1\n" + "".join(f"task {task} 10\n" for task in range(1, 21)) + "mutex 1 none\n1 lock 1\n1 base 3 20\n20 try 1\n"
# Its last step is refused.
BUSY = ["× Step 3 is refused: task 1 owns mutex 1."]
# What undo, redo, and undo make of a line that was typed; redo, undo, and redo of an end of a line that was typed then;
# and undo and redo of the menu
UNDONE = ["pim 1", "pim 1\ntask 1 10", "pim 1", "pim 1\n", "pim 1", "pim 1\n", "pim 1", "pim 1\n"]
# Three characters that are typed one after the other are undone as one. Then the caret is at the end of their line, or
# of the one below it, where another character was typed.
IN_LINE = [[f"pim 1\ntask 1 {base}\ntask 2 20", caret] for base, caret in (
    ("23410", 16), ("10", 15), ("23410", 18), ("23410", 28))]
# Step 150 is line 163, 6 pixels above the lower edge; step 149 is in view then; step 40 is 6 pixels below the upper edge.
# A line has 21 pixels, of which 2 more are above the first one. Another text is seen from its first line on.
PLACES = [162 * 21 + 2 + 21 + 6, 162 * 21 + 2 + 21 + 6, 52 * 21 + 2 - 6, 0]
# A ceiling boosts the task at steps 1 and 3, and not between them.
TWICE = "pim 1\ntask 1 10\nmutex 1 protect 20\n" + "1 lock 1\n1 unlock 1\n" * 2
# what a graph is of, at which step and how wide: the words of its boxes, and its arrows, from box to box, with what
# boosts, whether it is dashed, as one that waits is, and its place in a queue; by hand
CHAIN = [
    [f"mutex {n}", f"task {n}", "waiter", False, ""] for n in (1, 2, 3)] + [
    ["task 2", "mutex 1", "waiter", True, ""], ["task 3", "mutex 2", "waiter", True, ""],
    ["task 4", "mutex 3", "waiter", True, "1"], ["task 5", "mutex 3", "plain", True, "2"]]
GRAPHS = {
    "of ceilings": ("ceilings", 5, 1280, [
        ["mutex 1, protect 40: task 1 owns it", "protect 40"], ["mutex 2, protect 50: task 1 owns it", "protect 50"],
        ["mutex 3, none: task 1 owns it", "none"], ["task 1 at 50: the ceiling of mutex 2", "base 10", "50", "◆"],
        ["task 2 at its base, 20", "waits, base 20", "20", ""], ["task 3 at its base, 30", "waits, base 30", "30", ""],
    ], [
        ["mutex 1", "task 1", "plain", False, ""], ["mutex 2", "task 1", "ceiling", False, ""],
        ["mutex 3", "task 1", "plain", False, ""], ["task 2", "mutex 1", "plain", True, ""],
        ["task 3", "mutex 2", "plain", True, ""],
    ], ["◆ Task 1 executes at 50 instead of 10: the ceiling of mutex 2."]),
    "of a recursive mutex": ("recursive_with_a_waiter", 6, 1280, [
        ["mutex 1, inherit recursive: task 1 owns it, locked 2 times", "recursive ×2"],
        ["mutex 2, inherit: free", "inherit"], ["task 1 at 50: task 2 waits for mutex 1", "base 10", "50", "▲"],
        ["task 2 at its base, 50", "waits, base 50", "50", ""], ["task 3 at its base, 30", "base 30", "30", ""],
    ], [
        ["mutex 1", "task 1", "waiter", False, ""], ["task 2", "mutex 1", "waiter", True, ""],
    ], ["▲ Task 1 executes at 50 instead of 10: task 2 waits for mutex 1."]),
    "of a chain": ("boost_through_a_chain", 7, 1280, [[it] for it in GRAPH], CHAIN, WHY),
    "of a chain, narrow": ("boost_through_a_chain", 7, 390, [[it] for it in GRAPH], CHAIN, WHY),
    "of more mutexes than fit next to each other": (
        "pim 1\ntask 1 10\n" + "".join(f"mutex {n} none\n" for n in range(1, 6)) + "".join(
            f"1 lock {n}\n" for n in range(1, 6)), 5, 390, 6,
        [[f"mutex {n}", "task 1", "plain", False, ""] for n in range(1, 6)], []),
    "of tasks in rows": (FOLDED, 3, 1280, 21, [["mutex 1", "task 1", "plain", False, ""]], BUSY),
    "of tasks in rows, narrow": (FOLDED, 3, 390, 21, [["mutex 1", "task 1", "plain", False, ""]], BUSY),
}


TWO = "pim 2\ntask 1 10\ntask 2 50\nmutex 1 inherit\nmutex 2 none\n"
# The last step of each is refused: the steps, and why, by hand. tests/web/refusals.mjs has each refusal.
REFUSED = {
    "a cycle": (
        "1 lock 1\n2 lock 2\n1 lock 2\n2 lock 1\n",
        "task 1 owns mutex 1 and waits for mutex 2; task 2 owns mutex 2: task 2 would wait for itself"),
    "a recorded reply that differs": ("2 unlock 1 = granted\n", "mutex 1 is free"),
}


def runs_of(text, report):
    """Returns what the lanes must show: the lane, from which step to which, and the number with its mark."""
    bases = [int(base) for base in re.findall(r"^task \d+ (\d+)$", text, re.M)]
    # A new base is shown as a boost only if the priority is above it.
    steps = [list((base, "") for base in bases)]
    for line in report.splitlines():
        changed = re.match(r"  task (\d+) at (\d+) (\w+)", line)
        if changed:
            mark = {"waiter": "▲", "ceiling": "◆", "base": ""}[changed[3]]
            steps[-1][int(changed[1]) - 1] = (int(changed[2]), mark)
        elif line[:1].isdigit():
            steps.append(list(steps[-1]))
    return steps


def wrong_lanes(prios, text, report):
    """Returns the first place where the lanes differ from the report, or None."""
    steps = runs_of(text, report)
    rejected = "but recorded" in report
    drawn = {}
    for lane, begin, past, said in prios:
        for step in range(begin, past):
            drawn[lane, step] = said
    for step, tasks in enumerate(steps[:-1] if rejected else steps):
        for task, (prio, mark) in enumerate(tasks, 1):
            said = drawn.get((task, step), "nothing")
            # A narrow stretch has no mark.
            if said not in (f"{prio} {mark}".strip(), str(prio)):
                return f"task {task} after step {step}: {said!r} in place of {prio} {mark}"
    wide = [said for _, begin, past, said in prios if past - begin > 1]
    marks = any(mark for tasks in steps for _, mark in tasks)
    return "no mark" if marks and wide and not re.search("[▲◆]", "".join(item[3] for item in prios)) else None


LINE_KEYS = ["Enter", "1", " ", "l", "o", "c", "k", " ", "1", "Backspace", "2"]


def keyed():
    """Returns texts of 200 lines, in which each key is measured, with the line behind which it is typed."""
    chain, wide = TEXTS["chain"](40, 120), mixed(6, 190)
    texts = {"at the end": (wide, 203, 1280), "in the middle": (wide, 102, 2560), "of a chain": (chain, 200, 2560)}
    given = {name: {"whole": whole, "line": line, "wide": size, "keys": LINE_KEYS} for name, (whole, line, size) in texts.items()}
    # Without its base the first task is invalid, and nothing is drawn. With one, all is drawn again.
    return given | {"of a base": {"whole": chain, "line": 2, "wide": 2560, "keys": ["Backspace", "9"] * 3}}


def pictures():
    """Returns small texts of both versions, whose lanes are compared."""
    rows = [(make, seed) for make in (mixed, second) for seed in range(6)]
    made = {f"{make.__name__} {seed}": make(3 + seed % 4, 30, 50 + seed) for make, seed in rows}
    # The second has as many lanes and steps as the first, and other priorities.
    return made | {name: example(name) for name in ("inversion_suffered", "inversion_avoided")}


def shown(folder, chromium):
    """Runs the browser, and returns what the page showed."""
    long = mixed(6, 190)
    texts = {name: text for name, (text, _) in TYPED.items()}
    given = {
        "examples": EXAMPLES, "lines": example("inversion_avoided").splitlines(True), "texts": texts,
        "pictures": pictures(), "twice": TWICE, "refused": {name: TWO + steps for name, (steps, _) in REFUSED.items()},
        "graphs": {name: {"whole": example(it[0]) if it[0] in EXAMPLES else it[0], "step": it[1], "wide": it[2]}
                   for name, it in GRAPHS.items()}, "dropped": DROPPED, "long": long,
        "full": mixed(8, 65_536).splitlines(True), "large": mixed(256, 65_536).splitlines(True), "folded": FOLDED,
        "edited": {steps: mixed(4, steps) for steps in EDITED},
        "fill": (WEB / "page/fill.js").read_text(), "boosts": BOOSTS, "lefts": LEFTS, "rows": ROWS, "narrow": NARROW, "keys": keyed(),
    }
    (folder / "input.json").write_text(json.dumps(given))
    (folder / "opened.pim").write_text(OPENED)
    address = (WEB / "dist/index.html").as_uri()
    words = ["node", ROOT / "tests/web/page.mjs", chromium, address, folder, *filter(None, [os.environ.get("SHOTS")])]
    status, out, err = answer([str(word) for word in words], seconds=3600)
    if status:
        raise OSError(f"the browser ended with {status}: {err.decode()[-400:]}")
    return dict(json.loads(line) for line in out.decode().splitlines())


def replies_of(name):
    """Returns what is said behind each line of an example: the reply that its report has, or that it is recorded."""
    lines = example(name, "report").splitlines()
    replies = iter([line.partition(" ")[2].partition(" but ")[0] for line in lines if line[:1].isdigit()])
    said = [next(replies, "") if line[:1].isdigit() else "" for line in example(name).split("\n")]
    recorded = [line.partition(" = ")[2] for line in example(name).split("\n")]
    return ["✓" if reply and reply == old else reply for reply, old in zip(said, recorded)]


def rows_of(bars, rows):
    """Returns a lane that has more rows than bars at one time, or None."""
    for lane in {bar[1] for bar in bars}:
        mine = [(bar[3], bar[4]) for bar in bars if bar[1] == lane]
        most = max(sum(begin <= step < past for begin, past in mine) for step in range(max(past for _, past in mine)))
        taken = len({row for bar, row in zip(bars, rows) if bar[1] == lane})
        if taken > most:
            return f"lane {lane}: {taken} rows in place of {most}"
    return None


def overlaps(bars, rows):
    """Returns two bars of a lane that are in one row at the same time, or None."""
    placed = sorted([lane, row, begin, past] for (_, lane, _, begin, past), row in zip(bars, rows))
    pairs = zip(placed, placed[1:])
    return next((f"{a} and {b}" for a, b in pairs if a[:2] == b[:2] and b[2] < a[3]), None)


def texts_of(file):
    return list(xml.parse(file).iter("{http://www.w3.org/2000/svg}text")) if file.exists() else []


def names_in(file):
    return [int(it.text[5:]) for it in texts_of(file) if it.text.startswith("task ")]


def wrong_part(file, numbers):
    """Returns what is wrong with the steps of a saved picture, or with its width."""
    got = [int(it.text) for it in texts_of(file) if it.get("text-anchor") == "middle"]
    wide = xml.parse(file).getroot().get("width") if file.exists() else None
    return difference((got, wide), (numbers, str(84 + 1_201 * 26 + 4 + 24)))


def wrong_svg(file):
    """Returns what is wrong with the picture of DROPPED's two steps, or None."""
    if not file.exists():
        return "no file"
    texts = [it.text for it in xml.parse(file).iter("{http://www.w3.org/2000/svg}text")]
    left = re.search(r"var\(|data-|class=", file.read_text())
    return difference((texts, left), (["step", "task 1", "base 10", "0", "1", "10"], None))


def wrong_boost(file):
    """Returns where the number of the long boost isn't in a saved picture: every 876 pixels, with a side of 1,000."""
    if not file.exists():
        return "no file"
    texts = xml.parse(file).iter("{http://www.w3.org/2000/svg}text")
    places = [float(it.get("x")) for it in texts if it.text == "90 ▲"]
    return difference((places,), ([2 * 26 + 4, *(876 * n + 4 for n in range(1, 9))],))


def most_boosted(pim, text):
    """Returns the first step after which most tasks are boosted."""
    steps = runs_of(text, answer([pim], text.encode())[1].decode())
    counts = [sum(mark != "" for _, mark in tasks) for tasks in steps]
    return counts.index(max(counts))


def wrong_end(prios, text, report):
    """Returns where the lanes that are drawn at the end differ from the report, or None."""
    steps = runs_of(text, report)
    for lane, begin, past, said in prios:
        for step in range(begin, past):
            prio, mark = steps[step][lane - 1]
            if said not in (f"{prio} {mark}".strip(), str(prio)):
                return f"task {lane} after step {step}: {said!r} in place of {prio} {mark}"
    ends = sorted({lane for lane, _, past, _ in prios if past == len(steps)})
    return difference((ends,), (list(range(1, len(steps[0]) + 1)),))


# ---- what needs no browser


def number(data, at):
    """Returns a number of a module, and where it ends."""
    value, shift = 0, 0
    while True:
        value |= (data[at] & 127) << shift
        shift, at = shift + 7, at + 1
        if not data[at - 1] & 128:
            return value, at


def data_begin(wasm):
    """Returns the address of the module's first data, which its section 11 says: behind a count, a flag and i64.const."""
    at = 8
    while at < len(wasm):
        kind, (size, begin) = wasm[at], number(wasm, at + 1)
        if kind == 11:
            return number(wasm, number(wasm, begin)[1] + 2)[0]
        at = begin + size
    return 0


def assemble(given, to, wasm=b""):
    """Runs web/page/assemble. Returns its status, and what it prints."""
    module = given.parent / "given.wasm"
    module.write_bytes(wasm)
    status, out, err = answer([str(WEB / "page/assemble"), *map(str, (module, given, to))])
    return status, out.decode(), err.decode()


def setUpModule():
    """Builds the page, which proves the module first."""
    status, _, err = answer([str(WEB / "build")], seconds=3600)
    if status:
        raise OSError(f"web/build: {err.decode()[-300:]}")


class Module(Case):
    def compare(self, pim, texts, folder):
        """Compares what the module prints of each text with the program. Returns what differs first."""
        status, lines, err = web_module.judged(texts, folder)
        self.check("the module runs in Node", None if status == 0 else err[-300:])
        self.equal("each text is judged", (len(lines),), (len(texts) + 3,))
        found = {"reports and faults": None, "states": None, "bars": None}
        for number, (text, line) in enumerate(zip(texts, lines)):
            status, fault, reason, report, wrong = web_module.answer_of(line)
            got = [status, fault + reason, report]
            status, report, fault = answer([pim, "--explain"], text)
            wanted = [status, fault.decode(), hashlib.sha256(report).hexdigest()]
            found["reports and faults"] = found["reports and faults"] or name_of(number, difference(got, wanted))
            for name, count in zip(("states", "bars"), wrong):
                found[name] = found[name] or name_of(number, difference((count,), (0,)))
        self.check(f"{len(texts)} texts, the module compared with the program", found["reports and faults"])
        self.check("the priorities and reasons of the getters compared with the report", found["states"])
        self.check("what is owned and waited for, over the steps, compared with the getters", found["bars"])
        for name, why in lines[-3] if len(lines) == len(texts) + 3 else ():
            self.check(name, why)
        # A text that needs more memory than there is, between texts that don't.
        self.equal("out of memory", (lines[-2:-1],), ([[0, 3, 0, 3, 0]],))
        self.equal("the blocks of the heap", (lines[-1:],), ([None],))

    def test_the_module_is_compared_with_the_program(self):
        if not shutil.which("node"):
            self.skipTest("node is missing")
        self.extended(pathlib.Path(self.folder))
        self.compare(program(), generated(program()), pathlib.Path(self.folder))

    def test_sources(self):
        """The scripts have no word of a reply, so that they can't answer a step; and the page is small.

        The keys of the table in refusals.js are looked up by what a report says of a refused step.
        """
        words = re.compile(r"granted|queued|freed|handed|withdrawn|released|kept|deadlock|not-owner|no-task")
        texts = {path.name: path.read_text() for path in sorted((WEB / "page").glob("*.js"))}
        texts["refusals.js"] = re.sub(r"^  '[a-z-]+': \(", "  (", texts["refusals.js"], flags=re.M)
        self.check("no reply in the scripts", ", ".join(name for name, text in texts.items() if words.search(text)))
        size = (WEB / "dist/index.html").stat().st_size
        self.check(f"the page has less than {LIMIT:,} bytes", None if size < LIMIT else f"{size:,}")
        begin = data_begin((WEB / "dist/pim.wasm").read_bytes())
        self.check("the stack of the module is below its data", None if begin >= STACK else f"the data begins at {begin}")

    def test_a_module_of_one_processor_is_not_compiled(self):
        """A module of one processor isn't compiled."""
        kit = pathlib.Path(subprocess.run(["rt", "doc"], capture_output=True, text=True).stdout.strip()).parent
        clang = str(kit / "toolchain/bin/clang")
        lines = {
            "an intrinsic": "declare void @llvm.x86.sse2.pause()\n"
                        "define void @f() {\n  call void @llvm.x86.sse2.pause()\n  ret void\n}\n",
            "assembly": 'define void @f() {\n  call void asm sideeffect "nop", ""()\n  ret void\n}\n',
            "assembly beside its functions": 'module asm "nop"\ndefine void @f() {\n  ret void\n}\n',
            "neither": "define void @f() {\n  ret void\n}\n",
        }
        for name, text in lines.items():
            file = pathlib.Path(self.folder) / "given.bc"
            file.write_text(f'target triple = "x86_64-unknown-linux-gnu"\n{text}')
            status, _, err = answer([str(WEB / "module/compile"), clang, str(file), str(pathlib.Path(self.folder) / "given.o")])
            got = status, b"bound to one processor" in err
            self.equal(f"a module with {name}", got, (0, False) if name == "neither" else (2, True))

    def extended(self, folder):
        """Results of 8 and 16 bits have no other bits: 1 and the largest number make 0."""
        kit = pathlib.Path(subprocess.run(["rt", "doc"], capture_output=True, text=True).stdout.strip()).parent
        file, made, linked = folder / "small.bc", folder / "small.o", folder / "small.wasm"
        file.write_text('target triple = "x86_64-unknown-linux-gnu"\n' + "".join(
            f"define i{bits} @f{bits}(i{bits} %n) {{\n  %m = add i{bits} %n, 1\n  ret i{bits} %m\n}}\n" for bits in (8, 16)))
        answer([str(WEB / "module/compile"), str(kit / "toolchain/bin/clang"), str(file), str(made)])
        answer([str(kit / "toolchain/bin/ld.lld"), "-flavor", "wasm", "-mwasm64", "--no-entry", "--export=f8", "--export=f16",
                str(made), "-o", str(linked)])
        run = ("const wasm = new WebAssembly.Module(require('fs').readFileSync(process.argv[1]));"
           "const { f8, f16 } = new WebAssembly.Instance(wasm, {}).exports; console.log(f8(255), f16(65535))")
        out = answer([*NODE, "-e", run, str(linked)])[1]
        self.equal("results of 8 and 16 bits are extended", (out,), (b"0 0\n",))

    def scenes(self, name, count, script):
        """Compares what the scenes of a script show with what they want to."""
        if not shutil.which("node"):
            self.skipTest("node is missing")
        status, out, err = answer([*NODE, str(ROOT / "tests/web" / script), str(WEB / "page"), str(WEB / "dist/pim.wasm")])
        rows = [json.loads(line) for line in out.decode().splitlines()]
        self.check(f"the scenes of {name}", difference((status, len(rows)), (0, count)) or err.decode() or None)
        for scene, got, wanted in rows:
            self.equal(f"{name}: {scene}", (got,), (wanted,))

    def test_scripts_by_themselves(self):
        """What the scripts answer, each by itself: judge.js, those that answer in words and numbers, the graph, the worker."""
        self.scenes("judge.js", 11, "judge.mjs")
        self.scenes("the scripts", 17, "scripts.mjs")
        self.scenes("why a step is refused", 15, "refusals.mjs")
        self.scenes("the graph", 18, "graph.mjs")
        self.scenes("the worker", 12, "worker.mjs")

    def test_what_assemble_puts_into_the_page(self):
        """What web/page/assemble puts into the page, also where an example would end the script's element."""
        given, to, wasm = pathlib.Path(self.folder) / "listed", pathlib.Path(self.folder) / "assembled/page", bytes(range(256)) * 5
        given.mkdir()
        for name in EXAMPLES:
            (given / f"{name}.pim").write_text(f"{name}</script><!-- é\n")
        status, out, _ = assemble(given, to, wasm)
        page = (to / "index.html").read_bytes()
        self.equal("assemble", (status, out), (0, f"{to / 'index.html'}: {len(page):,} bytes\n"))
        text = page.decode()
        parts = [text.count(part) for part in ("<script>", "</script>", "<style>", "</style>", "PIM_WASM = ")]
        self.equal("the page's parts", (parts, (to / "pim.wasm").read_bytes()), ([1] * 5, wasm))
        style = f"<style>\n{(WEB / 'page/style.css').read_text()}</style>"
        self.check("the style in the page", None if style in text else "no word of it")
        script = text.partition("<script>\n")[2].partition("</script>")[0]
        data, decoder = {}, json.JSONDecoder()
        for name in ("PIM_WASM", "PIM_WORKER", "PIM_EXAMPLES"):
            data[name] = decoder.raw_decode(script, script.index(f"const {name} = ") + len(f"const {name} = "))[0]
        self.equal("the module in the page", (base64.b64decode(data["PIM_WASM"]),), (wasm,))
        sources = {path.stem: path.read_text() for path in (WEB / "page").glob("*.js")}
        worker = "'use strict'\n" + "\n".join(sources[name] for name in ("states", "engine", "worker"))
        self.equal("the worker in the page", (data["PIM_WORKER"],), (worker,))
        own = [name for name, source in sources.items() if source.replace("</", "<\\/") in script]
        self.check("the scripts in the page", difference((sorted(own), script.endswith("\nstart()\n})()\n")),
                                                         (sorted(set(sources) - {"engine", "worker"}), True)))
        lines = (WEB / "page/examples.txt").read_text().splitlines()[1:]
        wanted = [[line.split(":")[0], line.split(": ", 1)[1], f"{line.split(':')[0]}</script><!-- é\n"] for line in lines]
        got = [[name, f"{it['title']} | {it['about']}", it["text"]] for name, it in data["PIM_EXAMPLES"].items()]
        self.equal("the examples in the page", (got,), (wanted,))
        (given / "another.pim").write_text("")
        (given / "ceilings.pim").unlink()
        status, _, err = assemble(given, to)
        self.check("examples that aren't listed, and that aren't there",
                   difference((status, err), (1, f"assemble: examples.txt and {given} differ in another, ceilings\n")))

    def test_usage_of_the_build(self):
        """What web/build says of itself, of a word that it doesn't know, and without a module."""
        build = pathlib.Path(self.folder) / "web/build"
        build.parent.mkdir()
        shutil.copy(WEB / "build", build)
        for words, status, said in (["--help"], 0, b"usage: "), (["--pages"], 2, b"usage: "), (["--page"], 2, b"no module yet"):
            got, out, err = answer([str(build), *words])
            self.equal(f"web/build {words[0]}", (got, said in out + err), (status, True))


class InABrowser(Case):
    @classmethod
    def setUpClass(cls):
        """Uses the page, and takes down what it shows."""
        chromium = shutil.which("chromium") or shutil.which("google-chrome")
        if not shutil.which("node") or not chromium:
            raise unittest.SkipTest("node or chromium is missing")
        cls.folder_of_all = pathlib.Path(temporary_folder(cls.addClassCleanup))
        cls.found = shown(cls.folder_of_all, chromium)

    def is_shown(self, found, name, *wanted):
        self.equal(name, (found.get(name),), wanted)

    def test_start_and_examples(self):
        self.is_shown(self.found, "start: marked lines", ["mutex 1 none", "mutex 1 inherit"])
        self.is_shown(self.found, "start: after step 2", [
            "After step 2: Task 1 executes at its base, 10.",
            "After step 2: Task 1 executes at 90 instead of 10: task 3 waits for mutex 1."])
        self.is_shown(self.found, "start: lanes of task 1", ["10", "10", "90 ▲", "10"])
        self.is_shown(self.found, "start: opened", ["accepted 5", example("inversion_avoided", "report")])
        for name in EXAMPLES:
            report, lanes, about = self.found.get(f"example {name}", ["", {"prios": [], "bars": [], "rows": []}, False])
            self.equal(f"the report of {name}", (report, about), (example(name, "report"), True))
            self.check(f"the lanes of {name}", wrong_lanes(lanes["prios"], example(name), report))
            if name in BARS:
                self.equal(f"the bars of {name}", (sorted(lanes["bars"]),), (sorted(BARS[name]),))
                self.check(f"the rows of {name}", overlaps(lanes["bars"], lanes["rows"]))
                self.check(f"no more rows than needed, {name}", rows_of(lanes["bars"], lanes["rows"]))
            self.equal(f"the replies of {name}", (self.found.get(f"replies of {name}"),), (replies_of(name),))
            steps = [line[:1].isdigit() for line in example(name, "report").splitlines()]
            self.is_shown(self.found, f"steps of the report of {name}", [sum(steps[:n + 1]) for n in range(len(steps))])
        self.graphs(self.found)
        made = self.found.get("example recording_rejected", [0, {}, 0])[1].get("made")
        self.equal("the steps that tasks make", (made,), (MADE,))
        self.details(self.found)

    def graphs(self, found):
        self.is_shown(found, "graph at the start", ["at the start", []])
        for name, (_, _, _, boxes, arrows, why) in GRAPHS.items():
            got = found.get(f"graph {name}", {"boxes": [], "arrows": [], "wrong": None, "why": None})
            shown, few = got["boxes"], isinstance(boxes, list) and len(boxes[0]) == 1
            said = len(shown) if isinstance(boxes, int) else sorted(it[:1] if few else it for it in shown)
            self.equal(f"the boxes {name}", (said,), (boxes,))
            self.equal(f"the arrows {name}", (sorted(got["arrows"]),), (sorted(arrows),))
            self.equal(f"the graph {name}: why", (got["why"],), (why,))
            self.equal(f"the places of the boxes {name}", (got["wrong"],), ([],))

    def details(self, found):
        got = found.get("details", {})
        for name, wanted in DETAILS.items():
            self.equal(f"details: {name}", (got.get(name),), (wanted,))
        self.check("details: a lane's height", None if 30 <= round(got.get("tall", 0)) <= 60 else str(got.get("tall")))
        self.is_shown(found, "details at the end", [*NAMES[:8], "base 15", *NAMES[9:]])
        self.is_shown(found, "details, rejected", [[3, 1]])
        self.is_shown(found, "two boosts", [[1, 1, 1, 20], [1, 3, 1, 20]])
        # Above 95 there is no room.
        self.is_shown(found, "numbers of 85 and 95", [-4, 13])
        lines = [line.split(": ", 1) for line in (WEB / "page/examples.txt").read_text().splitlines()[1:]]
        titles = {name: said.split(" | ") for name, said in lines}
        options = [["", "Your trace"], ["start", "Start: two traces compared"], *([name, it[0]] for name, it in titles.items())]
        self.is_shown(found, "examples", [options, titles["recording_rejected"][1]])
        placed = found.get("rows", {"bars": [], "rows": []})
        wanted = [["owns", 1, 1, 1, 3], ["owns", 1, 2, 2, 5], ["owns", 1, 3, 4, 8], ["owns", 1, 4, 6, 7]]
        self.check("bars in two rows", difference((sorted(placed["bars"]),), (wanted,)) or overlaps(placed["bars"], placed["rows"])
                   or rows_of(placed["bars"], placed["rows"]))
        failed = found.get("failures", [""] * 3)
        self.check("a call of the worker that fails is said", None if "is not a function" in failed[0] else failed[0])
        self.check("a worker that fails is said", None if "TypeError" in failed[1] else failed[1])
        self.equal("the page goes on behind it", (failed[2],), ("accepted 0",))

    def test_typed_and_stepped(self):
        self.is_shown(self.found, "typed line by line", ["accepted 5", example("inversion_avoided", "report")])
        for name, (_, wanted) in TYPED.items():
            self.is_shown(self.found, f"typed {name}", wanted)
        for name, (steps, why) in REFUSED.items():
            self.is_shown(self.found, f"refused {name}", [f"× Step {steps.count(chr(10))} is refused: {why}."])
        for name, text in pictures().items():
            report, prios = self.found.get(f"picture {name}", ["", []])
            wanted = answer([program()], text.encode())[1].decode()
            self.equal(f"the report of {name}", (report,), (wanted,))
            self.check(f"the lanes of {name}", wrong_lanes(prios, text, wanted))
        self.is_shown(self.found, "elements that are filled in", None)
        self.check("elements are filled in", None if "elements that are filled in" in self.found else "none")
        for name, wanted in LEFT_EDGE.items():
            self.is_shown(self.found, f"the left edge, {name}", wanted)
            self.is_shown(self.found, f"words under the left edge, {name}", [])
            self.is_shown(self.found, f"words that are shown again, {name}", True)
        self.is_shown(self.found, "stepping", STEPS)
        self.is_shown(self.found, "why", WHY)
        self.is_shown(self.found, "graph", GRAPH)
        self.is_shown(self.found, "now in the trace", [15])
        self.is_shown(self.found, "the buttons", STEPS[1])
        # Of the two waiters for mutex 3, only task 4 boosts its owner.
        self.is_shown(self.found, "arrows", ["url(#plain)"] + ["url(#waiter)"] * 6)
        now = ["6 queued", *(f"  task {t} at 90 waiter {t + 1} mutex {t}" for t in (1, 2, 3))]
        self.is_shown(self.found, "now in the report", now)
        self.is_shown(self.found, "tip", "task 3 at 90: task 4 waits for mutex 3")
        self.is_shown(self.found, "a click in the lanes", STEPS[1])
        self.is_shown(self.found, "the caret", "Step 4: 2 lock 1 → queued")

    def test_narrow(self):
        both = [[True, True]] * len(REPLIES)
        self.is_shown(self.found, "replies at 390 pixels", [[[reply, True, reply != REPLIES[-1]] for reply in REPLIES], both])
        self.is_shown(self.found, "the caret at 390 pixels", True)

    def test_files_and_address(self):
        self.is_shown(self.found, "a file opened", ["accepted 1", "1 granted\n  task 1 at 40 ceiling 1\naccepted 1\n"])
        rejected = "1 refused no-mutex but recorded granted\nrejected 1\n"
        self.is_shown(self.found, "a file dropped", ["rejected at step 1", rejected])
        self.is_shown(self.found, "the caret behind a file", [True, True])
        self.is_shown(self.found, "files with other line ends", ["rejected at step 1"] * 2)
        hash_ = "#trace=pim%201%0Atask%201%2010%0A1%20lock%201%20%3D%20granted%0A"
        self.is_shown(self.found, "the address", [hash_, "rejected at step 1", DROPPED])
        self.check("the picture saved as SVG", wrong_svg(self.folder_of_all / "first.svg"))
        picture, made = WEB / "inversion.svg", self.folder_of_all / "inversion.svg"
        same = picture.exists() and made.exists() and picture.read_bytes() == made.read_bytes()
        self.check("web/inversion.svg is what the page saves", None if same else "--shots FOLDER has what it saves now")
        self.check("a long boost in a picture saved as SVG", wrong_boost(self.folder_of_all / "boost.svg"))
        # Twice as large as two columns of 84 pixels and 4 more, names of 84 and a rim of 24, and a lane of 59 below 20.
        self.is_shown(self.found, "the picture saved as PNG", [2 * (84 + 2 * 84 + 4 + 24), 2 * (20 + 59 + 24), 255, True])
        self.equal("unfolded lanes in a picture", (names_in(self.folder_of_all / "unfolded.svg"),), (list(range(1, 21)),))
        # 1,201 columns of 26 pixels. Each fifth has its number, and the chosen one, next to which there is no room.
        self.check("a part of a long trace", wrong_part(self.folder_of_all / "middle.svg", list(range(39_400, 40_601, 5))))
        self.check("the end of a long trace", wrong_part(self.folder_of_all / "end.svg", [*range(64_340, 65_535, 5), 65_536]))
        png = self.folder_of_all / "middle.png"
        wide = int.from_bytes(png.read_bytes()[16:20], "big") if png.exists() else 0
        self.check("a part of a long trace as PNG", None if 16_000 <= wide <= 16_384 else f"{wide} pixels wide")

    def test_full_size(self):
        """What is shown of a trace of 65,536 steps, which is scrolled, edited, copied and pasted."""
        self.is_shown(self.found, "full size", ["accepted 65536", FULL])
        self.is_shown(self.found, "full size: the line of a step above", True)
        self.is_shown(self.found, "full size: the end", ["Step 65536", 65_553, "accepted 65536"])
        prios = self.found.get("full size: lanes", {"prios": []})["prios"]
        report = answer([program()], mixed(8, 65_536).encode())[1].decode()
        self.check("full size: the lanes at the end", wrong_end(prios, mixed(8, 65_536), report))
        # Eight tasks and eight mutexes are declared, behind the version.
        step, reply = mixed(8, 65_536).splitlines()[17 + 40_000 - 1], re.search(r"^40000 (.*)$", report, re.M)[1]
        kind = "path" if reply.startswith("refused") else "circle"
        self.is_shown(self.found, "full size: made", [[kind, int(step.split()[0]), f"step 40000: {step}, {reply}"]])
        self.is_shown(self.found, "full size: numbers that overlap", 0)
        self.is_shown(self.found, "full size, typed at the end", "line 65554 is invalid")
        self.is_shown(self.found, "full size, typed at the beginning", ["line 1 is invalid", [1]])
        self.is_shown(self.found, "full size, typed in the middle", ["line 40017 is invalid", [40_017]])
        for lines in (1_000, 40_000):
            self.is_shown(self.found, f"full size, Control {lines} lines above the caret", False)
            self.is_shown(self.found, f"full size, a key {lines} lines above the caret", True)
        self.is_shown(self.found, "full size, copied", True)
        self.is_shown(self.found, "full size, pasted over all", ["line 65554 is invalid", [65_554]])
        self.is_shown(self.found, "full size, typed over all", ["accepted 0", "pim 1"])
        for steps in EDITED:
            self.is_shown(self.found, f"edits of {steps} steps", None)
            self.check(f"edits of {steps} steps are made", None if f"edits of {steps} steps" in self.found else "none")
        self.is_shown(self.found, "undone", UNDONE)
        self.is_shown(self.found, "undone, below the text area", UNDONE)
        self.is_shown(self.found, "undone in a line", IN_LINE)
        self.is_shown(self.found, "places of the editor", PLACES)
        # 2,300 steps behind four tasks, four mutexes and the version, and an empty line; a line has 21 pixels.
        self.is_shown(self.found, "over all", ["", "\n", "漢", f"{21 * (9 + EDITED[1] + 1) + 16}px"])
        self.keys_of_lines(self.found)
        # of the steps whose tasks are 400,000 at most
        self.is_shown(self.found, "256 tasks: the chosen step", f"Step {most_boosted(program(), mixed(256, 400_000 // 256))}")
        for name in ("the last text", "a file that is read after a later text"):
            self.is_shown(self.found, name, ["accepted 7", example("ceilings", "report")])
        self.is_shown(self.found, "folded", [["task 1", "task 3", "task 20"], "Show 17 tasks that no step names"])
        self.is_shown(self.found, "lanes that aren't drawn", [])
        self.is_shown(self.found, "unfolded", [["task 1", "task 2", "task 3"], "task 20", "Fold the tasks that no step names"])

    @unittest.skipUnless(os.environ.get("FIGURES"), "for an idle machine: FIGURES=1")
    def test_figures(self):
        """The CPU time of the page's own thread."""
        for name, most in MOST.items():
            took = self.found.get(f"{name}: milliseconds", most)
            print(f"{name} takes {took:.0f} ms")
            self.check(name, None if took < most else f"{most} at most")
        for name in keyed():
            got = self.found.get(f"keys, {name}", NO_KEYS)
            held, making, took = (sorted(it) for it in (got["held"], got["making"], [it["took"] for it in got["made"]]))
            usual, allowed = held[len(held) // 2], HELD * making[len(making) // 2]
            said = f"a key holds the page {usual:.0f} ms, {held[-1]:.0f} at most, and is drawn after"
            why = None if usual < allowed else f"{allowed:.0f} ms, what {HELD},000 elements take"
            print(f"{said} {took[len(took) // 2]:.0f}, {name}")
            self.check(f"a key, {name}", why)

    def keys_of_lines(self, found):
        """What a key in a text of 200 lines makes. All counts are of one frame."""
        for name, given in keyed().items():
            self.is_shown(found, f"words wrongly hidden, {name}", 0)
            got = found.get(f"keys, {name}", NO_KEYS)
            of_line = got["made"][3:7] if given["keys"] == LINE_KEYS else [{"all": 0}]
            line = max(it["all"] for it in of_line)
            counts = {kind: max(it[kind] for it in got["made"]) for kind in ("most", "painted")}
            counts |= {kind: max(got[kind]) for kind in ("restyled", "laid", "layouts")}
            for kind, most in MOST_OF_A_FRAME.items():
                is_most = None if counts[kind] <= most else f"{most} at most"
                self.check(f"of a frame, {FRAME[kind]}: {counts[kind]}, {name}", is_most)
            self.check(f"a key that changes no step makes {line}, {name}", None if line <= MOST_OF_A_LINE else f"{MOST_OF_A_LINE} at most")

    def test_focus_and_what_is_spoken(self):
        focus = ["examples", "open", "more", "text", "report", "svg", "png", "time", "back", "on", "slider", "graph"]
        self.is_shown(self.found, "the focus", focus)
        self.is_shown(self.found, "about", True)
        self.is_shown(self.found, "about is closed", False)
        spoken = set(self.found.get("spoken", []))
        wanted = {"region Report", "textbox The trace", "slider Step", "combobox Examples", "button About",
                  "button Step on"}
        self.equal("spoken", (wanted - spoken,), (set(),))
        self.is_shown(self.found, "spoken report", True)
        for name, got in self.found.items():
            if " pixels, " in name:
                self.check(name, difference(tuple(got), (0, [])))
        self.equal("six looks at four texts", (sum(" pixels, " in name for name in self.found),), (24,))
        self.is_shown(self.found, "requests", [])
        self.is_shown(self.found, "errors", [])
        self.is_shown(self.found, "a request", "refused")
