"""Random texts, the smallest ones that differ, and what their differences come from."""
import itertools
import pathlib
import random
import time

import compare
from walk import HABITS, Walk

KINDS = {"inherit": ["inherit"], "mixed": ["none", "inherit", "inherit", "protect"]}
REQUESTS = ["lock"] * 6 + ["try"] + ["unlock"] * 3 + ["cancel"] * 2 + ["base"] * 2 + ["release"]
MOST_TOGETHER = 3


def random_source(rng, kind, tasks=None, steps=None):
    """Returns a random text. Its priorities differ from each other. Most steps that are refused are left out."""
    tasks, mutexes = tasks or rng.randint(3, 7), rng.randint(2, 5)
    steps = steps or rng.randint(6, 40)
    priorities = rng.sample(range(1, 97), 96)
    lines = ["pim 1"] + [f"task {t} {priorities.pop()}" for t in range(1, tasks + 1)]
    for m in range(1, mutexes + 1):
        protocol = rng.choice(KINDS[kind])
        lines.append(f"mutex {m} {protocol}" + (f" {rng.randint(50, 97)}" if protocol == "protect" else ""))
    walk = Walk(compare.Text("\n".join(lines)))
    while steps > 0:
        request, actor = rng.choice(REQUESTS), rng.randint(1, tasks)
        first = rng.randint(1, tasks if request in ("cancel", "base") else mutexes)
        numbers = {"release": "", "base": f" {first} {priorities[-1]}"}.get(request, f" {first}")
        reply = walk.step(f"{actor} {request}{numbers}".split())
        if reply.startswith("refused") and rng.random() < 0.95:
            continue
        lines.append(f"{actor} {request}{numbers}")
        steps -= 1
        if reply == "set":
            priorities.pop()
    return "\n".join(lines) + "\n"


def same(steps, others):
    return [(it.reply, it.changes) for it in steps] == [(it.reply, it.changes) for it in others]


def causes_of(text, done):
    """Returns the smallest set of habits by which the model does what the system did, or None if there is none."""
    if any(it.others for it in done):
        return None
    for count in range(MOST_TOGETHER + 1):
        for habits in itertools.combinations(HABITS, count):
            if same(Walk(text, frozenset(habits)).run(), done):
                return habits
    return tuple(HABITS) if same(Walk(text, frozenset(HABITS)).run(), done) else None


def shorter(source):
    """Generates the texts that lack some steps, or one task or mutex which no step names, from this one."""
    lines = source.splitlines()
    first = next((i for i, line in enumerate(lines) if line[:1].isdigit()), len(lines))
    for size in (8, 4, 2, 1):
        for at in range(first, len(lines), size):
            yield "\n".join(lines[:at] + lines[at + size:]) + "\n"
    for kind in ("task", "mutex"):
        for number in range(1, sum(line.startswith(kind) for line in lines) + 1):
            made = without(lines, kind, number)
            if made:
                yield made


def named(words, kind):
    """Returns the places of a step's words that name a task, or a mutex."""
    of_task = words[1] in ("cancel", "base")
    places = [0] if kind == "task" else []
    return places + ([2] if len(words) > 2 and of_task == (kind == "task") else [])


def without(lines, kind, number):
    """Returns the text without a task or a mutex, the later ones renumbered; None if a step names it."""
    made = []
    for line in lines:
        words = line.split()
        places = named(words, kind) if line[:1].isdigit() else [1] if words[0] == kind else []
        if any(int(words[place]) == number for place in places):
            if line[:1].isdigit():
                return None
            continue
        for place in places:
            words[place] = str(int(words[place]) - (int(words[place]) > number))
        made.append(" ".join(words))
    return "\n".join(made) + "\n"


def shrunk(source, still, end):
    """Returns the smallest text found, by leaving things out, for which `still` holds."""
    found = True
    while found:
        found = next((it for it in shorter(source) if time.monotonic() < end and still(it)), None)
        source = found or source
    return source


class Fuzz:
    def __init__(self, given, pim, end):
        self.given, self.pim, self.end = given, pim, end
        self.rng, self.smallest, self.counts, self.system = random.Random(given.seed), {}, {}, ""

    def look(self, source):
        """Performs a text. Returns the lines of its differences, and their causes."""
        text = compare.Text(source)
        wanted = compare.reported(self.pim, text)
        done = compare.performance(compare.performed(text, self.given.cpu, self.given.seconds), len(text.steps))
        self.system = done.system
        lines = compare.differences(text, done.steps, wanted)
        return lines, (causes_of(text, done.steps) or None) if lines else ()

    def text(self, number):
        """Performs one random text, and makes it smaller if it differs in a new way."""
        source = random_source(self.rng, list(KINDS)[number % len(KINDS)])
        lines, causes = self.look(source)
        if not lines:
            return False
        self.counts[causes] = self.counts.get(causes, 0) + 1
        if causes not in self.smallest:
            end = min(time.monotonic() + 20, self.end + 20)
            small = shrunk(source, lambda it: self.is_so(it, causes), end)
            self.smallest[causes] = small, self.look(small)[0]
        return True

    def is_so(self, source, causes):
        lines, found = self.look(source)
        return bool(lines) and found == causes

    def tell(self, causes):
        name = "+".join(causes) if causes is not None else "unknown"
        print(f"\n{self.counts[causes]} {'text' if self.counts[causes] == 1 else 'texts'}: {name}")
        for cause in causes or ():
            print(f"    {HABITS[cause]}")
        source, lines = self.smallest[causes]
        print("\n".join(f"    {line}" for line in source.splitlines() + lines))
        if self.given.keep:
            file = pathlib.Path(self.given.keep, f"{name}.pim")
            file.write_text(source)
            file.with_suffix(f".{compare.kernel_of(self.system)}").write_text("\n".join([f"# {name}", *lines]) + "\n")


def main(given, pim, end):
    """Performs random texts until the end. Returns the exit status: 1 if a difference has a cause that isn't known."""
    fuzz, count, differ = Fuzz(given, pim, end), 0, 0
    while time.monotonic() < end or count == 0:
        differ += fuzz.text(count)
        count += 1
    print(fuzz.system)
    print(f"{count} random texts, seed {given.seed}: {differ} differ, {fuzz.counts.get(None, 0)} of them unexplained")
    for causes in sorted(fuzz.smallest, key=lambda it: (it is None, len(it or ()), it)):
        fuzz.tell(causes)
    return 1 if None in fuzz.counts else 0
