"""Random texts of facts, and changes that make most of them invalid. A seed gives the same text."""
import random

from lines import Invalid, line_of
from world import World

LEVELS = 0, 1, 5, 10, 10, 20, 20, 30, 50, 90, 99, 100
PROTOCOLS = "none", "none", "inherit", "inherit", "protect 20", "protect 50", "protect 0"
# How often each line of a thread is tried.
EVENTS = {"granted": 6, "took": 1, "waits": 6, "gave-up": 1, "released": 5, "priority": 2,
          "ceiling": 1, "runs": 1, "blocks": 1, "resumes": 2, "on": 1, "off": 1}
PLACES = "", "", "", " a.c:1", " a.c:1 b.c:2(main) by-and-by"
# What a changed text has in place of a word.
ODD_WORDS = (b"0", b"01", b"", b"by", b"of", b"granted", b"timed-out", b"failed", b"end", b"100",
             b"101", b"x", b"off", b"asleep", b"65536", b"unseen", b"4294967295")


class RandomText:
    """The text of a seed: threads do at random what may follow."""

    def __init__(self, seed, most_facts=60):
        self.choose = choose = random.Random(seed)
        self.world, self.lines, self.clock = World(), ["facts 1"], 0
        self.protocols = [choose.choice(PROTOCOLS)] if choose.random() < 0.3 else PROTOCOLS
        self.threads = choose.sample(range(1, 12), choose.randint(1, 7))
        self.mutexes = choose.sample((1, 2, 3, 7, 19, 10**19 - 1), choose.randint(1, 5))
        self.objects = choose.sample(range(1, 5), choose.randint(0, 2))
        self.cpus = choose.sample((0, 1, 7, 65535), choose.randint(1, 3))
        self.switches = choose.choice((0, 0, 0.3, 0.6))  # the share of facts
        self.is_calm = choose.random() < 0.5  # no deadlocks
        self.most_facts = most_facts

    def data(self, after_line=None):
        """Returns the text. The world after each line is given to the function."""
        choose, declarations = self.choose, self.declarations()
        late = declarations[:choose.randint(0, 3)]
        for text in declarations[len(late):]:
            self.put(text)
        for _ in range(choose.randint(0, self.most_facts)):
            if late and choose.random() < 0.1:
                self.put(late.pop())
            else:
                self.event()
            if after_line:
                after_line(self.world)
        if choose.random() < 0.5:
            self.put(f"{self.clock} end")
        return "".join(f"{line}\n" for line in self.lines).encode()

    def declarations(self):
        choose, protocols = self.choose, self.protocols
        texts = [f"thread {t} {choose.choice(LEVELS)} t{t}" for t in self.threads]
        for m in self.mutexes:
            recursive = "recursive " if choose.random() < 0.2 else ""
            texts.append(f"mutex {m} {recursive}{choose.choice(protocols)} -")
        texts += [f"object {x} {choose.choice(('semaphore', 'futex'))} -" for x in self.objects]
        texts += ["unseen spin_lock of"] * (choose.random() < 0.2)
        choose.shuffle(texts)
        return texts

    def put(self, text):
        """Adds a line if it may follow. Returns whether it may."""
        try:
            line = line_of(text.encode())
            self.world.refuse(line)
        except Invalid:
            return False
        owner = self.world.owner.get(line.mutex)
        if self.is_calm and line.what == "waits" and line.thread in self.world.way(owner):
            return False
        self.world.apply(line)
        self.lines.append(text)
        return True

    def event(self):
        """Adds a line of a thread: the first that may follow of those that it tries."""
        choose = self.choose
        self.clock = max(0, self.clock + choose.choice((0, 0, 1, 3, 10, 10, 40, -5)))
        if choose.random() < 0.03:
            self.put(f"{self.clock} lost {choose.randint(1, 9)}")
        if choose.random() < self.switches:
            return self.switch(choose.choice(self.cpus))
        for _ in range(40):
            what = choose.choices(list(EVENTS), list(EVENTS.values()))[0]
            rest, thread = self.rest_of(what), choose.choice(self.threads)
            if self.put(f"{self.clock} {thread} {what} {rest}{choose.choice(PLACES)}"):
                return

    def rest_of(self, what):
        """Returns what may stand after this word."""
        choose = self.choose
        mutex, level = choose.choice(self.mutexes), choose.choice(LEVELS)
        number = choose.choice(self.objects or [1])
        how = choose.choice(("", " timed-out", " failed", *(f" by {t}" for t in self.threads)))
        return {"priority": level, "runs": level, "ceiling": f"{mutex} {level}", "blocks": number,
                "resumes": f"{number}{how}", "on": choose.choice(self.cpus),
                "off": choose.choice(("ready", "ready", "asleep"))}.get(what, mutex)

    def switch(self, cpu):
        """A thread is on a CPU, in place of the one there: a runner, or any other."""
        there = self.world.on.get(cpu)
        runners = {self.world.runner(t) for t in self.world.awaits} - {None, there}
        takes_runner = runners and self.choose.random() < 0.5
        thread = self.choose.choice(sorted(runners) if takes_runner else self.threads)
        state = self.choose.choice(("ready", "ready", "ready", "asleep"))
        self.put(f"{self.clock} {there} off {state}")
        self.put(f"{self.clock} {thread} on {cpu}")


def texts_of(seed, most_facts=60):
    """Yields the text of a seed, and three changed ones."""
    text, choose = RandomText(seed, most_facts).data(), random.Random(-seed - 1)
    yield text
    for _ in range(3):
        yield changed(text, choose)


def changed(data, choose):
    """Returns a text with a few changes."""
    for _ in range(choose.randint(1, 3)):
        data = choose.choice(CHANGES)(data, choose)
    return data


def other_byte(data, choose):
    at = choose.randrange(len(data) + 1)
    byte = choose.choice((b"", b" ", b"\n", b"0", b"9", b"\r", b"\xff", b"-"))
    return data[:at] + byte + data[at + choose.randint(0, 1):]


def cut(data, choose):
    return data[:choose.randrange(len(data) + 1)]


def in_lines(change):
    """Returns the change of a text that changes its lines at a random place so."""
    def of_text(data, choose):
        lines = data.split(b"\n")
        change(lines, choose.randrange(len(lines)), choose)
        return b"\n".join(lines)
    return of_text


def without_line(lines, at, _):
    del lines[at]


def with_line_twice(lines, at, choose):
    lines.insert(choose.randrange(len(lines)), lines[at])


def swapped(lines, at, _):
    lines[at - 1:at + 1] = reversed(lines[at - 1:at + 1])


def other_word(lines, at, choose):
    """A word is an odd one, or the one at its place in another line."""
    words, other = lines[at].split(b" "), choose.choice(lines).split(b" ")
    place, odd = choose.randrange(len(words)), choose.choice(ODD_WORDS)
    words[place] = other[place] if place < len(other) and choose.random() < 0.5 else odd
    lines[at] = b" ".join(words)


def other_thread(lines, at, choose):
    """A line is that of another thread."""
    others = [line.split(b" ")[1] for line in lines if line.startswith(b"thread ")]
    words = lines[at].split(b" ")
    if others and len(words) > 3:
        words[1] = choose.choice(others)
        lines[at] = b" ".join(words)


CHANGES = (other_byte, cut, *map(in_lines, (without_line, with_line_twice, swapped, other_word,
                                            other_thread)))
