"""The program compared with the plain judge in C++ (bench/judge.cpp).

Both are given small traces of the kinds that bench/texts.py makes, these with recorded replies, right
ones and a wrong one, texts with a few bytes changed, which are nearly all invalid, and lines of the
second version in texts of the first. The plain manager, which is proved and computes each priority
from scratch, is given traces of few tasks, with unknown numbers among them.
All must write the same bytes to both streams and end with the same status.
"""
import random
import sys

from tests.cases import Case, temporary_folder
from tests.shared.checks import ROOT, answer, compiled, difference, program, soak

sys.path.insert(0, str(ROOT / "bench"))
from texts import TEXTS, mixed, second, wide  # noqa: E402

SIZES = [(2, 30), (3, 100), (5, 200), (17, 400), (64, 800), (256, 2_000)]


def replies(report):
    """Returns the replies of a report, step after step."""
    return [line.partition(b" ")[2] for line in report.splitlines() if line[:1].isdigit()]


def with_replies(text, recorded):
    """Returns the text with a recorded reply after each step line."""
    lines = text.splitlines()
    first = len(lines) - len(recorded)
    steps = [b"%s = %s\n" % pair for pair in zip(lines[first:], recorded)]
    return b"".join(line + b"\n" for line in lines[:first]) + b"".join(steps)


def recordings(judge, make):
    """Yields texts in which every reply was recorded, and then one of them wrong."""
    draw = random.Random(5)
    for tasks, steps in SIZES:
        text = make(tasks, steps).encode()
        recorded = replies(answer([judge], text)[1])
        yield with_replies(text, recorded)
        for _ in range(5):
            step = draw.randrange(len(recorded))
            others = [reply for reply in recorded if reply != recorded[step]]
            wrong = draw.choice([*others, b"released 65535"])
            yield with_replies(text, recorded[:step] + [wrong] + recorded[step + 1 :])


def spoiled(make):
    """Yields texts with some bytes changed, left out or put in."""
    draw = random.Random(6)
    text = make(4, 30).encode()
    bytes_of_texts = b"0123456789 \n\n\0\r=abcdefghijklmnopqrstuvwxyz-\xff"
    for _ in range(400):
        at, count = draw.randrange(len(text)), draw.choice([0, 0, 1, 1, 2])
        put_in = bytes(draw.choice(bytes_of_texts) for _ in range(draw.choice([0, 1, 1, 2])))
        yield text[:at] + put_in + text[at + count :]
    for length in range(0, len(text), 7):
        yield text[:length]


def of_version_1(texts):
    """Yields the texts with version 1 in their first line, and with fewer lines of version 2."""
    for text in texts:
        later = b"pim 1" + text[len("pim 1") :]
        yield later
        plain = later.replace(b" recursive\n", b"\n")
        yield plain
        yield b"".join(line for line in plain.splitlines(True) if b" ceil " not in line)


def many_locks():
    """Yields texts in which a recursive mutex is locked as often as it may be, or more often."""
    declared = b"pim 2\ntask 1 10\ntask 2 50\nmutex 1 inherit recursive\n"
    for locks in (1, 2, 254, 255, 256, 300):
        locked = declared + b"1 lock 1\n" * locks + b"2 lock 1\n1 try 1\n"
        yield locked + b"1 unlock 1\n" * (locks + 2) + b"2 unlock 1\n"
        yield locked + b"1 release\n2 try 1\n2 release\n"


def with_unknown_numbers(text):
    """Returns the text with other numbers, and numbers that aren't declared, in some of its steps."""
    draw, lines = random.Random(7), []
    for line in text.splitlines():
        if line[:1].isdigit() and draw.random() < 0.2:
            words = line.split()
            words[draw.randrange(0, len(words), 2)] = str(draw.randint(1, 8))
            line = " ".join(words)
        lines.append(line + "\n")
    return "".join(lines).encode()


class Judge(Case):
    @classmethod
    def setUpClass(cls):
        cls.pim, cls.judge = program(), compiled(ROOT / "bench/judge.cpp", temporary_folder(cls.addClassCleanup))

    def compare(self, name, texts, judge=()):
        """Gives each text to both, up to the first on which they differ. The judge is that in C++ if omitted."""
        count, why = 0, None
        for count, text in enumerate(texts, 1):
            if why := difference(answer([self.pim], text), answer([*judge] or [self.judge], text)):
                break
        self.check(f"{name}, {count} texts", why if count else "there is none")

    def test_texts_of_each_kind(self):
        for kind, make in TEXTS.items():
            self.compare(kind, (make(*size).encode() for size in SIZES))

    def test_mixed_texts(self):
        self.compare("mixed", (mixed(4 + seed % 9, 150, seed).encode() for seed in range(100)))

    def test_each_number_of_tasks(self):
        self.compare("tasks", (mixed(tasks, 60 + tasks).encode() for tasks in range(2, 257)))

    def test_queues_of_many_lengths(self):
        self.compare("lengths", (wide(tasks, 2 * tasks).encode() for tasks in range(3, 257, 2)))

    def test_recorded_replies(self):
        for make in (mixed, second):
            self.compare(make.__name__, recordings(self.judge, make))

    def test_spoiled_texts(self):
        for make in (mixed, second):
            self.compare(make.__name__, spoiled(make))

    def test_lines_of_version_2_in_texts_of_version_1(self):
        self.compare("second", of_version_1(recordings(self.judge, second)))

    def test_many_locks_of_a_recursive_mutex(self):
        self.compare("locks", many_locks())

    def test_unknown_numbers_as_the_plain_manager(self):
        for make in (mixed, second):
            texts = (with_unknown_numbers(make(6, 500, seed)) for seed in range(20))
            self.compare(make.__name__, texts, [soak(), "judge"])
