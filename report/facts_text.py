"""A text of facts, as docs/FACTS.md defines it, of which only some lines are read.

`Facts` reads the declarations, the changes of levels and what is missing. The other lines are read
when a row names them. It judges nothing: pim-findings has said that the text is valid.
"""
import re
from bisect import bisect_left, bisect_right
from collections import defaultdict, namedtuple

Thread = namedtuple("Thread", "number level name")
Mutex = namedtuple("Mutex", "number protocol ceiling recursive name place")
Object = namedtuple("Object", "number kind name")
Lost = namedtuple("Lost", "line time count")

IS_PLACE = re.compile(r".*(:\d+|\+0x[0-9a-f]+)(\([^()]*\))?$|0x[0-9a-f]+$")
# After how many words a line of this kind has its places.
WORDS_BEFORE = {b"ceiling": 5, b"off": 4}
HAVE_FOUR = [b"waits"], [b"granted"], [b"took"]
OF_OWNERS = b"granted", b"took", b"released"


def last_of(changes, line, first):
    """Returns what the last of (line, level) up to a line says, or what was there at first."""
    at = bisect_right(changes, (line, 101))
    return changes[at - 1][1] if at else first


class Facts:
    """What a text declares, and what its lines say."""

    def __init__(self, data):
        self.data, self.lines = data, data.split(b"\n")
        if not self.lines[-1]:
            self.lines.pop()
        self.threads, self.mutexes, self.objects, self.unseen = {}, {}, {}, []
        self.levels, self.ceilings, self.lost, declared = {}, {}, [], 0
        self.of_mutexes, self.owners, self.clocks = None, {}, None
        for word, declare in (("thread", self.thread), ("mutex", self.mutex),
                              ("object", self.object), ("unseen", self.is_unseen)):
            for _, line in self.lines_with(f"\n{word} ".encode()):
                declare(line.decode().split(" "))
                declared += 1
        self.read_levels()
        self.read_lost()
        self.has_end = bool(re.fullmatch(rb"\d+ end", self.lines[-1]))
        self.count = len(self.lines) - 1 - declared

    def lines_with(self, word):
        """Yields the facts that have a word, or the lines that begin with it, each with its number.

        The word is found in all bytes: most lines aren't looked at.
        """
        begins_line, number, counted = word[:1] == b"\n", 1, 0
        at = self.data.find(word)
        while at >= 0:
            number += self.data.count(b"\n", counted, at + begins_line)
            counted, line = at + begins_line, self.lines[number - 1]
            if begins_line or line[:1] <= b"9":
                yield number, line
            at = self.data.find(word, at + 1)

    # ---- declarations

    def thread(self, words):
        self.threads[int(words[1])] = Thread(int(words[1]), int(words[2]), words[3])

    def mutex(self, words):
        """A name that looks like a place is one: some texts name a mutex by where it comes from."""
        number, rest = int(words[1]), words[2:]
        is_recursive = rest[0] == "recursive"
        protocol, *rest = rest[is_recursive:]
        ceiling = int(rest.pop(0)) if protocol == "protect" else 0
        name, _, place = rest[0].partition("@")
        if not place and IS_PLACE.match(rest[0]):
            name, place = "-", rest[0]
        self.mutexes[number] = Mutex(number, protocol, ceiling, is_recursive, name or "-", place)

    def object(self, words):
        self.objects[int(words[1])] = Object(int(words[1]), words[2], words[3])

    def is_unseen(self, words):
        self.unseen.append(words[1:])

    # ---- what changes, and what is missing

    def read_levels(self):
        """Finds the lines from which on a thread has a level, and a mutex a ceiling."""
        for number, line in self.lines_with(b" priority "):
            words = line.split(b" ", 4)
            if words[2:3] == [b"priority"]:
                self.levels.setdefault(int(words[1]), []).append((number, int(words[3])))
        for number, line in self.lines_with(b" ceiling "):
            words = line.split(b" ", 5)
            if words[2:3] == [b"ceiling"]:
                self.ceilings.setdefault(int(words[3]), []).append((number, int(words[4])))

    def read_lost(self):
        for number, line in self.lines_with(b" lost "):
            words = line.split(b" ")
            if words[1] == b"lost":
                self.lost.append(Lost(number, int(words[0]), int(words[2])))

    @property
    def missing(self):
        """Returns how many events are missing."""
        return sum(one.count for one in self.lost)

    @property
    def missing_percent(self):
        """Returns how many in a hundred events are missing, rounded down."""
        return 100 * self.missing // max(1, self.missing + self.count - len(self.lost))

    def level(self, thread, line):
        """Returns the level that a thread has after a line."""
        return last_of(self.levels.get(thread, ()), line, self.threads[thread].level)

    def ceiling(self, mutex, line):
        """Returns the ceiling that a mutex has after a line."""
        return last_of(self.ceilings.get(mutex, ()), line, self.mutexes[mutex].ceiling)

    def highest(self, thread):
        """Returns the highest level that a thread had."""
        changes = [level for _, level in self.levels.get(thread, ())]
        return max([self.threads[thread].level, *changes])

    def has_switches(self):
        """Returns whether the recording says which threads were on a CPU."""
        return any(line.split(b" ", 3)[2:3] == [b"on"] for _, line in self.lines_with(b" on "))

    # ---- lines that rows name

    def words(self, line):
        return self.lines[line - 1].split(b" ")

    def time(self, line):
        """Returns the time of a line, which may be earlier than the clock after it."""
        return int(self.words(line)[0])

    def clock(self, line):
        """Returns the greatest time up to a line. Lines that go back are looked for once."""
        if self.clocks is None:
            self.clocks, now = {}, 0
            for number, text in enumerate(self.lines, 1):
                time = int(text.partition(b" ")[0]) if text[:1] <= b"9" else now
                if time < now:
                    self.clocks[number] = now
                else:
                    now = time
        return self.clocks.get(line) or self.time(line)

    def word(self, line):
        """Returns what a fact says happened, as `waits`."""
        return self.lines[line - 1].split(b" ", 3)[2]

    def places(self, line):
        """Returns the places of a line, the innermost first. There is none without a line."""
        if not line:
            return ()
        words = self.words(line)
        before = WORDS_BEFORE.get(words[2], 4)
        if words[2] == b"resumes" and len(words) > 4:
            before += {b"by": 2, b"timed-out": 1, b"failed": 1}.get(words[4], 0)
        return tuple(word.decode() for word in words[before:])

    def place(self, line):
        """Returns the innermost place of a line, or an empty text."""
        words = self.lines[line - 1].split(b" ", 5)
        if line and words[2:3] in HAVE_FOUR:  # most of them
            return words[4].decode() if len(words) > 4 else ""
        return next(iter(self.places(line)), "")

    # ---- owners

    def lines_of_mutexes(self):
        """Returns by mutex, as a word, the numbers of the lines that can change its owner."""
        found = defaultdict(list)
        for number, line in enumerate(self.lines, 1):
            words = line.split(b" ", 4)
            if len(words) > 3 and words[2] in OF_OWNERS and line[:1] <= b"9":
                found[words[3]].append(number)
        return found

    def read_owners(self, mutex):
        """Returns the lines that change the owner of a mutex, and the new owners. 0 is none."""
        lines, owners, times = [0], [0], 0
        for number in self.of_mutexes.get(b"%d" % mutex, ()):
            words = self.lines[number - 1].split(b" ", 3)
            before, times = times, times + (-1 if words[2] == b"released" else 1)
            if not before or not times:
                lines.append(number)
                owners.append(times and int(words[1]))
        return lines, owners

    def owners_of(self, mutex):
        """They are read once, if they are needed."""
        if self.of_mutexes is None:
            self.of_mutexes = self.lines_of_mutexes()
        if mutex not in self.owners:
            self.owners[mutex] = self.read_owners(mutex)
        return self.owners[mutex]

    def owner(self, mutex, line):
        """Returns the thread that owns a mutex after a line, or 0."""
        lines, owners = self.owners_of(mutex)
        return owners[bisect_right(lines, line) - 1]

    def grants(self, mutex, line, until):
        """Returns the lines after one and before another that gave a mutex an owner."""
        lines, owners = self.owners_of(mutex)
        between = range(bisect_right(lines, line), bisect_left(lines, until))
        return [lines[at] for at in between if owners[at]]
