"""A valid text of facts and its rows, with other numbers for its threads, mutexes and objects."""
from lines import lines_of

# What each word of a line and of a row after the first is: t a thread, m a mutex, x an object, - anything else. What
# follows stays as it is. The first word of a line with a time is the time.
LINES = {
    **dict.fromkeys(("granted", "took", "waits", "gave-up", "released", "ceiling"), "t-m"),
    **dict.fromkeys(("priority", "runs", "on", "off"), "t"), "blocks": "t-x", "resumes": "t-x-t"}
DECLARATIONS = {"thread": "t", "mutex": "m", "object": "x", "unseen": ""}
ROWS = {"wait": "--tm----t", "inverted": "-mt", "stalled": "-xt", "meanwhile": "-t", "blocked": "--tx----t",
        "ran": "--t", "section": "tm", "nests": "tmm", "end": ""}


class Numbers:
    """Other numbers for those of a text: the numbers of each kind, shuffled."""

    def __init__(self, text, choose):
        declared = [line.decode().split()[:2] for line in lines_of(text)]
        self.of = {}
        for kind, word in (("t", "thread"), ("m", "mutex"), ("x", "object")):
            numbers = [number for first, number in declared if first == word]
            self.of[kind] = dict(zip(numbers, choose.sample(numbers, len(numbers))))

    def changed(self, words, kinds):
        """Returns the words, whose first ones have these kinds, with the other numbers. A 0 stays, which means none."""
        kinds = kinds.ljust(len(words), "-")
        return [self.of.get(kind, {}).get(word, word) for kind, word in zip(kinds, words)]

    def text(self, text):
        """Returns the text with the other numbers."""
        first, *lines = lines_of(text)
        return b"\n".join([first, *map(self.line, lines), b""])

    def line(self, line):
        first, *words = line.decode().split()
        kinds = DECLARATIONS[first] if first in DECLARATIONS else LINES.get(words[1] if len(words) > 1 else "", "")
        is_ended = kinds != "t-x-t" or words[3:4] == ["by"]
        return " ".join([first, *self.changed(words, kinds if is_ended else "t-x")]).encode()

    def rows(self, rows):
        """Returns the rows with the other numbers, sorted as texts. The threads of a deadlock begin with the lowest."""
        found = []
        for first, *words in map(str.split, rows.splitlines()):
            words = self.changed(words, ROWS.get(first, "t" * len(words)))
            if first == "deadlock":
                lowest = words.index(min(words, key=int))
                words = words[lowest:] + words[:lowest]
            found.append(" ".join([first, *words]))
        return sorted(found)
