"""suite/recordings: logs and kernel's events by hand, and what pim-facts writes of them.
suite/README.md says what the files are.
"""
import importlib
import pathlib
import re
import sys

from tests.cases import Case
from tests.shared.checks import ROOT, answer, difference, files_of
from tests.record.logs import change, read_text, reader, setUpModule

SUITE, RECORDED = ROOT / "suite/recordings", ROOT / "record/recorded"
CONVERTER, PLAIN = ROOT / "record/out/pim-facts", ROOT / "tests/facts/plain"
VERBS = {True: "waited", False: "waits"}
KERNEL_HEAD = "pim-kernel 2\nkernel 6.18.44 x86_64\nclock mono\nprocess 700\nbegan 0\ncpus 2\n"
# What follows from the recordings of record/recorded, by the records and events that pim-log prints. In
# kernel_lost_boost the owner's boost to 40 is lost as its base is set to 20. In kernel_relock a thread waits at the end
# of a condition wait. Rows `ran` of a boost that comes or goes a little late are left out.
CHAIN, LOST_BOOST = "@chain+0x1711 (inherit)", "lost_boost+0x4100@lost_boost+0x122d (inherit)"
KEPT = {
    "aborts.log": ["202125 13395 at 0 waits 0 for aborts+0x40c0 (none) of 13386 at 0"],
    "ceiling.log": ["453075 13330 at 30 waited 20048769 for ceiling+0x4160@ceiling+0x12a1 (protect)"
                    " of 13329 at 20: lower"],
    "chain.kernel": ["9935260 18402 at 20 waited 10189907 for 0x564c1773c180 (futex)",
                     "15104115 18403 at 30 waited 5030801 for 0x564c1773c140 (futex)"],
    "chain.log": [f"5615753 13320 at 20 waited 10231849 for chain+0x4180{CHAIN} of 13319 at 10: lower",
                  f"10816104 13321 at 30 waited 5041438 for chain+0x4140{CHAIN} of 13320 at 20: lower"],
    "condition.log": [],
    "deadlock.log": ["8756378 13425 at 0 waits 196213111 for deadlock+0x4140@deadlock+0x135e (none) of 13424 at 0",
                     "8766051 13424 at 0 waits 196203438 for deadlock+0x4100@deadlock+0x135e (none) of 13425 at 0",
                     "end deadlock of 13424 13425"],
    "forks.log": [],
    "inversion.kernel": ["13972990 18379 at 30 waited 40054636 for 0x55ee3a61e140 (futex)"],
    "inversion_inherit.log": ["2126821 13311 at 30 waited 40046786 for inversion+0x4160@inversion+0x12ed (inherit)"
                              " of 13310 at 10: lower"],
    "kernel_chain.log": ["..", f"90491022 933 at 20 waited 100257094 for chain+0x4180{CHAIN} of 930 at 10: lower", "..",
                         f"140740614 935 at 30 waited 50016008 for chain+0x4140{CHAIN} of 933 at 20: lower", ".."],
    "kernel_lost_boost.log": ["..", f"20565433 855 at 50 waited 179899161 for {LOST_BOOST} of 854 at 10: lower",
                              f"40686040 859 at 40 waited 725252566 for {LOST_BOOST} of 854 at 10: lower",
                              "..", "360682970 855 ran 405215826 at 20 and gets 40"],
    "kernel_relock.log": ["..", "6196117 30687 at 30 waited 20054985 for relock+0x4180@relock+0x1279 (inherit)"
                          " of 30688 at 10: lower", ".."],
    "recursive.log": ["10161977 13342 at 0 waited 100082486 for recursive+0x4100@recursive+0x11c3 (inherit)"
                      " of 13339 at 0"],
}


def plain_reader():
    """Returns the plain reader of facts as a module. Its modules have names that others have, too."""
    names = "lines", "world", "rows"
    own = {name: sys.modules.pop(name) for name in names if name in sys.modules}
    sys.path.insert(0, str(PLAIN))
    try:
        return importlib.import_module("rows")
    finally:
        sys.path.remove(str(PLAIN))
        for name in names:
            sys.modules.pop(name, None)
        sys.modules.update(own)


ROWS = plain_reader()


# ---- what follows from facts

class Findings:
    """The rows of a text in the words of suite/recordings, with names and places in place of numbers and lines."""

    def __init__(self, facts):
        self.facts = [line.split() for line in facts.splitlines()]
        self.named = {(words[0], words[1]): f"{words[-1]} ({words[-2] if words[-2].isalpha() else words[-3]})"
                      for words in self.facts if words[0] in ("mutex", "object")}

    def places(self, line, word, place):
        """Returns a word and the places of a line, which has so many words before them."""
        found = self.facts[int(line) - 1][place:] if line != "0" else []
        return " ".join(["", word, *found]) if found else ""

    def wait(self, line, until, thread, mutex, begin, lasted, level, _gets, owner, its, taken, inverted, lower, _):
        kind = ": inverted" if inverted != "0" else ": lower" if lower != "0" else ""
        owner = f" of {owner} at {its}{self.places(taken, 'from', 4)}" if owner != "0" else ""
        return (begin, f"{thread} at {level} {VERBS[until != '0']} {lasted} for {self.named['mutex', mutex]}"
                       f"{self.places(line, 'at', 4)}{owner}{kind}")

    def blocked(self, line, until, thread, thing, begin, lasted, level, ended, by, its):
        how = ["", f": by {by} at {its}{self.places(until, 'at', 6)}", ": timed out", ": failed"][int(ended)]
        return (begin, f"{thread} at {level} {VERBS[until != '0']} {lasted} for {self.named['object', thing]}"
                       f"{self.places(line, 'at', 4)}{how}")

    @staticmethod
    def ran(_line, _until, thread, begin, lasted, level, gets):
        return begin, f"{thread} ran {lasted} at {level} and gets {gets}"

    @staticmethod
    def deadlock(*threads):
        return "end", f"deadlock of {' '.join(threads)}"

    def meanwhile(self, line, thread, level, time):
        began = self.facts[int(line) - 1][0]
        return began, f"{thread} ran {time} at {level} meanwhile"

    def lines(self, rows):
        """Returns the lines, in the order of the times with which they begin."""
        told = [(getattr(self, word, None), numbers) for word, *numbers in map(str.split, rows.splitlines())]
        found = [tell(*numbers) for tell, numbers in told if tell]
        order = lambda line: (line[0] == "end", line[0].rjust(20), line[1])
        return [" ".join(line) for line in sorted(found, key=order)]


def said_otherwise(got, wanted):
    """Returns where lines differ, or None. A line `..` stands for any lines."""
    wanted = [line for line in wanted if not line.startswith("#")]
    if ".." not in wanted:
        return difference((*got, "no line"), (*wanted, "no line"))
    at = wanted.index("..")
    rest = wanted[at + 1:]
    if got[:at] != wanted[:at]:
        return difference((*got[:at], "no line"), (*wanted[:at], "no line"))
    found = not rest or any(said_otherwise(got[begin:], rest) is None for begin in range(at, len(got)))
    return None if found else f"no lines {rest} in {got}"


# ---- the files

class Recorded:
    """A recording, and what must come of it, by the ends of the files' names. `others` are the files of programs that
    it started, by the ends of their names."""

    def __init__(self, name, log=None, kernel=None, places=None, others=None, **wanted):
        self.name, self.log, self.kernel, self.wanted = name, log, kernel, wanted
        self.places, self.others = None if places is None else places.encode(), others or {}

    def other_logs(self):
        """Returns the logs of the programs that it started, each with its places."""
        logs = {end: data for end, data in self.others.items() if re.fullmatch(r"\d+(\.\d+)?", end)}
        return [(bytes(data), self.others.get(f"{end}.places", b"")) for end, data in sorted(logs.items())]

    def play(self, folder):
        """Returns the status of pim-facts, and both outputs. The path is LOG in what is said."""
        path = pathlib.Path(folder, self.name)
        others = [(f".{end}", data) for end, data in self.others.items()]
        for end, data in (("", self.log), (".kernel", self.kernel), (".places", self.places), *others):
            if data is not None:
                pathlib.Path(f"{path}{end}").write_bytes(data)
        status, out, err = answer([str(CONVERTER), str(path)])
        return status, out, err.decode().replace(str(path), "LOG")

    def why(self, folder):
        """Returns what is wrong with what pim-facts says, or None."""
        status, out, said = self.play(folder)
        if "error" in self.wanted:
            said = said.removeprefix("pim-facts: LOG").removeprefix(".kernel").removeprefix(": ")
            return difference((status, out, said), (2, b"", self.wanted["error"]))
        rows, fault, _ = ROWS.answer(out)
        if status or said or fault:
            return f"status {status}: {said}{fault}"
        facts = out.decode()
        got = {"facts": facts.splitlines(), "rows": Findings(facts).lines(rows)}
        found = (said_otherwise(got[end], self.wanted[end].splitlines()) for end in self.wanted)
        return next(filter(None, found), None)


def stored():
    """Returns a case for each name in suite/recordings, and for each change of a damaged one."""
    cases = []
    for name in sorted({path.name.split(".")[0] for path in SUITE.glob("*.*")}):
        parts = files_of(SUITE, name)
        others = {end: parts.pop(end) for end in [*parts] if end[:1].isdigit()}
        others = {end.removesuffix(".log.txt"): read_text(text) if end.endswith(".log.txt") else text.encode()
                  for end, text in others.items()}
        log, kernel, changes = (parts.pop(end, None) for end in ("log.txt", "kernel", "changes"))
        log, kernel = log and read_text(log), kernel if kernel is None else with_head(kernel)
        if changes:
            cases += [changed(name, number, log, kernel, line) for number, line in enumerate(lines_of(changes))]
        else:
            cases.append(Recorded(name, log, kernel, others=others, **parts))
    return cases


def with_head(events):
    """Returns the kernel's events of a text, which may lack the head."""
    return (KERNEL_HEAD * events[:1].isdigit() + events).encode()


def lines_of(changes):
    return [line for line in changes.splitlines() if not line.startswith("#")]


def changed(name, number, log, kernel, line):
    """Returns the case of a line `WHAT => WHY`: what changes in the log or the events, and what is said then."""
    what, why = line.split(" => ")
    if log:
        log = bytearray(log)
        change(log, *what.split())
    else:
        at, other = what.split(" ", 1)
        lines = kernel.decode().splitlines()
        lines[int(at) - 1:int(at)] = [other]
        kernel = "".join(f"{one}\n" for one in lines).encode()
    return Recorded(f"{name}_{number}", log, kernel, error=f"{why}\n")


NOT_A_LOG = "it isn't a log of pim-record, or only the beginning of one\n"
CUT_SHORT = "the file ends before its last chunk does\n"


def prefixes():
    """Returns the cases of the beginnings of a log, and of one that ends with its table of places."""
    cases = []
    for name, end, step in (("damaged_log", None, 504), ("no_chunk_is_taken", reader.HEADER_BYTES[2], 6001)):
        whole = read_text((SUITE / f"{name}.log.txt").read_text())[:end]
        cases += [Recorded(f"first_{size}_bytes_of_{name}", whole[:size], error=NOT_A_LOG if size < 4096 else CUT_SHORT)
                  for size in range(0, len(whole), step)]
    return cases


def kept():
    """Returns a case for each recording that is kept, with what follows from it, if that is known."""
    cases = []
    for path in sorted(path for path in RECORDED.iterdir() if not path.name.endswith(".log.kernel")):
        log = path.read_bytes() if path.suffix == ".log" else None
        kernel = path if log is None else pathlib.Path(f"{path}.kernel")
        wanted = {"rows": "\n".join(KEPT[path.name])} if path.name in KEPT else {}
        cases.append(Recorded(path.name, log, kernel.read_bytes() if kernel.exists() else None, **wanted))
    return cases


class Recordings(Case):
    def test_recordings_by_hand(self):
        """Plays each case with the pim-facts that is built."""
        for case in [*stored(), *prefixes(), *kept()]:
            self.check(f"the recording {case.name}", case.why(self.folder))
