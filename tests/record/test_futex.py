"""The waits of pim-record --kernel, and who ended them: record/FORMAT.md.

record/programs/futexes.c has the calls. It prints what it knows of each wait; the recording has
exactly these, and no other wake.
"""

from tests.cases import Case
from tests.record.logs import setUpModule
from tests.shared.checks import difference
from tests.record.test_collector import without_imports
from tests.record.test_kernel import (PROGRAMS, RECORD, Tracefs, faults_of, kernel_text, pathlib,
                                      run)

SKIPPED = 77
ANY, NONE = "any", "none"


class Waits:
    """The waits of a recording in the order in which they began: task, address, sharing, result, and who woke it."""

    def __init__(self, data):
        self.all, self.strays, calling = [], [], {}
        for event in kernel_text.KernelText(data).events:
            if event.what == "wait":
                calling[event.task] = [event.task, *event.values, None, []]
                self.all.append(calling[event.task])
            elif event.what in kernel_text.CALLS:
                calling.pop(event.task, None)
            elif event.what == "return" and event.task in calling:
                calling.pop(event.task)[3] = event.values[0]
            elif event.what == "wake":
                woken, = event.values
                calling[woken][4].append(event.task) if woken in calling else self.strays.append(event)

    def at(self, addresses):
        return [wait for wait in self.all if wait[1] in addresses]


def said_waits(lines, outside=None):
    """Returns the waits that the program says that it knows of."""
    waits = []
    for task, address, sharing, result, waker in map(str.split, lines):
        wakers = [] if waker == NONE else [ANY if waker == ANY else outside if waker == "outside" else int(waker)]
        waits.append([int(task), address, sharing, int(result), wakers])
    return waits


def differs(data, wanted):
    """Says how the waits of a recording differ from those that the program knows of, or returns None."""
    waits = Waits(data)
    got = waits.at({wait[1] for wait in wanted})
    got = [[*wait[:4], [ANY] if known[4] == [ANY] and len(wait[4]) == 1 else wait[4]]
           for wait, known in zip(got, wanted)] + got[len(wanted):]
    return "; ".join(faults_of(data)) or difference(got, wanted) or (f"{waits.strays}" if waits.strays else None)


class Futexes(Case):
    def all_ways(self, folder, options):
        name = "the waits and the wakes are those of the program" + "".join(f", with {option}" for option in options)
        path = pathlib.Path(folder, "run")
        done = run(RECORD / "pim-record", "-o", path, *options, PROGRAMS / "futexes")
        if done.returncode == SKIPPED:
            return self.skip(name, done.stdout.strip())
        if done.returncode or without_imports(done.stderr):
            return self.check(name, f"status {done.returncode}: {done.stderr}")
        wanted = said_waits(done.stdout.splitlines())
        self.equal(f"{name}: the program knows of 8", (len(wanted),), (8,))
        self.check(name, differs(pathlib.Path(f"{path}.kernel").read_bytes(), wanted))

    def test_waits_and_wakes_are_those_of_the_program(self):
        tracefs = Tracefs()
        tracefs.end()
        if tracefs.missing:
            return self.skip("the waits of --kernel", tracefs.missing)
        for options in (["--kernel-only"], ["--kernel"]):
            self.all_ways(self.folder, options)
