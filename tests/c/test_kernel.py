"""c/kernel, the small real-time kernel over libpim, in qemu.

Builds the four kernels, plays the suite, conform/set and 300 random texts on each, and compares what its threads did
with the reports by conform/compare.py. Checks who runs first among equals, how many waits a tick ends, how long a high
thread waits in an inversion, random calls under 1,000 and 40,000 ticks a second, for how long interrupts are off, and
the figures of docs/PORTING.md. Then plays the texts, rules and storms on a 64-bit RISC-V.
"""
import functools
import pathlib
import random
import re
import shutil
import sys
import unittest

from tests.cases import Case
from tests.c.machines import ARM_TARGET
from tests.shared.checks import ROOT, SECONDS, answer, difference, made, program
from tests.shared.suite_texts import runs_of_scripts, traces

sys.path[:0] = [str(ROOT / "conform"), str(ROOT / "bench")]
import compare  # noqa: E402
import fuzz  # noqa: E402
import texts as generated  # noqa: E402

RUN, SET, PAGE = ROOT / "c/kernel/run", ROOT / "conform/set", ROOT / "docs/PORTING.md"
TOOLS = {"aarch64-linux-gnu-gcc": "gcc-aarch64-linux-gnu", "qemu-system-aarch64": "qemu-system-arm"}
RISCV_TOOLS = ["riscv64-linux-gnu-gcc", "qemu-system-riscv64", "qemu-riscv64-static"]
KERNELS = {"default": (), "no fast path": ("--no-fast-path",), "interrupts off": ("--interrupts-off",),
           "interrupts off, no fast path": ("--interrupts-off", "--no-fast-path")}
# As c/kernel/config.h has them, and text.h.
MOST_TASKS, MOST_MUTEXES, MOST_STEPS, ENDED_PER_TICK = 32, 64, 4096, 8

# Who takes turns in which order in the scenes of rules.c. The numbers are those of the rules for SCHED_FIFO in
# POSIX.1-2017, 2.8.4; rule 8 is that of pthread_setschedprio.
RULES = {
    "woken": "2 3 1",  # 2: a thread that was blocked is the last
    "preempted by a tick": "1 3 1 2",  # 1: a preempted thread stays the first
    "tick while the lock is held": "3 1",  # which ends the sleep as soon as the lock is left
    "raised by another": "2 3 1",  # 8a: the last
    "lowered by another": "1 2 3",  # 8c: the first
    "set to the same": "2 1 3",  # 8b: where it was
    "lowers itself": "1 1 2 3",  # 8c: it goes on
    "raises and lowers itself": "1 1 2",  # 8a, 8c: it yields to nobody
    "boosted": "2 1 3",  # as 8a
    "unlocks and is no longer boosted": "1 3 1 2",  # as 8c
    "no longer boosted by a withdrawal": "3 1 2",  # as 8c
    "base set below the boost": "1 4 3",  # pthread_mutexattr_getprotocol: an owner isn't moved to the tail
    "ceiling": "1 1 2",  # as 8a, 8c
    "handed over": "1 3 4 2",  # in the order in which they asked
    "released": "1 3 2 4",  # in the order of the mutexes
    "waits that each tick ended": "8 8 4",
}


def kernel(*words):
    """Returns status, standard output and standard error of a run."""
    status, out, err = answer([str(word) for word in (RUN, *words)], seconds=2 * SECONDS)
    return status, out.decode(), err.decode()


# ---- the texts

def is_small(text):
    counts = [sum(line.startswith(word) for line in text.lines) for word in ("task", "mutex")]
    return counts[0] <= MOST_TASKS and counts[1] <= MOST_MUTEXES and len(text.steps) <= MOST_STEPS


def reported(pim, text):
    """Returns pim's report of a text."""
    status, out, err = compare.run([pim], text.bare(), SECONDS)
    if status:
        raise compare.Fault(err)
    return out


def suite():
    """Returns the accepted traces of the suite that the kernel has room for: names, texts and reports."""
    found = [(name, compare.Text(text.decode()), report.decode())
             for name, (text, (status, report, _)) in traces().items() if status == 0]
    return [it for it in found if is_small(it[1])]


def others(pim):
    """Returns the recorded runs of scripts and conform/set: names, texts and reports."""
    sources = {name: text.decode() for name, (text, _) in runs_of_scripts().items()}
    sources.update({path.stem: path.read_text() for path in sorted(SET.glob("*.pim"))})
    found = [(name, compare.Text(source)) for name, source in sources.items()]
    return [(name, text, reported(pim, text)) for name, text in found if is_small(text)]


def random_texts(pim):
    """Returns 300 random texts: of the generator of conform/fuzz.py, and of bench/texts.py."""
    rng, kinds = random.Random(1), list(fuzz.KINDS)
    sources = {f"fuzz {k}": fuzz.random_source(rng, kinds[k % len(kinds)]) for k in range(150)}
    for k in range(60):
        sources[f"mixed {k}"] = generated.mixed(2 + k % 31, 300, k)
        sources[f"second {k}"] = generated.second(2 + k % 31, 300, k)
    sources.update({f"wide {tasks}": generated.wide(tasks, 100) for tasks in range(3, 33)})
    found = [(name, compare.Text(source)) for name, source in sources.items()]
    return [(name, text, reported(pim, text)) for name, text in found]


def first_difference(played, out):
    """Compares what was performed with the reports: replies and priorities as Linux's, and then each byte."""
    parts = [f"kernel {part}" for part in out.split("kernel ")[1:]]
    if len(parts) != len(played):
        return f"{len(parts)} texts were performed of {len(played)}: {out[-200:]}"
    for (name, text, report), part in zip(played, parts):
        wanted = report.splitlines()
        try:
            done = compare.performance(part, len(text.steps)).steps
        except compare.Fault as fault:
            return f"{name}: {fault}: {part[-200:]}"
        found = compare.differences(text, done, compare.steps_of(wanted))
        found += [f"'{a}' in place of '{b}'" for a, b in zip(part.splitlines()[1:-1], wanted[:-1]) if a != b]
        if found:
            return f"{name}: {found[0]}"
    return None


# ---- the other programs


@functools.lru_cache(maxsize=None)
def kinds_of_texts():
    pim = program()
    return {"of the suite": suite(), "recorded and of conform/set": others(pim), "random": random_texts(pim)}


class CommandLine(Case):
    def test_the_command_line(self):
        """What it says of wrong arguments, and without the tools."""
        (pathlib.Path(self.folder) / "trace").write_text("pim 1\n")
        wrong = {"an unknown program": ["nothing"], "no program": [], "perform without a trace": ["perform"],
                 "a trace for storm": ["storm", pathlib.Path(self.folder) / "trace"], "0 ticks": ["--ticks", "0", "storm"],
                 "an unknown board": ["--board", "nothing", "rules"],
                 "--keep with storm": ["--keep", pathlib.Path(self.folder), "storm"]}
        for name, words in wrong.items():
            status, out, err = kernel(*words)
            self.equal(f"run with {name}", (status, out, err[:10]), (2, "", "usage: run"))
        status, out, err = kernel("--help")
        self.equal("run --help", (status, "77 a tool is missing" in out, err), (0, True, ""))
        without = {"env": {"PATH": str(pathlib.Path(self.folder))}}
        status, out, err = answer([sys.executable, str(RUN), "rules"], **without)
        named = all(word in err.decode() for word in [*TOOLS, *TOOLS.values()])
        self.equal("run without its tools", (status, out, named), (77, b"", True))


class Played(Case):
    """What is played on each board."""

    def play(self, folder, kinds, board="arm64"):
        """Plays all texts on each kernel, in one run of qemu, and checks each kind of them."""
        file = folder / "texts"
        file.write_text("".join(text.bare() for played in kinds.values() for _, text, _ in played))
        every = [it for played in kinds.values() for it in played]
        steps = sum(len(text.steps) for _, text, _ in every)
        for name, words in KERNELS.items():
            status, out, err = kernel("--board", board, *words, "perform", file)
            why = difference((status, err), (0, "")) or first_difference(every, out)
            counts = ", ".join(f"{len(played)} {kind}" for kind, played in kinds.items())
            self.check(f"{board}, {name}: {counts}, {steps} steps", why)

    def rules(self, name, words):
        status, out, err = kernel(*words, "rules")
        found = dict(line.split(": ", 1) for line in out.splitlines() if ": " in line)
        self.check(f"{name}: the rules are run", difference((status, err, list(found)), (0, "", list(RULES))) and out + err)
        for scene, turns in RULES.items():
            self.equal(f"{name}: {scene}", (found.get(scene),), (turns,))

    def inversion(self, name, words):
        """High waits for medium's work over a NONE mutex alone."""
        status, out, err = kernel(*words, "inversion")
        rows = re.findall(r"^(one mutex|chain of three) +(\S+(?: 90)?) +(\d+) +(\d+) +(\d+) +"
                      r"low unlocks at (\d+), continues at (\d+)$", out, re.M)
        self.check(f"{name}: inversion is run", difference((status, err, len(rows)), (0, "", 6)) and out + err)
        for scene, protocol, *figures in rows:
            *waits, before, after = map(int, figures)
            suffered = protocol == "NONE"
            right = all(wait > work for wait, work in zip(waits, (10_000, 100_000, 1_000_000))) if suffered else \
                max(waits) - min(waits) <= 100 and max(waits) < 4_000
            prios = difference((before, after), (10 if suffered else 90, 10))
            self.check(f"{name}: {scene}, {protocol}", prios or (None if right else f"high waits {waits} us"))
        last = re.search(r"high waits 500 us at most: timed out after (\d+) us, low unlocks at 20$", out, re.M)
        late = last and int(last[1])
        self.check(f"{name}: high times out", None if late and 500 <= late <= 2_000 else out[-200:])

    def storm(self, name, *words):
        status, out, err = kernel(*words, "storm")
        counts = re.fullmatch(r"(\d+) calls: (\d+) locks granted, (\d+) timed out, (\d+) deadlocks, \d+ refused otherwise: "
                          r"sound\n", out)
        many = counts and all(int(count) >= 100 for count in counts.groups())
        self.check(f"{name}: a storm", None if (status, err) == (0, "") and many else f"status {status}: {out[-200:]}{err}")


class Kernel(Played):
    @classmethod
    def setUpClass(cls):
        if missing := [tool for tool in TOOLS if not shutil.which(tool)]:
            raise unittest.SkipTest(f"there is no {' and no '.join(missing)}")
        made("c", f"TARGET={ARM_TARGET}", f"out/{ARM_TARGET}/libpim.a")

    def test_what_cannot_be_performed(self):
        """What can't be read or performed."""
        bad = pathlib.Path(self.folder) / "many.pim"
        bad.write_text("pim 1\n" + "".join(f"task {t} 10\n" for t in range(1, MOST_TASKS + 2)))
        status, out, _ = kernel("perform", bad)
        self.check("a text of too many tasks", difference((status, out.splitlines()[1:]),
                                                          (0, ["can't be performed: too many tasks"])))
        status, out, err = kernel("perform", pathlib.Path(self.folder) / "none.pim")
        self.equal("no such text", (status, out, "No such file" in err), (2, "", True))

    def test_pim_conform_compares_what_was_performed(self):
        """pim-conform compares what the kernel performed, as it compares Linux."""
        paths = sorted(SET.glob("*.pim"))
        status, _, err = kernel("--keep", pathlib.Path(self.folder), "perform", *paths)
        self.equal("run --keep", (status, err), (0, ""))
        words = [ROOT / "conform/pim-conform", "--pim", program(), "--from", pathlib.Path(self.folder), *paths]
        status, out, _ = answer([str(word) for word in words])
        last = out.decode().splitlines()[-1:]
        self.equal("pim-conform --from", (status, last), (0, [f"{len(paths)} agree"]))

    def longest(self, words):
        """Returns what interrupts are off, and what the lock is held, for 4, 16 and 32 threads, by the case."""
        status, out, err = kernel(*words, "longest")
        rows = re.findall(r"^(\w+: .*?) +(\d+) +(\d+) +(\d+) +(\d+) +(\d+) +(\d+)$", out, re.M)
        self.check(f"longest {' '.join(words)}".rstrip(), difference((status, err, len(rows)), (0, "", 11)) and out + err)
        return {case: tuple(map(int, figures)) for case, *figures in rows}

    def test_interrupts_are_off_for_a_bounded_time(self):
        """Interrupts are off for a switch alone, unless the kernel has them off for a step, and then a tick is bounded."""
        figures = self.longest(())
        most = max((off for row in figures.values() for off in row[:3]), default=0)
        self.check(f"default: interrupts are off for {most} instructions at most", None if 0 < most <= 200 else "more than 200")
        figures = self.longest(("--interrupts-off",))
        _, of_16, of_32, *_ = figures.get("tick: all waiters of a mutex time out", (0, 0, 0))
        why = None if 0 < of_32 <= 1.3 * of_16 else f"{of_32} instructions with 31 waiters, {of_16} with 15"
        self.check(f"interrupts off: a tick ends {ENDED_PER_TICK} waits at most", why)

    def test_a_free_mutex_needs_no_libpim(self):
        """A free mutex is locked and unlocked for less than pim_lock and pim_unlock take, also after libpim knew it."""
        status, out, err = kernel("costs")
        rows = {name: int(both) for name, both in re.findall(r"^(\S.*?) +\d+ +\d+ +(\d+)$", out, re.M)}
        self.check("costs", difference((status, err, len(rows)), (0, "", 10)) and out + err)
        slow = rows.get("pim_lock and pim_unlock alone, INHERIT", 0)
        for name in ("", ", after another's try and an unlock", ", after another's try and a release"):
            fast = rows.get(f"alone, INHERIT{name}", 0)
            self.check(f"default: a free mutex needs no libpim{name}",
                       None if 0 < fast < slow else f"{fast} instructions, {slow} of libpim")

    def test_the_figures_of_PORTING(self):
        """The script prints the figures that the page names, if it is by the compilers that the page names."""
        status, out, err = answer([str(ROOT / "c/kernel/table")], seconds=2 * SECONDS)
        self.equal("c/kernel/table", (status, err), (0, b""))
        shown = PAGE.read_text().partition("`c/kernel/table` prints")[2].partition("\n## ")[0]
        named = re.findall(r"\b\d,\d{3}\b|\b\d\d,\d{3}\b|\b\d{3}\b", shown)
        self.assertTrue(named, "the page names no figure")
        by = re.findall(r"[\w-]+gcc \([^)]*\) \S+|rattle-kit-\w+", out.decode())
        if not all(one.rstrip(";") in " ".join(shown.split()) for one in by):
            self.skipTest(f"the page was made otherwise than by {' and '.join(by)}")
        printed = set(re.findall(r"[\d,]+", out.decode()))
        self.assertEqual([figure for figure in named if figure not in printed], [])

    def test_texts_are_performed(self):
        self.play(pathlib.Path(self.folder), kinds_of_texts())

    def test_the_rules_of_scheduling(self):
        for name, words in KERNELS.items():
            self.rules(name, words)

    def test_storms(self):
        for name, words in KERNELS.items():
            self.storm(name, *words)
        for name in ("default", "interrupts off"):
            self.storm(f"{name}, 40,000 ticks a second", *KERNELS[name], "--ticks", 40_000)

    def test_inversion(self):
        self.inversion("default", ())
        self.inversion("interrupts off", ("--interrupts-off",))


class OnRiscv(Played):
    """The kernels on the second board."""

    BOARD = ("--board", "riscv64")

    @classmethod
    def setUpClass(cls):
        if missing := [tool for tool in RISCV_TOOLS if not shutil.which(tool)]:
            raise unittest.SkipTest(f"there is no {' and no '.join(missing)}")
        made("c/kernel", "BOARD=riscv64", "../out/riscv64/pim_c_lp64.o")

    def test_texts_are_performed(self):
        self.play(pathlib.Path(self.folder), kinds_of_texts(), "riscv64")

    def test_the_rules_of_scheduling(self):
        for name, words in KERNELS.items():
            self.rules(name, (*self.BOARD, *words))

    def test_storms(self):
        for name, words in KERNELS.items():
            self.storm(name, *self.BOARD, *words)

    def test_inversion(self):
        self.inversion("default", self.BOARD)
