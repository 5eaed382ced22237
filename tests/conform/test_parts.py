"""compare.py, fuzz.py and walk.py as modules: values by hand, and no right to SCHED_FIFO.

A shell script stands for the performer. Where random texts are performed, the texts are given, and the model of the
walk with two habits is the system.
"""
import contextlib
import io
import os
import pathlib
import random
import sys
import time
import types
from unittest import mock

from tests.conform.cases import ConformCase, changed, fault_of, parsed_as, script, script_module, setUpModule
from tests.shared.checks import ROOT, SECONDS, program

import compare
import fuzz
from compare import Done
from walk import HABITS, Walk


# ---- compare.py


# What a performer does, and what comes of it.
PERFORMERS = {"arguments": ('echo "$*"; cat', ("--cpu 7 --seconds 1\npim 1\n",)),
              "a delay": ("sleep 1.5; echo late", ("late\n",)),
              "no rights": ("echo 'perform: no rights' >&2; exit 77", ("perform: no rights", 77)),
              "a signal": ("kill -KILL $$", ("the performer was ended by SIGKILL", 2)),
              "a fault": ("echo 'perform: line 3' >&2; exit 1", ("line 3", 2)),
              "a status": ("exit 4", ("the performer ended with status 4", 2))}


# ---- fuzz.py


# Three differences, and in the longer text four: toptask, owntry of an INHERIT mutex, leak, queue.
SEVERAL = """pim 1\ntask 1 10\ntask 2 50\ntask 3 40\ntask 4 12\nmutex 1 inherit\nmutex 2 inherit\nmutex 3 protect 97
mutex 4 none\n1 lock 1\n2 lock 1\n3 lock 1\n1 unlock 1\n1 base 2 20\n1 lock 2\n1 try 2\n1 lock 3\n4 lock 3\n1 cancel 4
1 unlock 3\n"""
QUEUED = SEVERAL + "4 lock 4\n1 lock 4\n2 lock 4\n4 base 1 60\n4 unlock 4\n"


# The texts of a fuzz, in order; TOP is as small as it can be, with a step and a task more.
TOP = "pim 1\ntask 1 10\ntask 2 50\ntask 3 40\nmutex 1 inherit\n1 lock 1\n2 lock 1\n3 lock 1\n1 unlock 1\n1 base 2 20\n"
OWN = "pim 1\ntask 1 10\nmutex 1 inherit\n1 lock 1\n1 try 1\n"
BOTH = TOP.replace("1 lock 1\n2", "1 lock 1\n1 try 1\n2", 1)
STRANGE = "pim 1\ntask 1 77\nmutex 1 none\n1 lock 1\n"
LONGER = TOP.replace("mutex 1 inherit\n", "task 4 5\nmutex 1 inherit\n4 base 4 6\n")
FUZZED = [OWN.replace("1 try 1\n", ""), LONGER, TOP.replace("50", "51"), OWN, STRANGE, BOTH]
TOP_CAUSE = "kernel: who is handed a mutex with waiters gets no pi_top_task, so that a change of its own priority " \
            "forgets these waiters"
OWN_CAUSE = "glibc: a try of its owner is answered EDEADLK, in place of EBUSY"
OTHER_ANSWER = "the answer is refused deadlock, should be refused busy; later steps aren't compared"
TOP_LINE = "step 5 '1 base 2 20': task 2 executes at 20, should at 40 (waiter 3 mutex 1)"
KINDS = (("1 text: owntry", [OWN_CAUSE], OWN, f"step 2 '1 try 1': {OTHER_ANSWER}"),
         ("2 texts: toptask", [TOP_CAUSE], TOP, TOP_LINE),
         ("1 text: toptask+owntry", [TOP_CAUSE, OWN_CAUSE], BOTH, f"step 2 '1 try 1': {OTHER_ANSWER}"),
         ("1 text: unknown", [], STRANGE, "step 1 '1 lock 1': task 1 left"))
KEPT = {"owntry.pim", "owntry.linux-9.1", "toptask.pim", "toptask.linux-9.1", "toptask+owntry.pim",
        "toptask+owntry.linux-9.1", "unknown.pim", "unknown.linux-9.1"}


def system(text, cpu, seconds):
    """Performs a text as the model does with two habits. A task at 77 leaves what it doesn't wait for."""
    lines = ["Linux 9.1.2"]
    for number, done in enumerate(Walk(text, frozenset(["toptask", "owntry"])).run(), 1):
        lines += [f"{number} {done.reply}", *(f"  task {t} at {p}" for t, p in done.changes.items())]
        lines += ["  ! task 1 left"] if 77 in text.bases.values() else []
    return "\n".join([*lines, f"performed {len(text.steps)}", ""])


def fuzzed(pim, keep, texts):
    """Returns the status, what is printed, and the kinds of texts that are asked for."""
    left, kinds = list(texts), []
    given = types.SimpleNamespace(seed=7, cpu=0, seconds=20, keep=keep)
    clock = types.SimpleNamespace(monotonic=lambda: 0 if left else 100)

    def next_text(_, kind):
        kinds.append(kind)
        return left.pop(0)
    said = io.StringIO()
    # the last text is made smaller, too, as the clock stands for 20 seconds more
    with changed(compare, performed=system), changed(fuzz, random_source=next_text, time=clock), \
            contextlib.redirect_stdout(said):
        status = fuzz.main(given, pim, 100)
    return status, said.getvalue(), kinds


# ---- walk.py

# What Linux and glibc do by the source, where the set doesn't show it: a text, habits, and the last steps.
WALKS = {
    "a waiter whose priority stays isn't requeued": (
        "pim 1\ntask 1 10\ntask 2 50\ntask 3 50\ntask 4 30\nmutex 1 inherit\nmutex 2 inherit\n"
        "1 lock 1\n2 lock 2\n2 lock 1\n3 lock 1\n4 lock 2\n1 unlock 1\n", ["tie"],
        [("queued", {}), ("handed 2", {1: 10})]),
    "a waiter of a NONE mutex is ordered without its boost": (
        "pim 1\ntask 1 10\ntask 2 20\ntask 3 40\ntask 4 90\nmutex 1 inherit\nmutex 2 none\n"
        "1 lock 2\n2 lock 1\n4 lock 1\n2 lock 2\n3 lock 2\n1 unlock 2\n", ["queue"],
        [("queued", {2: 90}), ("queued", {}), ("queued", {}), ("handed 3", {})]),
    "of two ceilings that are kept the higher one counts": (
        "pim 1\ntask 1 10\ntask 2 20\nmutex 1 protect 60\nmutex 2 protect 50\n"
        "1 lock 1\n1 lock 2\n2 lock 1\n2 cancel 2\n2 lock 2\n2 cancel 2\n2 base 2 70\n", ["raise", "leak"],
        [("queued", {2: 60}), ("withdrawn", {}), ("queued", {}), ("withdrawn", {}), ("set", {2: 70})]),
}


# ---- pim-conform

class Parts(ConformCase):
    def test_lines_as_they_are_read(self):
        """Texts, reports and performances as they are read."""
        text = compare.Text("pim 1\ntask 1 10\nmutex 1 none\n1 lock 1 = granted\n  task 1 at 90\n")
        self.same("a text without its replies", text.bare(), "pim 1\ntask 1 10\nmutex 1 none\n1 lock 1\n  task 1 at 90\n")
        self.same("a text's steps and bases", (text.steps, text.bases), ["1 lock 1"], {1: 10})
        lines = ["  task 9 at 9", "  ! before", "7 granted", "  task 2 at -5 waiter 3 mutex 1", "  task 3 at 6",
                 "  ! it left", "12 refused busy", "rest"]
        steps = [Done("granted", {2: -5, 3: 6}, {2: "waiter 3 mutex 1", 3: None}, ["it left"]),
                 Done("refused busy", {}, {}, [])]
        self.same("the steps of a report", compare.steps_of(lines), steps)
        whole = compare.Performance("S", [Done("set", {}, {}, [])])
        self.same("a performance", (compare.performance("S\n1 set\nperformed 1\n", 1),), whole)
        for out, count in (("performed 0\n", 0), ("", 0), ("S\n1 set\n", 1), ("S\n1 set\nperformed 1\n", 2)):
            wanted = "what was performed isn't whole, or is of another text", 2
            self.same(f"a performance that is {out!r} of {count}", fault_of(compare.performance, out, count), *wanted)
        names = {"Linux 6.18.44-arch1, glibc 2.36, CPU 3": "linux-6.18", "Linux 7.0": "linux-7.0", "": "unknown",
                 "on Linux 6.18": "unknown"}
        self.same("the kernels of first lines", {name: compare.kernel_of(name) for name in names}, names)
        lines = {"Linux 6.12.117+deb12-rt-amd64, glibc 2.36, CPU 1": ["linux-6.12-rt", "linux-6.12"],
                 "Linux 6.1.192-rt": ["linux-6.1-rt", "linux-6.1"], "Linux 6.1.0-rta, glibc 2.36-rt": ["linux-6.1"]}
        self.same("the narrower kernels of first lines", {name: compare.kernels_of(name) for name in lines}, lines)

    def test_commands_that_are_run(self):
        """Commands that are run: their outputs, statuses, and what ends one that hangs."""
        done = compare.run(["sh", "-c", "cat; echo ' why ' >&2; exit 3"], "in", SECONDS)
        self.same("a command's outputs", done, 3, "in", "why")
        slow = script(self.folder, "slow", "exec sleep 100")
        began = time.monotonic()
        self.same("a command that hangs is ended", fault_of(compare.run, [str(slow)], "", 1), "slow didn't end within 1 s", 2)
        self.check("and it isn't waited for", None if time.monotonic() - began < 60 else "it is")
        text = compare.Text("pim 1\ntask 1 10\nmutex 1 none\n1 lock 1\n")
        for name, line, wanted in (("too few steps", "true", "short ended with status 0"),
                                   ("a fault", "echo 'pim: line 9' >&2; exit 2", "pim: line 9"),
                                   ("a status", "echo 1 granted; exit 3", "short ended with status 3")):
            short = script(self.folder, "short", "cat >/dev/null", line)
            message, status = fault_of(compare.reported, str(short), text)
            self.same(f"a pim with {name}", (message.rpartition("/")[2], status), wanted, 2)

    def test_performers(self):
        for name, (line, wanted) in PERFORMERS.items():
            with changed(compare, PERFORMER=script(self.folder, "stub", line), GRACE=20):
                self.same(f"a performer with {name}", fault_of(compare.performed, compare.Text("pim 1\n"), 7, 1), *wanted)

    def test_differences(self):
        """Several tasks apart, in ascending order; and nothing behind another reply."""
        text = compare.Text("pim 1\ntask 1 10\ntask 2 20\ntask 3 30\nmutex 1 none\n3 lock 1\n3 unlock 1\n")
        real = [Done("granted", {3: 9, 1: 8}, {}, []), Done("handed 2", {2: 1}, {}, ["one", "two"])]
        right = [Done("granted", {2: 7}, {2: "why"}, []), Done("freed", {}, {}, [])]
        wanted = ["step 1 '3 lock 1': task 1 executes at 8, should at 10 (base)",
                  "step 1 '3 lock 1': task 2 executes at 20, should at 7 (why)",
                  "step 1 '3 lock 1': task 3 executes at 9, should at 30 (base)",
                  "step 2 '3 unlock 1': the answer is handed 2, should be freed; later steps aren't compared",
                  "step 2 '3 unlock 1': one", "step 2 '3 unlock 1': two"]
        self.same("the lines of differences", compare.differences(text, real, right), wanted)

    def test_the_file_beside_a_text(self):
        """The file beside a text: its cause, of several lines, and its differences."""
        path = self.folder / "a.pim"
        (self.folder / "a.linux-9.1").write_text("# kernel: one\n#two\nstep 1\n\nstep 2\n")
        (self.folder / "a.linux-9.3-rt").write_text("# kernel: three\n")
        both = "kernel: one two", ["step 1", "step 2"]
        self.same("a file beside a text", compare.expected(path, ["linux-9.1"]), *both)
        self.same("no file beside a text", compare.expected(path, ["linux-9.2"]), "", [])
        self.same("the file of a narrower kernel", compare.expected(path, ["linux-9.3-rt", "linux-9.1"]), "kernel: three", [])
        self.same("no file of a narrower kernel", compare.expected(path, ["linux-9.1-rt", "linux-9.1"]), *both)

    def test_random_texts(self):
        """Random texts have the tasks, mutexes, steps and priorities that they may have, and all of them."""
        rng, counts, repeated, ceilings = random.Random(1), {"task": set(), "mutex": set(), "step": set()}, 0, set()
        for _ in range(400):
            lines = [line.split() for line in fuzz.random_source(rng, "mixed").splitlines()[1:]]
            for kind in ("task", "mutex"):
                counts[kind].add(sum(words[0] == kind for words in lines))
            steps = [words for words in lines if words[0].isdigit()]
            counts["step"].add(len(steps))
            own = [int(words[2]) for words in lines if words[0] == "task"]
            walk = Walk(compare.Text("\n".join(["pim 1", *(" ".join(words) for words in lines)])))
            own += [int(words[3]) for words in steps if walk.step(words) == "set"]
            repeated += len(own) != len(set(own)) or not set(own) <= set(range(1, 97))
            ceilings |= {int(words[3]) for words in lines if words[2:3] == ["protect"]}
        wanted = {"task": set(range(3, 8)), "mutex": set(range(2, 6)), "step": set(range(6, 41))}
        self.same("random texts have each size", counts, wanted)
        self.same("no priority of a random text is repeated", repeated, 0)
        self.same("the ceilings of random texts", (min(ceilings), max(ceilings)), 50, 97)

    def test_several_causes(self):
        """Differences of several causes, of all, and of none that is known."""
        def found(source, *habits):
            text = compare.Text(source)
            return fuzz.causes_of(text, Walk(text, frozenset(habits)).run())
        three = ("toptask", "leak", "owntry")
        self.same("three causes", (found(SEVERAL, *three),), three)
        self.same("one cause of several habits", (found(SEVERAL, "leak", "tie", "stop"),), ("leak",))
        self.same("all causes", (found(QUEUED, *HABITS),), tuple(HABITS))
        self.same("four causes aren't looked for", (found(QUEUED, *three, "queue"),), None)
        text = compare.Text(SEVERAL)
        done = Walk(text).run()
        done[0].others.append("task 3 left the wait for mutex 1 with EINTR")
        self.same("no cause explains what no reply tells", (fuzz.causes_of(text, done),), None)

    def test_what_is_left_out_of_a_text(self):
        """What is left out of a text: steps, and then tasks and mutexes that no step names."""
        head, free = "pim 1\ntask 1 10\n", "task 2 20\nmutex 1 none\n"
        steps = ["1 lock 1\n", "1 base 1 30\n", "1 unlock 1\n"]
        first = head + free
        wanted = [first, first, first + steps[2], first + steps[0] + steps[1], first + steps[1] + steps[2],
                  first + steps[0] + steps[2], first + steps[0] + steps[1], f"{head}mutex 1 none\n{''.join(steps)}"]
        self.same("the shorter texts", list(fuzz.shorter(first + "".join(steps))), *[wanted])
        lines = ["pim 1", "task 1 1", "task 2 2", "task 3 3", "mutex 1 none", "mutex 2 inherit", "3 lock 2", "1 base 3 9",
                 "3 release"]
        less = "pim 1\ntask 1 1\ntask 3 3\nmutex 1 none\nmutex 2 inherit\n2 lock 2\n1 base 2 9\n2 release\n"
        # a declaration has its number, too
        self.same("a text without a task", fuzz.without(lines, "task", 2), less.replace("task 3", "task 2"))
        less = "pim 1\ntask 1 1\ntask 2 2\ntask 3 3\nmutex 1 inherit\n3 lock 1\n1 base 3 9\n3 release\n"
        self.same("a text without a mutex", fuzz.without(lines, "mutex", 1), less)
        named = [fuzz.without(lines, kind, number) for kind, number in (("task", 1), ("task", 3), ("mutex", 2))]
        self.same("what a step names stays", named, [None] * 3)
        texts = []
        clock = types.SimpleNamespace(monotonic=lambda: len(texts))
        with changed(fuzz, time=clock):
            self.same("a text that can't be smaller", fuzz.shrunk(SEVERAL, texts.append, 3), SEVERAL)
        self.same("and the time is kept", len(texts), 3)

    def test_fuzz(self):
        status, said, kinds = fuzzed(program(), self.folder, FUZZED)
        lines = ["Linux 9.1.2", "6 random texts, seed 7: 5 differ, 1 of them unexplained"]
        for title, causes, text, line in KINDS:
            lines += ["", title, *(f"    {row}" for row in (*causes, *text.splitlines(), line))]
        self.same("what --fuzz prints", (status, *said.splitlines(), len(said.splitlines())), 1, *lines, len(lines))
        self.same("the kinds of its texts", kinds, ["inherit", "mixed"] * 3)
        self.same("the files that it keeps", {path.name for path in self.folder.iterdir()}, KEPT)
        files = [(self.folder / name).read_text() for name in ("toptask.pim", "toptask.linux-9.1")]
        self.same("what the files have", files, [TOP, f"# toptask\n{TOP_LINE}\n"])
        agrees = FUZZED[0]
        wanted = "Linux 9.1.2\n3 random texts, seed 7: 0 differ, 0 of them unexplained\n"
        self.same("--fuzz without a difference", fuzzed(program(), None, [agrees] * 3)[:2], 0, wanted)
        given = types.SimpleNamespace(seed=1, cpu=0, seconds=20, keep=None)
        with changed(compare, performed=system), contextlib.redirect_stdout(io.StringIO()) as out:
            fuzz.main(given, program(), time.monotonic() - 1)
        said = out.getvalue()
        self.check("--fuzz performs one text, however short it is", None if "\n1 random texts" in said else said)
        a_fuzz = fuzz.Fuzz(given, program(), 0)
        looks = ((["a"], ("leak",)), (["a"], ("tie",)), ([], ("leak",)))
        got = []
        for a_fuzz.look in [lambda _, look=look: look for look in looks]:
            got.append(a_fuzz.is_so("", ("leak",)))
        self.same("a smaller text has the same causes, and differs", got, [True, False, False])

    def test_a_difference_that_is_unknown_to_both(self):
        """A system that does what the model does without habits, while pim reports something else, isn't explained."""
        text = compare.Text(FUZZED[0])
        a_fuzz = fuzz.Fuzz(types.SimpleNamespace(seed=1, cpu=0, seconds=20, keep=None), program(), 0)
        wrong = lambda *_: [Done("granted", {1: 5}, {1: "x"}, [])]
        with changed(compare, performed=system, reported=wrong):
            lines, causes = a_fuzz.look(text.bare())
        self.same("a difference between pim and the model is unexplained", (len(lines), causes), 1, None)

    def test_walks(self):
        for name, (source, habits, wanted) in WALKS.items():
            steps = Walk(compare.Text(source), frozenset(habits)).run()
            self.same(f"the model: {name}", [(it.reply, it.changes) for it in steps[-len(wanted):]], wanted)

    def test_options(self):
        """The command line: what is taken if nothing is given, and what isn't taken."""
        module, cpu = script_module(), max(os.sched_getaffinity(0))
        usual = {"texts": [pathlib.Path("a")], "cpu": cpu, "seconds": 20, "pim": None, "keep": None, "stored": None,
                 "fuzz": None, "seed": 1}
        self.same("the options that aren't given", parsed_as(module, "a"), *[usual])
        words = ["--cpu", "2", "--pim", "p", "--keep", "k", "--fuzz", "1.5", "--seed", "6"]
        wanted = {**usual, "texts": [], "cpu": 2, "pim": "p", "keep": pathlib.Path("k"), "fuzz": 1.5, "seed": 6}
        self.same("the options that are given", parsed_as(module, *words), *[wanted])
        for seconds in (1, 3600):
            self.same(f"--seconds {seconds}", parsed_as(module, "a", "--seconds", str(seconds))["seconds"], seconds)
        for seconds in (0, 3601):
            got = parsed_as(module, "a", "--seconds", str(seconds))
            self.same(f"--seconds {seconds}", got, 2, "--seconds is from 1 to 3600")
        wrong = (2, "give files, or --fuzz; --from goes with files alone")
        for words in ([], ["a", "--fuzz", "0"], ["--fuzz", "0", "--from", "f"], ["a", "--from", "f", "--keep", "k"]):
            self.same(f"options: {' '.join(words)}", parsed_as(module, *words), *wrong)

    def test_programs_are_built_if_they_are_not_there(self):
        """The program pim and the performer are built if they aren't there."""
        module = script_module()
        script(self.folder, "pim", "test $1$(cat | sed 's/^pim 1$//') = check")
        with changed(compare, HERE=self.folder / "conform"):
            self.same("the pim of a release, which has no crates", compare.own_pim(), f"{self.folder}/pim")
            (self.folder / "crates").mkdir()
            self.same("the repository's own pim", compare.own_pim(), f"{self.folder}/crates/pim/out/pim")
            script(self.folder, "pim", "exit 1")
            self.same("a pim that can't be built", fault_of(compare.own_pim), "pim can't be built; say where it is by --pim", 2)
        (self.folder / "Makefile").write_text("all:\n\t@echo no compiler >&2; false\n")
        with changed(compare, HERE=self.folder):
            message, status = fault_of(module.build)
        self.same("a performer that can't be built", (message.startswith("the performer can't be built: no compiler"), status),
                  True, 2)

    def test_rights_come_first(self):
        """Without the rights pim isn't built, and with them after the performer."""
        module, done = script_module(), []
        given = types.SimpleNamespace(stored=None, keep=None, fuzz=1, pim=None, texts=[], cpu=3, seconds=9)
        build, own_pim = lambda: done.append("performer"), lambda: done.append("pim") or "p"

        def performed(text, cpu, seconds):
            done.append((text.bare(), cpu, seconds))

        def refused(*_):
            raise compare.Fault("no rights", 77)
        with changed(module, build=build), changed(compare, performed=refused, own_pim=own_pim):
            self.same("without the rights no pim is built", (fault_of(module.perform_all, given), done),
                      ("no rights", 77), ["performer"])
        with changed(module, build=build), changed(compare, performed=performed, own_pim=own_pim), \
                changed(fuzz, main=lambda *_: 0):
            module.perform_all(given)
        self.same("the rights are tried before pim is built", (done[1:],), ["performer", ("pim 1\n", 3, 9), "pim"])

    def test_outputs_are_kept_and_read_again(self):
        """What is performed is kept under the text's name, and read again."""
        module, asked = script_module(), []
        given = types.SimpleNamespace(cpu=3, seconds=9, keep=self.folder, stored=None)
        with changed(compare, performed=lambda *how: asked.append(how[1:]) or "S\nperformed 0\n"):
            got = module.output_of(pathlib.Path("x/name.pim"), None, given)
        kept = (self.folder / "name.performed").read_text()
        self.same("an output that is kept", (got, kept, asked), "S\nperformed 0\n", got, [(3, 9)])
        given.stored = self.folder
        self.same("an output that is stored", module.output_of(pathlib.Path("y/name.pim"), None, given), got)

    def test_several_texts(self):
        """Texts that can't be compared are counted, and the others are compared; a system is told where it changes."""
        for name, source, system in (("a", "pim 1\n", "S 1.1"), ("b", "pim 1\n", "S 1.1"), ("c", "pim 9\n", "S 1.1"),
                                     ("d", "pim 1\n# \xff\n", "S 1.1"), ("e", "pim 1\n", "T 1.1")):
            (self.folder / f"{name}.pim").write_bytes(source.encode("latin-1"))
            (self.folder / f"{name}.performed").write_text(f"{system}\nperformed 0\n")
        (self.folder / "f.pim").write_text(STRANGE)
        (self.folder / "f.performed").write_text("T 1.1\n1 queued\nperformed 1\n")
        module, said = script_module(), io.StringIO()
        given = types.SimpleNamespace(stored=self.folder, keep=None, fuzz=None, pim=program(), texts=sorted(self.folder.glob("*.pim")))
        with contextlib.redirect_stdout(said), changed(compare, HERE=self.folder):  # nothing can be built there
            status = module.perform_all(given)
        lines = [line.replace(f"{self.folder}/", "") for line in said.getvalue().splitlines()]
        self.same("several texts", (status, [line.partition(" not compared: ")[0] for line in lines]), 2,
                  ["S 1.1", "a.pim: agrees", "b.pim: agrees", "c.pim:", "d.pim:", "T 1.1", "e.pim: agrees",
                   "f.pim: step 1 '1 lock 1': the answer is queued, should be granted; later steps aren't compared",
                   "3 agree, 1 differ, 2 faults"])

    def test_what_is_done_before_the_first_text(self):
        """What is done before the first text: the performer and the folder are made, and the time is set."""
        module, keep, ends = script_module(), self.folder / "x/y", []
        (self.folder / "Makefile").write_text("all:\n\ttouch made\n")
        given = types.SimpleNamespace(stored=None, keep=keep, fuzz=50, pim="p", texts=[])
        fuzz_main = lambda _, pim, end: ends.append((pim, end)) or 1
        began = time.monotonic()
        with changed(compare, HERE=self.folder), changed(fuzz, main=fuzz_main):
            got = [module.perform_all(given), module.perform_all(given)]
        self.same("before the first text", (got, (self.folder / "made").exists(), keep.is_dir()), [1, 1], True, True)
        pim, end = ends[0]
        self.check("--fuzz has its time", None if pim == "p" and began + 50 <= end <= time.monotonic() + 50 else f"{ends}")

    def test_endings(self):
        """What a fault that ends it all says, and its status."""
        module, rights = script_module(), "run it as root, with CAP_SYS_NICE, or with 'ulimit -r 99'; nothing was performed"
        cases = {"a fault": (compare.Fault("why"), 2, ["why"]),
                 "no rights": (compare.Fault("why", 77), 77, ["why", rights]),
                 "no file": (FileNotFoundError("why"), 2, ["why"]), "Ctrl-C": (KeyboardInterrupt(), 130, [])}
        for name, (fault, status, lines) in cases.items():
            said, perform_all = io.StringIO(), mock.Mock(side_effect=fault)
            with changed(sys, argv=["pim-conform", "a"]), changed(module, perform_all=perform_all), \
                    changed(module.signal, signal=lambda *_: None), contextlib.redirect_stderr(said):
                got = module.main()
            wanted = [f"pim-conform: {line}" for line in lines]
            self.same(f"ended by {name}", (got, said.getvalue().splitlines()), status, wanted)

    def test_expected_lines(self):
        """Lines that are expected, that aren't, and that aren't seen; the cause, if all is as expected."""
        comparison, said = script_module().Comparison(None, None), io.StringIO()
        with contextlib.redirect_stdout(said):
            comparison.tell("a", [], "", [])
            comparison.tell("b", ["two", "one"], "cause", ["one", "two"])
            comparison.tell("c", ["one", "two"], "cause", ["one"])
            comparison.tell("d", ["one"], "cause", ["one", "two"])
            comparison.tell("e", [], "cause", ["one"])
            status = comparison.status()
        wanted = ["a: agrees", "b: expected: two", "b: expected: one", "b: cause", "c: expected: one", "c: two",
                  "d: expected: one", "d: not seen: two", "e: not seen: one",
                  "1 agree, 1 differ as expected, 3 differ"]
        self.same("expected lines", (status, said.getvalue().splitlines()), 1, wanted)
