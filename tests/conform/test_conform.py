"""pim-conform, which performs traces on the running kernel and compares it with pim's reports.

Anywhere: compares the stored outputs of the set with pim's reports, sees what pim-conform says of outputs that are
changed, and compares the model of the kernel's walk, mended, with pim on random texts. Where SCHED_FIFO is permitted:
performs the set and random texts, and ends what hangs.
"""
import os
import platform
import random
import re
import resource
import shutil
import signal
import subprocess
import time
import unittest

from tests.conform.cases import SET, ConformCase, is_known, last_cpu, setUpModule
from tests.shared.checks import (ROOT, SECONDS, answer, children_of, difference, ended, is_gone,
                                 proc_text, program, threads_of, until)

import compare
import fuzz
from walk import HABITS, Walk

CONFORM, STORED = ROOT / "conform", ROOT / "conform/performed"
TEXTS = sorted(SET.glob("*.pim"))
CAUSES = {"kernel_stop": ("stop",), "kernel_stop_deadlock": ("stop",), "kernel_toptask": ("toptask",),
          "kernel_toptask_ceiling": ("toptask",), "kernel_pitree": ("pitree",), "kernel_stop_base": ("stop",),
          "kernel_pitree_base": ("pitree",),
          "glibc_raise": ("raise",), "glibc_raise_fifo": ("raise",),
          "glibc_leak": ("leak",), "glibc_owntry": ("owntry",), "glibc_owntry_protect": ("owntry",),
          "choice_queue": ("queue",), "choice_queue_base": ("queue",), "choice_pichain": ("pichain",),
          "choice_tie": ("tie",)}
CHAIN = """pim 1\ntask 1 10\ntask 2 20\ntask 3 90\nmutex 1 inherit\n1 lock 1\n3 lock 1\n2 try 1\n1 unlock 1\n"""
CHAIN_DONE = """Linux 9.1.2, glibc 2.36, CPU 0
1 granted
2 queued
  task 1 at 90
3 refused busy
4 handed 3
  task 1 at 10
performed 4
"""
# Task 3 is handed mutex 1, for which task 4 (50) waits, and loses that boost when its base is lowered. When task 5 waits
# for mutex 3 of task 3, this gets 50 back. So does task 2, unless the walk stops requeueing as another waiter is higher.
REQUEUED = """pim 1\ntask 1 10\ntask 2 20\ntask 3 60\ntask 4 50\ntask 5 5\nmutex 1 inherit\nmutex 2 inherit\nmutex 3 inherit
3 lock 3\n1 lock 1\n2 lock 2\n3 lock 1\n4 lock 1\n1 unlock 1\n3 lock 2\n1 base 3 15\n5 lock 3\n"""
LINE = "step 2 '3 lock 1': task 1 executes at 20, should at 90 (waiter 3 mutex 1)"


def conform(*arguments, pim=True, **how):
    """Returns status, output and errors of pim-conform."""
    words = [str(word) for word in arguments] + (["--pim", program()] if pim else [])
    status, out, err = answer([str(CONFORM / "pim-conform"), *words], **how)
    return status, out.decode(), err.decode()


def without_rights():
    resource.setrlimit(resource.RLIMIT_RTPRIO, (0, 0))


# ---- anywhere


# What the performer itself refuses, by docs/TEXT.md, and the line that it names. pim refuses most of it before.
DECLARED = "pim 1\ntask 1 10\nmutex 1 none\n"
REFUSED = {
    "nothing": ("", "line 1"), "another version": ("pim 3\n", "line 1"), "no version": ("task 1 10\n", "line 1"),
    "a task out of order": ("pim 1\ntask 2 10\n", "line 2"),
    "a mutex out of order": ("pim 1\nmutex 2 none\n", "line 2"),
    "a base of 0": ("pim 1\ntask 1 0\n", "line 2"), "a base of 100": ("pim 1\ntask 1 100\n", "line 2"),
    "the controller's base": ("pim 1\ntask 1 99\n", "line 2: priority 99 is the controller's"),
    "the controller's ceiling": ("pim 1\nmutex 1 protect 99\n", "line 2: priority 99 is the controller's"),
    "a task's rest": ("pim 1\ntask 1 10 x\n", "line 2"), "a mutex's rest": ("pim 1\nmutex 1 none x\n", "line 2"),
    "recursive in version 1": ("pim 1\nmutex 1 none recursive\n", "line 2"),
    "ceil in version 1": (f"{DECLARED}1 ceil 1 20\n", "line 4"), "a step's rest": (f"{DECLARED}1 lock 1 x\n", "line 4"),
    "a step without its mutex": (f"{DECLARED}1 lock\n", "line 4"), "an unknown step": (f"{DECLARED}1 wait 1\n", "line 4"),
    "the controller's priority": (f"{DECLARED}1 base 1 99\n", "line 4: priority 99 is the controller's, so it can't"),
    "that, with its reply": (f"{DECLARED}1 base 1 99 = set\n", "line 4: priority 99 is the controller's, so it can't"),
    "257 tasks": ("pim 1\n" + "".join(f"task {t} 10\n" for t in range(1, 258)), "line 258"),
    "257 mutexes": ("pim 1\n" + "".join(f"mutex {m} none\n" for m in range(1, 258)), "line 258"),
    "65537 steps": (DECLARED + "1 lock 1\n" * 65537, "line 65540"),
}


# ---- where SCHED_FIFO is permitted

def long_text(folder):
    """A text that takes a minute: each of its many steps looks at each of its many tasks."""
    path, tasks = folder / "long.pim", "".join(f"task {t} 10\n" for t in range(1, 201))
    path.write_text(f"pim 1\n{tasks}mutex 1 inherit\n" + "1 lock 1\n1 unlock 1\n" * 32000)
    return path


def names_of_threads(process):
    return {proc_text(f"{process}/task/{thread}", "comm").rstrip("\n") for thread in threads_of(process)}


def performs(process):
    """Returns whether a process is a performer that has its tasks' threads: it ends with pim-conform from then on."""
    is_performer = proc_text(process, "cmdline").split("\0")[0] == str(compare.PERFORMER)
    return is_performer and len(threads_of(process)) > 1


class Checks(ConformCase):
    def said(self, name, done, status, *wanted):
        """Compares the status, and looks for lines, or parts of them, in both outputs."""
        lacks = [line for line in wanted if line not in done[1] + done[2]]
        broke = "Traceback" in done[2] and done[2]
        self.check(name, difference(done[:1], (status,)) or (f"no '{lacks[0]}' in: {done[1]}{done[2]}" if lacks else broke))


class Compared(Checks):
    def test_the_set_as_linux_6_18_performed_it(self):
        """The set, as Linux 6.18 performed it."""
        status, out, _ = conform("--from", STORED, *TEXTS)
        self.check("the stored outputs differ as expected", difference((status,), (0,)) and out)
        for path in TEXTS:
            lines = [line.partition(f"{path}: ")[2] for line in out.splitlines() if line.startswith(f"{path}: ")]
            cause, _, _ = path.stem.partition("_")
            if cause == "agrees":
                self.equal(f"stored: {path.stem}", (lines,), (["agrees"],))
                continue
            seen = [line for line in lines if line.startswith("expected: step ")]
            sentence = [line for line in lines if line.startswith(f"{cause}: ")]
            self.check(f"stored: {path.stem}", difference((len(seen) + 1, len(sentence)), (len(lines), 1)) if seen else out)

    def test_the_model_has_each_cause(self):
        """The model does what each stored output has, with the habits of its cause alone."""
        for path in TEXTS:
            text = compare.Text(path.read_text())
            if text.lines[0] != "pim 1":
                continue
            done = compare.performance((STORED / f"{path.stem}.performed").read_text(), len(text.steps)).steps
            self.equal(f"cause: {path.stem}", (fuzz.causes_of(text, done),), (CAUSES.get(path.stem, ()),))

    def test_outputs_by_hand(self):
        """Outputs that are made by hand, and changed."""
        path, performed = self.folder / "chain.pim", self.folder / "chain.performed"
        path.write_text(CHAIN)
        cases = {
            "as it should be": ("", "", 0, [f"{path}: agrees", "1 agree"]),
            "a priority": ("task 1 at 90", "task 1 at 20", 1, [f"{path}: {LINE}", "1 differ"]),
            "a lost boost": ("  task 1 at 90\n", "", 1, ["task 1 executes at 10, should at 90 (waiter 3 mutex 1)"]),
            "a boost of a stranger": ("  task 1 at 90", "  task 1 at 90\n  task 2 at 90", 1,
                                      [": step 2 '3 lock 1': task 2 executes at 90, should at 20 (base)"]),
            "a stale boost": ("  task 1 at 10\n", "", 1, ["step 4 '1 unlock 1': task 1 executes at 90, should at 10 (base)"]),
            "a reply": ("handed 3", "handed 2", 1,
                        ["step 4 '1 unlock 1': the answer is handed 2, should be handed 3; later steps aren't compared"]),
            "what no reply tells": ("3 refused busy", "3 refused busy\n  ! task 3 left the wait for mutex 1 with EINTR", 1,
                                    ["step 3 '2 try 1': task 3 left the wait for mutex 1 with EINTR"]),
            "a cut output": ("performed 4\n", "", 2, ["isn't whole", "1 faults"]),
            "another count": ("performed 4", "performed 5", 2, ["isn't whole"]),
            "a step too few": ("3 refused busy\n", "", 2, ["isn't whole"]),
        }
        for name, (old, new, status, wanted) in cases.items():
            performed.write_text(CHAIN_DONE.replace(old, new, 1) if old else CHAIN_DONE)
            self.said(f"an output with {name}", conform("--from", self.folder, path), status, *wanted)

    def test_expectations_are_of_one_kernel(self):
        """The file beside a text is that of the kernel and of no other."""
        path, performed = self.folder / "chain.pim", self.folder / "chain.performed"
        path.write_text(CHAIN)
        performed.write_text(CHAIN_DONE.replace("task 1 at 90", "task 1 at 20"))
        beside = self.folder / "chain.linux-9.1"
        beside.write_text(f"# kernel: a test\n{LINE}\n")
        self.said("an expected difference", conform("--from", self.folder, path), 0, f"expected: {LINE}", "kernel: a test",
                  "1 differ as expected")
        performed.write_text(CHAIN_DONE)
        self.said("an expected difference that isn't seen", conform("--from", self.folder, path), 1, f"not seen: {LINE}", "1 differ")
        beside.write_text(f"# kernel: a test\n{LINE.replace('20', '30')}\n")
        performed.write_text(CHAIN_DONE.replace("task 1 at 90", "task 1 at 20"))
        self.said("another difference than the expected", conform("--from", self.folder, path), 1, f"{path}: {LINE}", "not seen: ")
        beside.rename(self.folder / "chain.linux-9.2")
        self.said("what is expected of another kernel", conform("--from", self.folder, path), 1, f"{path}: {LINE}", "1 differ")

    def test_a_wrong_priority_is_told_when_it_begins(self):
        """A task at a wrong priority is told when it begins, and again when it was right in between."""
        text = compare.Text("pim 1\ntask 1 10\nmutex 1 none\n1 lock 1\n1 unlock 1\n1 lock 1\n1 unlock 1\n")
        right = [compare.Done("granted", {}, {}, [])] * 4
        at = [compare.Done("granted", {1: p} if p else {}, {}, []) for p in (20, 0, 10, 30)]
        got = [line.partition(":")[0] for line in compare.differences(text, at, right)]
        replies = compare.Text("pim 1\ntask 1 10\nmutex 1 none\n1 lock 1 = queued\n").bare()
        self.equal("recorded replies are left out", (replies.splitlines()[-1],), ("1 lock 1",))
        self.equal("a wrong priority is told once", (got,), (["step 1 '1 lock 1'", "step 4 '1 unlock 1'"],))

    def test_the_walk_without_habits_is_what_pim_reports(self):
        """The walk without habits is what pim reports, on random texts; and with a habit it isn't, on some."""
        rng, wrong, apart = random.Random(11), None, dict.fromkeys(HABITS, 0)
        for number in range(200):
            text = compare.Text(fuzz.random_source(rng, list(fuzz.KINDS)[number % 2]))
            reported = compare.reported(program(), text)
            if not fuzz.same(Walk(text).run(), reported):
                wrong = wrong or text.bare()
            for habit in HABITS:
                apart[habit] += not fuzz.same(Walk(text, frozenset([habit])).run(), reported)
        self.check("the mended walk agrees with pim on 200 random texts", wrong)
        common = ("toptask", "raise", "leak", "owntry", "queue", "pichain")
        self.check("each common habit shows in random texts", None if all(apart[it] for it in common) else str(apart))
        text = compare.Text(REQUEUED)
        ends = [Walk(text, frozenset(habits)).run()[-1] for habits in ({"toptask"}, {"toptask", "stop"})]
        self.check("a walk that looks for deadlocks goes on requeueing, but for its habit",
                   difference(tuple(it.changes for it in ends), ({2: 50, 3: 50}, {3: 50})))

    def test_nothing_is_left_that_can_be_left_out(self):
        """Nothing is left that can be left out; tasks and mutexes are numbered anew."""
        rng = random.Random(3)
        source = fuzz.random_source(rng, "mixed", 6, 30) + "5 lock 2\n3 base 5 7\n"

        def still(text):
            return re.search(r"^(\d) lock \d\n(.*\n)*\d base \1 7$", text, re.M) is not None
        small = fuzz.shrunk(source, still, time.monotonic() + SECONDS)
        declared = [line.split()[0] for line in small.splitlines()[1:-2]]
        self.check("a text is made smaller", None if declared in (["task", "task", "mutex"], ["task", "mutex"]) else small)
        self.check("a smaller text is one that pim reads", None if compare.reported(program(), compare.Text(small)) else small)

    def test_faults_and_the_command_line(self):
        """What can't be compared, and the command line."""
        bad, high = self.folder / "bad.pim", self.folder / "high.pim"
        bad.write_text("pim 1\ntask 2 10\n")
        high.write_text("pim 1\ntask 1 99\n")
        self.said("a text that isn't a trace", conform(bad), 2, "not compared: pim: line 2")
        self.said("no such text", conform(self.folder / "none.pim"), 2, "not compared: ")
        self.said("an output that isn't stored", conform("--from", self.folder, TEXTS[0]), 2, "not compared: ")
        self.said("a pim that isn't there", conform(TEXTS[0], "--pim", self.folder / "none", pim=False), 2, "No such file")
        self.said("--help", conform("--help", pim=False), 0, "Status:", "--fuzz SECONDS", "NAME.linux-6.18", "CAP_SYS_NICE")
        for name, words in {"no argument": [], "files and --fuzz": [bad, "--fuzz", "1"], "--seconds 0": ["--seconds", "0", bad],
                            "--from and --keep": [bad, "--from", self.folder, "--keep", self.folder], "an option": ["--nothing"]}.items():
            self.said(f"arguments: {name}", conform(*words, pim=False), 2, "usage: pim-conform")

    def test_the_performer_refuses_what_is_no_text(self):
        """The performer refuses a text that isn't one, and its own arguments, before it needs rights."""
        for name, (source, wanted) in REFUSED.items():
            status, out, err = answer([str(compare.PERFORMER)], source.encode())
            rest = err.decode().partition(f"perform: {wanted}")
            exact = rest[1] and (":" in wanted or rest[2] == "\n")
            self.equal(f"the performer refuses {name}", (status, out), (2, b"")) or (None if exact else str(err))
        most = 1023  # CPU_SETSIZE - 1
        for words, wanted in {("--cpu", "x"): f"'x' isn't a number from 0 to {most}", ("--seconds", "0"): "from 1 to 3600",
                              ("--cpu", "1024"): f"to {most}", ("--seconds", "3601"): "from 1 to 3600",
                              ("--cpu", ""): "'' isn't a number", ("--nothing",): "--nothing"}.items():
            status, out, err = answer([str(compare.PERFORMER), *words], b"pim 1\n")
            got = (status, out, wanted in err.decode())
            self.equal(f"the performer's arguments: {' '.join(words)}", got, (2, b"", True))
        got = answer([str(compare.PERFORMER), "--marks", "/none/marks"], b"pim 1\n")
        self.equal("the performer's file of marks", got, (2, b"", b"perform: /none/marks: No such file or directory\n"))
        for words in (("--cpu", "0"), ("--cpu", str(most)), ("--seconds", "1"), ("--seconds", "3600")):
            got = answer([str(compare.PERFORMER), *words], b"pim 3\n")
            self.equal(f"the performer takes {' '.join(words)}", got, (2, b"", b"perform: line 1\n"))

    def test_without_the_right_to_SCHED_FIFO(self):
        """Without the right to SCHED_FIFO: the status 77, and what is missing."""
        if not shutil.which("setpriv"):
            return self.skip("no rights", "there is no setpriv")
        command = ["setpriv", "--bounding-set", "-sys_nice", "--inh-caps", "-sys_nice"]
        if subprocess.run([*command, "true"], capture_output=True).returncode:
            command = []
        status, out, err = answer([*command, CONFORM / "pim-conform", "--pim", program(), TEXTS[0]], preexec_fn=without_rights)
        self.said("no rights", (status, out.decode(), err.decode()), 77, "CAP_SYS_NICE", "nothing was performed")


class Performed(Checks):
    @classmethod
    def setUpClass(cls):
        if conform(TEXTS[0])[0] == 77:
            raise unittest.SkipTest("SCHED_FIFO isn't permitted")

    def test_the_set(self):
        """The set, performed now."""
        if not is_known():
            return self.skip("the set is performed", "what is expected of this kernel isn't known")
        status, out, err = conform("--keep", self.folder, *TEXTS)
        self.check("the set is performed and differs as expected", (difference((status,), (0,)) and out) or err or None)
        for path in TEXTS:
            first, *lines = (self.folder / f"{path.stem}.performed").read_text().splitlines()
            _, *before = (STORED / f"{path.stem}.performed").read_text().splitlines()
            self.equal(f"performed: {path.stem}", (lines, len(first.split())), (before, 6))

    def test_a_thread_that_sleeps_late_is_not_at_rest(self):
        """A thread that shows that it sleeps before it does isn't taken to be at rest."""
        library = self.folder / "delayed.so"
        command = ["cc", "-std=c11", "-O2", "-Wall", "-Wextra", "-Werror", "-shared", "-fPIC"]
        subprocess.run([*command, ROOT / "tests/conform/delayed.c", "-o", library], check=True)
        environment = {**os.environ, "LD_PRELOAD": str(library)}
        for name in ("agrees_timeout_of_first_waiter", "agrees_timeout_within_chain"):
            command = [compare.PERFORMER, "--cpu", str(last_cpu())]
            _, out, _ = answer(command, (SET / f"{name}.pim").read_bytes(), env=environment)
            _, *wanted = (STORED / f"{name}.performed").read_text().splitlines()
            self.equal(f"tasks that are delayed: {name}", (out.decode().splitlines()[1:],), (wanted,))

    def test_marks(self):
        """The performer writes each step to the file of --marks."""
        file, name = self.folder / "marks", "agrees_refusals"
        command = [compare.PERFORMER, "--cpu", str(last_cpu()), "--marks", file]
        answer(command, (SET / f"{name}.pim").read_bytes())
        steps = compare.Text((SET / f"{name}.pim").read_text()).steps
        wanted = [f"step {number} '{words}'" for number, words in enumerate(steps, 1)]
        self.equal("the performer marks each step", (file.read_text().splitlines(),), (wanted,))
        status, _, err = answer([*command[:-1], "/dev/full"], b"pim 1\ntask 1 10\n1 lock 1\n")
        said = (status, b"the file of --marks: No space left" in err)
        self.equal("marks that can't be written", said, (2, True))

    def test_random_texts_on_which_the_model_agrees(self):
        """100 random texts on which the model of the system, with all habits, agrees with pim."""
        rng, texts = random.Random(5), []
        while len(texts) < 100:
            text = compare.Text(fuzz.random_source(rng, list(fuzz.KINDS)[len(texts) % 2]))
            if fuzz.same(Walk(text, frozenset(HABITS)).run(), compare.reported(program(), text)):
                texts.append(text)
        found = []
        for text in texts:
            done = compare.performance(compare.performed(text, last_cpu(), SECONDS), len(text.steps))
            found += compare.differences(text, done.steps, compare.reported(program(), text))
        self.check("100 random texts are performed without a difference", found[0] if found else None)

    def test_the_model_predicts_linux(self):
        """The model with all habits does what Linux does: random texts, and those that a habit changes."""
        if not is_known():
            return self.skip("the model predicts random texts", "what is expected of this kernel isn't known")
        rng, texts, left = random.Random(9), [], dict.fromkeys(HABITS, 4)
        for number in range(600):
            text = compare.Text(fuzz.random_source(rng, list(fuzz.KINDS)[number % 2]))
            done = Walk(text, frozenset(HABITS)).run()
            shown = [habit for habit in HABITS if left[habit] and not
                     fuzz.same(Walk(text, frozenset(HABITS) - {habit}).run(), done)]
            left.update({habit: left[habit] - 1 for habit in shown})
            if shown or number < 40:
                texts.append((text, done))
        wrong = None
        for text, done in texts:
            real = compare.performance(compare.performed(text, last_cpu(), SECONDS), len(text.steps)).steps
            if not fuzz.same(real, done) or any(it.others for it in real):
                wrong = wrong or text.bare()
        self.check("the model predicts random texts", wrong)

    def test_each_difference_has_a_known_cause(self):
        """Until a difference is found: each has a known cause, and the smallest texts are kept."""
        for seconds in (4, 40, 240):
            done = conform("--fuzz", seconds, "--seed", "2", "--keep", self.folder, seconds=2 * SECONDS)
            if HABITS["raise"] in done[1]:
                break
        self.said("--fuzz", done, 0, "random texts, seed 2: ", " 0 of them unexplained", "raise", HABITS["raise"])
        kept = sorted(self.folder.glob("*.pim"))
        self.said("a kept text differs as expected", conform(*kept), 0, f"{len(kept)} differ as expected")

    def test_the_performer_is_bound_to_its_cpu(self):
        """The performer is bound to the CPU that it is given, and its threads have their tasks' names."""
        with open(long_text(self.folder)) as text, subprocess.Popen(
                [compare.PERFORMER, "--cpu", str(last_cpu()), "--seconds", "300"], stdin=text,
                stdout=subprocess.DEVNULL) as child:
            bound = re.compile(rf"^Cpus_allowed_list:\s*{last_cpu()}$", re.M)
            is_bound = until(lambda: bound.search(proc_text(child.pid, "status")))
            wanted = {"perform", *(f"task {number}" for number in range(1, 201))}
            are_named = until(lambda: names_of_threads(child.pid) == wanted)
            child.kill()
        self.check("the performer's threads have names", None if are_named else "they haven't")
        self.check("the performer is bound to its CPU", None if is_bound else "it isn't")

    def test_watchdogs(self):
        """The watchdog of the performer, and that of pim-conform."""
        self.said("the performer's watchdog", conform(long_text(self.folder), "--seconds", "1"), 2, "in time")
        stub, kept = self.folder / "stub", (compare.PERFORMER, compare.GRACE)
        stub.write_text("#!/bin/sh\nexec sleep 100\n")
        stub.chmod(0o755)
        compare.PERFORMER, compare.GRACE = stub, 0
        try:
            compare.performed(compare.Text(CHAIN), 0, 1)
            self.check("a performer that hangs is ended", "it was waited for")
        except compare.Fault as fault:
            self.equal("a performer that hangs is ended", (str(fault),), ("stub didn't end within 1 s",))
        finally:
            compare.PERFORMER, compare.GRACE = kept

    def test_a_signal_ends_it_and_its_threads(self):
        """A signal ends it, and its threads with it."""
        path = long_text(self.folder)
        for number, status in ((signal.SIGTERM, 143), (signal.SIGINT, 130), (signal.SIGHUP, 129), (signal.SIGKILL, -9)):
            command = [CONFORM / "pim-conform", "--pim", program(), "--seconds", "300", path]
            with subprocess.Popen(command, stdout=subprocess.DEVNULL, stderr=subprocess.PIPE,
                                  preexec_fn=lambda: signal.signal(signal.SIGINT, signal.default_int_handler)) as child:
                performers = until(lambda: list(filter(performs, children_of(child.pid))))
                child.send_signal(number)
                got, err = ended(child), child.stderr.read()
                until(lambda: all(map(is_gone, performers)))
                left = [process for process in performers if not is_gone(process)]
                why = "no performer was seen" if not performers else f"it left {left}" if left else None
                self.check(f"ended by {number.name}", why or difference((got, err), (status, b"")))
