"""Random scripts, for SOAK_SECONDS seconds, by default 5.

crates/pim_soak runs scripts while wait-free readers read all the time, and compares replies and reads
with the plain manager. Meanwhile random scripts go through 'pim run'. Each trace that it prints must
have the lines of each task in order. 'pim judge' must accept it, and write the same bytes as the judge
in C++ (bench/judge.cpp). 'pim check' must accept as many steps. Before that, crates/pim_soak runs the
scripts of two seeds with mistakes put into what it compares, and must find each, and scripts of 16 tasks
that lock two mutexes in opposite orders.
"""
import itertools
import os
import random
import re
import subprocess
import time

from tests.cases import Case, temporary_folder
from tests.shared.checks import ROOT, SECONDS as HANGS, answer, compiled, difference, program, soak

SECONDS = int(os.environ.get("SOAK_SECONDS", "5"))

# How many differences crates/pim_soak must find: a wrong base is a wrong effective priority, too; an owner has a count; a
# waiter also has a mutex, a place in a queue and a ticket.
PLANTED = "nothing 0\nreply 1\npriority 1\nreason 1\nbase 2\nowner 2\nwait 5\nceiling 1\n"
# Their scenes have two tasks or more, a NONE mutex and a PROTECT mutex.
PLANTED_SEEDS = "4", "5"


def some_step(draw, version, task, tasks, mutexes):
    """Returns a line of the task: mostly a lock or an unlock of a declared mutex."""
    mutex = draw.randint(1, mutexes + (draw.random() < 0.05))
    other = draw.randint(1, tasks + (draw.random() < 0.05))
    kinds = ["lock"] * 9 + ["unlock"] * 6 + ["try"] * 2 + ["release", "cancel", "base"]
    kinds += ["ceil"] if version == 2 else []
    kind = draw.choice(kinds)
    level = draw.randint(1, 105)
    operands = {"release": "", "cancel": f" {other}", "base": f" {other} {level}"}
    operands["ceil"] = f" {mutex} {level}"
    return f"{task} {kind}" + operands.get(kind, f" {mutex}")


def some_script(seed):
    """Returns a script of random shape: its declarations, and its step lines."""
    draw = random.Random(seed)
    version, tasks, mutexes = draw.choice([1, 2]), draw.randint(1, 16), draw.randint(1, 8)
    protocols = ["none", "inherit", "inherit", "inherit", f"protect {draw.randint(40, 99)}"]
    protocols += ["inherit recursive"] * 2 if version == 2 else []
    declared = [f"task {task} {draw.randint(1, 99)}" for task in range(1, tasks + 1)]
    declared += [f"mutex {mutex} {draw.choice(protocols)}" for mutex in range(1, mutexes + 1)]
    actors = [draw.randint(1, tasks) for _ in range(draw.randint(0, 20 * tasks))]
    steps = [some_step(draw, version, actor, tasks, mutexes) for actor in actors]
    return [f"pim {version}", *declared], steps


def by_task(lines):
    """Returns the lines of each task, in order."""
    lines = sorted(lines, key=actor)
    return {task: list(own) for task, own in itertools.groupby(lines, actor)}


def actor(line):
    return int(line.partition(" ")[0])


def said(command, text):
    """Returns status and both outputs of the command, as text."""
    status, out, err = answer(command, text.encode())
    return status, out.decode(), err.decode()


def wrong(pim, judge, declared, steps):
    """Returns what is wrong with a run of the script, or None."""
    text = "".join(f"{line}\n" for line in declared + steps)
    status, trace, err = said([pim, "run"], text)
    if status or err:
        return f"run: status {status}, {err}"
    lines = trace.splitlines()
    entries = [line.partition(" = ")[0] for line in lines[len(declared) :]]
    tasks = sum(line.startswith("task ") for line in declared)
    expected = by_task(steps + [f"{task} release" for task in range(1, tasks + 1)])
    last = f"accepted {len(entries)}\n"
    if lines[: len(declared)] != declared or by_task(entries) != expected:
        return "the trace isn't one of the script"
    if " = refused waiting\n" in trace:
        return "a task asked for something while it waited"
    judged = said([pim, "judge"], trace)
    if (judged[0], judged[1].endswith(last), judged[2]) != (0, True, ""):
        return f"judge: status {judged[0]}, {judged[1][-60:]!r}"
    why = difference(said([judge], trace), judged)
    return why or difference(said([pim, "check"], text), (0, last, ""))


def wrong_figures(figures, status):
    """Returns what is wrong with the figures of crates/pim_soak, or None."""
    counts = [int(count) for count in re.findall(r"[0-9]+", figures)]
    if status or len(counts) != 8 or counts[-1]:
        return f"status {status}"
    return None if all(counts[:-1]) else "a figure is 0, as where no task waits for another"


def said_of_reads(child):
    """Returns what the child prints. The child is killed if it hangs."""
    try:
        return child.communicate(timeout=HANGS)[0].strip()
    except subprocess.TimeoutExpired:
        child.kill()
        return child.communicate()[0].strip()


class Soak(Case):
    @classmethod
    def setUpClass(cls):
        cls.soak = soak()

    def test_mistakes_in_a_run_are_found(self):
        for seed in PLANTED_SEEDS:
            self.equal(f"seed {seed}", said([self.soak, "planted", seed], ""), (0, PLANTED, ""))

    def test_16_tasks_in_opposite_orders_beside_readers(self):
        """Each of the 16 makes five steps, and each of 8 readers at least 1,000 reads."""
        status, out, _ = said([self.soak, "opposite"], "")
        found = re.fullmatch(r"1 scripts, 80 steps .*, ([0-9]+) looks .*, 0 differences\n", out)
        self.assertTrue(status == 0 and found and int(found[1]) >= 8_000, f"status {status}, {out}")

    def test_random_scripts_beside_readers(self):
        pim, judge = program(), compiled(ROOT / "bench/judge.cpp", temporary_folder(self.addCleanup))
        seed, scripts, why = random.randrange(2**32), 0, None
        readers = subprocess.Popen([self.soak, str(SECONDS), str(seed)], stdout=subprocess.PIPE, text=True)
        end = time.monotonic() + SECONDS
        while time.monotonic() < end and not why:
            why = wrong(pim, judge, *some_script(seed + scripts))
            scripts += 1
        figures = said_of_reads(readers)
        self.check(f"{scripts} scripts by pim run", f"seed {seed + scripts - 1}: {why}" if why else None)
        why = wrong_figures(figures, readers.returncode)
        self.check(f"by pim_soak: {figures}", f"seed {seed}: {why}" if why else None)
