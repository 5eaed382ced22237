"""Builds the rt-mutex of a Linux source for user space, and lets it perform texts and calls."""
import pathlib
import re
import subprocess

import builds
import compare
from walk import Walk

HEADERS = ("debug_locks", "export", "rtmutex", "sched", "sched/deadline", "sched/debug", "sched/rt",
           "sched/signal", "sched/wake_q", "spinlock", "ww_mutex")
KINDS = {"lock": 0, "try": 1, "unlock": 2, "cancel": 3, "base": 4}
FLAGS = ["-std=gnu11", "-O2", "-Wall", "-Wextra"]
OF_KERNEL = ["-w", "-Werror=implicit-function-declaration"]


def run(command, text=None):
    done = subprocess.run(command, input=text, capture_output=True, text=True)
    if done.returncode:
        said = (done.stdout + done.stderr).strip().splitlines() or ["it failed"]
        name = pathlib.Path(command[0]).name
        raise compare.Fault(f"{name}: {builds.trouble(chr(10).join(said))}")
    return done.stdout


# ---- the program

def build(source, ways, folder):
    """Builds the walker in a new folder, with the changes for these ways. Returns the program."""
    for name in [*(f"linux/{name}.h" for name in HEADERS), "trace/events/lock.h"]:
        path = folder / "include" / name
        path.parent.mkdir(parents=True, exist_ok=True)
        path.write_text("")
    for name in (*builds.CHANGED, "rtmutex_common.h"):
        file = source / builds.FOLDER / name
        if not file.is_file():
            raise compare.Fault(f"{file} isn't there: it isn't the folder of a Linux source")
        is_changed = ways and name in builds.CHANGED
        (folder / name).write_bytes(builds.mended(file, ways) if is_changed else file.read_bytes())
    here, program = builds.HERE / "walker", folder / "walker"
    flags = [*FLAGS, "-include", here / "kernel.h", "-I", folder / "include", "-I", folder]
    common = (folder / "rtmutex_common.h").read_text()
    flags += ["-DHAS_WAKE_Q"] if re.search(r"start_proxy_lock\([^)]*wake_q", common) else []
    run(["cc", *flags, *OF_KERNEL, "-c", folder / "rtmutex_api.c", "-o", folder / "rtmutex.o"])
    run(["cc", *flags, here / "walker.c", folder / "rtmutex.o", "-o", program])
    return program


# ---- what it is given

def calls_of(words, owners=()):
    """Returns what a step of a text calls, as the walker reads it."""
    actor, request, *numbers = words.split()
    if request == "release":
        owned = [m for m, owner in enumerate(owners) if owner == int(actor)]
        return [f"{KINDS['unlock']} {actor} {m}" for m in owned]
    first, second = {"base": numbers, "cancel": [*numbers, 0]}.get(request, [actor, *numbers])
    return [f"{KINDS[request]} {first} {second}"]


def steps_of(text):
    """Returns the calls of each step. Who waits calls nothing."""
    walk, steps = Walk(text), []
    for words in text.steps:
        calls = calls_of(words, walk.owner)
        steps.append(calls if walk.step(words.split()) != "refused waiting" else [])
    return steps


def given(text, steps, programs=()):
    """Returns the walker's input."""
    tasks = [str(text.bases[t]) for t in sorted(text.bases)]
    mutexes = sum(line.startswith("mutex ") for line in text.lines)
    parts = [sum(steps, [])]
    parts += [[call for words in its.split("; ") for call in calls_of(words)] for its in programs]
    lines = [f"{len(tasks)} {' '.join(tasks)}", str(mutexes)]
    for number, calls in enumerate(parts):
        lines += [str(len(programs))] * (number == 1) + [str(len(calls)), *calls]
    return "".join(f"{line}\n" for line in lines + ["0"] * (not programs))


# ---- what it does

def performed(program, text):
    """Returns the priorities behind each step of a text, in the order of the tasks."""
    steps, tasks = steps_of(text), len(text.bases)
    states = run([program], given(text, steps)).splitlines()
    found = [[text.bases[t] for t in sorted(text.bases)]]
    found += [[int(it) for it in line.split()[:2 * tasks:2]] for line in states]
    ends = [sum(map(len, steps[:number])) for number in range(1, len(steps) + 1)]
    return [found[end] for end in ends]


def orders(program, text, programs, number, seed=None):
    """Performs calls behind a text in all orders with at most so many switches, or, with a seed, in
    so many random ones. Returns how many end wrong, and of how many."""
    command = [program, str(number), *([str(seed)] if seed else [])]
    said = run(command, given(text, steps_of(text), programs)).splitlines()[-1]
    return tuple(map(int, re.match(r"(\d+) of (\d+)", said).groups()))
