"""The kernel's events: recordings where the rights are, and stored and hand-made files."""
import fcntl
import functools
import os
import pathlib
import re
import resource
import shutil
import signal
import subprocess
import sys
import tempfile
import time
from unittest import mock

from tests.cases import Case
from tests.shared.checks import (ROOT, SECONDS, children_of, difference, ended, is_gone, orphan_of,
                                 proc_text, stat_of, until)
from tests.record.test_collector import run, without_imports
from tests.record.logs import reader, setUpModule, without_end

RECORD = ROOT / "record"
PROGRAMS = RECORD / "out/programs"
STORED = RECORD / "recorded"

sys.path.insert(0, str(RECORD))
import kernel_text


def faults_of(data):
    return kernel_text.Checker(kernel_text.KernelText(data)).run()


class Tracefs:
    """The folder of tracefs's instances, which is mounted for the tests where it isn't."""

    def __init__(self):
        self.others = set()
        self.folder, self.instances = None, pathlib.Path("/sys/kernel/tracing/instances")
        if not os.path.isdir(self.instances):
            self.folder = tempfile.mkdtemp()
            self.instances = pathlib.Path(self.folder, "instances")
            run("mount", "-t", "tracefs", "none", self.folder)
        self.missing = None if os.access(self.instances, os.W_OK) else "no rights, or no tracefs"

    def names(self):
        return sorted(path.name for path in self.instances.iterdir())

    def own(self):
        """Returns the instances of recordings, but for those that were seen while another's process had them."""
        found = [name for name in self.names() if name.startswith("pim-record-")]
        processes = {name: int(name.split("-")[2]) for name in found}
        self.others |= {name for name in found if not is_descendant(processes[name]) and not is_gone(processes[name])}
        return [name for name in found if name not in self.others]

    def all_but_others(self):
        """Returns all instances but those of others' recordings, which come and go meanwhile."""
        names = self.names()
        self.own()
        return [name for name in names if name not in self.others]

    def end(self):
        if self.folder:
            run("umount", self.folder)
            os.rmdir(self.folder)  # never what is in it


class Recording:
    """A run with --kernel in a folder, its log and its kernel's events."""

    def __init__(self, folder, *command, options=(), **how):
        path = pathlib.Path(folder, "run")
        self.done = run(RECORD / "pim-record", "--kernel", "-o", path, *options, *command, **how)
        self.status = self.done.returncode
        self.log = reader.Log(reader.used_bytes(path)) if path.exists() else None
        self.file = pathlib.Path(f"{path}.kernel")
        self.data = self.file.read_bytes() if self.file.exists() else None

    def fault(self, status=0):
        if self.status != status or self.data is None:
            return f"status {self.status}: {self.done.stdout}{self.done.stderr}"
        return next(iter(faults_of(self.data)), None)


class Told:
    """A recording's events with the names of tasks and the priorities of POSIX."""

    def __init__(self, data):
        text = kernel_text.KernelText(data)
        self.events, self.names = text.events, {}
        for event in text.events:
            if event.what == "name":
                self.names[event.values[0]] = event.values[1]

    def of(self, what, task=None):
        return [event for event in self.events
                if event.what == what and task in (None, self.names.get(event.task))]

    def boosts(self):
        return [(self.names.get(event.values[0]), 99 - event.values[1], 99 - event.values[2])
                for event in self.of("setprio")]


# ---- with the rights

# By POSIX: the owner has the highest priority of those that wait, along the chain, until it unlocks.
BOOSTS = {"inversion inherit": [("low", 10, 30), ("low", 30, 10)], "inversion none": [],
          "chain": [("low", 10, 20), ("middle", 20, 30), ("low", 20, 30), ("low", 30, 10), ("middle", 30, 20)]}


# ---- programs without a log

SAYS_ITS_VARIABLES = """\
#include <stdio.h>
#include <string.h>
int main(int count, char **arguments, char **variables) {
    for (; *variables; variables++)
        if (strncmp(*variables, "PIM_", 4) == 0 || strstr(*variables, "libpim_record")) puts(*variables);
    return count == 1 && arguments ? 2 : 1;
}
"""
OTHERS = "pim-record: {path} is {what}: only the kernel's events are recorded\n"


def compiled(folder, name, source, *flags):
    """Returns a program of this source, or None if it can't be made."""
    path = pathlib.Path(folder, name)
    return None if run("cc", "-O2", "-pthread", source, *flags, "-o", path).returncode else path


STARTED = []


def start(*words, **how):
    """Starts a process that end_started ends."""
    pipes = {"stdout": subprocess.PIPE, "stderr": subprocess.PIPE, "text": True}
    STARTED.append(subprocess.Popen([str(word) for word in words], **pipes, **how))
    return STARTED[-1]


def started(folder, *command, options=(), **how):
    """Starts a recording, and returns its process, which is the shell of pim-record at first."""
    return start(RECORD / "pim-record", "--kernel", "-o", pathlib.Path(folder, "run"), *options, *command, **how)


def end_started():
    """Ends the processes that a part has left, as one that broke off."""
    for child in STARTED:
        if child.poll() is None:
            child.kill()
            ended(child)
    STARTED.clear()


def first_line(child):
    """Waits for the first line that the recorded program prints."""
    return child.stdout.readline().strip()


END_MISSING = "the end is missing: the recorder was killed, or goes on"
SAYS_AND_SLEEPS = "trap 'echo told; exit 5' INT TERM; echo $$; while :; do sleep 0.05; done"


def parent_of(process):
    """Returns the number of a process's parent, or 0 if the process is gone."""
    fields = stat_of(process)
    return int(fields[1]) if fields else 0


def is_descendant(process):
    """Returns whether this process started the other, or one of its ancestors."""
    while process not in (0, os.getpid()):
        process = parent_of(process)
    return process != 0


def exe_of(process):
    """Returns the path of the file that a process executes, or nothing if the process is gone."""
    try:
        return os.readlink(f"/proc/{process}/exe")
    except (FileNotFoundError, ProcessLookupError, PermissionError):
        return ""


def program_of(child):
    """Returns the process in which a recording executed its program, or None if it hasn't yet.

    Until the shell of pim-record is pim-launch, what it has started are its own helpers.
    """
    if not exe_of(child.pid).endswith("pim-launch"):
        return None
    files = {process: exe_of(process) for process in children_of(child.pid)}
    return next((process for process, file in files.items() if file and not file.endswith("pim-launch")), None)


def guard_of(recorder):
    """Returns the process of a recording that removes the instance when the recorder is gone. It names itself."""
    found = lambda: [process for process in children_of(recorder) if proc_text(process, "comm") == "pim-guard\n"]
    guard, = until(found)
    return guard


def pauses_of(process):
    """Returns how often a process has waited, or given up its CPU, and 0 if it is gone."""
    found = re.search(r"^voluntary_ctxt_switches:\s*(\d+)$", proc_text(process, "status"), re.M)
    return int(found[1]) if found else 0


def overwritten(instance):
    """Returns how many events an instance has overwritten, on all CPUs."""
    texts = [path.read_text() for path in instance.glob("per_cpu/cpu*/stats")]
    return sum(int(number) for text in texts for number in re.findall(r"^overrun: (\d+)$", text, re.M))


# ---- stored and hand-made files

BY_HAND = """\
pim-kernel 1
kernel 6.18.44 x86_64
clock mono
process 100
began 1000
cpus 2
2000 0 100 name 100 ./p
2000 0 100 name 101 lo\\x20w
2000 0 100 switch 49 S 101 89
2500 1 102 lock 0x5000 private
2600 1 102 setprio 101 89 69
2700 1 102 switch 69 S 0 120
2800 0 101 unlock 0x5000 private
2900 0 101 setprio 101 69 89
3000 0 101 return 0
3100 1 0 switch 120 R 102 69
3200 1 102 return -35
end 4000 9 0
"""
LINES = """\
# process 100, Linux 6.18.44 x86_64, 2 CPUs, clock mono
0.000001000 cpu0 ./p[100] switch priority=50 state=S next=lo\\x20w[101] next-priority=10
0.000001500 cpu1 [102] lock mutex=0x5000 private
0.000001600 cpu1 [102] setprio task=lo\\x20w[101] old=10 new=30
0.000001700 cpu1 [102] switch priority=30 state=S next=[0] next-priority=other
0.000001800 cpu0 lo\\x20w[101] unlock mutex=0x5000 private
0.000001900 cpu0 lo\\x20w[101] setprio task=lo\\x20w[101] old=30 new=10
0.000002000 cpu0 lo\\x20w[101] return result=0
0.000002100 cpu1 [0] switch priority=other state=R next=[102] next-priority=30
0.000002200 cpu1 [102] return result=-35
"""
COUNTED = "0 faults in 9 events of 4 tasks: 3 switches, 2 set priorities, 4 of futex, 0 wakes; 0 lost; clock mono\n"
# What is changed in the file by hand, and the fault that is to be found.
LAWS = {
    "a time that is before": ("2600 1", "2400 1", "line 11: its time is before"),
    "a time before the beginning": ("2000 0 100 name 100", "900 0 100 name 100", "line 7: its time is before"),
    "an end that is before": ("end 4000", "end 3100", "the end is before"),
    "an end that counts less": ("end 4000 9 0", "end 4000 8 0", "counts 8 events, and there are 9"),
    "an end that counts lost events": ("end 4000 9 0", "end 4000 9 1", "counts 1 lost events, and the lines 0"),
    "no end": ("end 4000 9 0\n", "", "the end is missing"),
    "a line behind the end": ("end 4000 9 0\n", "end 4000 9 0\n4000 0 101 return 0\n", "line 19: it follows the end"),
    "a part of a line behind the end": ("end 4000 9 0\n", "end 4000 9 0\n40", "the last line isn't whole"),
    "lost events that the end doesn't count": ("2600 1 102 setprio 101 89 69", "2600 1 0 lost 4 2500",
                                               "counts 0 lost events, and the lines 4"),
    "a second end": ("end 4000 9 0\n", "end 4000 9 0\n" * 2, "line 19: it follows the end"),
    "a CPU too many": ("2000 0 100 switch", "2000 2 100 switch", "there is no CPU 2"),
    "a return from no call": ("3000 0 101 return 0", "3000 0 101 return 0\n" * 2, "returns from no call"),
    "a call within a call": ("2600 1 102 setprio 101 89 69", "2600 1 102 trylock 0x5000 shared", "hasn't returned"),
    "a task that doesn't run": ("2800 0 101", "2800 0 100", "task 100 isn't the one that runs on CPU 0"),
    "another clock": ("clock mono", "clock local", "the clock local isn't that of the log"),
    "a stretch of nothing": ("2600 1 102 setprio 101 89 69", "2600 1 0 lost 0 2500", "no such stretch"),
    "a stretch that ends before": ("2600 1 102 setprio 101 89 69", "2600 1 0 lost 4 2700", "no such stretch"),
    "a stretch from before the beginning": ("2600 1 102 setprio 101 89 69", "2600 1 0 lost 4 900", "no such stretch"),
    "an unknown event": ("2500 1 102 lock", "2500 1 102 wait", "line 10: it has no form"),
    "a leading zero": ("2500 1 102 lock", "02500 1 102 lock", "line 10: it has no form"),
    "two spaces": ("2500 1 102 lock", "2500 1  102 lock", "line 10: it has no form"),
    "a word too many": ("return -35", "return -35 0", "line 17: it has no form"),
    "a priority that isn't one": ("switch 49 S", "switch 141 S", "line 9: it has no form"),
    "a state that isn't one": ("switch 49 S", "switch 49 Q", "line 9: it has no form"),
    "an empty line": ("2500 1 102 lock", "\n2500 1 102 lock", "line 10: it has no form"),
}
NEXT_OF_NUMBER = "3200 1 102 lock 0x5000 private\n3300 1 102 return 0"
# What is changed, and breaks no law.
GOOD = {
    "a task that dies in a call": ("switch 69 S 0 120", "switch 69 X 0 120", ("3200 1 102 return -35", NEXT_OF_NUMBER),
                                   ("end 4000 9 0", "end 4000 10 0")),
    "a task that is dead in a call": ("switch 69 S 0 120", "switch 69 Z 0 120",
                                      ("3200 1 102 return -35", NEXT_OF_NUMBER), ("end 4000 9 0", "end 4000 10 0")),
    "a return that was lost": ("2600 1 102 setprio 101 89 69", "2600 1 0 lost 4 2500\n2600 1 102 lock 0x5000 private",
                               ("end 4000 9 0", "end 4000 9 4")),
    "a stretch whose line comes later": ("2600 1 102 setprio 101 89 69",
                                         "2600 1 102 lock 0x5000 private\n2650 0 0 lost 3 2550",
                                         ("3200 1 102 return -35\nend 4000 9 0", "end 4000 8 3")),
    "a switch that was lost": ("2800 0 101", "2750 0 0 lost 7 2600\n2800 0 100",
                               ("3000 0 101", "3000 0 100"),
                               ("3200 1 102 return -35\nend 4000 9 0", "end 4000 8 7")),
    "no switch from the idle task": ("3100 1 0 switch 120 R 102 69\n", "", ("end 4000 9 0", "end 4000 8 0")),
    "no switch from one that isn't recorded": ("switch 69 S 0 120", "switch 69 S 15 120",
                                               ("3100 1 0 switch 120 R 102 69\n", ""),
                                               ("end 4000 9 0", "end 4000 8 0")),
    "a task that moves to an idle CPU": ("2500 1 102 lock", "2400 1 0 switch 120 R 102 69\n2500 1 102 lock",
                                         ("3000 0 101", "3000 1 101"), ("end 4000 9 0", "end 4000 10 0")),
    "a state of another kernel": ("switch 49 S", "switch 49 0x400"),
    "a preempted task": ("switch 49 S", "switch 49 R+"),
    "deadline": ("switch 49 S", "switch -1 S"),
}
# Version 2: 101 waits twice. 100 wakes it; then the idle task does, in whose time the interrupt of a timeout comes.
WAITS_BY_HAND = """\
pim-kernel 2
kernel 6.18.44 x86_64
clock mono
process 100
began 1000
cpus 2
2000 0 101 wait 0x5000 private
2100 0 101 switch 69 S 100 89
2150 0 300 wake 101
2200 0 100 wake 101
2300 0 100 switch 89 R+ 101 69
2400 0 101 return 0
2500 0 101 wait 0x5004 shared
2600 0 101 switch 69 S 0 120
2700 1 0 wake 101
2800 1 101 return -110
2900 1 101 lock 0x5008 private
3000 1 101 switch 69 S 0 120
3100 1 101 return 0
end 4000 13 0
"""
LINES_OF_WAITS = """\
# process 100, Linux 6.18.44 x86_64, 2 CPUs, clock mono
0.000001000 cpu0 [101] wait word=0x5000 private
0.000001100 cpu0 [101] switch priority=30 state=S next=[100] next-priority=10
0.000001150 cpu0 [300] wake task=[101]
0.000001200 cpu0 [100] wake task=[101]
0.000001300 cpu0 [100] switch priority=10 state=R+ next=[101] next-priority=30
0.000001400 cpu0 [101] return result=0
0.000001500 cpu0 [101] wait word=0x5004 shared
0.000001600 cpu0 [101] switch priority=30 state=S next=[0] next-priority=other
0.000001700 cpu1 [0] wake task=[101]
0.000001800 cpu1 [101] return result=-110
0.000001900 cpu1 [101] lock mutex=0x5008 private
0.000002000 cpu1 [101] switch priority=30 state=S next=[0] next-priority=other
0.000002100 cpu1 [101] return result=0
"""
COUNTED_WAITS = "0 faults in 13 events of 4 tasks: 4 switches, 0 set priorities, 6 of futex, 3 wakes; 0 lost; clock mono\n"
# What is changed of the waits, and the fault that is to be found.
LAWS_OF_WAITS = {
    "a wake after the return": ("2900 1 101 lock", "2850 1 0 wake 101\n2900 1 101 lock", "line 17: task 101 doesn't wait"),
    "a wake in another call": ("3100 1 101 return", "3050 1 0 wake 101\n3100 1 101 return",
                               "line 19: task 101 doesn't wait"),
    "a wake of one that has no call": ("2200 0 100 wake 101", "2200 0 100 wake 102", "line 10: task 102 doesn't wait"),
    "a wake whose call is before a loss": ("2150 0 300 wake 101", "2150 1 0 lost 3 2120", "line 10: task 101 doesn't"),
    "a wake of a dead task": ("switch 69 S 100 89", "switch 69 X 100 89", "line 9: task 101 doesn't wait"),
    "a wait in a call": ("2200 0 100 wake 101", "2200 0 101 wait 0x5000 private", "has a call that hasn't returned"),
    "a wake of a name": ("2200 0 100 wake 101", "2200 0 100 wake x", "line 10: it has no form of version 2"),
    "a wait of nothing": ("wait 0x5004 shared", "wait 0x5004", "line 13: it has no form of version 2"),
    "a wait of version 1": ("pim-kernel 2", "pim-kernel 1", "line 7: it has no form of version 1"),
    "a wake of version 1": ("pim-kernel 2", "pim-kernel 1", "line 9: it has no form of version 1"),
    "wakes that the end doesn't count": ("end 4000 13 0", "end 4000 10 0", "counts 10 events, and there are 13"),
    "another task's call behind a wake": ("2400 0 101 return", "2350 0 300 wake 101\n2400 0 100 return",
                                          "line 13: task 100 isn't the one that runs on CPU 0"),
}
# What is changed of the waits, and breaks no law.
GOOD_WAITS = {
    "a wake by another task behind a switch": ("2400 0 101", "2350 0 300 wake 101\n2400 0 101",
                                               ("end 4000 13 0", "end 4000 14 0")),
    "a wake of its own": ("2100 0 101 switch", "2050 0 101 wake 101\n2100 0 101 switch",
                          ("end 4000 13 0", "end 4000 14 0")),
    "a switch to a task that only wakes": ("2600 0 101 switch 69 S 0 120\n2700 1 0 wake 101\n2800 1",
                                           "2600 0 101 switch 69 S 300 120\n2700 0 300 wake 101\n2800 0"),
    "a wake within a stretch": ("3100 1 101 return 0", "3050 0 0 wake 7\n3100 1 0 lost 2 3040",
                                ("end 4000 13 0", "end 4000 13 2")),
}
HEADS = {"another version": ("pim-kernel 1", "pim-kernel 3", "its version isn't 1 or 2"),
         "no clock": ("clock mono\n", "", "its head isn't whole"),
         "a head that is cut": ("cpus 2\n", "", "its head isn't whole"),
         "a number that isn't one": ("began 1000", "began x", "its head isn't whole")}


STRETCH = [("2600 1 102 setprio 101 89 69", "2600 1 0 lost 4 2500"),
           ("3200 1 102 return -35\nend 4000 9 0", "end 4000 7 4")]


def cut_file(folder):
    path = pathlib.Path(folder, "cut.kernel")
    path.write_bytes(changed([("end 4000 9 0\n", "")]))
    return path


def changed(pairs, text=BY_HAND):
    for old, new in pairs:
        assert text.count(old) == 1, old
        text = text.replace(old, new)
    return text.encode()


def is_answered(data):
    """Reads, checks and prints what may be damaged. Returns whether a fault was found."""
    try:
        text = kernel_text.KernelText(data)
    except kernel_text.NotAKernelText:
        return True
    for event in text.events:
        line_printed(event, text.head)
    return bool(kernel_text.Checker(text).run())


@functools.lru_cache(maxsize=None)
def line_printed(event, head):
    """Returns the line of an event. Most events are those of the recording that was changed."""
    return kernel_text.line_of(event, head, {})


# ---- the kernel's pages

PAGES = """\
overwritten: 300
at a full page: 20
dropped: 1
of all kinds: 18446744073709551021
not told: 0
times: missed 0
1010 cpu 3 task 21 kind 0: 22 89 -1 0
268436472 cpu 3 task 31 kind 0: 32 49 48 0
402653191 cpu 3 task 41 kind 0: 42 1 2 0
402653192 cpu 3 task 81 kind 0: 82 1 2 0
last 402653193
a time beyond 59 bits: missed 0
576460752437641227 cpu 3 task 61 kind 0: 62 1 2 0
last 576460752437641227
kinds: missed 0
2 cpu 3 task 21 kind 1: 89 257 22 69 stops runs-next-12345
3 cpu 3 task 21 kind 2: 134 545460867072 0 0
4 cpu 3 task 21 kind 3: -35 0 0 0
5 cpu 3 task 21 kind 4: 22 0 0 0
last 7
an event that the end cuts: missed 0
last 1
an event that is too long: missed 0
last 1
an event without a length: missed 0
last 1
a page that is too long: missed 0
last 5
missed and stored: missed 42
71 cpu 3 task 21 kind 0: 22 89 88 0
last 71
missed: missed -1
71 cpu 3 task 21 kind 0: 22 89 88 0
last 71
many: 15000 in order, 15000 lost
"""


# By instance.h: the room is of eight bytes.
INSTANCE = """\
a file: done
what it has: done '12345'
no file: No such file or directory
no room: No space left on device
nothing: No such file or directory 'xxxxxxx'
a longer one: done
its beginning: done '1234567'
in two parts: done 'abcde'
a folder: 1, there: 0
one that is gone: 1
"""


# ---- the lines of events

# By FORMAT.md: calls and returns, priorities and states as they are given to put_event in kernel_lines.c.
WRITTEN = """\
pim-kernel 2
kernel {release} {machine}
clock mono
process 4242
began 1000
cpus 4
2000 3 21 name 21 lo\\x20w
2000 3 21 name 22 back\\x5cslash
2000 3 21 switch 49 S 22 89
2001 3 22 switch 49 S 21 89
2002 3 21 name 21 0123456789abcdef
2002 3 21 name 22 \\x7f~!\\xff\\x0a
2002 3 21 switch 49 S 22 89
2003 3 0 name 4194303 last
2003 3 0 switch 49 R 4194303 89
2004 3 4194304 switch 49 R 0 89
2005 3 22 switch 49 R -1 89
2006 3 21 name 21 a
2006 3 21 name 22 b
2006 3 21 switch 49 S 22 89
2007 3 21 switch 49 D 22 89
2008 3 21 switch 49 T 22 89
2009 3 21 switch 49 t 22 89
2010 3 21 switch 49 X 22 89
2011 3 21 switch 49 Z 22 89
2012 3 21 switch 49 P 22 89
2013 3 21 switch 49 I 22 89
2014 3 21 switch 49 R+ 22 89
2015 3 21 switch 49 0x200 22 89
2016 3 21 switch 49 R 22 89
2017 3 21 switch 49 D+ 22 89
2018 3 21 switch 49 0x3 22 89
2019 3 21 switch 49 0x181 22 89
2020 3 21 switch 49 0x8000000000000000 22 89
2021 1 21 lock 0x5000 shared
2022 1 21 return 0
2023 1 21 lock 0x5000 private
2024 1 21 return -1
2025 1 21 unlock 0x5000 shared
2026 1 21 return -2
2027 1 21 unlock 0x5000 private
2028 1 21 return -3
2029 1 21 trylock 0x5000 shared
2030 1 21 return -4
2031 1 21 trylock 0x5000 private
2032 1 21 return -5
2033 1 21 lock2 0x5000 shared
2034 1 21 return -6
2035 1 21 lock2 0x5000 private
2036 1 21 return -7
2037 1 21 lock 0x5000 private
2038 1 21 return -8
2039 1 21 lock 0x5000 shared
2040 1 21 return -9
2283 1 21 lock 0xfffffffffffff000 private
2284 1 22 lock 0x5000 private
2285 1 22 return -35
2287 1 21 return -110
2288 1 21 lock 0x5000 private
2291 1 4194304 lock 0x5000 private
2292 1 -1 lock 0x5000 private
2293 1 23 wait 0x5000 shared
2294 1 23 return 0
2295 1 23 wait 0x5000 shared
2296 1 23 return -1
2297 1 23 wait 0x5000 shared
2298 1 23 return -2
2299 1 23 wait 0x5000 private
2300 1 23 return -3
2301 1 23 wait 0x5000 private
2302 1 23 return -4
2303 1 23 wait 0x5000 private
2304 1 23 return -5
2305 1 23 wait 0x5000 private
2306 1 23 return -6
2308 1 23 wait 0x5000 private
2310 1 21 wake 23
2311 1 0 wake 23
2312 1 23 wake 23
2313 1 4194304 wake 23
2317 1 23 return 0
2318 1 23 lock 0x5000 private
2320 1 23 wait 0x5000 shared
2321 3 23 name 23 a
2321 3 23 switch 49 D 22 89
2322 1 21 wake 23
2323 3 23 switch 49 X 22 89
2325 1 23 wait 0x5000 shared
2326 3 23 switch 49 Z 22 89
2329 1 23 wait 0x5000 shared
2330 1 21 lock 0x5000 private
2331 1 0 lost 5 2150
2334 1 23 wait 0x5000 shared
2335 1 21 wake 23
2336 1 22 lock 0x5000 private
2337 1 22 return 0
2348 1 0 lost 7 2149
2339 1 0 lost 1 2160
2340 1 21 setprio 22 89 -1
end 9000 82 13
"""
COUNTS_OF_LINES = """\
82 events, 13 lost in 3 stretches, 2149 to 2348
whole
a file that is there: File exists
a file of 5000 bytes, 5000 later: whole
a file of 20 bytes, 20 later: File too large
a file of 20 bytes, 5000 later: File too large
"""


class Traced(Case):
    def setUp(self):
        self.tracefs = Tracefs()
        self.addCleanup(self.tracefs.end)
        if self.tracefs.missing:
            self.skipTest(self.tracefs.missing)
        self.addCleanup(self.end_recordings)

    def end_recordings(self):
        """Ends what the test left, which leaves no instance."""
        end_started()
        until(lambda: not self.tracefs.own())
        self.assertEqual(self.tracefs.own(), [])


class Checks(Case):
    def nothing(self, recording, name, status, why):
        """Nothing ran, no file was made, and one line says why."""
        said = recording.done.stderr
        got = (recording.status, recording.done.stdout, recording.data, said.count("\n"), why in said)
        self.check(f"with --kernel: {name}", difference(got, (status, "", None, 1, True)) and f"{got[:2]} {said!r}")


class KernelEvents(Checks, Traced):
    def test_boosts_are_those_of_POSIX(self):
        for command, wanted in BOOSTS.items():
            recording = Recording(self.folder, PROGRAMS / command.split()[0], *command.split()[1:])
            fault = recording.fault()
            told = None if fault else Told(recording.data)
            if told and command == "chain":  # its threads have no names: they are created in this order
                created = [r.object for r in recording.log.records if r.event == reader.THREAD][1:]
                tasks = {r.object: r.chunk.task for r in recording.log.records if r.event == reader.THREAD}
                told.names.update({tasks[self]: name for self, name in zip(created, ("low", "middle", "high"))})
            self.check(f"the boosts are those of POSIX: {command}", fault or difference((told.boosts(),), (wanted,)))
            if command == "inversion inherit" and not fault:
                self.order(recording.log, told)

    def order(self, log, told):
        """The kernel's events are between the log's records, for both have the same clock."""
        request, = [r for r in log.records if r.event == reader.REQUEST]
        granted, = [r for r in log.records if r.event == reader.GRANTED and r.chunk.thread == 3]
        release, = [r for r in log.records if r.event == reader.RELEASE and r.chunk.thread == 2]
        raised, lowered = told.of("setprio")
        asked, = told.of("lock", "high")
        unlocked, = told.of("unlock", "low")
        returned = told.of("return", "high")[0]
        times = [it.time for it in (request, asked, raised, release, unlocked, lowered, returned, granted)]
        self.check("the kernel's events are between the log's records", None if times == sorted(times) else f"{times}")
        mutexes = {asked.values[0], unlocked.values[0], f"{request.object:#x}"}
        self.check("the kernel's mutex is the log's", None if len(mutexes) == 1 else f"{mutexes}")
        between = [event for event in told.of("switch") if raised.time < event.time < lowered.time]
        ran = {told.names.get(event.values[2]) for event in between}
        first = between[0]
        got = (told.names[first.task], first.values[0], first.values[1], told.names[first.values[2]], first.values[3])
        self.equal("high waits at 30, and low runs at 30", got, ("high", 69, "S", "low", 69))
        self.check("medium doesn't run meanwhile", "it does" if "medium" in ran else None)
        task = request.chunk.task
        self.equal("the kernel's tasks are the log's", (asked.task, raised.task), (task, task))

    def without_log(self, name, recording, wanted):
        """The program ran, there is no log, the events keep the laws, and standard error has what is wanted."""
        got = (recording.log, recording.done.stderr, recording.fault(recording.status))
        self.equal(f"without a log: {name}", got, (None, wanted, None))

    def test_static_programs(self):
        """A static program has no log, also where an earlier recording of the name has one."""
        source = RECORD / "programs/inversion.c"
        static = compiled(self.folder, "static", source, "-static")
        if not static:
            return self.skip("a static program with --kernel", "there is no static C library")
        Recording(self.folder, "true")
        said = OTHERS.format(path=static, what="static")
        recording = Recording(self.folder, static, "inherit")
        self.without_log("a static program", recording, said)
        boosts = Told(recording.data).boosts() if recording.data else None
        self.check("the boosts are those of POSIX: a static program", difference((recording.status, boosts),
                                                                                 (0, BOOSTS["inversion inherit"])))
        only = Recording(self.folder, static, "none", options=["--kernel-only"])
        self.without_log("a static program with --kernel-only", only, "")
        script = pathlib.Path(self.folder, "script")
        script.write_text(f"#! {static} -x\n")
        script.chmod(0o755)
        self.without_log("a script of a static program", Recording(self.folder, script), said)
        two = pathlib.Path(self.folder, "two.c")
        two.write_text(SAYS_ITS_VARIABLES)
        recording = Recording(self.folder, compiled(self.folder, "two", two, "-static"))
        self.without_log("a static program with status 2", recording, OTHERS.format(path=f"{self.folder}/two", what="static"))
        got = (recording.status, recording.done.stdout)
        self.equal("its status, and its environment", got, (2, ""))
        os.chmod(self.folder, 0o777)
        user = lambda: os.setuid(65534)
        if run(RECORD / "pim-record", "--help", preexec_fn=user).returncode:
            return self.skip("a static program without the rights", "another user doesn't reach the recorder")
        pathlib.Path(self.folder, "run.kernel").unlink()
        recording = Recording(self.folder, static, preexec_fn=user)
        self.nothing(recording, "a static program without the rights", 77, "needs root")

    def test_setuid_programs_and_other_c_libraries(self):
        """Programs that are setuid or of another C library, and --kernel-only."""
        source = RECORD / "programs/inversion.c"
        setuid = compiled(self.folder, "setuid", source)
        os.chown(setuid, 65534, 65534)
        os.chmod(setuid, 0o4755)
        what = "setuid or setgid"
        self.without_log("a setuid program", Recording(self.folder, setuid, "none"), OTHERS.format(path=setuid, what=what))
        loader = pathlib.Path(self.folder, "loader")
        name = re.search(r"interpreter: (.*)\]", run("readelf", "-l", PROGRAMS / "inversion").stdout)[1]
        shutil.copy(name, loader)
        other = compiled(self.folder, "other", source, f"-Wl,--dynamic-linker={loader}")
        what = "of another C library than the recorder"
        self.without_log("a program of another C library", Recording(self.folder, other, "none"),
                         OTHERS.format(path=other, what=what))
        Recording(self.folder, "true")
        only = ["--kernel-only"]
        recording = Recording(self.folder, PROGRAMS / "inversion", "inherit", options=only)
        self.without_log("a program with --kernel-only", recording, "")
        boosts = Told(recording.data).boosts() if recording.data else None
        self.equal("the boosts are those of POSIX: --kernel-only", (boosts,), (BOOSTS["inversion inherit"],))
        text = "echo [$LD_PRELOAD$PIM_RECORD$PIM_RECORD_BYTES$PIM_KERNEL$PIM_KERNEL_KB]; exit 2"
        own = {**os.environ, "PIM_RECORD": f"{self.folder}/foreign", "PIM_RECORD_BYTES": "1"}
        own.pop("LD_PRELOAD", None)
        recording = Recording(self.folder, "sh", "-c", text, options=only, env=own)
        self.without_log("a program that ends with status 2", recording, "")
        got = (recording.status, recording.done.stdout, pathlib.Path(self.folder, "foreign").exists())
        self.equal("its environment is the caller's", got, (2, "[]\n", False))
        self.nothing(Recording(self.folder, "./nowhere", options=only), "--kernel-only of no program", 127, "it isn't there")
        done = run(RECORD / "pim-record", "--kernel-only", "-o", f"{self.folder}/only", "true")
        left = sorted(path.name for path in pathlib.Path(self.folder).glob("only*"))
        self.equal("--kernel-only is enough", (done.returncode, left), (0, ["only.kernel"]))

    def test_a_random_program_keeps_the_laws(self):
        before = time.monotonic_ns()
        recording = Recording(self.folder, PROGRAMS / "random", "1", "100")
        fault = recording.fault()
        self.check("the laws hold of a recording: random", fault)
        if fault:
            return
        text, log = kernel_text.KernelText(recording.data), recording.log
        boosted = [event for event in text.events if event.what == "setprio"]
        times = (before, text.head.began, log.head.began, boosted[0].time, boosted[-1].time, log.records[-1].time,
                 text.end[0], time.monotonic_ns())
        self.check("its boosts are within the log's times", None if list(times) == sorted(times) else f"{times}")
        mutexes = {f"{r.object:#x}" for r in log.records if r.event == reader.INIT}
        # the C library tries such a call, too, before the log begins
        locks = [what for what in kernel_text.CALLS if what != "wait"]
        calls = [it for it in text.events if it.what in locks and it.time > log.records[0].time]
        seen = {event.values[0] for event in calls}
        self.check("its futexes are the log's mutexes", None if seen and seen <= mutexes else f"{seen} of {mutexes}")
        tasks = {r.chunk.task for r in log.records}
        callers = {event.task for event in calls}
        self.check("who calls is a thread of the log", None if callers <= tasks else f"{callers - tasks}")
        self.equal("the file's process is the log's", (text.head.process,), (log.head.process,))

    def test_signals_reach_the_program(self):
        """Signals reach the program, and nothing is left."""
        for number, status in ((signal.SIGINT, 5), (signal.SIGTERM, 5), (signal.SIGHUP, -signal.SIGHUP)):
            child = started(self.folder, "sh", "-c", SAYS_AND_SLEEPS)
            first_line(child)
            there = len(self.tracefs.own())
            child.send_signal(number)
            got = (there, ended(child), child.stdout.read(), self.tracefs.own())
            wanted = (1, status, "told\n" if status == 5 else "", [])
            self.equal(f"a recording that gets {number.name}", got, wanted)
            faults = faults_of(pathlib.Path(self.folder, "run.kernel").read_bytes())
            self.check(f"its file is whole: {number.name}", "; ".join(faults))

    def test_nothing_is_left_by_SIGKILL(self):
        """Nothing is left by SIGKILL, and the next call removes what is left where the guard is killed, too."""
        child = started(self.folder, "sh", "-c", SAYS_AND_SLEEPS)
        program = int(first_line(child))
        child.kill()
        ended(child)
        gone = until(lambda: not self.tracefs.own())
        self.check("a recorder that is killed leaves no instance", None if gone else f"{self.tracefs.own()}")
        self.check("nor the program", None if until(lambda: is_gone(program)) else "it runs on")
        data = pathlib.Path(self.folder, "run.kernel").read_bytes()
        faults = faults_of(data)
        self.equal("its file says that it isn't whole", (faults[-1:],), ([END_MISSING],))
        child = started(self.folder, "sh", "-c", SAYS_AND_SLEEPS)
        program = int(first_line(child))
        os.kill(guard_of(child.pid), signal.SIGKILL)
        child.kill()
        ended(child)
        left = self.tracefs.own()
        self.equal("what a killed recorder and a killed guard leave", (len(left),), (1,))
        self.others(self.folder, self.tracefs)

    def others(self, folder, tracefs):
        """The next call removes what is left, and no instance of another, nor of a process that is there."""
        start = stat_of("self")[19]
        gone = subprocess.Popen(["true"])
        gone.wait()
        ended_unseen = subprocess.Popen(["true"])
        until(lambda: is_gone(ended_unseen.pid))
        its = stat_of(ended_unseen.pid)[19]
        kept = ["somebody", f"pim-record-{os.getpid()}-{start}", f"pim-record-{gone.pid}-1x", f"pim-record-0{gone.pid}-1",
                f"pim-recorder-{gone.pid}-1"]
        removed = [f"pim-record-{gone.pid}-1", f"pim-record-{os.getpid()}-1", f"pim-record-{ended_unseen.pid}-{its}"]
        wanted = sorted(set(tracefs.all_but_others()) - set(tracefs.own()) | set(kept))
        try:
            for name in kept + removed:
                (tracefs.instances / name).mkdir()
            settings = tracefs.instances / "somebody/set_event"
            settings.write_text("sched:sched_wakeup")
            fault = Recording(folder, "true").fault()
            got = tracefs.all_but_others()
            self.check("the next call removes what is left, and nothing else", fault or difference((got,), (wanted,)))
            self.equal("another's settings are kept", (settings.read_text(),), ("sched:sched_wakeup\n",))
        finally:
            for name in kept + removed:
                if (tracefs.instances / name).is_dir():
                    (tracefs.instances / name).rmdir()

    def test_the_guard_removes_the_instance(self):
        """The guard isn't of the group that a shell kills, and removes the instance whatever becomes of the recorder."""
        child = started(self.folder, PROGRAMS / "keys", start_new_session=True)
        first_line(child)
        os.killpg(child.pid, signal.SIGKILL)
        ended(child)
        gone = until(lambda: not self.tracefs.own())
        self.check("a group that is killed leaves no instance", None if gone else f"{self.tracefs.own()}")
        for name, number in (("killed", signal.SIGKILL), ("stopped", signal.SIGSTOP)):
            child = started(self.folder, PROGRAMS / "keys")
            program = int(first_line(child).split()[1][:-1])
            os.kill(guard_of(child.pid), number)
            child.send_signal(signal.SIGTERM)
            got = (ended(child), self.tracefs.own())
            self.equal(f"a {name} guard leaves no instance", got, (-signal.SIGTERM, []))
        child = started(self.folder, PROGRAMS / "keys")
        first_line(child)
        guard = guard_of(child.pid)
        os.kill(guard, signal.SIGTERM)
        child.kill()
        ended(child)
        gone = until(lambda: not self.tracefs.own() and is_gone(guard))
        self.check("no other signal ends a guard", None if gone else f"{self.tracefs.own()}")

    def test_who_waits_for_the_streams_waits_no_longer(self):
        """Who waits for the end of the program's streams waits no longer than for the recorder and the program."""
        text = f"{RECORD}/pim-record --kernel -o {self.folder}/run sh -c 'echo out; echo err >&2' 2>&1 | cat"
        done = run("sh", "-c", text)
        got = (done.returncode, without_end(done.stdout), done.stderr)
        self.equal("a pipe of both streams ends", got, (0, "out\nerr\n", ""))
        ours, its = os.pipe()
        high = fcntl.fcntl(its, fcntl.F_DUPFD, 200)
        child = started(self.folder, PROGRAMS / "keys", pass_fds=[its, high])
        os.close(its)
        os.close(high)
        first_line(child)
        guard = guard_of(child.pid)
        instance, = self.tracefs.own()
        with open(self.tracefs.instances / instance / "trace_pipe"):  # so the guard can't remove it
            before = pauses_of(guard)
            child.kill()
            ended(child)
            until(lambda: pauses_of(guard) > before + 1)  # it has tried, and pauses before it tries again
            got = (child.stdout.read(), child.stderr.read(), os.read(ours, 1), is_gone(guard), self.tracefs.own())
            self.equal("a guard keeps no stream open", got, ("", "", b"", False, [instance]))
        self.check("it removes the instance when it can", None if until(lambda: not self.tracefs.own()) else "it doesn't")
        os.close(ours)

    def test_a_recording_leaves_no_process(self):
        """A recording that has ended leaves no process, dead or alive, to the one that adopts orphans."""
        status, left, said = orphan_of(RECORD / "pim-record", "--kernel", "-o", f"{self.folder}/run", "true")
        self.equal("a recording leaves no process", (status, left, without_end(said)), (0, ["none"], ""))

    def test_settings_of_the_instance(self):
        """The instance has the settings of the recording, and the recorder runs at no real-time priority."""
        fifo = lambda: os.sched_setscheduler(0, os.SCHED_FIFO, os.sched_param(5))
        child = started(self.folder, PROGRAMS / "keys", preexec_fn=fifo)
        program = first_line(child).split()[1][:-1]
        instance, = self.tracefs.own()
        names = ("buffer_size_kb", "set_event_pid", "tracing_on", "options/overwrite", "options/event-fork", "trace_clock")
        got = [(self.tracefs.instances / instance / name).read_text().strip() for name in names]
        kilobytes, *got, clock = got
        wanted = [program, "1", "1", "1"]
        why = None if "[mono]" in clock and 8192 <= int(kilobytes) < 8400 else f"{kilobytes} KB, clock {clock}"
        self.check("the settings of an instance", difference(got, wanted) or why)
        policies = [os.sched_getscheduler(int(process)) for process in (child.pid, program)]
        self.equal("the recorder leaves its real-time priority", policies, (os.SCHED_OTHER, os.SCHED_FIFO))
        head = pathlib.Path(self.folder, "run.kernel").read_bytes()
        self.check("the head is written as the program begins", None if head.startswith(b"pim-kernel 2\n") else f"{head[:80]}")
        written = until(lambda: b" switch " in pathlib.Path(self.folder, "run.kernel").read_bytes())
        self.check("events are written while the program runs", None if written else "none is")
        child.terminate()
        ended(child)

    def test_the_program_has_the_signals_of_the_caller(self):
        """The program has the signals of the caller; the recorder sees its end even if the caller ignores SIGCHLD."""
        def change():
            signal.signal(signal.SIGCHLD, signal.SIG_IGN)
            signal.pthread_sigmask(signal.SIG_BLOCK, {signal.SIGUSR1})
        # without pim-record and sh, for some shells reset both
        paths = {"PIM_RECORD": f"{self.folder}/inherited", "PIM_KERNEL": f"{self.folder}/inherited.kernel"}
        sizes = {"PIM_RECORD_BYTES": str(1 << 20), "PIM_KERNEL_KB": "1024"}
        launch = [RECORD / "out/pim-launch", RECORD / "out/libpim_record.so"]
        words = ["grep", "-sE", "Sig(Blk|Ign)", "/proc/self/status", "/nowhere"]
        plain = run(*words, preexec_fn=change)
        done = run(*launch, *words, preexec_fn=change, env={**os.environ, **paths, **sizes})
        got = (done.returncode, done.stdout, done.stderr)
        self.equal("the program's signals are the caller's", got, (2, plain.stdout, ""))

    def test_a_file_that_may_not_grow(self):
        """A file that may not grow isn't whole: standard error says so, and the program runs on."""
        limit = lambda: resource.setrlimit(resource.RLIMIT_FSIZE, (1 << 20, 1 << 20))
        no_file = lambda: resource.setrlimit(resource.RLIMIT_FSIZE, (0, 0))
        words = (PROGRAMS / "random", "1", "2000")  # three megabytes of events, for which the kernel has room
        recording = Recording(self.folder, *words, options=["--size", "1"], preexec_fn=limit)
        wanted = f"pim-record: {recording.file} isn't whole: File too large\n"
        got = (recording.status, without_imports(recording.done.stderr), len(recording.data or b""))
        self.equal("a file beyond the limit of a file", got, (0, wanted, 1 << 20))
        faults = [fault for fault in faults_of(recording.data) if fault != "the last line isn't whole"]
        self.equal("it is the beginning of a recording", (faults,), ([END_MISSING],))
        self.nothing(Recording(self.folder, "echo", "it ran", preexec_fn=no_file), "a log that can't be made", 2,
                     "nothing was run")
        path = pathlib.Path(self.folder, "n" * 250)
        done = run(RECORD / "pim-record", "--kernel", "-o", path, "echo", "it ran")
        wanted = f"pim-record: {path}.kernel: File name too long; nothing was run\n"
        self.equal("a file that can't be made", (done.returncode, done.stdout, done.stderr), (2, "", wanted))

    def test_in_a_namespace_of_processes_nothing_is_run(self):
        """In a namespace of processes nothing is run."""
        space = ["unshare", "--pid", "--fork", "--mount-proc"]
        if not shutil.which("unshare") or run(*space, "true").returncode:
            return self.skip("--kernel in a container", "no namespace can be made")
        done = run(*space, RECORD / "pim-record", "--kernel", "-o", f"{self.folder}/run", "echo", "it ran")
        got = (done.returncode, done.stdout, "container" in done.stderr)
        self.equal("--kernel in a container", got, (77, "", True))

    def test_where_tracefs_is_mounted(self):
        """Where tracefs is mounted at its place, that mount is used; where it has no place, one that nobody sees."""
        place, path = "/sys/kernel/tracing", f"{self.folder}/run"
        text = f"mount -t tracefs none {place} && exec {RECORD}/pim-record --kernel -o {path} ls {place}/instances"
        if not shutil.which("unshare") or run("unshare", "--mount", "mount", "-t", "tracefs", "none", place).returncode:
            return self.skip("a tracefs that is mounted", "it can't be mounted aside")
        done = run("unshare", "--mount", "sh", "-c", text)
        got = (done.returncode, "pim-record-" in done.stdout, done.stderr)
        self.equal("a tracefs that is mounted", got, (0, True, ""))
        text = f"mount -t tmpfs none /sys/kernel && exec {RECORD}/pim-record --kernel -o {path} ls /sys/kernel"
        done = run("unshare", "--mount", "sh", "-c", text)
        why = difference((done.returncode, done.stdout, done.stderr), (0, "", ""))
        faults = [] if why else faults_of(pathlib.Path(f"{path}.kernel").read_bytes())
        self.check("a tracefs that has no place", why or "; ".join(faults))

    def test_overwritten_events_are_reported(self):
        """A recorder that is held up until events are overwritten reports when and how many."""
        waits = f"read line; exec {PROGRAMS}/random 1 4000"
        child = started(self.folder, "sh", "-c", waits, options=["--buffer", "8"], stdin=subprocess.PIPE)
        name = "a recording with lost events keeps the laws"
        program = until(lambda: program_of(child))
        if not program:
            child.terminate()
            self.check(name, f"no program was seen, status {ended(child)}: {child.stderr.read()}")
            return
        instance, = self.tracefs.own()
        child.send_signal(signal.SIGSTOP)
        until(lambda: stat_of(child.pid)[:1] == ["T"])
        child.stdin.write("go\n")
        child.stdin.flush()
        until(lambda: overwritten(self.tracefs.instances / instance) or is_gone(program))
        child.send_signal(signal.SIGCONT)
        _, said = child.communicate(timeout=SECONDS)
        text = kernel_text.KernelText(pathlib.Path(self.folder, "run.kernel").read_bytes())
        told = text.lost()
        count = sum(event.values[0] for event in told)
        fault = next(iter(kernel_text.Checker(text).run()), None) or (None if count else "nothing is lost")
        self.check(name, fault)
        if not told:
            return
        first, last = min(event.values[1] for event in told), max(event.time for event in told)
        times = [f"{(time - text.head.began) / 1e9:.6f}" for time in (first, last)]
        wanted = f"pim-record: {count} of the kernel's events were lost, in {len(told)} stretches from {times[0]} s to" \
             f" {times[1]} s; {self.folder}/run.kernel has each\n"
        self.equal("lost events are reported on standard error", (without_end(said),), (wanted,))
        done = run(RECORD / "pim-log", "--check", f"{self.folder}/run.kernel")
        lines = [line for line in done.stdout.splitlines() if "events were lost, from" in line]
        self.equal("lost events are reported by --check", (done.returncode, len(lines)), (0, len(told)))

    def test_status_streams_and_arguments_are_those_of_the_program(self):
        """Status, streams and arguments are the program's; where nothing is run, nothing is left."""
        text = 'printf "%s|" "$@"; cat; echo err >&2; exit 43'
        recording = Recording(self.folder, "sh", "-c", text, "a b", "", "c", input="input")
        got = (recording.status, recording.done.stdout, recording.done.stderr)
        self.equal("with --kernel status and streams are the program's", got, (43, "|c|input", "err\n"))
        recording = Recording(self.folder, "sh", "-c", "exit 2")
        self.check("with --kernel a program may end with status 2", recording.fault(2))
        recording = Recording(self.folder, "sh", "-c", "echo $PIM_KERNEL$PIM_KERNEL_KB; kill -9 $$")
        got = (recording.status, recording.done.stdout, recording.fault(-signal.SIGKILL))
        self.equal("with --kernel it ends by the program's signal", got, (-signal.SIGKILL, "\n", None))
        busy = pathlib.Path(self.folder, "busy")
        busy.write_bytes(pathlib.Path("/bin/true").read_bytes())
        busy.chmod(0o755)
        with open(busy, "r+b"):
            self.nothing(Recording(self.folder, busy), "a program that can't be executed", 126, "Text file busy")
        self.nothing(Recording(self.folder, "./nowhere"), "a program that isn't there", 127, "it isn't there")
        self.nothing(Recording(self.folder, "true", options=["--buffer", "many"]), "a buffer of letters", 2, "kilobytes")
        self.nothing(Recording(self.folder, "true", options=["--buffer=0"]), "a buffer of 0", 2, "kilobytes")
        kept = pathlib.Path(self.folder, "run.kernel")
        kept.write_text("a letter\n")
        done = run(RECORD / "pim-record", "--kernel", "-o", f"{self.folder}/run", "echo", "it ran")
        got = (done.returncode, done.stdout, kept.read_text())
        self.equal("a file that isn't a recording is kept", got, (2, "", "a letter\n"))
        kept.write_text("")
        self.check("an empty file, of a recorder that was killed, is replaced", Recording(self.folder, "true").fault())
        kept.unlink()
        self.equal("no instance is left", (self.tracefs.own(),), ([],))


class KernelFiles(Checks):
    def test_without_rights_nothing_is_run(self):
        """Another user has no rights: one line, status 77, nothing is run."""
        os.chmod(self.folder, 0o777)
        user = lambda: os.setuid(65534)
        if run(RECORD / "pim-record", "--help", preexec_fn=user).returncode:
            return self.skip("--kernel without the rights", "another user doesn't reach the recorder")
        how = {"preexec_fn": user} if os.geteuid() == 0 else {}
        self.nothing(Recording(self.folder, "echo", "it ran", **how), "without the rights", 77, "needs root")

    def test_events_by_hand(self):
        path = pathlib.Path(self.folder, "hand.kernel")
        path.write_text(BY_HAND)
        done = run(RECORD / "pim-log", path)
        got = (done.returncode, done.stdout, done.stderr)
        self.equal("the lines of a kernel's file by hand", got, (0, LINES, ""))
        done = run(RECORD / "pim-log", "--check", path)
        self.equal("the count of a kernel's file by hand", (done.returncode, done.stdout), (0, COUNTED))
        for name, (old, new, why) in LAWS.items():
            faults = faults_of(changed([(old, new)]))
            self.check(f"a kernel's file with {name}", None if any(why in fault for fault in faults) else f"{faults}")
        for name, (old, new, *more) in GOOD.items():
            self.check(f"a kernel's file with {name}", "; ".join(faults_of(changed([(old, new), *more]))))
        for name, (old, new, why) in HEADS.items():
            path.write_bytes(changed([(old, new)]))
            done = run(RECORD / "pim-log", "--check", path)
            got = (done.returncode, done.stdout, why in done.stderr)
            self.equal(f"a kernel's file with {name}", got, (2, "", True))
        path.write_bytes(changed(STRETCH))
        done = run(RECORD / "pim-log", "--check", path)
        told = ["CPU 1: 4 events were lost, from 0.000001500 to 0.000001600",
                "0 faults in 7 events of 4 tasks: 3 switches, 1 set priorities, 3 of futex, 0 wakes; 4 lost; clock mono"]
        self.equal("a lost stretch is reported", (done.returncode, done.stdout.splitlines()), (0, told))
        words = {-1: "deadline", 0: "99", 98: "1", 99: "other", 100: "other", 139: "other"}
        got = {priority: kernel_text.priority_word(priority) for priority in words}
        self.equal("priorities of POSIX", (got,), (words,))
        done = run(RECORD / "pim-log", "--check", cut_file(self.folder))
        self.equal("a file without its end has the status 1", (done.returncode, done.stderr), (1, ""))
        shown = run(RECORD / "pim-log", path).stdout.splitlines()[3]
        self.equal("a lost stretch is printed", (shown,), ("0.000001600 cpu1 lost events=4 from=0.000001500",))

    def test_waits_by_hand(self):
        path = pathlib.Path(self.folder, "waits.kernel")
        path.write_text(WAITS_BY_HAND)
        done = run(RECORD / "pim-log", path)
        self.equal("the lines of waits by hand", (done.returncode, done.stdout, done.stderr), (0, LINES_OF_WAITS, ""))
        done = run(RECORD / "pim-log", "--check", path)
        self.equal("the count of waits by hand", (done.returncode, done.stdout), (0, COUNTED_WAITS))
        for name, (old, new, why) in LAWS_OF_WAITS.items():
            faults = faults_of(changed([(old, new)], WAITS_BY_HAND))
            self.check(f"a kernel's file with {name}", None if any(why in fault for fault in faults) else f"{faults}")
        for name, (old, new, *more) in GOOD_WAITS.items():
            self.check(f"a kernel's file with {name}", "; ".join(faults_of(changed([(old, new), *more], WAITS_BY_HAND))))

    def test_stored_recordings(self):
        """A stored recording is whole; its prefixes are found to be cut, and changed bytes are answered: each of a small one,
        and some 2,000 of a greater one. A line that was read and printed isn't read and printed again."""
        read_once = mock.patch.object(kernel_text, "event_of", functools.lru_cache(maxsize=None)(kernel_text.event_of))
        with read_once:
            self.each_stored()
        told = Told((STORED / "inversion.kernel").read_bytes())
        self.equal("stored: the boosts of inversion.kernel", (told.boosts(),), (BOOSTS["inversion inherit"],))

    def each_stored(self):
        for path in sorted(STORED.glob("*.kernel")):
            data = path.read_bytes()
            self.check(f"stored: {path.name} keeps the laws", "; ".join(faults_of(data)))
            tried = range(0, len(data), max(1, len(data) // 2000))
            whole = [length for length in tried if not is_answered(data[:length])]
            self.check(f"stored: each prefix of {path.name} is found to be cut", f"not {whole[:5]}" if whole else None)
            changed = (data[:at] + bytes([data[at] ^ change]) + data[at + 1:] for at in tried for change in (0x01, 0x80))
            unseen = sum(not is_answered(text) for text in changed)
            why = None if unseen < len(tried) else f"{unseen} unseen"
            self.check(f"stored: each changed byte of {path.name} is answered", why)

    def printed(self, folder, name, source, parts, *arguments):
        """Compiles a program with parts of the recorder. Returns the lines that it prints, or None after a failed check."""
        made = pathlib.Path(folder, source)
        flags = ["-std=c11", "-Wall", "-Wextra", "-Werror", "-fsanitize=address,undefined"]
        sources = [ROOT / f"tests/record/{source}.c", *(RECORD / f"kernel/{part}.c" for part in parts)]
        done = run("cc", *flags, *sources, "-o", made)
        if not done.returncode:
            done = run(made, *arguments, env={"ASAN_OPTIONS": "detect_leaks=0"})
        if done.returncode or done.stderr:
            return self.check(name, done.stderr[:300] or f"status {done.returncode}")
        return done.stdout.splitlines()

    def are_lines(self, name, got, wanted):
        if got is not None:
            wanted = wanted.splitlines()
            self.equal(name, (*got, len(got)), (*wanted, len(wanted)))

    def test_pages_by_hand(self):
        """Pages that are made by hand: times, kinds of events, what is cut, what was missed."""
        name = "pages of the kernel's buffer"
        self.are_lines(name, self.printed(self.folder, name, "kernel_pages", ["events", "instance"]), PAGES)

    def test_settings_in_an_ordinary_folder(self):
        """Settings of an instance, in an ordinary folder."""
        name = "settings of an instance"
        with tempfile.TemporaryDirectory() as place:
            self.are_lines(name, self.printed(self.folder, name, "kernel_instance", ["instance"], place), INSTANCE)

    def test_events_as_lines(self):
        """Events that are made by hand, as lines."""
        file = pathlib.Path(self.folder, "lines.kernel")
        counts = self.printed(self.folder, "the lines of events", "kernel_lines", ["text"], file)
        if counts is not None:
            wanted = WRITTEN.format(release=os.uname().release, machine=os.uname().machine)
            self.are_lines("the lines of events", file.read_text().splitlines(), wanted)
            self.are_lines("the counts of events", counts, COUNTS_OF_LINES)
