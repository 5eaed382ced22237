"""pim-facts: it writes of logs by hand what is written here, and of recordings, of random logs and
of random kernel's events what plain_facts_of_log.py writes. Each text is one that the plain reader
of facts finds valid. Damaged logs are refused, and clang's fuzzer finds no fault, where it is
installed.
"""
import os
import pathlib
import random
import re
import shutil
import subprocess

from tests.cases import Case, temporary_folder
from tests.record import plain_facts_of_log
from tests.record import random_futex_waits
from tests.record import random_other_waits
from tests.record import test_suite
from tests.shared.checks import ROOT, SECONDS, answer, difference
from tests.record.random_log import RandomLog
from tests.record.random_program import FIRST_TASK
from tests.record.logs import log_of, read_text, reader, setUpModule
from tests.record.test_suite import CONVERTER, KERNEL_HEAD, ROWS

LOGS, TEXTS, FIRST_SEED, FUZZED = 250, 15, 1, 3000
MOST_LINES = 250  # of the kernel's events
MUTEXES, BEGAN, LONGER = ("0x5000", "0x5040"), 1000, 40

# A log, what is written of it behind the threads and the mutexes, without `end`, and the kernel's events, if there are.
BY_HAND = {
    "a grant that is told late comes before the wait": ("""
        @1 1 THREAD 0x10 fifo 10
        @2 2 THREAD 0x20 fifo 80
        @100 2 REQUEST 0x500 none owner 701
        @150 1 GRANTED 0x500 none took 60
        @300 1 RELEASE 0x500 none
        @310 2 GRANTED 0x500 none took 210
        """, "100 701 granted 1, 100 702 waits 1, 300 701 released 1, 310 702 granted 1"),
    "a grant whose call began behind the request is no late one": ("""
        @1 1 THREAD 0x10 fifo 10
        @2 2 THREAD 0x20 fifo 80
        @10 1 GRANTED 0x500 none
        @20 1 RELEASE 0x500 none
        @30 1 GRANTED 0x600 none
        @100 2 REQUEST 0x500 none owner 701
        @150 1 GRANTED 0x500 none took 40
        """, "10 701 granted 1, 20 701 released 1, 30 701 granted 2, 100 702 waits 1, 150 701 granted 1"),
    "a release that is told early comes before the next grant": ("""
        @1 1 THREAD 0x10 fifo 10
        @2 2 THREAD 0x20 fifo 80
        @10 1 GRANTED 0x500 none
        @100 1 RELEASE 0x500 none
        @110 2 REQUEST 0x500 none owner 701
        @300 2 GRANTED 0x500 none took 190
        """, "10 701 granted 1, 110 702 waits 1, 300 701 released 1, 300 702 granted 1"),
    "it comes before the next line of its thread": ("""
        @1 1 THREAD 0x10 fifo 10
        @2 2 THREAD 0x20 fifo 80
        @10 1 GRANTED 0x500 none
        @100 1 RELEASE 0x500 none
        @110 2 REQUEST 0x500 none owner 701
        @200 1 GRANTED 0x600 none
        @300 2 GRANTED 0x500 none took 190
        """, "10 701 granted 1, 110 702 waits 1, 200 701 released 1, 200 701 granted 2, 300 702 granted 1"),
    "a request that names no task mends no release": ("""
        @1 1 THREAD 0x10 fifo 10
        @2 2 THREAD 0x20 fifo 80
        @10 1 GRANTED 0x500 none
        @100 1 RELEASE 0x500 none
        @110 2 REQUEST 0x500 none owner 0
        @300 2 GRANTED 0x500 none took 190
        """, "10 701 granted 1, 100 701 released 1, 110 702 waits 1, 300 702 granted 1"),
    "a release that nothing follows comes at the end": ("""
        @1 1 THREAD 0x10 fifo 10
        @2 2 THREAD 0x20 fifo 80
        @10 1 GRANTED 0x500 none
        @100 1 RELEASE 0x500 none
        @110 2 REQUEST 0x500 none owner 701
        """, "10 701 granted 1, 110 702 waits 1, 110 701 released 1"),
    "an owner whose grant the log lacks": ("""
        @1 1 THREAD 0x10 fifo 10
        @2 2 THREAD 0x20 fifo 80
        @110 2 REQUEST 0x500 none owner 701
        @300 2 GRANTED 0x500 none took 190
        """, "110 701 granted 1, 110 702 waits 1, 300 701 released 1, 300 702 granted 1"),
    "an owner that isn't known": ("""
        @2 2 THREAD 0x20 fifo 80
        @110 2 REQUEST 0x500 none owner 999
        @300 2 GRANTED 0x500 none took 190
        """, "thread 4294967294 0 -, 110 4294967294 granted 1, 110 702 waits 1, 300 4294967294 released 1, "
             "300 702 granted 1"),
    "an owner that died and waits": ("""
        @1 1 THREAD 0x10 fifo 10
        @2 2 THREAD 0x20 fifo 80
        @10 1 GRANTED 0x500 none robust
        @20 2 GRANTED 0x600 none
        @30 1 REQUEST 0x600 none owner 702
        @40 2 GRANTED 0x500 none robust died
        """, "10 701 granted 1, 20 702 granted 2, 30 701 waits 2, 40 701 gave-up 2, 40 701 released 1, "
             "40 701 waits 2, 40 702 granted 1"),
    "requests that the log lacks are in the order in which their calls end": ("""
        @1 1 THREAD 0x10 fifo 10
        @2 2 THREAD 0x20 fifo 20
        @3 3 THREAD 0x30 fifo 30
        @10 1 GRANTED 0x500 none
        @100 1 RELEASE 0x500 none
        @110 3 GRANTED 0x500 none took 105
        @150 3 RELEASE 0x500 none
        @160 2 GRANTED 0x500 none took 155
        """, "10 701 granted 1, 10 703 waits 1, 10 702 waits 1, 100 701 released 1, 110 703 granted 1, "
             "150 703 released 1, 160 702 granted 1"),
    "a mutex that was locked by trylock": ("""
        @1 1 THREAD 0x10 fifo 10
        @10 1 GRANTED 0x500 none trylock
        """, "10 701 took 1"),
    "an owner that was named asks for the mutex itself": ("""
        @1 1 THREAD 0x10 fifo 10
        @2 2 THREAD 0x20 fifo 80
        @3 3 THREAD 0x30 fifo 20
        @110 2 REQUEST 0x500 none owner 701
        @120 1 REQUEST 0x500 none owner 702
        @200 3 GRANTED 0x500 none
        """, "110 702 waits 1, 120 701 waits 1, 200 703 granted 1"),
    "a wait for an own mutex that another thread got meanwhile": ("""
        @1 1 THREAD 0x10 fifo 10
        @2 2 THREAD 0x20 fifo 80
        @10 1 GRANTED 0x500 none robust
        @20 1 REQUEST 0x500 none robust owner 701
        @30 2 GRANTED 0x500 none robust died
        @40 1 REQUEST 0x500 none robust owner 702
        @50 2 RELEASE 0x500 none robust
        @60 1 GRANTED 0x500 none robust took 20
        """, "10 701 granted 1, 20 701 waits 1, 30 701 gave-up 1, 30 701 released 1, 30 701 waits 1, 30 702 granted 1, "
             "40 701 gave-up 1, 40 701 waits 1, 50 702 released 1, 60 701 granted 1"),
    "a trylock whose owner had died": ("""
        @1 1 THREAD 0x10 fifo 10
        @10 1 GRANTED 0x500 none robust trylock died
        """, "10 701 took 1"),
    "a trylock of a thread that waits": ("""
        @1 1 THREAD 0x10 fifo 10
        @2 2 THREAD 0x20 fifo 80
        @10 1 GRANTED 0x500 none
        @20 2 REQUEST 0x500 none owner 701
        @30 1 RELEASE 0x500 none
        @40 2 GRANTED 0x500 none trylock
        """, "10 701 granted 1, 20 702 waits 1, 30 701 released 1, 40 702 granted 1"),
    "a mutex in the first of two files that begin at one address": ("""
        @1 1 THREAD 0x10 fifo 10
        @2 1 MODULE 0x1000 text /lib/first
        @3 1 MODULE 0x1000 text /lib/second
        @10 1 GRANTED 0x1500 none
        """, "10 701 granted 1"),
    "libraries that call futexes themselves, each said once": ("""
        @1 1 THREAD 0x10 fifo 10
        @2 1 MODULE 0x1000 text /lib/libomp.so.5
        @2 1 MODULE 0x2000 text /lib/libgomp.so.1
        @3 2 THREAD 0x20 fifo 10
        @3 2 MODULE 0x2000 text /usr/lib/libgomp.so.1
        @4 1 MODULE 0x3000 text /lib/libiomp5.so.2
        """, "unseen waits by futexes of libgomp.so.1, unseen waits by futexes of libomp.so.5"),
    "a wait for an own mutex": ("""
        @1 1 THREAD 0x10 fifo 10
        @10 1 GRANTED 0x500 none
        @20 1 REQUEST 0x500 none owner 701 timedlock
        @30 1 FAILED 0x500 took 10 error 110
        """, "10 701 granted 1, 20 701 waits 1, 30 701 gave-up 1"),
    "a wait at a condition variable": ("""
        @1 1 THREAD 0x10 fifo 10
        @2 2 THREAD 0x20 fifo 80
        @10 2 GRANTED 0x500 none
        @20 2 CONDITION 0x700
        @20 2 RELEASE 0x500 none condition
        @30 1 GIVE 0x700 condition
        @40 2 GRANTED 0x500 none condition
        """, "10 702 granted 1, 20 702 released 1, 20 702 blocks 1, 40 702 resumes 1 by 701, 40 702 granted 1"),
    "a thread that locks in a handler while it is blocked": ("""
        @1 1 THREAD 0x10 fifo 10
        @10 1 WAIT 0x700 semaphore
        @20 1 GRANTED 0x500 none
        @30 1 WAITED 0x700 semaphore took 20 error 110
        """, "10 701 blocks 1, 20 701 resumes 1, 20 701 granted 1"),
    "a wait for a futex of which the log has the wait before it late": ("""
        @1 1 THREAD 0x10 fifo 10
        @2 2 THREAD 0x20 fifo 20
        @100 1 WAIT 0x700 semaphore
        @400 2 GRANTED 0x500 none
        @200 1 WAITED 0x700 semaphore took 100
        """, "100 701 blocks 1, 260 701 runs 10, 260 701 off asleep, 350 701 off ready, 400 702 granted 1, "
             "200 701 resumes 1", """
        250 0 701 wait 0x9 private
        260 0 701 switch 89 S 0 120
        350 0 702 wake 701
        360 0 701 return 0
        """),
    "a wait at a condition variable whose relock fails": ("""
        @1 1 THREAD 0x10 fifo 10
        @2 2 THREAD 0x20 fifo 80
        @10 2 GRANTED 0x500 none
        @20 2 CONDITION 0x700
        @20 2 RELEASE 0x500 none condition
        @30 1 GIVE 0x700 condition
        @40 2 FAILED 0x500 error 110
        """, "10 702 granted 1, 20 702 released 1, 20 702 blocks 1, 40 702 resumes 1 failed"),
    "an owner doesn't wait for its mutex, whatever the kernel's events say": ("""
        @1 1 THREAD 0x10 fifo 10
        @10 1 GRANTED 0x500 inherit recursive
        @400 1 RELEASE 0x500 inherit recursive
        """, "10 701 granted 1, 110 701 runs 10, 110 701 off asleep, 400 701 released 1", """
        100 0 701 lock 0x500 private
        110 0 701 switch 89 S 0 120
        200 0 701 return 0
        """),
    "a wait of the log ends by the log": ("""
        @1 1 THREAD 0x10 fifo 10
        @2 2 THREAD 0x20 fifo 80
        @10 1 GRANTED 0x500 inherit
        @100 2 REQUEST 0x500 inherit owner 701 timedlock
        @310 2 FAILED 0x500 took 210 error 110
        """, "10 701 granted 1, 100 702 waits 1, 120 702 runs 80, 120 702 off asleep, 310 702 gave-up 1", """
        110 0 702 lock 0x500 private
        120 0 702 switch 19 S 0 120
        300 0 702 return -110
        """),
    "a wait for an object ends as its thread sleeps in a lock": ("""
        @1 1 THREAD 0x10 fifo 10
        @2 2 THREAD 0x20 fifo 80
        @10 1 GRANTED 0x500 inherit
        @20 2 WAIT 0x700 semaphore
        @290 1 RELEASE 0x500 inherit
        @300 2 GRANTED 0x500 inherit took 1
        """, "10 701 granted 1, 20 702 blocks 1, 110 702 runs 80, 110 702 off asleep, 110 702 resumes 1, "
             "110 702 waits 1, 290 701 released 1, 300 702 granted 1", """
        100 0 702 lock 0x500 private
        110 0 702 switch 19 S 0 120
        295 0 702 return 0
        """),
    "a call whose return is missing ends with the next call": ("""
        @1 1 THREAD 0x10 fifo 10
        @400 1 EXIT
        """, "100 701 blocks 1, 110 701 runs 10, 110 701 off asleep, 300 701 resumes 1", """
        100 0 701 wait 0x900 private
        110 0 701 switch 89 S 0 120
        300 0 701 unlock 0x500 private
        """),
    "a level that is set unseen is the own one from the first switch that shows it": ("""
        @1 1 THREAD 0x10 other
        @400 1 EXIT
        """, "100 701 runs 0, 100 701 off asleep, 200 701 priority 30, 200 701 runs 30, 200 701 on 0, 300 701 off ready, "
             "350 701 priority 0, 350 701 runs 0", """
        100 0 701 switch 120 S 0 120
        200 0 0 switch 120 R 701 69
        300 0 701 switch 69 R 0 120
        350 0 0 switch 120 R 701 120
        """),
    "it isn't, if it is a boost, or comes after a boost that was lost": ("""
        @1 1 THREAD 0x10 fifo 10
        @400 1 EXIT
        """, "100 701 runs 10, 100 701 off ready, 150 701 runs 40, 200 701 runs 20, 200 701 on 0, 300 701 off ready", """
        100 0 701 switch 89 R 0 120
        150 1 9 setprio 701 89 59
        200 0 0 switch 120 R 701 79
        300 0 701 switch 79 R 0 120
        """),
    "it isn't, if it is a ceiling": ("""
        @1 1 THREAD 0x10 fifo 10
        @5 2 THREAD 0x20 fifo 20
        @250 2 GRANTED 0x500 protect 30
        @400 2 RELEASE 0x500 protect 30
        """, "100 702 runs 20, 100 702 off ready, 200 702 runs 30, 200 702 on 0, 250 702 granted 1, 300 702 off ready, "
             "400 702 released 1, 400 702 runs 20", """
        100 0 702 switch 79 R 0 120
        200 0 0 switch 120 R 702 69
        300 0 702 switch 69 R 0 120
        """),
    "it isn't, if events were lost since the last one": ("""
        @1 1 THREAD 0x10 fifo 10
        @400 1 EXIT
        """, "100 701 runs 10, 100 701 off ready, 120 lost 3, 200 701 runs 30, 200 701 on 0, 300 701 off ready", """
        100 0 701 switch 89 R 0 120
        150 1 0 lost 3 120
        200 0 0 switch 120 R 701 69
        300 0 701 switch 69 R 0 120
        """),
    "waits that time out, fail, and last": ("""
        @1 1 THREAD 0x10 fifo 10
        @10 1 WAIT 0x700 semaphore
        @20 1 WAITED 0x700 semaphore took 10 error 110
        @30 1 WAIT 0x740 rwlock-write
        @40 1 WAITED 0x740 rwlock-write took 10 error 35
        @50 1 WAIT 0x10 thread
        """, "10 701 blocks 1, 20 701 resumes 1 timed-out, 30 701 blocks 2, 40 701 resumes 2 failed, 50 701 blocks 3"),
}


class Converter:
    """Runs pim-facts on recordings in a folder, and compares what it writes."""

    def __init__(self, folder):
        self.path, self.words = pathlib.Path(folder, "facts"), set()

    def run(self, log=None, places=None, kernel=None, others=()):
        """Returns status, text and what is said of a recording, without its path."""
        for path in self.path.parent.glob("facts.[0-9]*"):
            path.unlink()
        for number, (data, text) in enumerate(others, 800):
            pathlib.Path(f"{self.path}.{number}").write_bytes(data)
            pathlib.Path(f"{self.path}.{number}.places").write_bytes(text)
        for end, data in (("", log), (".places", places), (".kernel", kernel)):
            path = pathlib.Path(f"{self.path}{end}")
            if data is None:
                path.unlink(missing_ok=True)
            else:
                path.write_bytes(data)
        done = subprocess.run([CONVERTER, self.path], capture_output=True, timeout=SECONDS, check=False)
        return done.returncode, done.stdout, done.stderr.decode().replace(str(self.path), "LOG")

    def why(self, log=None, places=None, kernel=None, others=()):
        """Returns how the text of a recording differs from that of the plain implementation, or why it isn't valid."""
        status, out, said = self.run(log, places, kernel, others)
        wanted = plain_facts_of_log.text_of(log, places or b"", kernel, others)
        got = difference((status, said, *out.decode().splitlines()), (0, "", *wanted.splitlines()))
        words = {word for line in wanted.splitlines() for word in line.split()[:6]}
        self.words |= {word for word in words if word.isalpha() or "-" in word}
        return got or ROWS.answer(out)[1].strip() or None


def kernel_of(seed):
    """Returns random events of the kernel, of which some tasks and mutexes are those of the random logs. They take as
    long as such a log."""
    task = lambda word: str(int(word[0]) - random_futex_waits.TASKS[0] + FIRST_TASK)
    later = lambda word: word[1] + str(BEGAN + LONGER * (int(word[2]) - BEGAN))
    text = re.sub(r"(?<![-\w])1[1-4]\b", task, random_futex_waits.random_text(seed))
    for address, mutex in zip(random_futex_waits.ADDRESSES, MUTEXES):
        text = text.replace(address, mutex)
    head, lines = text.splitlines(keepends=True)[:6], text.splitlines(keepends=True)[6:MOST_LINES]
    return "".join([*head, *(re.sub(r"(^|^end | lost \d+ )(\d+)", later, line) for line in lines)]).encode()


class ToFacts(Case):
    @classmethod
    def setUpClass(cls):
        cls.converter = Converter(temporary_folder(cls.addClassCleanup))

    def agree(self, what, recordings):
        """Checks that pim-facts and the plain implementation write the same of recordings, which have names."""
        differ = (f"{name}: {why}" for name, recording in recordings if (why := self.converter.why(*recording)))
        self.check(f"pim-facts writes of {what} what the plain implementation writes", next(differ, None))

    def test_logs_by_hand(self):
        for name, (log, wanted, *events) in BY_HAND.items():
            lines = [line.strip() for line in events[0].strip().splitlines()] if events else []
            kernel = (KERNEL_HEAD + "\n".join([*lines, "end 500 0 0\n"])).encode() if lines else None
            wanted = [line.strip() for line in wanted.split(",")]
            data = bytes(read_text(log))
            status, out, said = self.converter.run(data, None, kernel)
            begin = ("facts", "mutex", "object")
            lines = [line for line in out.decode().splitlines()
                     if not line.startswith(begin) and not (line.startswith("thread 7") or line.endswith(" end"))]
            self.check(f"facts of a log: {name}",
                       difference((status, said, *lines), (0, "", *wanted)) or self.converter.why(data, None, kernel))

    def test_recordings_that_are_kept_have_each_word(self):
        """Recordings that are kept, and those by hand that aren't refused. Each word is among their facts."""
        for case in [*test_suite.kept(), *test_suite.stored()]:
            if "error" not in case.wanted:
                self.check(f"the facts of {case.name}",
                           self.converter.why(case.log and bytes(case.log), case.places, case.kernel, case.other_logs()))
        words = ("granted took waits gave-up released priority ceiling blocks resumes by timed-out failed none inherit"
             " protect recursive semaphore rwlock barrier thread condition futex runs on off ready asleep lost end"
             " unseen")
        missing = [word for word in words.split() if word not in self.converter.words]
        self.check("each word of facts is among these", f"no {missing}" if missing else None)

    def test_random_logs(self):
        """Random logs, of which each third is damaged, and random ones of waits for what isn't a mutex."""
        seeds = range(FIRST_SEED, FIRST_SEED + LOGS)
        self.agree(f"{LOGS} random logs", ((f"log {seed}", [bytes(RandomLog(seed).data())]) for seed in seeds))
        self.agree("random waits for what isn't a mutex",
                   ((f"log {seed}", [bytes(random_other_waits.random_log(seed))]) for seed in seeds if seed % 3 == 0))

    def test_random_logs_of_several_programs(self):
        """Random logs of programs that one started: those of odd seeds are of one version, and can be joined."""
        def recording(seed):
            logs = [bytes(RandomLog(seed + more).data()) for more in (0, *random.Random(seed).sample(range(4, 199, 4), 2))]
            texts = [f"{number} 0x401000 first.c:{number}\n- 0x5000 lock{number}\n".encode() for number in (1, 2, 3)]
            kernel = kernel_of(seed) if seed % 8 == 1 else None
            return logs[0], texts[0], kernel, [*zip(logs[1:], texts[1:])]

        self.agree(f"{LOGS // 2} programs with those that they started",
                   ((seed, recording(seed)) for seed in range(FIRST_SEED, FIRST_SEED + LOGS, 2)))

    def test_more_places_than_a_record_has_numbers_for(self):
        """Nine logs have more places than a record has numbers for."""
        rows = [(1, reader.THREAD, 0x10, 0, 0, 0),
                *((1, reader.GRANTED, 0x5000 | number << 48, 1, 4, 0) for number in (1, 8191, 8192))]
        logs = [bytes(log_of(rows, 1, places=[0x1000 * part + at for at in range(1, 8193)], began=100 * part,
                             times=[100 * part] * len(rows))) for part in range(1, 10)]
        unplaced = self.converter.run(logs[0], None, None, [(log, b"") for log in logs[1:]])[1].count(b"\nunseen 4 records")
        self.check("places for which there is no number",
                   self.converter.why(logs[0], None, None, [(log, b"") for log in logs[1:]]) or difference((unplaced,), (1,)))

    def test_random_events(self):
        """Random events of the kernel, alone and of the time of a random log. Most break laws of their form."""
        logs = {"alone": lambda _: None, "of a log": lambda seed: bytes(RandomLog(seed).data()),
                "of other waits": lambda seed: bytes(random_other_waits.random_log(seed))}
        for kind, log in logs.items():
            self.agree(f"{TEXTS} random texts of the kernel's events {kind}",
                       ((seed, [log(seed), None, kernel_of(seed)]) for seed in range(FIRST_SEED, FIRST_SEED + TEXTS)))

    def test_command_line_and_files(self):
        """What the command line and files that can't be used lead to."""
        log, output = self.converter.path, pathlib.Path(f"{self.converter.path}.out")
        data = (ROOT / "record/recorded/random.log").read_bytes()
        _, text, _ = self.converter.run(data)
        run = lambda *words: subprocess.run([CONVERTER, *words], capture_output=True, timeout=SECONDS, check=False)
        helped = run("--help")
        is_told = all(word in helped.stdout for word in (b"usage: pim-facts", b"Status:", b"$ pim-facts run"))
        self.equal("pim-facts --help says how it is used", (helped.returncode, is_told), (0, True))
        for option in ("-o", "--output"):
            done = run(option, output, log)
            self.check(f"pim-facts {option} writes a file",
                       difference((done.returncode, done.stdout, output.read_bytes() == text), (0, b"", True)))
            output.unlink()
        refused = {"no log": [], "two logs": [log, log], "an unknown option": ["-x", log], "no such file": [f"{log}.none"],
                   "a folder": [log.parent], "a file of a folder that isn't there": ["-o", f"{log}.none/facts", log],
                   "to write over the log": ["-o", log, log]}
        for what, words in refused.items():
            done = run(*words)
            is_one = done.stderr.count(b"\n") in (1, 2) and b"pim-facts" in done.stderr
            self.equal(f"pim-facts refuses {what}", (done.returncode, done.stdout, is_one), (2, b"", True))
        kernel = f"{KERNEL_HEAD}end 500 0 0\n".encode()
        for ending, read in (("", data), (".kernel", kernel), (".places", b"1 0x10 a.c:1\n")):
            self.converter.run(data, b"1 0x10 a.c:1\n", kernel)
            done = run("-o", f"{log}{ending}", log)
            wanted = f"pim-facts: {log}{ending}: it is read, and so isn't written\n".encode()
            self.check(f"pim-facts writes no LOG{ending}", difference(
                (done.returncode, done.stdout, done.stderr, pathlib.Path(f"{log}{ending}").read_bytes()),
                (2, b"", wanted, read)))
        other, whole = pathlib.Path(f"{log}.17"), (ROOT / "suite/recordings/several_threads_share_a_chunk.log.txt").read_text()
        self.converter.run(bytes(read_text(whole)))
        other.write_bytes(read_text(whole))
        done = run("-o", other, log)
        wanted = 2, f"pim-facts: {other}: it is read, and so isn't written\n".encode(), bytes(read_text(whole))
        self.equal("pim-facts writes no log of a program that LOG's started",
                   (done.returncode, done.stderr, other.read_bytes()), wanted)
        other.unlink()
        self.converter.run(data)
        pipe = pathlib.Path(f"{log}.kernel")
        os.mkfifo(pipe)
        wanted = 2, b"", f"pim-facts: {pipe}: it isn't a file\n".encode()
        self.check("pim-facts waits for no pipe", difference(answer([CONVERTER, log], b""), wanted))
        pipe.unlink()
        status, out, said = self.converter.run(None, None, KERNEL_HEAD.replace("clock ", "").encode())
        wanted = "pim-facts: LOG.kernel: line 3: it isn't the line that the head has there\n"
        self.check("a head of the kernel's events without its words is refused",
                   difference((status, out, said), (2, b"", wanted)))
        self.converter.run(data[:100])
        done = run("-o", output, log)
        self.equal("nothing is written of a log that is refused", (done.returncode, output.exists()), (2, False))
        with open("/dev/full", "wb") as full:
            log.write_bytes(data)
            done = subprocess.run([CONVERTER, log], stdout=full, stderr=subprocess.PIPE, timeout=SECONDS, check=False)
        self.check("a text that can't be written is said",
                   difference((done.returncode, done.stderr), (2, b"pim-facts: standard output: No space left on device\n")))

    def test_logs_of_many_records(self):
        """Logs of many records take no time that grows with their square, whatever is in them."""
        generate = ROOT / "record/out/generate"
        for options in (["-t", "300", "-m", "1", "-c", "100"], ["-t", "1", "-m", "1"], ["-t", "16", "-m", "50000"]):
            subprocess.run([generate, "-n", "200000", *options, self.converter.path], check=True, timeout=SECONDS)
            done = subprocess.run([CONVERTER, self.converter.path], capture_output=True, timeout=SECONDS, check=False)
            self.check(f"facts of 200,000 records: generate {' '.join(options)}",
                       difference((done.returncode, done.stdout.count(b"\n") > 140000), (0, True)))

    def test_made_inputs_have_no_fault(self):
        name = f"{FUZZED} made inputs have no fault"
        probe = "int LLVMFuzzerTestOneInput(const char *data, unsigned long size) { return !data && size; }"
        words = ["clang", "-fsanitize=fuzzer", "-x", "c", "-", "-o", "/dev/null"]
        if not shutil.which("clang") or subprocess.run(words, input=probe.encode(), stderr=subprocess.DEVNULL,
                                                       check=False).returncode:
            return self.skip(name, "there is no clang with a fuzzer")
        done = subprocess.run(["make", "-s", "-C", ROOT / "record", "fuzz-facts", f"RUNS={FUZZED}"], capture_output=True,
                              text=True, errors="replace", timeout=SECONDS, check=False)
        self.check(name, done.stderr[-600:] if done.returncode else None)
