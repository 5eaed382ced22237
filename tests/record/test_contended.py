"""pim-record --contended: what was waited for is in the log, with its owner, and no more."""
import os
import pathlib

from tests.cases import Case
from tests.record import log_facts
from tests.record.logs import broken, reader, setUpModule
from tests.shared.checks import difference, until
from tests.record.test_collector import PROGRAMS, RECORD, counted, read, run
from tests.record.test_last import PAIRS, does, is_permitted, snapshot, started
from tests.record.test_report import MOST_RECORDINGS, Report

CONTENDED = "--contended"
MILLISECONDS = 1_000_000
PROTECT = 0x40
SKIPPED = 77  # the status of a program that lacks a right
STEP = 1024  # calls that a thread counts at a time: MOST_UNCOUNTED of record/library/held.h


def mutex_events(log):
    """Returns the thread and the event of each lock and unlock, in order."""
    wanted = (reader.REQUEST, reader.GRANTED, reader.FAILED, reader.RELEASE)
    return [(r.chunk.thread, reader.NAMES[r.event]) for r in log.records if r.event in wanted]


def found(path):
    """Returns why a log has no report, or None; its waits in words; whether the longest ownership of each mutex that was
    waited for is known; and how many deadlocks there are."""
    report = Report(path)
    owned = {section["mutex"] for section in report.found["sections"] if section["longest"] > 0}
    awaited = {wait["mutex"] for wait in report.found["waits"]}
    return report.fault(), sorted(report.waits()), awaited <= owned, len(report.found["deadlocks"])


class Contended(Case):
    def test_calls_without_a_wait_are_counted(self):
        """Neither a lock nor an unlock is in the log, but how many there were."""
        running = started(self.folder, CONTENDED, last="16M")
        did = does(running, "busy main")
        early = read(snapshot(running, 1)).head.left_out
        # all of the busy thread, which has put a post since, and those of the first one that it has counted
        self.equal("nobody has waited yet", (early,), (PAIRS + PAIRS // STEP * STEP,))
        did = did and does(running, "busy quiet")
        status, _, _ = running.end()
        log = read(running.path)
        # twice the busy thread's, the first one's and a quiet one: each puts a post after them
        counted_calls = 3 * PAIRS + 1
        got = did, status, mutex_events(log), log.head.left_out
        self.check("nobody waits", broken(log) or difference(got, (True, 0, [], counted_calls)))
        self.equal("its mutexes are there", (counted(log, reader.INIT),), (2,))

    def test_a_wait_is_in_the_log_with_its_owner(self):
        """A wait is in the log with its owner, and with the times that the owner got and released the mutex."""
        running = started(self.folder, CONTENDED)
        does(running, "busy plain busy plain main")
        running.end()
        log = read(running.path)
        first = min(r.chunk.thread for r in log.records)
        others = sorted({thread for thread, _ in mutex_events(log)} - {first})
        wanted = []
        for other in others:
            wanted += [(first, "granted"), (other, "request"), (first, "release"), (other, "granted"), (other, "release")]
        self.check("two waits, and no more", broken(log) or difference((*mutex_events(log), 2), (*wanted, len(others))))
        records = [r for r in log.records if r.event in (reader.REQUEST, reader.GRANTED, reader.RELEASE)]
        for granted, request, release, answer, _ in zip(*[iter(records)] * 5):
            self.equal("the request names its owner", (request.value,), (granted.chunk.task,))
            owned, waited = release.time - granted.time, answer.time - request.time
            fits = granted.time <= request.time and min(owned, waited, answer.value) >= 20 * MILLISECONDS
            self.check("the times of a wait and of its owner", None if fits else f"owned {owned} ns, waited {waited} ns")
            before = [r.time for r in log.records if r.number < granted.number]
            self.check("the grant has its place in the order", None if max(before) <= granted.time else "it is too early")

    def test_the_grant_of_an_owner_comes_before_the_request(self):
        """The request is the next record that anybody puts, and the owner's grant comes before it all the same."""
        running = started(self.folder, CONTENDED)
        does(running, "busy beside quiet")
        running.end()
        log = read(running.path)
        got = mutex_events(log)
        first, quiet = min(r.chunk.thread for r in log.records), max(thread for thread, _ in got)
        wanted = [(first, "granted"), (quiet, "request"), (first, "release"), (quiet, "granted"), (quiet, "release")]
        self.check("a request that is the next record", broken(log) or difference(got, wanted))
        granted = next(r for r in log.records if r.event == reader.GRANTED)
        request = next(r for r in log.records if r.event == reader.REQUEST)
        fits = granted.time <= request.time and 0 < granted.value < granted.time - log.head.began
        self.check("a grant that is put later has its own time, and how long it took", None if fits else f"{granted}")

    def test_findings_are_those_of_a_log_of_all(self):
        """What is found in a log of what was waited for is what is found in a log of all."""
        if not is_permitted():
            return self.skip("the findings of --contended", "SCHED_FIFO isn't permitted")
        for command, count in (("inversion none 40", 1), ("inversion inherit 40", 1), ("chain", 2), ("deadlock", 2),
                               ("ceiling", 1), ("recursive", 1), ("passes", 1)):
            got = []
            for options in ([], [CONTENDED]):
                path = pathlib.Path(self.folder, "run")
                run(RECORD / "pim-record", "-o", path, "--last", "4M", *options, PROGRAMS / command.split()[0],
                    *command.split()[1:])
                got.append((broken(read(path)), *found(path)))
            self.check(f"{command}: as in a log of all", difference(got[1], got[0]))
            self.equal(f"{command}: its waits", (len(got[1][2]), got[1][3]), (count, True))

    def test_a_wait_for_a_mutex_that_was_found_free(self):
        """A thread that finds a mutex free, and waits since another was quicker, has its wait in the log. More than a tenth
        of the 200 waits of high in missed are such ones. There may be none where high and low seldom run at one time: then
        it is recorded again."""
        path, others, lacking, fault = pathlib.Path(self.folder, "run"), [], 0, None
        for _recording in range(MOST_RECORDINGS):
            done = run(RECORD / "pim-record", "-o", path, "--last", "4M", CONTENDED, PROGRAMS / "missed", "200")
            if done.returncode == SKIPPED:
                return self.skip("waits without a REQUEST", done.stdout.strip())
            log = read(path)
            fault = broken(log)
            others = [wait for wait in Report(path).waits() if wait.startswith("high") and not wait.endswith("inverted")]
            lacking = len(log_facts.missing_of(log_facts.Log(log.records)))
            if fault or others or lacking:
                break
        self.check("each wait of high in missed is for low", fault or difference((others,), ([],)))
        self.check("waits without a REQUEST", None if lacking > 0 else f"none in {MOST_RECORDINGS} recordings")

    def test_logs_of_programs_that_race_keep_the_laws(self):
        """Threads that race, handlers, dead owners, ceilings, forks: the log keeps the laws."""
        for command in ("random 3 300", "random 4 300 ordinary", "signals", "robust", "recursive", "ceiling", "condition",
                        "calls", "forks", "rawforks", "many", "passes"):
            path, protected = pathlib.Path(self.folder, "run"), []
            for options in ([], [CONTENDED]) if command == "passes" else ([CONTENDED],):
                done = run(RECORD / "pim-record", "-o", path, "--last", "16M", *options, PROGRAMS / command.split()[0],
                           *command.split()[1:])
                log = read(path)
                protected.append(sum(r.event == reader.GRANTED and r.detail & PROTECT != 0 for r in log.records))
            if done.returncode == SKIPPED:
                self.skip(command, "SCHED_FIFO isn't permitted")
                continue
            self.check(f"{command} --contended", broken(log))
            if command == "passes":
                self.check("each lock of a PROTECT mutex", difference(protected, [1, 1]))

    def test_a_handler_that_puts_the_kept_grants(self):
        """A handler that puts the kept grants may come at any moment: each call is in the log once, or counted once."""
        path = pathlib.Path(self.folder, "run")
        done = run(RECORD / "pim-record", "-o", path, "--last", "16M", CONTENDED, PROGRAMS / "interrupted")
        got, failed, posts = map(int, done.stdout.split() or (0, 0, 0))
        log = read(path)
        put = [counted(log, event) for event in (reader.GRANTED, reader.RELEASE, reader.FAILED, reader.GIVE)]
        self.check("calls that are interrupted", broken(log) or difference(
            (done.returncode, posts > 100, put[0] > 0, put[0] - put[1], log.head.left_out + put[0] + put[2] + put[3]),
            (0, True, True, 0, got + failed + posts)))

    def test_a_thread_that_owns_more_than_eight_mutexes(self):
        """A thread that owns more than eight mutexes: all of them are in the log, and each is released once."""
        running = started(self.folder, CONTENDED)
        does(running, "deep")
        running.end()
        log = read(running.path)
        events = [event for _, event in mutex_events(log)]
        got = [events.count(event) for event in ("granted", "release")]
        self.check("a thread that owns many mutexes", broken(log) or difference(got, [14, 14]))

    def test_what_a_thread_owns_as_it_forks(self):
        """What a thread owns as it forks is in the log: the child releases its copy."""
        running = started(self.folder, CONTENDED)
        does(running, "main fork main")
        running.end()
        log = read(running.path)
        wanted = (reader.GRANTED, reader.FORK, reader.RELEASE, reader.CHILD)
        got = sorted(reader.NAMES[r.event] for r in log.records if r.event in wanted)
        self.check("a fork of an owner", broken(log) or difference(got, ["child", "fork", "granted", "release", "release"]))

    def test_a_snapshot_amid_a_wait_has_the_request(self):
        """A snapshot amid a wait has the request, which names the owner's thread.

        The request may be the last record: then the wait has no time in which it could be inverted.
        """
        if not is_permitted():
            return self.skip("a snapshot amid a wait", "SCHED_FIFO isn't permitted")
        running = started(self.folder, CONTENDED, "--trigger", "2ms")
        does(running, "busy stuck")
        path = pathlib.Path(f"{running.path}.snapshot.1")
        until(path.exists)
        log = read(path)
        does(running, "quiet")
        running.end()
        request, = [r for r in log.records if r.event == reader.REQUEST]
        first = min(log.records, key=lambda r: r.number)
        waits = [wait.rpartition(": ")[0] for wait in Report(path).waits()]
        self.check("a snapshot amid a wait", broken(log) or difference(
            (request.value, waits), (first.chunk.task, ["last (80) for none awaited of last (0)"])))

    def test_contended_goes_with_last(self):
        """--contended goes with --last."""
        done = run(RECORD / "pim-record", "-o", f"{self.folder}/run", CONTENDED, "true")
        got = done.returncode, "go with --last" in done.stderr, os.listdir(self.folder)
        self.equal("--contended without --last", got, (2, True, []))
