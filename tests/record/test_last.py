"""pim-record --last: the latest records, snapshots, and the waits that cause one."""
import os
import pathlib
import signal
import time

from tests.cases import Case
from tests.shared.checks import difference, ended, is_gone, proc_text, stat_of, threads_of, until
from tests.record.test_collector import (CHUNK_BYTES, HEADER_BYTES, MEGABYTE, PROGRAMS, RECORD,
                                         Running, counted, read, run)
from tests.record.logs import broken, change, log_of, reader, setUpModule, without_places

PAIRS, SHORT = 5110, 50  # of record/programs/last.c
ROOM = MEGABYTE // CHUNK_BYTES  # chunks of --last 1M
INHERIT = 0x24


def started(folder, *options, last="1M"):
    return Running(folder, PROGRAMS / "last", options=["--last", last, *options])


def does(running, lines):
    """Has the program do what each of the lines says. Returns whether it has done all."""
    return all(running.says(line) == "done" for line in lines.split())


def calls(log):
    """Returns how many calls a log has, with those that it says were dropped."""
    return counted(log, reader.GRANTED) + log.head.left_out


def anonymous_memory(process):
    """Returns how much memory is a process's own, in bytes."""
    line, = [it for it in proc_text(process, "status").splitlines() if it.startswith("RssAnon:")]
    return 1024 * int(line.split()[1])


def of_thread(log, thread):
    return [record for record in log.records if record.chunk.thread == thread]


class Part:
    """Some records of a log."""

    def __init__(self, records):
        self.records = records


def is_permitted():
    """Returns whether SCHED_FIFO is."""
    return run(PROGRAMS / "chain").returncode == 0


def snapshot(running, number):
    """Has a snapshot written, and returns its path once it is there."""
    path = pathlib.Path(f"{running.path}.snapshot.{number}")
    running.child.send_signal(signal.SIGUSR2)
    until(path.exists)
    return path


def faults_of_children(process):
    """Returns how often the children that a process has waited for had a page to be mapped."""
    return int(stat_of(process)[8])


def longest(log):
    """Returns what is wrong with a snapshot in which the thread that began last has waited for 20 ms, or None. The collector
    may have looked amid the wait: then the REQUEST is its last record."""
    own = of_thread(log, max(record.chunk.thread for record in log.records))
    waits = [record.value for record in own if record.event == reader.GRANTED]
    goes_on = own[-1].event == reader.REQUEST
    return None if goes_on or max(waits, default=0) >= 20_000_000 else f"{waits} ns"


class Last(Case):
    def test_a_busy_thread_takes_no_chunk_of_a_quiet_one(self):
        """A busy thread takes no chunk of a quiet one. Neither memory nor file grow, whatever is recorded."""
        running, held = started(self.folder), []
        collector = running.helper("pim-collector")
        did = [does(running, "quiet busy named busy quiet")]
        for _ in range(3):
            did.append(does(running, "busy " * 6 + "quiet"))
            until(lambda: anonymous_memory(collector) >= MEGABYTE)  # it has as much as it may
            held.append(anonymous_memory(collector))
        status, _, said = running.end()
        log, size = read(running.path), running.path.stat().st_size
        self.check("a log of the latest records", broken(log) or difference((status, said, did), (0, "", [True] * 4)))
        self.equal("it has each call, or says that it was dropped", (calls(log),), (5 + 20 * PAIRS,))
        threads = len({record.chunk.thread for record in log.records})
        self.check("its file is bounded", None if size <= HEADER_BYTES + (ROOM + threads) * CHUNK_BYTES else f"{size} bytes")
        few = all(MEGABYTE <= bytes_held <= MEGABYTE + MEGABYTE // 2 for bytes_held in held)
        self.check("its memory is bounded", None if few else f"{held} bytes")
        owners = {r.chunk.thread for r in log.records if r.event == reader.INIT}
        mine = [t for t in owners if counted(Part(of_thread(log, t)), reader.GRANTED) == 5]
        kept = [reader.NAMES[r.event] for t in mine for r in of_thread(log, t) if r.event not in reader.WITH_KIND]
        wanted = ["thread", "name", "init", "place"] + ["granted", "release"] * 5
        self.equal("the quiet thread has all of its records", kept, wanted)
        others = owners - set(mine)
        first = [r for t in others for r in of_thread(log, t)][:5]
        told = [(reader.NAMES[r.event], r.detail, r.text) for r in first[:3]]
        # Its policy as it began, or as it found it after a wait of more than a millisecond.
        began = [[("thread", policy, b""), ("name", 0, b"last"), ("init", INHERIT, b"")] for policy in (0, os.SCHED_BATCH)]
        self.check("what is known of the busy one is in front", None if told in began else f"{told}")
        rest = [r for t in others for r in of_thread(log, t)][4:]
        whole = all(a.event != b.event for a, b in zip(rest, rest[1:])) and len(rest) >= 500 * (ROOM - 6)
        self.check("its latest records are there", None if whole else f"{len(rest)} records")
        placed = first[3].event == reader.PLACE and first[3].object > 0 and first[0].time == first[2].time
        self.check("with the place of its mutex", None if placed else f"{first[3]}")
        late = max(r.time for r in log.records if r.event == reader.EXIT or r.event == reader.END)
        self.check("the log says until when records are missing",
                   None if log.head.began < log.head.dropped_until < late else f"{log.head.dropped_until}")
        lines = run(RECORD / "pim-log", running.path).stdout.splitlines()
        checked = run(RECORD / "pim-log", "--check", running.path).stdout.splitlines()
        words = f"the beginning is missing: {log.head.dropped} records were dropped"
        self.equal("pim-log says so", (f"# {words}" in lines[2], words in checked[1]), (True, True))

    def test_a_thread_with_fewer_chunks_loses_none(self):
        """A thread with fewer chunks than another loses none, whichever of them came first."""
        for lines, few, many in (("main " + "busy " * 6, 0, 1), ("busy " + "main " * 6, 1, 0)):
            running = started(self.folder)
            does(running, lines)
            log = read(snapshot(running, 1))
            running.end()
            first, = {r.chunk.thread for r in log.records if r.event == reader.MODULE}
            _, busy = [r.chunk.thread for r in log.records if r.event == reader.INIT]
            got = [counted(Part(of_thread(log, thread)), reader.GRANTED) for thread in (first, busy)]
            fits = got[few] == PAIRS and 40 * 255 < got[many] < 6 * PAIRS
            self.check(f"what threads keep: {lines}", broken(log) or (None if fits else f"{got}"))

    def test_what_a_dropped_record_says_of_another_thread_is_there(self):
        """What a dropped record says of another thread is there: of one with all of its records, and of one without."""
        for lines, name in (("quiet named " + "main " * 5, "there"), ("quiet named " + "main busy " * 5, "dropped")):
            running = started(self.folder)
            does(running, lines)
            running.end()
            log = read(running.path)
            _, busy = [r.chunk.thread for r in log.records if r.event == reader.INIT]
            began = next(r for r in of_thread(log, busy) if r.event == reader.THREAD)
            said = [r for r in log.records if r.object == began.object]
            names = [r.text for r in said if r.event == reader.NAME][-1:]
            priorities = [r.detail for r in said if r.event in (reader.THREAD, reader.PRIORITY)][-1:]
            self.check(f"what was said of a thread whose own records are {name}",
                       broken(log) or difference((names, priorities), ([b"the-busy-one"], [3])))

    def test_a_log_that_has_room_for_all_is_as_without_last(self):
        """A log that has room for all is as it would be without --last, and is written if pim-record is killed."""
        running = started(self.folder, last="64M")
        does(running, "quiet busy short fork wait" if is_permitted() else "quiet busy short fork")
        collector = running.helper("pim-collector")
        done = run(RECORD / "pim-log", running.path)
        self.equal("a log that isn't written yet", (done.returncode, "isn't written yet" in done.stderr), (2, True))
        running.child.kill()
        running.end()
        until(lambda: is_gone(collector))
        log = read(running.path)
        wanted = 1 + PAIRS + SHORT + 2 + (2 if is_permitted() else 0)
        self.check("a log with room for all", broken(log) or difference((calls(log), log.head.dropped), (wanted, 0)))

    def test_threads_that_have_ended_count_as_one(self):
        """Threads that have ended count as one: they take no chunk of a thread that has fewer."""
        running = started(self.folder)
        does(running, "quiet busy " + "short " * 8)
        running.end()
        log = read(running.path)
        owners = {r.chunk.thread for r in log.records if r.event == reader.INIT}
        got = sorted(counted(Part(of_thread(log, thread)), reader.GRANTED) for thread in owners)
        kept = counted(log, reader.EXIT)
        self.check("short threads take no chunk of a busy thread with fewer", broken(log) or difference(got, [1, PAIRS]))
        self.check("the latest of them are there", None if 20 < kept < ROOM else f"{kept} threads")
        self.equal("those that aren't are counted", (calls(log),), (1 + PAIRS + 8 * SHORT,))

    def test_a_child_has_the_number_of_its_fork(self):
        """A child has the number that its fork has now. Where that was dropped it isn't said that it is a child."""
        for lines, children in (("main " * 5 + "fork", 1), ("fork " + "main " * 5, 0)):
            running = started(self.folder)
            did = does(running, lines)
            running.end()
            log = read(running.path)
            processes = {record.chunk.process for record in log.records}
            got = did, counted(log, reader.CHILD), len(processes), log.head.dropped > 0
            self.check(f"a fork that is {'there' if children else 'dropped'}",
                       broken(log) or difference(got, (True, children, 2, True)))

    def test_SIGUSR2_writes_a_snapshot(self):
        """SIGUSR2 to pim-record writes what there is, and the recording goes on."""
        running, got = started(self.folder), []
        for number, lines in enumerate(("quiet busy", "quiet", "busy busy busy"), 1):
            does(running, lines)
            log = read(snapshot(running, number))
            got.append((broken(log), calls(log), log.head.dropped > 0))
        does(running, "quiet")
        status, _, said = running.end()
        log = read(running.path)
        wanted = [(None, 1 + PAIRS, False), (None, 2 + PAIRS, False), (None, 2 + 4 * PAIRS, True)]
        self.equal("snapshots", got, wanted)
        line = f"pim-record: 3 snapshots were taken: {running.path}.snapshot.1 to 3\n"
        got = status, said, calls(log)
        self.check("the recording goes on", broken(log) or difference(got, (0, line, 3 + 4 * PAIRS)))
        again = Running(self.folder, PROGRAMS / "last")
        does(again, "quiet")
        again.child.send_signal(signal.SIGUSR2)
        status = ended(again.child)
        again.end()
        got = status, [path.name for path in without_places(pathlib.Path(self.folder).iterdir())]
        self.check("without --last the signal is the program's, and an earlier recording's snapshots are gone",
                   difference(got, (-signal.SIGUSR2, ["run"])))

    def test_a_snapshot_is_of_one_moment(self):
        """A snapshot is of one moment, whatever the threads do meanwhile: no mutex has two owners."""
        running = Running(self.folder, PROGRAMS / "random", "3", "9999999", "ordinary", options=["--last", "1M"])
        program = running.helper("random")
        until(lambda: len(threads_of(program)) > 8)  # it is recorded by now
        faults = [broken(read(snapshot(running, number))) for number in range(1, 5)]
        goes_on = running.child.poll() is None
        os.kill(program, signal.SIGKILL)
        running.end()
        self.equal("snapshots of a program that runs", (*faults, goes_on), (*[None] * 4, True))
        self.check("its log", broken(read(running.path)))

    def test_a_snapshot_without_room_is_not_there(self):
        """A snapshot for which there is no room isn't there, and the last line says so."""
        disk = pathlib.Path(self.folder, "disk")
        disk.mkdir()
        if run("mount", "-t", "tmpfs", "-o", "size=256k", "none", disk).returncode:
            return self.skip("a snapshot on a full disk", "a small file system can't be mounted")
        try:
            running = started(disk)
            does(running, "busy")
            collector = running.helper("pim-collector")
            running.child.send_signal(signal.SIGUSR2)
            until(lambda: faults_of_children(collector) > 0)  # what writes the snapshot has ended
            says = running.says("quiet")
            status, _, said = running.end()
            log = read(running.path)
            line = "pim-record: 1 of the snapshots couldn't be written\n"
            names = [path.name for path in without_places(disk.iterdir())]
            got = says, status, said.endswith(line), names, log.head.lost > 0
            return self.check("a snapshot on a full disk", broken(log) or difference(got, ("done", 0, True, ["run"], True)))
        finally:
            run("umount", disk)

    def test_a_long_wait_causes_a_snapshot(self):
        """A wait of a thread of a real-time priority for longer than the time causes a snapshot, so many times."""
        if not is_permitted():
            return self.skip("waits that cause a snapshot", "SCHED_FIFO isn't permitted")
        for options, lines, count in ((["--trigger", "2ms"], "busy wait wait quiet", 1),
                                      (["--trigger=2000us", "--snapshots=3"], "quiet wait wait", 2),
                                      (["--trigger", "100s"], "quiet wait", 0), (["--trigger", "2ms"], "quiet plain", 0),
                                      (["--trigger", "2ms", "--snapshots", "0"], "quiet wait", 0)):
            running = started(self.folder, *options)
            does(running, lines.split()[0])
            for number, line in enumerate(lines.split()[1:], 1):
                does(running, line)
                if number <= count:
                    until(pathlib.Path(f"{running.path}.snapshot.{number}").exists)
            snapshot(running, count + 1)  # before it the collector looks at each wait
            said = running.end()[2].splitlines()
            found = without_places(pathlib.Path(self.folder).glob("run.snapshot.*"))
            faults = [broken(read(path)) for path in found]
            faults += [longest(read(path)) for path in found[:count]]
            waits = [line for line in said if ", at 80, waited " in line]
            got = len(found), [fault for fault in faults if fault], len(waits)
            told = 1 if count or options[-1] == "0" else 0
            self.equal(f"{' '.join(options)}: {lines}", got, (count + 1, [], told))

    def test_a_wait_that_goes_on_causes_a_snapshot(self):
        """A wait that goes on causes a snapshot, too, and none once more at its end."""
        if not is_permitted():
            return self.skip("a wait that goes on", "SCHED_FIFO isn't permitted")
        running = started(self.folder, "--trigger", "2ms", "--snapshots", "5")
        does(running, "stuck")
        path = pathlib.Path(f"{running.path}.snapshot.1")
        until(path.exists)
        log = read(path)
        last = [r.event for r in of_thread(log, max(r.chunk.thread for r in log.records))][-1:]
        does(running, "quiet")  # its wait has ended
        snapshot(running, 2)  # before it the collector looks at the end of the wait
        running.end()
        found = len(without_places(pathlib.Path(self.folder).glob("run.snapshot.*")))
        self.check("a wait that goes on", broken(log) or difference((last, found), ([reader.REQUEST], 2)))

    def test_a_ring_of_a_few_chunks_keeps_the_laws(self):
        """A ring of a few chunks: what is left of threads that race keeps the laws."""
        launch = [RECORD / "out/pim-launch", RECORD / "out/libpim_record.so"]
        for chunks in (2, 3, 9):
            for command in ("random 1 300 ordinary", "many", "signals", "condition", "robust", "executes"):
                name, *words = command.split()
                path = pathlib.Path(self.folder, "run")
                for old in pathlib.Path(self.folder).glob("run*"):
                    old.unlink()
                size = {"PIM_RECORD": str(path), "PIM_RECORD_LAST": str(chunks * CHUNK_BYTES)}
                done = run(*launch, PROGRAMS / name, *words, env={**os.environ, **size})
                faults = [broken(read(log)) for log in pathlib.Path(self.folder).glob("run*")]
                self.check(f"{command} in {chunks} chunks",
                           difference((done.returncode, *faults), (0, *[None] * len(faults))))

    def test_a_log_whose_beginning_is_missing(self):
        """A log whose beginning is missing: an owner may be unknown, but no other than the log says."""
        one, two = (1, reader.THREAD, 0x77, 0, 0, 0), (2, reader.THREAD, 0x88, 0, 0, 0)
        granted, release = (1, reader.GRANTED, 0x5000, 0, INHERIT, 0), (2, reader.RELEASE, 0x5000, 0, INHERIT, 0)
        for name, rows, dropped, wanted in (("a release without its grant", [one, two, release], 3, False),
                                            ("the same where nothing is missing", [one, two, release], 0, True),
                                            ("a release of another's mutex", [one, two, granted, release], 3, True)):
            data = log_of(rows)
            change(data, 232, 8, str(dropped))
            change(data, 240, 8, "1500")
            log = reader.Log(data)
            self.equal(f"{name}, whether it is told", (broken(log) is not None,), (wanted,))
            words = reader.dropped_words(log.head)
            self.equal("until when", (words,), (f"{dropped} records were dropped, and from 0.000000500 on none is",))

    def test_each_log_is_listed(self):
        """Each log has a line, by the time of its start: process, time, records, command. Other files have none."""
        text = f"{PROGRAMS}/pair 10 > /dev/null; {PROGRAMS}/pair 20 1 'a b' > /dev/null"
        before = time.time()
        done = run(RECORD / "pim-record", "-o", f"{self.folder}/run", "sh", "-c", text)
        pathlib.Path(self.folder, "run.pim").write_text("pim 1\n")
        files = [*map(str, without_places(pathlib.Path(self.folder).glob("run*")))]
        listing = run(RECORD / "pim-record", "--list", *files)
        lines = [line.split(" ", 1) for line in map(str.strip, listing.stdout.splitlines())]
        logs = {int(path.rpartition(".")[2]): path for path in files if path[-1].isdigit()}
        programs = [f"{PROGRAMS}/pair 10", f"{PROGRAMS}/pair 20 1 'a b'"]
        got = done.returncode, listing.returncode, listing.stderr, len(lines), len(logs)
        why = difference(got, (0, 0, "", 3, 2))
        if why:
            return self.check("--list", why)
        found = [rest.split(": ", 1)[1] for _, rest in lines[1:]]
        self.equal("--list has each log, the first one first", found, programs)
        for process, rest in lines[1:]:
            log = reader.Log(reader.used_bytes(logs[int(process)]))
            when = time.mktime(time.strptime(rest[:19], "%Y-%m-%d %H:%M:%S"))
            words = [str(len(log.raw)), "records", f"{logs[int(process)]}:"]
            fits = int(before) <= when <= time.time() and rest.split()[2:5] == words
            self.check("a line of --list", None if fits else rest)
        none = run(RECORD / "pim-record", "--list", f"{self.folder}/run.pim", f"{self.folder}/nothing")
        got = none.returncode, none.stdout, none.stderr.count("\n")
        self.equal("--list without a log", got, (2, "", 1))

    def test_options_that_do_not_fit_are_refused(self):
        """Options that don't fit are refused, and nothing is run."""
        for options, why in ((["--last", "64"], "64M"), (["--last", "0M"], "64M"), (["--last="], "64M"),
                             (["--last=64K"], "64M"), (["--last=1000G"], "64M"),
                             (["--last", "1M", "--size", "2"], "--size"), (["--last", "1M", "--kernel"], "--kernel"),
                             (["--trigger", "2ms"], "go with --last"),
                             (["--last", "1M", "--trigger", "2"], "2ms"), (["--last", "1M", "--trigger", "ms"], "2ms"),
                             (["--last", "1M", "--snapshots", "many"], "snapshots"), (["--last"], "needs a value")):
            program = [] if options == ["--last"] else ["true"]
            done = run(RECORD / "pim-record", "-o", f"{self.folder}/run", *options, *program)
            got = done.returncode, why in done.stderr, "nothing was run" in done.stderr, os.listdir(self.folder)
            self.equal(f"refused: {' '.join(options)}", got, (2, True, True, []))
