"""record/pim-log and logs by hand: each event's line, and the edges of what the reader accepts."""
import pathlib
import struct
import tempfile

from tests.cases import Case
from tests.record.logs import log_of, reader, setUpModule
from tests.shared.checks import ROOT, answer, difference

SHARED_ROBUST_PROTECT = 0x5AD6  # errorcheck, ceiling 90
LINES = {  # thread, event, object, value, detail, how: what the line says behind the thread
    "a created thread": ((1, 3, 0x99, 0, 15, 0), "create self=0x99 policy=kept priority=0"),
    "a thread's place": ((1, 12, 0x1234, 0, 0, 0), "place address=0x1234"),
    "an ended thread": ((1, 4, 0, 0, 0, 0), "exit"),
    "a task's priority": ((1, 5, 0, 101, 2 | 40 << 8, 0),
                          "priority policy=rr priority=40 task=101"),
    "a thread's priority": ((1, 5, 0x88, 0, 6, 0),
                            "priority self=0x88 policy=deadline priority=0"),
    "an unknown policy": ((1, 5, 0x88, 0, 4, 0), "priority self=0x88 policy=4 priority=0"),
    "a child": ((2, 7, 10, 1, 0, 0), "child fork=10 parent=t1"),
    "an exec": ((1, 8, 0, 0, 0, 0), 'exec text=""'),
    "an exec that failed": ((1, 9, 0, 0, 0, 2), "exec-failed error=2"),
    "an end without a status": ((1, 10, 0, 0, 0, 0), "end"),
    "a module": ((1, 11, 0x7F00, 0, 0, 0), 'module address=0x7f00 text=""'),
    "a module with its end": ((1, 11, 0x7F00, 0, 3, 1), 'module address=0x7f00 bytes=0x10003000 text=""'),
    "a name": ((1, 2, 0x77, 0, 0, 0), 'name self=0x77 text=""'),
    "a destroyed mutex": ((1, 17, 0x5000, 0, 0, 0), "destroy mutex=0x5000"),
    "one that wasn't": ((1, 18, 0x5000, 0, 0, 16), "destroy-failed mutex=0x5000 error=16"),
    "a ceiling": ((1, 19, 0x5000, 0, 0x5A45, 0),
                  "ceiling mutex=0x5000 protocol=protect type=recursive ceiling=90"),
    "a request": ((1, 20, 0x5000, 101, 0x27, 2),
                  "request mutex=0x5000 protocol=inherit type=adaptive call=timedlock owner=101"),
    "a grant": ((1, 21, 0x5000, 9, SHARED_ROBUST_PROTECT, 0x81),
                "granted mutex=0x5000 protocol=protect type=errorcheck ceiling=90 robust shared"
                " call=trylock owner-died took=9"),
    "a call that failed": ((1, 22, 0x5000, 12, 0, 110), "failed mutex=0x5000 error=110 took=12"),
    "a wait's release": ((1, 23, 0x5000, 0, 0, 4),
                         "release mutex=0x5000 protocol=unknown call=condition"),
    "an unknown call": ((1, 23, 0x5000, 0, 4, 6),
                        "release mutex=0x5000 protocol=none type=normal call=6"),
    "a release that failed": ((1, 24, 0x5000, 0, 0, 1), "release-failed mutex=0x5000 error=1"),
    "a condition variable": ((1, 25, 0x6000, 0, 0, 0), "condition address=0x6000"),
    "a wait": ((1, 26, 0x7000, 0, 1, 0), "wait kind=semaphore address=0x7000"),
    "a wait to read": ((1, 26, 0x7000, 0, 2, 0), "wait kind=rwlock-read address=0x7000"),
    "a wait that ended": ((1, 27, 0x7000, 9, 3, 0), "waited kind=rwlock-write address=0x7000 took=9"),
    "a wait in vain": ((1, 27, 0x7000, 9, 5, 110), "waited kind=thread address=0x7000 error=110 took=9"),
    "a wait at a barrier": ((1, 26, 0x7000, 0, 4, 0), "wait kind=barrier address=0x7000"),
    "a wait of an unknown kind": ((1, 26, 0x7000, 0, 7, 0), "wait kind=7 address=0x7000"),
    "a post": ((1, 28, 0x7000, 0, 1, 0), "give kind=semaphore address=0x7000"),
    "an unlock of a read-write lock": ((1, 28, 0x7000, 0, 2, 0), "give kind=rwlock address=0x7000"),
    "a signal": ((1, 28, 0x7000, 0, 6, 0), "give kind=condition address=0x7000"),
    "a broadcast": ((1, 28, 0x7000, 0, 6, 1), "give kind=condition address=0x7000 to-all"),
    "a frame": ((1, 29, 0, 2, 0, 0), "frame index=2"),
    "an unknown event": ((1, 30, 0, 0, 0, 0), "event-30"),
}
TEXTS = {b"plain": '"plain"', b'a "word"': r'"a \"word\""', b"a\\b": r'"a\\b"',
         b"two\nlines": r'"two\x0alines"', b"\xff": r'"\xff"', b"\\xff": r'"\\xff"',
         "é".encode(): '"é"'}
REFUSED = {"a lost number beyond the end": {"lost": 1, "first": 9},
           "the next number lost": {"lost": 1, "first": 3},
           "as many lost as there are": {"lost": 3, "first": 1}, "no next number": {"numbers": 0}}
HEADS = {"a field that is 0": (24, 1), "thread 0": (16, 0), "the thread behind the last": (16, 3),
         "half a mark": (0, 0)}
BEGIN = [(1, 1, 0x77, 0, 1 | 30 << 8, 0), (2, 1, 0x88, 0, 0, 0)]


class Lines(Case):
    def test_the_line_of_each_event(self):
        """The line of each event, by record/FORMAT.md and the help of pim-log."""
        for name, (row, wanted) in LINES.items():
            log = reader.Log(log_of([row]))
            got = reader.line_of(log.records[0], log.head.began)
            self.equal(f"the line of {name}", (got,), (f"1 0.000000010 t{row[0]} {wanted}",))
        for text, wanted in TEXTS.items():
            self.equal(f"the text {text} in a line", (reader.quoted(text),), (wanted,))

    def test_parts_of_a_text(self):
        """A part of a text has 22 bytes, or what is left, and stands behind a record with a text."""
        name, granted = (1, 2, 0x77, 30, 0, 0), (1, 21, 0x5000, 2, 4, 0)
        cases = {"behind no text": [granted, (1, 13, 0, 0, 0, 2)],
                 "of no bytes": [(1, 2, 0, 0, 0, 0), (1, 13, 0, 0, 0, 0)],
                 "too short": [name, (1, 13, 0, 0, 0, 3)],
                 "too long": [(1, 2, 0, 2, 0, 0), (1, 13, 0, 0, 0, 3)]}
        for case, rows in cases.items():
            faults = reader.Log(log_of(rows)).faults
            wanted = ["record 2: it is no part of a text"]
            self.equal(f"a part of a text {case}", (faults,), (wanted,))
        log = reader.Log(log_of([name, (1, 13, 0, 0, 0, 22), (1, 13, 0, 0, 0, 8)]))
        self.check("a text of two parts", log.faults or difference((len(log.records[0].text),), (30,)))

    def test_headers(self):
        for name, fields in REFUSED.items():
            try:
                reader.Log(log_of(BEGIN, **fields))
                self.check(f"a header is refused: {name}", "it is read")
            except reader.NotALog:
                self.check(f"a header is refused: {name}")
        accepted = reader.Log(log_of(BEGIN, lost=1, first=2))
        self.equal("the last number may be lost", (len(accepted.records),), (1,))

    def test_which_chunks_are_read(self):
        """Which chunks are read, and which heads are damaged."""
        more = reader.Log(log_of(BEGIN, taken=3))
        self.check("chunks without room aren't read", more.faults or difference((len(more.records),), (2,)))
        fewer = reader.Log(log_of(BEGIN, taken=1))
        self.check("chunks that aren't taken aren't read",
                   fewer.faults or difference((len(fewer.records),), (1,)))
        empty = reader.Log(log_of(BEGIN[:1]))
        self.check("a chunk may be taken and not begun", empty.faults or None)
        cut = reader.Log(bytes(log_of(BEGIN)[:2 * 16384]))
        self.check("the file may end within a chunk",
                   difference((cut.faults[:1],), (["the file ends within chunk 1 of 2"],)))
        begun = log_of(BEGIN[:1])
        struct.pack_into("<IIII", begun, 4096 + 16384 + 8, 100, 101, 2, 0)
        self.check("the mark of a killed thread's chunk may be missing", reader.Log(begun).faults or None)
        struct.pack_into("<Q", begun, 4096, 0)
        damaged = {"records without a mark": begun}
        for name, (at, value) in HEADS.items():
            damaged[name] = log_of(BEGIN)
            struct.pack_into("<I", damaged[name], 4096 + at, value)
        for name, data in damaged.items():
            faults, wanted = reader.Log(data).faults, ["the chunk at byte 4096 has no whole head"]
            self.equal(f"a chunk's head: {name}", (faults,), (wanted,))

    def test_what_comes_first_and_last(self):
        """pim-log begins with what the header says, and ends with what was lost."""
        data = log_of(BEGIN, known=5, lost=1, first=2)
        struct.pack_into("<I", data, 64, 6)
        struct.pack_into("<Q", data, 224, 3)
        data[256:262] = b"./p\0x\0"
        with tempfile.TemporaryDirectory() as folder:
            path = pathlib.Path(folder, "run")
            path.write_bytes(data)
            status, out, err = answer([str(ROOT / "record/pim-log"), str(path)])
        wanted = ["# process 100, started by 50: './p x'",
                  "# known of mutexes: kind, owner; left out: 3",
                  "1 0.000000010 t1 thread process=100 task=100 self=0x77 policy=fifo priority=30",
                  "# the log was full: 1 records are missing, from 2 on"]
        got = status, err, out.decode().splitlines()
        self.equal("what pim-log prints of a log by hand", got, (0, b"", wanted))

    def test_what_cannot_be_read_has_one_line(self):
        """What can't be read has one line that says why."""
        with tempfile.TemporaryDirectory() as folder:
            path = pathlib.Path(folder, "run")
            missing = answer([str(ROOT / "record/pim-log"), str(path)])
            path.write_bytes(b"pimlog\r\n")
            short = answer([str(ROOT / "record/pim-log"), str(path)])
        for name, got, why in (("a file that isn't there", missing, "No such file or directory"),
                               ("the beginning of a log", short, "it isn't a log of pim-record,"
                            " or only the beginning of one")):
            wanted = 2, b"", f"pim-log: {path}: {why}\n".encode()
            self.equal(f"pim-log says why it doesn't read {name}", got, wanted)
