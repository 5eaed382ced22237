"""Logs by record/FORMAT.md, for tests: of rows, and of a text with a line for each record. suite/README.md
says what such a text has."""
import importlib.machinery
import importlib.util
import pathlib
import re
import struct
import sys

from tests.shared.checks import ROOT, made

CHUNK_BYTES, TEXT_BYTES, VERSION_1 = 16384, 22, 4096


def module(path):
    """Returns a script as a module."""
    sys.dont_write_bytecode = True
    sys.path.insert(0, str(path.parent))
    loader = importlib.machinery.SourceFileLoader("pim_log", str(path))
    made = importlib.util.module_from_spec(importlib.util.spec_from_loader("pim_log", loader))
    loader.exec_module(made)
    return made


reader = module(ROOT / "record/pim-log")


def setUpModule():
    """Builds the recorder, without a warning."""
    made("record", "CFLAGS=-O2 -Werror")


def broken(log):
    """Returns the first law that a log breaks, or what its program did against POSIX, or None."""
    checker = reader.Checker(log)
    return next(iter(checker.run() + checker.remarks), None)


def without_places(paths):
    """Returns the paths but for those of files that name places, sorted: they aren't there without addr2line."""
    return sorted(path for path in map(pathlib.Path, paths) if path.suffix != ".places")


def without_end(said):
    """Returns what pim-record says, but for a loss, how to see the report, and which programs have logs of their own."""
    ends = "|".join((".* is recorded; .*pim-report .* says who was held up", "programs that it started .*",
                     "the log (had|has) no room for .*"))
    return re.sub(rf"(?m)^pim-record: ({ends})\n", "", said)


def version_of(rows, places):
    """Returns the first version of a log that may have such rows and places."""
    if any(row and row[1] in (*reader.WITH_KIND, reader.FRAME) for row in rows):
        return 3
    return 1 if places is None else 2


def log_of(rows, chunks=2, times=None, tasks=None, processes=None, places=None, **fields):
    """Returns a log of rows: thread, event, object, value, detail and how; or thread, event and a part of a text; or
    None, for a number that no record has.

    Each thread has a chunk. Unless it is said, record n is of the time 1000 + 10 n, and thread t is task 99 + t of
    process 100. The fields are those of the header. With places, the addresses of the first slots of the table, the log
    is of version 2, and objects of calls have the number of a place in their bits from 48 on. With a wait for what isn't
    a mutex, or a frame, it is of version 3.
    """
    head = {"known": 7, "chunks": chunks, "process": 100, "parent": 50, "began": 1000, "numbers": len(rows) + 1,
            "taken": chunks, "threads": chunks + 1, "lost": 0, "first": 0, "left_out": 0, **fields}
    version, contents = version_of(rows, places), 0 if places is None else reader.HAS_PLACES
    begin = reader.HEADER_BYTES[version]
    data = bytearray(begin + chunks * CHUNK_BYTES)
    struct.pack_into("<8sIIIIIIQIIQQII", data, 0, b"pimlog\r\n", version, 0x01020304, begin, 32, 512, head["known"],
                     head["chunks"], head["process"], head["parent"], head["began"], 0, 4, contents)
    struct.pack_into(f"<{len(places or ())}Q", data, VERSION_1, *(places or ()))
    struct.pack_into("<Q", data, 128, head["numbers"])
    struct.pack_into("<QQQQQ", data, 192, *(head[name] for name in ("taken", "threads", "lost", "first", "left_out")))
    data[256:260] = b"./p\0"
    at = {}
    for thread in {row[0] for row in rows if row}:
        at[thread] = begin + CHUNK_BYTES * (thread - 1)
        process = (processes or {}).get(thread, head["process"])
        task = (tasks or {}).get(thread, head["process"] + thread - 1)
        struct.pack_into("<8sIIIIQ", data, at[thread], b"pimChunk", process, task, thread, 0, 0)
    for number, row in enumerate(rows, 1):
        if row is None:
            continue
        thread, event, *rest = row
        at[thread] += 32
        time = times[number - 1] if times else 1000 + 10 * number
        if len(rest) == 1:
            part, = rest
            struct.pack_into("<Q22sBB", data, at[thread], number, part, event, len(part))
        else:
            target, value, detail, how = rest
            struct.pack_into("<QQQIHBB", data, at[thread], number, time, target, value, detail, event, how)
    return data


# ---- version 4

def heads_of(data):
    """Returns where the chunks of a log of version 2 or later begin."""
    return range(reader.HEADER_BYTES[2], len(data), CHUNK_BYTES)


def used_of(data, at):
    """Returns how many bytes of a chunk have records, with its head."""
    return -(-len(bytes(data[at:at + CHUNK_BYTES]).rstrip(b"\0")) // 32) * 32


def share(data, pairs):
    """Moves the records of the second thread of each pair into the chunk of the first one, behind what is there."""
    for into, moved in pairs:
        at, its = (heads_of(data)[thread - 1] for thread in (into, moved))
        there, length = used_of(data, at), used_of(data, its)
        if there and there + length <= CHUNK_BYTES:
            data[at + there:at + there + length] = data[its:its + length]
            data[its:its + length] = bytes(length)
    struct.pack_into("<I", data, 8, 4)


def number_by_time(data):
    """Gives each record its time as its number, or that of the one before and one more if that isn't less."""
    first, = struct.unpack_from("<Q", data, 216)
    before, highest, lost = 0, 0, []
    for at in (at for begin in heads_of(data) for at in range(begin, begin + CHUNK_BYTES, 32)):
        number, time = struct.unpack_from("<QQ", data, at)
        is_head = data[at:at + 8] == reader.CHUNK_MARK
        if is_head or not number:
            before = 0 if is_head else before
            continue
        before = max(before + 1, 0 if data[at + reader.EVENT_AT] == reader.TEXT else time)
        highest = max(highest, before)
        lost += [before] if first and number >= first else []
        struct.pack_into("<Q", data, at, before)
    contents, = struct.unpack_from("<I", data, 68)
    struct.pack_into("<I", data, 8, 4)
    struct.pack_into("<I", data, 68, contents | reader.HAS_TIMES)
    struct.pack_into("<Q", data, 128, highest + 2)
    struct.pack_into("<Q", data, 216, min(lost, default=highest + 1) if first else 0)


# ---- a text

EVENTS = {name.upper().replace("-", "_"): event for event, name in reader.NAMES.items()}
POLICIES = {name: policy for policy, name in reader.POLICIES.items()}
PROTOCOLS = {name: detail | reader.DETAIL_KNOWN for detail, name in reader.PROTOCOLS.items()}
TYPES = {"recursive": 1, "errorcheck": 2, "adaptive": 3, "robust": reader.ROBUST, "shared": reader.SHARED}
KINDS = {name: kind for kind, name in reader.KINDS.items()}
WITH_LEVEL = ("fifo", "rr", "kept")


def row_of(words):
    """Returns the row of a record, and its text, by the words after its time."""
    thread, event = int(words[0]), EVENTS[words[1]]
    target = value = detail = how = 0
    text, rest = b"", iter(words[2:])
    for word in rest:
        if word.startswith("0x"):
            target = int(word, 16)
        elif word in ("took", "owner", "value"):
            value = int(next(rest))
        elif word == "error":
            how = int(next(rest))
        elif word == "at":
            target |= int(next(rest)) << 48
        elif word == "pages":
            how, detail = divmod(int(next(rest)), 1 << 16)
        elif word == "text":
            text = next(rest).encode()
            value = len(text)
        elif event in reader.WITH_KIND and word in KINDS:
            detail = KINDS[word]
        elif word == "to-all":
            how = reader.TO_ALL
        elif word in POLICIES:
            detail = POLICIES[word] | (int(next(rest)) << 8 if word in WITH_LEVEL else 0)
        elif word in PROTOCOLS:
            detail |= PROTOCOLS[word] | (int(next(rest)) << 8 if word == "protect" else 0)
        elif word in TYPES:
            detail |= TYPES[word]
        else:
            how |= reader.OWNER_DIED if word == "died" else reader.CALLS.index(word)
    return (thread, event, target, value, detail, how), text


def read_text(text):
    """Returns the log of a text."""
    rows, times, fields, tasks, places, changes, behind = [], [], {}, {}, {}, [], 0
    shares, has_times = [], False
    for line in text.splitlines():
        words = line.split("#")[0].split()
        if not words:
            continue
        if words[0] == "header":
            fields[words[1]] = int(words[2])
        elif words[0] == "task":
            tasks[int(words[1])] = int(words[2])
        elif words[0] == "place":
            places[int(words[1])] = int(words[2], 16)
        elif words[0] == "change":
            changes.append(words[1:])
        elif words[0] == "behind":
            behind = int(words[1])
        elif words[0] == "shares":
            shares.append((int(words[1]), int(words[2])))
        elif words[0] == "times":
            has_times = True
        else:
            time = int(words.pop(0)[1:]) if words[0].startswith("@") else (len(rows) + 1) * 1_000_000
            row, text_of_row = row_of(words)
            parts = [text_of_row[at:at + TEXT_BYTES] for at in range(0, len(text_of_row), TEXT_BYTES)]
            rows += [row, *((row[0], reader.TEXT, part) for part in parts)]
            times += [time] * (1 + len(parts))
    threads = max(row[0] for row in rows)
    tasks = {thread: 700 + thread for thread in range(1, threads + 1)} | tasks
    if places:
        fields["places"] = [places.get(number, 0) for number in range(1, max(places) + 1)]
    data = log_of(rows, threads, times, tasks, **{"process": 700, "began": 0, **fields})
    if shares:
        share(data, shares)
    if has_times:
        number_by_time(data)
    for words in changes:
        change(data, *words)
    return data + b"\xff" * behind


def change(data, at, width, number):
    """Changes some bytes of a log to a number, of which the lowest byte is first."""
    at, width = int(at), int(width)
    data[at:at + width] = int(number, 0).to_bytes(width, "little")
