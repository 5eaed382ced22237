"""Names the places of logs, in the code and of static mutexes: writes LOG.places, which
record/FORMAT.md specifies.

`pim-log --places` does so, and pim-record has it done when the program has ended.
"""
import array
import bisect
import glob
import mmap
import os
import pathlib
import re
import shutil
import struct
import subprocess
import sys

SYMBOLIZERS = ("eu-addr2line", "addr2line")  # the first is right of headers in more cases
STANDARD = re.compile(r"/c\+\+/|/bits/|(^|/)(std_mutex|gthr-default)\.h$")  # headers of C++
FRAME = re.compile(r"(.*?):(\d+)(:\d+)?( \(discriminator \d+\))?$")
QUALIFIERS = re.compile(r"( const| volatile| &| &&)+$")
OWN = re.compile(rb"[1-9]\d* 0x[0-9a-f]+ ")
DATA = re.compile(r"([0-9a-f]+) ([0-9a-f]+) [bBdDgGsSuvV] (.+)")  # address, size, type and name
MODULE_BYTES = 1 << 24  # an address further than this from the begin of a file isn't in it
NAME_LENGTH = 80
ADDRESS = (1 << 48) - 1  # the bits of an object that are its address
RECORD_BYTES, BLOCK_BYTES = 32, 1 << 20
# The head of a file of 64 bits in this byte order: its start, where its parts are, the size of each, and how many; and
# a part: its kind, its rights, where it is in the file and in memory, and its length there.
ELF, PART = struct.Struct("=6s26xQ14xHH6x"), struct.Struct("=IIQQQQQQ")
ELF_64 = b"\x7fELF\x02\x01" if sys.byteorder == "little" else b"\x7fELF\x02\x02"
LOADED, WRITABLE = 1, 2


class NotWritten(Exception):
    """A file of places isn't written."""


# ---- logs

class Places:
    """The places of a log, each with the nearest file that is loaded there or before."""

    def __init__(self, reader, path):
        self.path = path
        with open(path, "rb") as file:
            data = mmap.mmap(file.fileno(), 0, access=mmap.ACCESS_READ)
            log = reader.Log(data, {reader.MODULE, reader.TEXT, reader.INIT, reader.PLACE})
            self.objects = objects_in(data, log.head.header_bytes)
        self.calls = initialising(reader, log.records)
        self.addresses = {at: address for at, address in enumerate(log.places, 1) if address}
        self.modules = [(record.object, os.fsdecode(record.text), reader.bytes_of(record) or sys.maxsize)
                        for record in log.records if record.event == reader.MODULE]
        self.objects -= {begin for begin, *_ in self.modules}

    def module_of(self, address):
        """Returns the path of a file and the offset there of an address, or None."""
        begin, path, length = max((it for it in self.modules if it[0] <= address), default=(0, None, 0))
        return (path, address - begin) if path and address - begin < length else None

    def location(self, address):
        """Returns the path of a file and the offset there of the last byte of a call, or None."""
        return self.module_of(address - 1)

    def files_of_objects(self):
        """Returns the paths of the files in whose variables objects may lie."""
        offsets = {}
        for path, offset in filter(None, map(self.module_of, self.objects)):
            offsets.setdefault(path, []).append(offset)
        return {path for path, its in offsets.items() if has_variables_at(path, its)}

    def unnumbered(self, texts, symbols):
        """Returns the texts of addresses that have no number, by address: of the static mutexes,
        and of the calls that initialised others."""
        found = {}
        for address in self.objects:
            path, offset = self.module_of(address) or (None, 0)
            symbol = symbols.get(path, Symbols()).at(offset)
            if symbol:
                found[address] = symbol
        for address in self.calls:
            text = texts.get(self.location(address))
            if text:
                found[address] = text
        return found

    def write(self, texts, symbols):
        """Writes the file, with the texts by location and the symbols by file."""
        lines = []
        for number, address in self.addresses.items():
            where = self.location(address)
            text = texts.get(where) or unnamed(where) or f"{address:#x}"
            lines.append(f"{number} {address:#x} {text}\n")
        for address, text in sorted(self.unnumbered(texts, symbols).items()):
            lines.append(f"- {address:#x} {text}\n")
        result = pathlib.Path(f"{self.path}.places")
        if result.exists() and not is_own(result):
            raise NotWritten(f"{result} is there, and has no places")
        part = f"{result}.part"
        with open(os.open(part, os.O_WRONLY | os.O_CREAT | os.O_TRUNC, 0o600), "wb") as file:
            file.write(os.fsencode("".join(lines)))
        os.replace(part, result)


def objects_in(data, begin):
    """Returns the objects of all records, without their places, and some other numbers. The data
    from `begin` on are records of four words, of which the object is the third."""
    numbers, end = set(), len(data) - (len(data) - begin) % RECORD_BYTES
    for at in range(begin, end, BLOCK_BYTES):
        words = array.array("Q", data[at:min(at + BLOCK_BYTES, end)])
        if sys.byteorder == "big":
            words.byteswap()
        numbers.update(words[2::4])
    return {number & ADDRESS for number in numbers}


def initialising(reader, records):
    """Returns the addresses to which the calls return that initialised mutexes."""
    addresses, before = set(), {}
    for record in records:
        thread = record.chunk.thread
        if record.event == reader.PLACE and before.get(thread) == reader.INIT:
            addresses.add(record.object)
        before[thread] = record.event
    return addresses


def texts_of(log, path):
    """Returns what the file of places of a log says, by number."""
    result, texts = pathlib.Path(f"{path}.places"), {}
    if log.places and result.exists() and is_own(result):
        for line in filter(OWN.match, result.read_bytes().splitlines()):
            number, _, text = line.split(b" ", 2)
            texts[int(number)] = text
    return texts


def is_own(path):
    """Returns whether a file is one of places."""
    with open(path, "rb") as file:
        start = file.read(64)
    return not start or OWN.match(start) is not None


def unnamed(where):
    """Returns the text of a location that has no line, or None if that isn't in a file."""
    if where is None or where[1] >= MODULE_BYTES:
        return None
    return f"{os.path.basename(where[0])}+{where[1]:#x}"


def family(path):
    """Returns a log, those of the programs that it started, and the snapshots."""
    start = glob.escape(path)
    return [path, *sorted(glob.glob(f"{start}.[0-9]*") + glob.glob(f"{start}.snapshot.[0-9]*"))]


# ---- lines of the source

def symbolizers():
    """Returns the programs that name addresses."""
    return [*filter(None, map(shutil.which, SYMBOLIZERS))]


def named(programs, path, offsets):
    """Returns the texts of offsets of a file, by their locations, but for those without a line.
    Each program is asked for those of which the ones before it know no line."""
    texts = {}
    for program in programs:
        left = [offset for offset in offsets if (path, offset) not in texts]
        texts |= named_by(program, path, left) if left else {}
    return texts


def named_by(program, path, offsets):
    """Returns the texts that one program knows."""
    command = [program, "-a", "-f", "-i", "-C", "-e", path]
    asked = "".join(f"{offset:#x}\n" for offset in offsets)
    own = {**os.environ, "DEBUGINFOD_URLS": ""}  # nothing is fetched
    done = subprocess.run(command, input=asked.encode(), capture_output=True, check=False, env=own)
    texts, frames = {}, {}
    for line in os.fsdecode(done.stdout).splitlines():
        if line.startswith("0x"):
            lines = frames.setdefault(int(line, 16), [])
        elif frames:
            lines.append(line)
    for offset, lines in frames.items():
        text = text_of([*zip(lines[::2], lines[1::2])])
        if text:
            texts[path, offset] = text
    return texts


def text_of(frames):
    """Returns the text of functions that were inlined into each other, the innermost first: of the
    first one that isn't in a header of C++, or else of the last one."""
    found = [(function, match[1], int(match[2])) for function, place in frames
             if (match := FRAME.match(place)) and match[1] != "??" and int(match[2])]
    if not found:
        return None
    function, file, line = next((it for it in found if not STANDARD.search(it[1])), found[-1])
    name = short(function.split(" inlined at ")[0])
    return f"{os.path.basename(file)}:{line}" + (f" ({name})" if name != "??" else "")


def short(name):
    """Returns the name of a function without its parameters and its result."""
    bare = QUALIFIERS.sub("", name)
    if bare.endswith(")"):
        begin = last_outside(bare[:-1], "(")
        bare = bare if bare[:begin].endswith("operator") else bare[:begin]
    if "operator" not in bare:
        bare = bare[last_outside(bare, " ") + 1:]
    return bare if len(bare) <= NAME_LENGTH else f"{bare[:NAME_LENGTH - 3]}..."


def last_outside(text, sign):
    """Returns where a sign is last, but for those in brackets that are closed behind it, or -1."""
    depth = 0
    for at in range(len(text) - 1, -1, -1):
        if text[at] == sign and depth == 0:
            return at
        depth += (text[at] in ")>}") - (text[at] in "(<{")
    return -1


# ---- static mutexes

def has_variables_at(path, offsets):
    """Returns whether one of the offsets may be in a part of a file that is loaded to be written to.
    Of a file that can't be read as one of this machine it may."""
    try:
        with open(path, "rb") as file:
            start, place, size, count = ELF.unpack(file.read(ELF.size))
            if (start, size) != (ELF_64, PART.size):
                return True
            file.seek(place)
            parts = [PART.unpack(file.read(PART.size)) for _ in range(count)]
    except (OSError, ValueError, OverflowError, struct.error):
        return True
    return any(begin <= offset < begin + length for kind, rights, _, begin, _, _, length, _ in parts
               if kind == LOADED and rights & WRITABLE for offset in offsets)


class Symbols:
    """The static variables of a file."""

    def __init__(self, lines=()):
        found = filter(None, map(DATA.fullmatch, lines))
        self.its = sorted((int(it[1], 16), int(it[2], 16), it[3]) for it in found)

    def at(self, offset):
        """Returns the variable at an offset, such as `lock` or `pool+0x28`, or None."""
        place = bisect.bisect(self.its, (offset, sys.maxsize)) - 1
        if place < 0:
            return None
        begin, size, name = self.its[place]
        if offset >= begin + size:
            return None
        return name if offset == begin else f"{name}+{offset - begin:#x}"


def symbols_of(path):
    """Returns the static variables of a file: those that it exports, if it is stripped."""
    for own in ((), ("-D",)):
        command = ["nm", "-C", "-S", "--defined-only", *own, path]
        done = subprocess.run(command, capture_output=True, check=False)
        symbols = Symbols(os.fsdecode(done.stdout).splitlines())
        if symbols.its:
            return symbols
    return Symbols()


# ---- the command

def write_places(reader, paths):
    """Writes the places of logs, and of those that belong to them. Raises NotWritten."""
    programs = symbolizers()
    if not programs:
        raise NotWritten(f"there is neither {' nor '.join(SYMBOLIZERS)}")
    found = [it for path in paths for it in family(path)]
    heads = {path: reader.head_of(path) for path in dict.fromkeys(found)}
    logs = [Places(reader, path) for path, head in heads.items() if head and head.has_places]
    offsets = {}
    for log in logs:
        for where in map(log.location, {*log.addresses.values(), *log.calls}):
            if where:
                offsets.setdefault(where[0], set()).add(where[1])
    texts, symbols = {}, {}
    for path, its in offsets.items():
        texts |= named(programs, path, sorted(its))
    if shutil.which("nm"):
        files = set().union(*(log.files_of_objects() for log in logs))
        symbols = {path: symbols_of(path) for path in files}
    for log in logs:
        if log.addresses:
            log.write(texts, symbols)
