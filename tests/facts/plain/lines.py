"""What a line of facts says: the tables of docs/FACTS.md, 'Bytes, lines, words', as a program."""
import re
from collections import namedtuple

NUMBER, NAME = re.compile(rb"0|[1-9][0-9]{0,18}"), re.compile(rb"[!-~]{1,64}")
NOT_PLACES, MOST_PLACES = (b"by", b"failed", b"of", b"timed-out"), 16
NONE, INHERIT, PROTECT = b"none", b"inherit", b"protect"
KINDS = b"semaphore", b"rwlock", b"barrier", b"thread", b"condition", b"futex"
MOST_THREAD, MOST_NUMBER = 2**32 - 2, 10**19 - 1
RANGES = {"thread": (1, MOST_THREAD), "by": (1, MOST_THREAD), "mutex": (1, MOST_NUMBER),
          "object": (1, MOST_NUMBER), "count": (1, MOST_NUMBER), "level": (0, 100),
          "cpu": (0, 65535)}
# How a wait for an object ended. 0: nobody knows.
BY, ENDED = 1, {b"timed-out": 2, b"failed": 3}

# The parts of a line after the words that say which line it is. A number has small letters, and
# any other part has capitals.
DECLARATIONS = {b"thread": "thread level NAME", b"mutex": "mutex RECURSIVE PROTOCOL NAME",
                b"object": "object KIND NAME", b"unseen": "WORDS"}
REMARKS = {b"lost": "count", b"end": ""}
EVENTS = {
    **dict.fromkeys((b"granted", b"took", b"waits", b"gave-up", b"released"), "mutex PLACES"),
    **dict.fromkeys((b"priority", b"runs"), "level PLACES"),
    b"ceiling": "mutex level PLACES", b"blocks": "object PLACES",
    b"resumes": "object ENDER PLACES", b"on": "cpu PLACES", b"off": "STATE PLACES"}
SHAPES = {
    b"thread": "thread NUMBER LEVEL NAME",
    b"mutex": "mutex NUMBER [recursive] none|inherit|protect CEILING NAME",
    b"object": "object NUMBER semaphore|rwlock|barrier|thread|condition|futex NAME",
    b"unseen": "unseen WORD ..", b"lost": "TIME lost NUMBER", b"end": "TIME end"}
EVENT = ("TIME THREAD granted|took|waits|gave-up|released MUTEX, priority|runs LEVEL,"
         " ceiling MUTEX LEVEL, blocks OBJECT, resumes OBJECT [by THREAD|timed-out|failed],"
         " on CPU or off ready|asleep, and up to 16 places")
FIRST_WORD = "a line begins with thread, mutex, object, unseen, or a time in nanoseconds"

# A line. `what` is the first word of a line without a time, and else says what happened. The
# `level` of a mutex is its ceiling.
Line = namedtuple(
    "Line", "what time thread mutex object level by count cpu ended ready recursive protocol",
    defaults=(None,) * 8 + (0, False, False, None))


class Invalid(Exception):
    """Why a line isn't valid."""


def demand(holds, why):
    """Raises why a line isn't valid unless this holds."""
    if not holds:
        raise Invalid(why)


def lines_of(data):
    """Returns the lines of some bytes."""
    *parts, last = data.split(b"\n")
    return [*parts, last] if last else parts


def line_of(text):
    """Returns what a line after the first one says."""
    first, *words = text.split(b" ")
    if first in DECLARATIONS:
        return Line(first.decode(), **parts_of(words, DECLARATIONS[first], SHAPES[first]))
    demand(NUMBER.fullmatch(first), FIRST_WORD)
    time, remark = int(first), words[0] if words else b""
    if remark in REMARKS:
        parts = parts_of(words[1:], REMARKS[remark], SHAPES[remark])
        return Line(remark.decode(), time, **parts)
    what = words[1] if len(words) > 1 else b""
    demand(what in EVENTS, f"it should be: {EVENT}")
    del words[1]
    return Line(what.decode(), time, **parts_of(words, f"thread {EVENTS[what]}", EVENT))


def parts_of(words, parts, shape):
    """Returns the fields that these parts of a line say.

    If the words aren't these parts, the line should have the shape.
    """
    fields = {}
    for part in parts.split():
        said = said_by(words, part)
        demand(said is not None, f"it should be: {shape}")
        fields.update(said)
    demand(not words, f"it should be: {shape}")
    return fields


def said_by(words, part):
    """Takes a part from the left of the words. Returns its fields, or None if it isn't there."""
    if part in RANGES:
        return number_in(words, part)
    return PARTS[part](words)


def number_in(words, part):
    """Takes a number of the part's range."""
    word = words.pop(0) if words else b""
    least, most = RANGES[part]
    is_number = NUMBER.fullmatch(word) and least <= int(word) <= most
    return {part: int(word)} if is_number else None


def name(words):
    return {} if words and NAME.fullmatch(words.pop(0)) else None


def kind(words):
    return {} if words and words.pop(0) in KINDS else None


def recursive(words):
    return {"recursive": is_next(words, b"recursive")}


def protocol(words):
    if is_next(words, PROTECT):
        ceiling = number_in(words, "level")
        return ceiling and {"protocol": PROTECT, **ceiling}
    return next(({"protocol": one} for one in (NONE, INHERIT) if is_next(words, one)), None)


def ender(words):
    """Takes why a wait ended, if the line says it."""
    if is_next(words, b"by"):
        by = number_in(words, "by")
        return by and {"ended": BY, **by}
    return next(({"ended": how} for word, how in ENDED.items() if is_next(words, word)), {})


def state(words):
    """Takes whether a thread could run."""
    states = b"ready", b"asleep"
    return next(({"ready": one == b"ready"} for one in states if is_next(words, one)), None)


def unseen(words):
    """Takes 1 to 16 words, which say nothing of threads."""
    return places(words, ()) if words else None


def places(words, not_places=NOT_PLACES):
    """Takes up to 16 places, which nothing depends on."""
    found, words[:] = list(words), []
    are_places = all(NAME.fullmatch(word) and word not in not_places for word in found)
    return {} if are_places and len(found) <= MOST_PLACES else None


def is_next(words, word):
    """Returns whether this is the next word, and takes it then."""
    found = words[:1] == [word]
    del words[:found]
    return found


PARTS = {"NAME": name, "KIND": kind, "RECURSIVE": recursive, "PROTOCOL": protocol,
         "ENDER": ender, "STATE": state, "WORDS": unseen, "PLACES": places}
