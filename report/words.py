"""How a report says numbers, times and lists."""
import functools
import re
import time

UNITS = ((10**9, "s"), (10**6, "ms"), (10**3, "us"))


def duration(nanoseconds):
    """Returns a time with three digits that count, as '17.1 ms'."""
    for size, unit in UNITS:
        if nanoseconds * 2000 >= size * 1999:
            digits = 2 if nanoseconds * 1000 < size * 9995 else (
                1 if nanoseconds * 100 < size * 9995 else 0)
            # A half is rounded up, as in the page.
            value = (2 * nanoseconds * 10**digits + size) // (2 * size)
            whole, part = divmod(value, 10**digits)
            return f"{whole:,}{f'.{part:0{digits}}' if digits else ''} {unit}"
    return f"{nanoseconds} ns"


def moment(nanoseconds):
    """Returns a time since the recording began, as '0.005805 s'."""
    return f"{nanoseconds / 10**9:.6f} s"


def date(nanoseconds):
    """Returns a time since 1970, as '2026-12-01 11:20:33.123 +0000' where the program runs."""
    seconds, rest = divmod(nanoseconds, 10**9)
    shown = time.localtime(seconds)
    return time.strftime(f"%Y-%m-%d %H:%M:%S.{rest // 10**6:03} %z", shown)


def count(number, one, more=None):
    return f"{number:,} {one if number == 1 else more or one + 's'}"


def listed(words, most=3):
    """Returns 'a, b and c', or 'a, b and 4 others'."""
    words = list(words)
    if len(words) > most:
        words = [*words[:most - 1], count(len(words) - most + 1, "other")]
    if len(words) < 2:
        return "".join(words)
    return ", ".join(words[:-1]) + " and " + words[-1]


def shares(parts, most=3):
    """Returns 'vision (50) ran for 14.0 ms and 2 others for 30.0 us' of (name, time) in order."""
    shown = [f"{name}{' ran' * (not at)} for {duration(time)}"
             for at, (name, time) in enumerate(parts[:most])]
    rest = parts[most:]
    if rest:
        shown.append(f"{count(len(rest), 'other')} for {duration(sum(time for _, time in rest))}")
    return listed(shown, len(shown))


def upper_first(text):
    return text[:1].upper() + text[1:]


@functools.lru_cache(maxsize=None)
def place_and_function(place):
    """Returns 'mix.c:17(high)' as 'mix.c:17 (high)'."""
    return re.sub(r"(?<=\S)\(", " (", place, count=1)


def without_function(place):
    """Returns 'mix.c:17' of 'mix.c:17 (high)'."""
    return place.split(" (")[0]


def nanoseconds_of(text):
    """Returns the nanoseconds of a time as '1.5s' or '200ms', or None."""
    found = re.fullmatch(r"(\d{1,19})(?:\.(\d{1,9}))?(s|ms|us|ns)", text)
    if not found:
        return None
    size = {"s": 10**9, "ms": 10**6, "us": 10**3, "ns": 1}[found[3]]
    share = found[2] or ""
    return int(found[1]) * size + int(share or 0) * size // 10**len(share)
