"""The laws of docs/ROWS.md, of the world after a line and of the rows of a text."""
from collections import Counter

from lines import INHERIT, NONE, PROTECT


def broken_in_world(world):
    """Returns the laws that don't hold after a line, as texts."""
    return [why for t in world.awaits for why in broken_by_wait(world, t)]


def broken_by_wait(world, t):
    """Yields the laws that don't hold of a thread that waits."""
    runner, gets, is_inverted = world.runner(t), world.gets(t), world.is_inverted(t)
    if is_inverted and all(passes_on(world, u, gets) for u in world.way(t)[:-1]):
        yield f"law 2: thread {t}"
    if is_inverted and not may_be_blamed(world, world.blame(t), t, gets):
        yield f"law 3: thread {t}"
    owner, protocol = world.blocker(t), world.mutexes[world.awaits[t]].protocol
    is_simple = protocol == NONE and is_idle(world, owner) and owned_by(world, owner) == 1
    if is_simple and is_inverted != (world.level[owner] < gets):
        yield f"law 4: thread {t}"
    meanwhile = world.meanwhile(t) if is_inverted else None
    is_other = runner != t and (runner is None or world.blocker(runner) is None)
    if not is_other or meanwhile and meanwhile[0] in (t, runner):
        yield f"law 5: thread {t}"


def passes_on(world, u, gets):
    """Returns whether the mutex that u awaits is INHERIT, or has a ceiling that is high enough."""
    mutex = world.awaits[u]
    return world.mutexes[mutex].protocol == INHERIT or world.ceiling.get(mutex, -1) >= gets


def may_be_blamed(world, mutex, t, gets):
    """Returns whether a mutex may be the blame of t: it passes nothing on, or too little."""
    protocol, owner = world.mutexes[mutex].protocol, world.owner[mutex]
    is_low = protocol == PROTECT and world.ceiling[mutex] < gets
    waits = next(u for u in world.way(t) if world.awaits.get(u) == mutex)
    return (protocol == NONE or is_low) and world.gets(owner) < world.gets(waits)


def is_idle(world, t):
    return t is not None and t not in world.awaits and t not in world.blocked


def owned_by(world, t):
    return sum(owner == t for owner in world.owner.values())


def broken_in_rows(rows, has_off):
    """Returns the laws that don't hold of the rows of a text, as texts.

    `has_off` says whether the text has a line `off`.
    """
    wanted, sums, broken = {}, Counter(), []
    for row in rows:
        word, *numbers = row
        if word == "wait":
            number, lasted, (inverted, lower, stalled) = numbers[0], numbers[5], numbers[-3:]
            wanted[number] = {"inverted": inverted, "stalled": stalled}
            if not inverted <= lower <= lasted - stalled:
                broken.append(f"law 1: {row}")
        elif word in ("inverted", "stalled", "meanwhile"):
            sums[word, numbers[0]] += numbers[-1]
        elif word == "section":
            longest, used = numbers[4], numbers[6]
            if not 0 <= used <= longest or used < longest and not has_off:
                broken.append(f"law 6: {row}")
    for number, times in wanted.items():
        is_sum = all(sums[word, number] == time for word, time in times.items())
        if not is_sum or sums["meanwhile", number] > times["inverted"]:
            broken.append(f"law 1: the rows of the wait at line {number}")
    return broken
