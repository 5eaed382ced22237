"""What the page draws, as bytes: numbers of 7 bits a byte, deflated, in base64.

page/data.js reads them in the same order. Times are nanoseconds, each as the distance from the one
before it in its column. Where it isn't known which thread it is, the number is 0; else it is one
more than the lane's.
"""
import base64
import zlib
from bisect import bisect_right
from heapq import heappop, heappush

MOST_SPOTS = 1000        # of a finding
MOST_ITEMS = 400_000     # ownerships and stays on a CPU that are all kept
COLUMNS = 4096           # of what is drawn in place of those that aren't
MOST_SHARE = 63


class Writer:
    """Numbers as bytes."""

    def __init__(self):
        self.bytes = bytearray()

    def put(self, *numbers):
        for number in numbers:
            while number > 127:
                self.bytes.append(number & 127 | 128)
                number >>= 7
            self.bytes.append(number)

    def text(self):
        return base64.b64encode(zlib.compress(bytes(self.bytes), 9)).decode()


class Places:
    """The places of lines, each once, with a number. 0 is that of a line without places."""

    def __init__(self, facts):
        self.facts, self.texts, self.numbers = facts, [()], {(): 0}

    def number(self, line):
        places = self.facts.places(line)
        if places not in self.numbers:
            self.numbers[places] = len(self.texts)
            self.texts.append(places)
        return self.numbers[places]


def rows_of(items):
    """Returns for each (begin, end), in the order of time, its row: the first that is free then."""
    taken, free, rows, count = [], [], [], 0
    for begin, end in items:
        while taken and taken[0][0] <= begin:
            heappush(free, heappop(taken)[1])
        row = heappop(free) if free else count
        count = max(count, row + 1)
        heappush(taken, (end, row))
        rows.append(row)
    return rows


def parts_of(column, size):
    """Returns the parts of a flat column, each of so many numbers."""
    return [tuple(column[at:at + size]) for at in range(0, len(column), size)]


class Packed:
    """The lanes and the findings of a recording as numbers."""

    def __init__(self, findings, stretches, lanes, keep_all):
        self.rows, self.stretches = findings.recording.all_rows, stretches
        self.facts, self.places = findings.facts, Places(findings.facts)
        self.lane = {thread: at for at, thread in enumerate(lanes)}
        self.mutex = {number: at for at, number in enumerate(self.facts.mutexes)}
        self.object = {number: at for at, number in enumerate(self.facts.objects)}
        self.out, self.by_thread = Writer(), {thread: ([], [], []) for thread in lanes}
        for at, rows in enumerate((self.rows.waits, self.rows.blocked, self.rows.ran)):
            for row in rows:
                self.by_thread[row.thread][at].append(row)
        count = sum(len(column) // 4 for column in stretches.owns.values())
        count += sum(len(column) // 2 for column in stretches.stays.values())
        is_whole = keep_all or count <= MOST_ITEMS
        self.windows = None if is_whole else self.windows_of(findings)
        for thread in lanes:
            self.put_lane(thread)
        for found in findings.all:
            self.put_spots(found)

    def windows_of(self, findings):
        """Returns what is kept of a long recording: stretches around the worst waits."""
        found, most = [], max(3, 300 // max(1, len(findings.all)))
        for one in findings.all:
            for wait in one.waits[:most]:
                begin = max(0, wait.begin - 2 * wait.lasted)
                found.append((begin, wait.begin + 3 * wait.lasted))
        merged = []
        for begin, end in sorted(found):
            if merged and begin <= merged[-1][1]:
                merged[-1][1] = max(end, merged[-1][1])
            else:
                merged.append([begin, end])
        return merged

    def is_kept(self, begin, end):
        """Returns whether an item meets a window."""
        if self.windows is None:
            return True
        at = bisect_right(self.windows, [end, 1 << 64]) - 1
        return at >= 0 and self.windows[at][1] > begin

    # ---- a lane

    def put_lane(self, thread):
        waits, blocked, ran = self.by_thread[thread]
        owns = parts_of(self.stretches.owns.get(thread, ()), 4)
        items = [(own[0], own[1], 0, own) for own in owns if self.is_kept(*own[:2])]
        items += [(wait.begin, wait.end, 1, wait) for wait in waits]
        items += [(wait.begin, wait.end, 2, wait) for wait in blocked]
        items.sort(key=lambda item: item[:3])
        self.out.put(len(items))
        last, puts = 0, (self.put_own, self.put_wait, self.put_blocked)
        for (begin, end, kind, item), row in zip(items, rows_of([item[:2] for item in items])):
            self.out.put(begin - last, end - begin, 3 * row + kind)
            puts[kind](item)
            last = begin
        stays = parts_of(self.stretches.stays.get(thread, ()), 2)
        kept = [(begin, end - begin) for begin, end in stays if self.is_kept(begin, end)]
        self.put_in_order(kept)
        self.put_in_order(parts_of(self.stretches.levels.get(thread, ()), 3))
        self.put_in_order([(one.begin, one.lasted, one.level, one.gets) for one in ran])
        if self.windows is not None:
            self.put_shares(owns)
            self.put_shares(stays)

    def put_in_order(self, items):
        """Writes how many there are, and each with the distance from the one before."""
        self.out.put(len(items))
        last = 0
        for begin, *rest in sorted(items):
            self.out.put(begin - last, *rest)
            last = begin

    def put_own(self, own):
        self.out.put(self.mutex[own[2]], self.places.number(own[3]))

    def put_wait(self, wait):
        late = self.stretches.late.get(wait.line, ())
        self.out.put(self.mutex[wait.mutex], self.places.number(wait.line), wait.level, wait.gets,
                     self.lane.get(wait.owner, -1) + 1, wait.owner_level,
                     self.places.number(wait.taken), int(wait.until == 0), wait.lower, wait.stalled,
                     len(late))
        last = wait.begin
        for begin, end, mutex, runner in late:
            self.out.put(begin - last, end - begin, self.mutex[mutex], self.lane[runner])
            last = end
        ran = sorted(wait.meanwhile, key=lambda one: -one.time)
        self.out.put(len(ran))
        for one in ran:
            self.out.put(self.lane[one.thread], one.level, one.time)

    def put_blocked(self, wait):
        self.out.put(self.object[wait.object], self.places.number(wait.line), wait.level,
                     self.lane.get(wait.by, -1) + 1, wait.by_level,
                     self.places.number(wait.until) if wait.by else 0,
                     int(wait.until == 0), wait.ended)

    def put_shares(self, items):
        """Writes for each column of the recording how much of it these stretches fill.

        A share is 0 only if none of the column is filled.
        """
        wide = max(1, -(-self.rows.ended // COLUMNS))
        shares = [0] * COLUMNS
        for begin, end, *_ in items:
            first, last = begin // wide, min(COLUMNS - 1, (max(end, begin + 1) - 1) // wide)
            for one in range(min(first, last), last + 1):
                shares[one] += min(end, (one + 1) * wide) - max(begin, one * wide)
        self.out.put(*(min(MOST_SHARE, -(-MOST_SHARE * share // wide)) for share in shares))

    # ---- findings

    def put_spots(self, found):
        spots = [(wait.thread, wait.begin, wait.lasted, getattr(wait, "inverted", 0))
                 for wait in found.waits[:MOST_SPOTS]]
        spots += [(*spot, 0) for spot in found.spots]
        self.out.put(len(spots))
        for thread, *rest in spots:
            self.out.put(self.lane[thread], *rest)
