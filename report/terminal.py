"""A report as text of at most 100 columns. It reads without the colours, which a terminal has."""
import textwrap

from finding import BAD, KINDS
from verdict import Verdict
from words import count, duration, moment, shares, without_function

WIDTH, MOST, SIDE = 100, 10, 29
STYLES = {"strong": "1", "accent": "1;33", "soft": "2", "good": "32"}
TITLES = {
    "deadlock": "DEADLOCK at the end of the recording",
    "late": "HELD UP by less urgent threads, and nothing bounded it (priority inversion)",
    "ran": "RAN at another level than its mutexes give",
    "gave-up": "GAVE UP: waits for a mutex that ended without it, as by a time-out",
    "stalled": "WORTH A LOOK: waits for a mutex whose owner slept or waited for something else",
    "look": "WORTH A LOOK: waits that a less urgent thread ended, where nothing passes a priority"
            " on",
    "orders": "CAN DEADLOCK: mutexes that are locked in both orders (lock-order inversion, AB-BA)",
    "bounded": "BOUNDED: waits for less urgent threads that a protocol keeps short",
    "wait": "PLAIN WAITS: for threads that are as urgent, or more",
    "other": "OTHER WAITS",
}
FOR = {"late": "held up by", "look": "until", "other": "until"}  # of other kinds: for
OF_MUTEXES = "late", "gave-up", "stalled", "bounded", "wait"
IN_A_LINE = "bounded", "wait", "other"  # kinds that have no details


class Terminal:
    """Lays out findings as lines."""

    def __init__(self, findings, is_coloured=False, most=MOST, has_table=False):
        self.findings, self.names, self.has_table = findings, findings.names, has_table
        self.is_coloured, self.most = is_coloured, most
        self.lines, self.advised = [], set()

    def styled(self, style, text):
        return f"\033[{STYLES[style]}m{text}\033[0m" if self.is_coloured and text else text

    def put(self, text, indent=0, hanging=2, style=None):
        """Adds a text, wrapped."""
        lines = textwrap.wrap(
            text, WIDTH, initial_indent=" " * indent, subsequent_indent=" " * (indent + hanging),
            break_on_hyphens=False)
        for line in lines or [""]:
            self.lines.append(self.styled(style, line) if style else line)

    def title(self, text):
        self.put("")
        self.put(text, style="strong")

    def text(self):
        found = self.findings
        first, *others = Verdict(found).sentences()
        self.put(first, style={"bad": "accent", "look": "strong", "good": "good"}[found.state])
        for line in [*others, found.recording.choice.said()]:
            if line:
                self.put(line)
        for kind in KINDS:
            self.section(kind, found.of(kind))
        self.ownerships()
        self.bounds()
        if self.has_table:
            self.mutex_table()
        self.title("NOT LOOKED AT")
        for line in found.unseen():
            self.put(line, 2)
        self.put("")
        self.put(f"Recorded: {found.size()}.", style="soft")
        return "\n".join(self.lines) + "\n"

    # ---- findings

    def section(self, kind, found):
        if not found:
            return
        times = sum(one.times for one in found)
        if kind in ("deadlock", "orders"):
            self.title(TITLES[kind])
        else:
            what = "time" if kind == "ran" else "wait"
            whose = " of real-time threads" if kind == "other" and found[0].who[0][1] else ""
            self.title(f"{TITLES[kind]}{whose}: {count(times, what)}")
            head = f"{'times':>7} {'worst':>9} {'sum':>9}  which thread, for which, at what"
            self.lines.append(self.styled("soft", head))
        for one in found[:self.most]:
            if kind in ("deadlock", "orders"):
                self.sentences(one)
            else:
                self.finding(one)
        self.rest(len(found) - self.most, "more finding", SIDE - 18)

    def rest(self, number, what, indent):
        """Says how many more there are."""
        if number > 0:
            self.put(f"and {count(number, what)} (--all shows all)", indent)

    def sentences(self, one):
        for line in one.lines[:self.most]:
            self.put(line, 2)
        self.rest(len(one.lines) - self.most, "more sentence", 2)
        self.advise(one, 2)

    def finding(self, one):
        figures = f"{one.times:>7,} {duration(one.worst):>9} {duration(one.total):>9}"
        first = len(self.lines)
        self.put(f"{figures}  {self.heading(one)}", 0, SIDE + 2)
        if one.kind in BAD:
            rest = self.lines[first][len(figures):]
            self.lines[first] = self.styled("accent", figures) + rest
        if one.kind not in IN_A_LINE:
            self.detail(one)

    def heading(self, one):
        """Says which thread waited for which, and at what."""
        said = self.names.threads(one.who, 2)
        if one.by:
            said += f" {FOR.get(one.kind, 'for')} {self.names.threads(one.by, 2)}"
        if one.what:
            said += f" at {one.what}" if one.kind in OF_MUTEXES else f" ({one.what})"
        if one.kind in IN_A_LINE and one.where:
            said += f", {without_function(one.where)}"
        return said + f": {one.why}" * (one.kind == "other" and not one.by and bool(one.why))

    def detail(self, one):
        """Says when and where it was, why, which threads ran meanwhile, and what to do."""
        since = f"the worst one from {moment(one.since)} on" if one.times > 1 else (
            f"from {moment(one.since)} on")
        taken = "ended at" if one.kind == "look" else "the owner took it at"
        where = f" at {one.where}" if one.where else ""
        text = since + where + (f"; {taken} {one.taken}" if one.taken else "")
        if one.kind != "ran":
            self.put(text, SIDE, style="soft")
        if one.callers:
            self.put(f"called by {', '.join(one.callers)}", SIDE, style="soft")
        for line in [one.why, *one.lines]:
            self.put(line, SIDE)
        if one.meanwhile:
            parts = [(self.names.at(thread, level), time) for thread, level, time in one.meanwhile]
            worst = "in the worst one " * (one.times > 1)
            self.put(f"{worst}{shares(parts)} meanwhile", SIDE)
        self.advise(one, SIDE)

    def advise(self, one, indent):
        """Says what to do, once."""
        if one.advice and one.advice not in self.advised:
            self.advised.add(one.advice)
            self.put(f"=> {one.advice}", indent, 3, style="strong")

    # ---- more

    def mutex_table(self):
        """Lists all mutexes that were locked or waited for, and where threads waited for them."""
        self.title("ALL MUTEXES, those first for which threads waited longest in all")
        heads = "locks", "waited", "mean hold", "longest", "p99 wait", "waits in all"
        head = " ".join(map("{:>9}".format, heads[:-1])) + f" {heads[-1]:>12}  mutex"
        self.lines.append(self.styled("soft", head))
        for use in self.findings.recording.mutex_table():
            share = f"{100 * use.contended / max(1, use.locks):.1f} %"
            times = [duration(use.mean), duration(use.longest), *(
                duration(time) if use.waits else "-" for time in (use.p99, use.total))]
            figures = " ".join(map("{:>9}".format, [f"{use.locks:,}", share, *times[:-1]]))
            self.put(f"{figures} {times[-1]:>12}  {self.names.mutex(use.mutex)}"
                     f"{self.names.origin(use.mutex)}", 0, 66)
            for one in use.callers[:3]:
                where = one.place or "an unknown place"
                waits = f"{count(one.waits, 'wait')} of {duration(one.total)}"
                self.put(f"{waits} in all at {where}", 11, style="soft")
            if len(use.callers) > 3:
                self.put(f"and waits at {count(len(use.callers) - 3, 'more place')}", 11)

    def ownerships(self):
        found = self.findings.owned()
        if not found:
            return
        self.title("LONGEST OWNERSHIPS of the mutexes that were waited for, with all interruptions")
        for section in found[:self.most]:
            at = self.findings.recording.where(section.line)
            taken = f", taken at {at}" if at else ""
            self.put(f"{duration(section.longest):>9}  {self.names.mutex(section.mutex)} by"
                     f" {self.names.thread(section.thread)}{taken}", 0, 11)
        self.rest(len(found) - self.most, "more ownership", 11)

    def bounds(self):
        """Says how long lower threads could block others under either protocol."""
        found = self.findings.bounds()
        if not found:
            return
        self.title("BLOCKING by lower threads, at most, on one CPU, if sections take no longer"
                   " than they did")
        head = f"{'INHERIT':>9} {'PROTECT':>9} {'waited':>9}  which thread"
        self.lines.append(self.styled("soft", head))
        for one in found[:self.most]:
            times = [duration(time) if time else "-"
                     for time in (one.inherit, one.protect, one.waited)]
            figures = " ".join(f"{time:>9}" for time in times)
            self.put(f"{figures}  {self.names.at(one.thread, one.level)}", 0, 31)
        self.rest(len(found) - self.most, "more thread", 31)
