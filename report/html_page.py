"""The page: one HTML file with its style, its script and its data, which opens from the disk.

The sources are in page/: page.html, page.css, and modules of JavaScript. They are joined in the
order of their imports; so a name that one exports is the only one of that name.
"""
import json
import pathlib
import re
from html import escape

from finding import BAD, KINDS, LOOK
from pack import COLUMNS, Packed
from stretches import Stretches
from terminal import Terminal
from verdict import Verdict
from words import place_and_function

PAGE = pathlib.Path(__file__).resolve().parent / "page"
FIRST = "main"
IMPORT = re.compile(r"^import \{[^}]*\} from '\./(\w+)\.js'\n", re.M)


def modules(name, done=None):
    """Returns a module and what it imports as one script, each once, what is imported first."""
    done = {} if done is None else done
    text = (PAGE / f"{name}.js").read_text(encoding="utf-8")
    for other in IMPORT.findall(text):
        if other not in done:
            modules(other, done)
    done[name] = re.sub(r"^export ", "", IMPORT.sub("", text), flags=re.M)
    return "\n".join(done.values())


class PageData:
    """What the page shows: words, and threads by their lanes."""

    def __init__(self, title, findings, spans, keep_all):
        self.title, self.findings, self.facts = title, findings, findings.facts
        self.names, self.rows = findings.names, findings.recording.all_rows
        self.stretches = Stretches(self.facts, spans)
        top = {number: self.facts.highest(number) for number in self.facts.threads}
        # The most urgent thread is the first lane.
        self.lanes, self.top = sorted(top, key=lambda thread: -top[thread]), top
        self.lane = {thread: at for at, thread in enumerate(self.lanes)}
        self.packed = Packed(findings, self.stretches, self.lanes, keep_all)

    def value(self):
        """Returns what data.js reads."""
        names, found, parts = self.names, self.findings, self.parts()
        return {
            "title": self.title, "ended": self.rows.ended, "facts": self.facts.count,
            "windows": self.packed.windows, "columns": COLUMNS,
            "kinds": KINDS, "bad": BAD, "look": LOOK,
            "threads": [{"name": names.thread(one), "level": self.facts.threads[one].level,
                         "top": self.top[one], "part": one in parts} for one in self.lanes],
            "mutexes": [{"name": names.mutex(one.number), "protocol": one.protocol,
                         "from": place_and_function(one.place)}
                        for one in self.facts.mutexes.values()],
            "objects": [{"name": names.object(number), "kind": one.kind}
                        for number, one in self.facts.objects.items()],
            "places": [list(map(place_and_function, words)) for words in self.packed.places.texts],
            "findings": [self.finding(one) for one in found.all],
            "owned": [[names.mutex(one.mutex), names.thread(one.thread), one.longest,
                       found.recording.where(one.line)] for one in found.owned()[:10]],
            "bounds": [[names.at(one.thread, one.level), one.inherit, one.protect, one.waited]
                       for one in found.bounds()[:10]],
            "unseen": found.unseen(), "packed": self.packed.out.text(),
        }

    def parts(self):
        """Returns the threads that do more than run: these have a lane at first."""
        found = {thread for one in self.findings.all
                 for thread, *_ in (*one.who, *one.by, *one.meanwhile)}
        found.update(row.thread for row in (*self.rows.waits, *self.rows.blocked))
        return found | set(self.stretches.owns)

    def finding(self, one):
        names = self.names
        threads = [*one.who, *one.by, *one.meanwhile]
        return {
            "kind": one.kind, "who": names.threads(one.who, 4 if one.kind == "deadlock" else 2),
            "by": names.threads(one.by, 2), "what": one.what, "protocol": one.protocol,
            "lanes": sorted({self.lane[thread] for thread, *_ in threads}),
            "where": one.where, "taken": one.taken, "callers": one.callers, "times": one.times,
            "worst": one.worst, "total": one.total, "why": one.why, "advice": one.advice,
            "meanwhile": [[names.at(thread, level), time] for thread, level, time in one.meanwhile],
            "lines": one.lines,
        }


def page_of(title, findings, spans, keep_all=False):
    """Returns the page."""
    first, *others = Verdict(findings).sentences()
    others.append(findings.recording.choice.said())
    value = PageData(title, findings, spans, keep_all).value()
    parts = {
        "title": escape(title), "state": findings.state, "size": escape(findings.size()),
        "verdict": escape(first),
        "more": "".join(f"<p>{escape(line)}</p>" for line in others if line),
        "text": escape(Terminal(findings).text()),
        "style": (PAGE / "page.css").read_text(encoding="utf-8"),
        "data": json.dumps(value, separators=(",", ":")).replace("<", "\\u003c"),
        "script": "'use strict'\n" + modules(FIRST).replace("</", "<\\/"),
    }
    text = (PAGE / "page.html").read_text(encoding="utf-8")
    return re.sub(r"\{\{(\w+)\}\}", lambda match: parts[match[1]], text)
