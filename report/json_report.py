"""A report as JSON: all rows with names and places, and the findings, as docs/COMMANDS.md says."""
import json

from verdict import Verdict

VERSION = 1
ENDED = {1: "by", 2: "timed-out", 3: "failed"}


class JsonReport:
    def __init__(self, findings, has_table):
        self.findings, self.recording, self.has_table = findings, findings.recording, has_table
        self.facts, self.names, self.rows = findings.facts, findings.names, findings.rows

    def value(self):
        rows, every = self.rows, self.recording.all_rows
        return {
            "format": "pim-report", "version": VERSION, "status": self.findings.status,
            "verdict": Verdict(self.findings).sentences(),
            "shown": self.recording.choice.said(), "unseen": self.findings.unseen(),
            "recording": {
                "began": self.recording.began, "lasted": every.ended,
                "lines": every.lines, "facts": self.facts.count,
                "waits": len(every.waits), "has_end": self.facts.has_end,
                "inverted": sum(wait.inverted > 0 for wait in every.waits),
                "deadlocks": len(every.deadlocks),
                "lost": [one._asdict() for one in self.facts.lost]},
            "threads": [self.thread(number) for number in self.facts.threads],
            "mutexes": [self.mutex(number) for number in self.facts.mutexes],
            "objects": [{**one._asdict(), "called": self.names.object(one.number)}
                        for one in self.facts.objects.values()],
            "findings": [self.finding(one) for one in self.findings.all],
            "waits": [self.wait(one) for one in rows.waits],
            "blocked": [self.blocked(one) for one in rows.blocked],
            "ran": [self.ran(one) for one in rows.ran],
            "sections": [{**one._asdict(), "at": self.places(one.line)} for one in rows.sections],
            "nests": [{**one._asdict(), "at": self.places(one.line),
                       "taken_at": self.places(one.taken)} for one in rows.nests],
            "deadlocks": rows.deadlocks,
            "bounds": [one._asdict() for one in self.findings.bounds()],
            "mutex_table": self.mutex_table() if self.has_table else None,
        }

    # ---- names and places

    def thread(self, number):
        one = self.facts.threads[number]
        return {"number": number, "name": one.name, "called": self.names.thread(number),
                "level": one.level, "highest": self.facts.highest(number)}

    def mutex(self, number):
        return {**self.facts.mutexes[number]._asdict(), "called": self.names.mutex(number)}

    def places(self, line):
        return list(self.facts.places(line))

    # ---- rows

    @staticmethod
    def numbers(row):
        """Returns a row's own numbers. When it began is called `from`, as in docs/ROWS.md."""
        named = getattr(row, "_fields", None) or row.NUMBERS
        return {"from" if name == "begin" else name: getattr(row, name) for name in named}

    def wait(self, one):
        return {**self.numbers(one), "at": self.places(one.line),
                "taken_at": self.places(one.taken),
                "parts": [part._asdict() for part in one.parts],
                "stalls": [stall._asdict() for stall in one.stalls],
                "meanwhile": [ran._asdict() for ran in one.meanwhile]}

    def blocked(self, one):
        return {**self.numbers(one), "ended": ENDED.get(one.ended), "at": self.places(one.line),
                "ended_at": self.places(one.until)}

    def ran(self, one):
        return self.numbers(one)

    def mutex_table(self):
        return [{**one._asdict(), "callers": [caller._asdict() for caller in one.callers]}
                for one in self.recording.mutex_table()]

    # ---- findings

    def finding(self, one):
        def levels(pairs):
            return [{"thread": thread, "level": level} for thread, level in pairs]

        return {
            "kind": one.kind, "who": levels(one.who), "by": levels(one.by), "what": one.what,
            "mutexes": one.mutexes, "where": one.where, "callers": one.callers,
            "taken": one.taken, "times": one.times, "worst": one.worst, "total": one.total,
            "since": one.since, "lasted": one.lasted, "why": one.why, "advice": one.advice,
            "lines": one.lines, "meanwhile": [ran._asdict() for ran in one.meanwhile],
            "rows": [row.line for row in one.waits]}


def json_of(findings, has_table=False):
    """Returns the text."""
    return json.dumps(JsonReport(findings, has_table).value()) + "\n"
