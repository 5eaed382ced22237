"""The texts of suite/reports, suite/facts and random ones, with what pim-report finds in each."""
import functools
import sys

from tests.shared.checks import ROOT, answer

REPORT, SUITE = ROOT / "report", ROOT / "suite/reports"
sys.path += [str(REPORT), str(ROOT / "tests/facts/plain")]
import html_page  # noqa: E402
import rows  # noqa: E402
import spans  # noqa: E402
from facts_text import Facts  # noqa: E402
from findings import Findings  # noqa: E402
from perfetto import Tracks  # noqa: E402
from random_facts import RandomText  # noqa: E402
from recording import Recording  # noqa: E402
from rows_text import Rows  # noqa: E402
from spans_text import Spans  # noqa: E402

PROGRAM = str(REPORT / "pim-report")
PLAIN = f"{sys.executable} {ROOT / 'tests/report/plain_findings.py'}"
TEXTS = 100
PERIODS, FACTS = 5_000, 13  # and the facts of each


def said(*words, text=b"", findings=PLAIN, **settings):
    """Returns the status and both outputs of pim-report."""
    given = ["--findings", findings] if findings else []
    status, out, err = answer([PROGRAM, *map(str, words), *given], text, **settings)
    return status, out.decode(), err.decode(errors="replace")


def found_in(text, **choice):
    """Returns the findings of a valid text, and its rows."""
    out, _, _ = rows.answer(text)
    return Findings(Recording(Facts(text), Rows.read(out), **choice)), out


@functools.lru_cache(maxsize=None)
def spans_of(facts):
    """Returns the spans of some facts."""
    return Spans.read(spans.answer(facts.data)[0])


def page_of(title, found, **options):
    """Returns the page of some findings."""
    return html_page.page_of(title, found, spans_of(found.facts), **options)


def tracks_of(recording):
    """Returns the tracks of a recording."""
    return "".join(Tracks(recording, spans_of(recording.facts)).lines())


@functools.lru_cache(maxsize=None)
def suite_findings():
    """Returns by file the findings of the texts of suite/reports and suite/facts."""
    files = [*sorted(SUITE.glob("*.facts")), *sorted((ROOT / "suite/facts").glob("*.facts"))]
    return {file: found_in(file.read_bytes())[0] for file in files}


@functools.lru_cache(maxsize=None)
def random_findings():
    """Returns for each random text the text, its findings, and its rows."""
    texts = [RandomText(seed).data() for seed in range(TEXTS)]
    return [(text, *found_in(text)) for text in texts]


def all_findings():
    return [*suite_findings().values(), *(one for _, one, _ in random_findings())]


def large(periods=PERIODS):
    """Returns facts of two threads that lock two mutexes again and again, and their rows.

    The rows of so many facts are written here: the plain implementation takes too long.
    """
    facts = ["facts 1", "thread 1 30 high", "thread 2 10 low", "mutex 1 none lock@lock.c:4",
             "mutex 2 inherit other@lock.c:5"]
    rows, gone, first = [], 0, len(facts) + 1
    for at in range(periods):
        begin, line, lasted = at * 10_000, first + FACTS * at, 1_000 + 7 * (at * 37 % 613)
        facts += [f"{begin} 2 granted 1 low.c:{at % 9}", f"{begin + 500} 1 waits 1 high.c:{at % 7}",
                  f"{begin + 500 + lasted} 2 released 1", f"{begin + 500 + lasted} 1 granted 1",
                  f"{begin + 8_000} 1 released 1"]
        facts += [f"{begin + 8_000 + 100 * one} 1 {what} 2 high.c:{70 + one}"
                  for one in range(4) for what in ("granted", "released")]
        rows.append(f"wait {line + 1} {line + 3} 1 1 {begin + 500} {lasted} 30 30 2 10 {line}"
                    f" {lasted} {lasted} 0")
        rows.append(f"inverted {line + 1} 1 2 10 {lasted}")
        gone = begin + 8_300
    rows.append(f"end {len(facts)} {gone} {periods} {periods} 0")
    return ("\n".join(facts) + "\n").encode(), "\n".join(rows) + "\n"


def large_spans(periods=PERIODS):
    """Returns the spans of these facts."""
    gets, owns, waits, late = [], [], [], []
    for at in range(periods):
        begin, line, lasted = at * 10_000, 6 + FACTS * at, 1_000 + 7 * (at * 37 % 613)
        waited, until = begin + 500, begin + 500 + lasted
        owns += [f"owns 2 1 {line} {begin} {until}", f"owns 1 1 {line + 3} {until} {begin + 8_000}"]
        waits.append(f"waits 1 1 {line + 1} {waited} {until}")
        late.append(f"inverted {line + 1} 1 2 {waited} {until}")
        gets = [f"gets {thread} {level} {level} 0 {begin + 8_300}" for thread, level in ((1, 30), (2, 10))]
    return "".join(f"{line}\n" for line in [*gets, *owns, *waits, *late])


def crowd(rounds):
    """Returns facts of 63 threads that wait for one mutex, and get it in turn."""
    facts = ["facts 1", *(f"thread {t} {t} t{t}" for t in range(1, 64)), "mutex 1 inherit m"]
    for _ in range(rounds):
        facts += ["0 1 granted 1", *(f"0 {t} waits 1" for t in range(2, 64))]
        for t in range(1, 63):
            facts += [f"0 {t} released 1", f"0 {t + 1} granted 1"]
        facts.append("0 63 released 1")
    return ("\n".join(facts) + "\n").encode()
