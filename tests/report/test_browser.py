"""The page of a report in a browser: makes pages, and has tests/report/page.mjs use them.

The environment variable SHOTS names a folder for pictures of it.
"""
import json
import os
import pathlib
import re
import shutil

from tests.cases import Case
from tests.report.texts import SUITE, PERIODS, found_in, large, large_spans, page_of
from tests.shared.checks import ROOT, answer, difference
from facts_text import Facts
from findings import Findings
import html_page
from json_report import json_of
import pack
from recording import Recording
from rows_text import Rows
from spans_text import Spans
from words import duration, shares

PAGE = ROOT / "report/page"


def write_pages(folder):
    """Writes the pages of the suite, of a text of no threads, and of a large one."""
    for file in [*sorted(SUITE.glob("*.facts")), None]:
        found = found_in(file.read_bytes() if file else b"facts 1\n")[0]
        name = file.stem if file else "nothing"
        write_page(folder, name, found, page_of(name, found))
    for name, periods, most in (("large", PERIODS, pack.MOST_ITEMS), ("windows", 400, 1_000)):
        facts, rows = large(periods)
        kept, pack.MOST_ITEMS = pack.MOST_ITEMS, most
        found = Findings(Recording(Facts(facts), Rows.read(rows)))
        page = html_page.page_of(name, found, Spans.read(large_spans(periods)))
        write_page(folder, name, found, page)
        pack.MOST_ITEMS = kept


def write_page(folder, name, found, page):
    (folder / f"{name}.html").write_text(page, encoding="utf-8")
    (folder / f"{name}.json").write_text(json_of(found), encoding="utf-8")


def colours():
    """Returns by theme its colours, as red, green and blue from 0 to 1."""
    style = (PAGE / "page.css").read_text()
    blocks = re.findall(r":root \{(.*?)\}", style, re.S)
    themes = {}
    for theme, block in zip(("light", "dark"), blocks):
        found = dict(themes.get("light", {}))
        for name, value in re.findall(r"--([\w-]+): #([0-9a-f]{3,6});", block):
            long = value if len(value) == 6 else "".join(2 * digit for digit in value)
            found[name] = [int(long[at:at + 2], 16) / 255 for at in (0, 2, 4)]
        themes[theme] = found
    return themes


def contrast(one, other):
    """Returns the contrast of two colours, as WCAG 2 defines it."""
    def light(colour):
        linear = [part / 12.92 if part <= 0.04045 else ((part + 0.055) / 1.055)**2.4
                  for part in colour]
        return 0.2126 * linear[0] + 0.7152 * linear[1] + 0.0722 * linear[2]

    low, high = sorted((light(one), light(other)))
    return (high + 0.05) / (low + 0.05)


class Browser(Case):
    def test_pages_in_a_browser(self):
        """Uses the pages in a browser, if there is one."""
        chromium = shutil.which("chromium") or shutil.which("google-chrome")
        if not shutil.which("node") or not chromium:
            self.skipTest("node or chromium is missing")
        write_pages(pathlib.Path(self.folder))
        script = ROOT / "tests/report/page.mjs"
        words = ["node", str(script), chromium, str(pathlib.Path(self.folder)), *filter(None, [os.environ.get("SHOTS")])]
        status, out, err = answer(words)
        for line in out.decode().splitlines():
            self.check(*json.loads(line))
        self.equal("the browser was used up to the end", (status, err), (0, b""))

    def test_words_are_those_of_the_report(self):
        """Times are said in the same words in Python and in JavaScript."""
        if not shutil.which("node"):
            self.skipTest("node is missing")
        times = [0, 1, 999, 1_000, 9_994, 9_995, 9_996, 99_949, 99_950, 999_499, 999_500, 10**6, 10**9]
        halves = 1_005, 1_015, 12_050, 830_500
        times += [unit * half for unit in (1, 1_000, 10**6) for half in halves]
        times += [at**5 * 7 for at in range(1, 400)] + [10**exponent - 5 for exponent in range(1, 16)]
        parts = [[f"t{at}", time] for at, time in enumerate(times[:9])]
        script = f"""const text = require('fs').readFileSync({str(PAGE / 'words.js')!r}, 'utf8')
import('data:text/javascript,' + encodeURIComponent(text)).then(({{ duration, shares }}) => {{
  const parts = {json.dumps(parts)}
  const said = {json.dumps(times)}.map(duration)
  console.log(JSON.stringify([said, [1, 2, 9].map(n => shares(parts, n))]))
}})"""
        _, out, err = answer(["node", "-e", script])
        wanted = [[duration(time) for time in times], [shares(parts, most) for most in (1, 2, 9)]]
        got = json.loads(out or "[]") or [[], [err.decode()]]
        self.check("times in the words of the page", difference(tuple(got[0]), tuple(wanted[0])))
        self.check("shares in the words of the page", difference(tuple(got[1]), tuple(wanted[1])))

    def test_contrasts(self):
        """Texts have a contrast of 4.5 at least, and shapes that say something one of 3."""
        texts = [(ink, ground) for ink in ("ink", "soft", "mute", "late") for ground in ("bg", "panel")]
        texts += [("own-ink", "own"), ("late-ink", "panel"), ("panel", "ink")]
        shapes = [(shape, "bg") for shape in ("wait", "late", "boost", "stay", "now")]
        for theme, known in colours().items():
            low = [f"{one} on {other}" for least, pairs in ((4.5, texts), (3, shapes))
                   for one, other in pairs if contrast(known[one], known[other]) < least]
            self.check(f"contrasts, {theme}", ", ".join(low))
