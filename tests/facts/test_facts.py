"""What programs say of texts of facts, by docs/FACTS.md and docs/ROWS.md.

Plays the texts of suite/facts and those of the two pages on the plain implementations, and on pim-findings or the
program that is given: rows, and with --spans spans. Then looks whether the laws of ROWS.md hold in random texts.
"""
import collections
import os
import pathlib
import random
import re
import shlex
import sys
import tempfile

from tests.cases import Case
from tests.shared.checks import ROOT, answer, difference, own_program

PLAIN = ROOT / "tests/facts/plain"
sys.path.append(str(PLAIN))
import laws
import random_facts
import renumbered
import rows
import spans
from world import MOST_THREADS

SUITE, TEXTS = ROOT / "suite/facts", 150
ROWS_PY = [sys.executable, str(PLAIN / "rows.py")]


def page(name):
    return (ROOT / "docs" / name).read_text()


SOMETHING = {"time", "level", "name", "protocol", "kind", "word", "cpu"}  # words that stand for others
DECLARED = "facts 1", "thread 1 30 high", "thread 2 10 low", "mutex 1 inherit map_lock"
# What happens, the lines after those, and the first invalid line, or None.
FOLLOWING = (
    ("nothing happens", "", None),
    ("a thread waits for a free mutex, then for another", "0 1 waits 1; 1 2 granted 1; 2 2 released 1; 2 1 gave-up 1",
     None),
    ("no thread is on a CPU after a lost", "0 1 on 0; 5 1 off ready; 5 2 on 0; 9 lost 1; 9 1 on 0", None),
    ("another thread owns it", "0 2 granted 1; 1 1 granted 1", 6),
    ("a space at the end is an empty word", "0 1 granted 1 ; 1 end", 5),
    ("of isn't a place", "0 1 waits 1 of 2", 5),
    ("nothing follows the end", "1 end; 2 1 granted 1", 6))


def section_of(text, heading):
    """Returns the text below a heading, up to the next one that isn't below it."""
    return text.partition(f"\n{heading}\n")[2].partition(f"\n{heading.split()[0]} ")[0]


def blocks_of(text):
    """Returns the blocks of code in a page's text."""
    blocks = re.findall(r"(?:^    .*\n)+", text, re.M)
    return [re.sub(r"^    ", "", block, flags=re.M) for block in blocks]


def proved():
    """Returns the path of the program that reads facts and writes rows, next to rows.py, which is played in this process."""
    return os.environ.get("PIM_PROGRAM") or own_program("pim-findings", "pim_findings", b"facts 1\n")


def said(text):
    """Yields the name of each program, and what it says of a text: status and both outputs."""
    out, err, status = rows.answer(text)
    yield "rows.py", (status, out, err)
    status, out, err = answer([proved()], text)
    yield "pim-findings", (status, out.decode(), err.decode(errors="replace"))


def said_in_window(text, since, until):
    """Yields the name of each program, and what it says of the spans of a text in a window."""
    out, err, status = spans.answer(text, since, until)
    yield "spans.py", (status, out, err)
    status, out, err = answer([proved(), "--spans", "--from", str(since), "--to", str(until)], text)
    yield "pim-findings", (status, out.decode(), err.decode(errors="replace"))


def cut(all_spans, since, until):
    """Returns the lines of spans that are in a window, cut to it."""
    found = ""
    for line in all_spans.splitlines():
        *said, begin, end = line.split()
        begin, end = max(int(begin), since), min(int(end), until)
        found += f"{' '.join(said)} {begin} {end}\n" if begin < end else ""
    return found


def status_of(found):
    """Returns the status that goes with rows: the last two numbers of `end` decide."""
    return int(any(int(number) for number in found.split()[-2:]))


# A program that says something else than rows.py, the options of compare, and whether that differs.
OTHERS = {
    "nothing else": ("out, err, status", ["--reasons"], False),
    "another row": ("out.replace('end ', 'end 1'), err, status", [], True),
    "another line": ("out, err.replace('line ', 'line 1'), status", [], True),
    "another status": ("out, err, status + 1", [], True),
    "another reason": ("out, err.replace('it', 'this'), status", ["--reasons"], True),
    "another reason, which may differ": ("out, err.replace('it', 'this'), status", [], False)}
OTHER = """
import sys
sys.path.append({folder!r})
import rows
out, err, status = rows.answer(sys.stdin.buffer.read())
out, err, status = {says}
sys.stdout.write(out)
sys.stderr.write(err)
sys.exit(status)
"""


class Facts(Case):
    def answers(self, name, text, wanted):
        """Checks what each program says of a text."""
        for program, got in said(text):
            self.equal(f"{program}: {name}", got, wanted)

    def test_texts_of_the_suite(self):
        """Plays suite/facts. Each text there has rows, and each invalid one an error."""
        for text in sorted(SUITE.glob("*.facts")):
            wanted = text.with_suffix(".rows").read_text()
            self.answers(text.stem, text.read_bytes(), (status_of(wanted), wanted, ""))
        for text in sorted(SUITE.glob("invalid/*.facts")):
            wanted = text.with_suffix(".error").read_text()
            self.answers(f"invalid/{text.stem}", text.read_bytes(), (2, "", wanted))
        files = [path for path in SUITE.glob("**/*") if path.is_file()]
        texts_of_it = {path.with_suffix("") for path in files if path.suffix == ".facts"}
        answers_of_it = {path.with_suffix("") for path in files if path.suffix in (".rows", ".error")}
        alone = texts_of_it ^ answers_of_it
        self.check("each text of the suite has its answer", ", ".join(path.name for path in sorted(alone)))

    def test_spans_of_the_suite(self):
        """Plays the texts of suite/facts that have spans: all, and those of windows from and to each time at which one
        of them begins or ends. Spans of a window are all of them, cut to it."""
        for path in sorted(SUITE.glob("*.spans")):
            text, wanted = path.with_suffix(".facts").read_bytes(), path.read_text()
            times = sorted({int(time) for line in wanted.splitlines() for time in line.split()[-2:]})
            windows = [*zip(times, times[1:]), *zip(times, times[2:])]
            windows += [(times[0] + 1, times[-1] - 1)] if times else []
            for since, until in [spans.ALWAYS, *windows]:
                shown = cut(wanted, since, until) if (since, until) != spans.ALWAYS else wanted
                for program, got in said_in_window(text, since, until):
                    self.equal(f"{program}: spans of {path.stem} from {since} to {until}", got, (0, shown, ""))
        for path in sorted(SUITE.glob("invalid/*.facts")):
            wanted = path.with_suffix(".error").read_text()
            for program, got in said_in_window(path.read_bytes(), *spans.ALWAYS):
                self.equal(f"{program}: spans of invalid/{path.stem}", got, (2, "", wanted))

    def test_spans_add_up_to_rows(self):
        """In random texts the spans of a wait last as long as its rows say: all of it, and for how long it is inverted,
        by mutex and runner, and stalled, by object and runner."""
        broken = []
        for seed in range(TEXTS):
            for text in random_facts.texts_of(seed):
                in_rows, in_spans = collections.Counter(), collections.Counter()
                for word, *numbers in map(str.split, rows.answer(text)[0].splitlines()):
                    if word == "wait":
                        line, thread, mutex, lasted = (numbers[at] for at in (0, 2, 3, 5))
                        in_rows["waits", thread, mutex, line] += int(lasted)
                    elif word in ("inverted", "stalled"):
                        in_rows[word, *numbers[:3]] += int(numbers[-1])
                for word, *said_of_it, begin, end in map(str.split, spans.answer(text)[0].splitlines()):
                    if word in ("waits", "inverted", "stalled"):
                        in_spans[word, *said_of_it] += int(end) - int(begin)
                if +in_rows != in_spans:
                    broken.append(f"seed {seed}")
        self.check(f"spans of {TEXTS} random texts add up to their rows", "; ".join(broken[:3]))

    def test_most_threads(self):
        """A text may have so many threads, and no more."""
        lines = ["facts 1", *(f"thread {t} 1 -" for t in range(1, MOST_THREADS + 2))]
        text = "".join(f"{line}\n" for line in lines[:-1])
        self.answers(f"{MOST_THREADS} threads", text.encode(), (0, f"end {MOST_THREADS + 1} 0 0 0 0\n", ""))
        why = f"pim-findings: line {MOST_THREADS + 2}: a text has at most {MOST_THREADS} threads\n"
        self.answers("one thread more", f"{text}{lines[-1]}\n".encode(), (2, "", why))

    def test_line_ends(self):
        """A text may lack its last newline. A carriage return is no end of a line."""
        text = (SUITE / "none_mutex_of_a_lower_owner.facts").read_bytes()
        wanted = (SUITE / "none_mutex_of_a_lower_owner.rows").read_text()
        self.answers("no newline at the end", text[:-1], (1, wanted, ""))
        why = "pim-findings: line 1: the first line is: facts 1\n"
        self.answers("lines that end with carriage returns", text.replace(b"\n", b"\r\n"), (2, "", why))

    def test_texts_of_the_pages(self):
        """The texts that the two pages show, with the rows that ROWS.md shows of the first one."""
        facts, rows_page = page("FACTS.md"), page("ROWS.md")
        blocks = blocks_of(section_of(rows_page, "## Example"))
        text, shown = (block.partition("\n")[2] for block in blocks)
        wanted = status_of(shown), shown, ""
        self.answers("the example of ROWS.md", text.encode(), wanted)
        self.answers("the example of FACTS.md", blocks_of(facts)[0].encode(), wanted)
        shown = blocks_of(section_of(rows_page, "## Spans"))[0].partition("\n")[2]
        for program, got in said_in_window(text.encode(), *spans.ALWAYS):
            self.equal(f"{program}: the spans of ROWS.md", got, (0, shown, ""))
        anew = blocks_of(section_of(facts, "### Mutexes that are made again"))[0]
        text = f"facts 1\nthread 1 10 one\n{anew}"
        wanted = "section 1 1 10 1 0 7 0\nsection 1 94352 10 1 50 4 50\nend 7 60 0 0 0\n"
        self.answers("the mutex of FACTS.md that is made again", text.encode(), (0, wanted, ""))

    def test_lines_that_may_follow(self):
        for name, lines, invalid in FOLLOWING:
            text = "".join(f"{line}\n" for line in [*DECLARED, *filter(None, lines.split("; "))])
            for program, (status, _, err) in said(text.encode()):
                line = re.match(r"pim-findings: line (\d+): ", err)
                got = status == 2, line and int(line[1])
                self.equal(f"{program}: {name}", got, (invalid is not None, invalid))

    def test_each_reason_has_a_text(self):
        """Each reason of FACTS.md is that of a text in suite/facts/invalid, and is on the page.

        A text with too many threads is made above.
        """
        section = section_of(page("FACTS.md"), "## Reasons")
        layout = section.partition("    the first line is")
        listed = set(re.findall(r"(?m)^    (\S.*?)(?:  |$)", "".join(layout[1:]))) - {"it should be: .."}
        listed |= set(re.findall(r"(?m)^    (it should be: \w.*)", section))
        errors = [path.read_text().rstrip("\n") for path in SUITE.glob("invalid/*.error")]
        given = {error.split(": ", 2)[2] for error in errors}
        given.add(f"a text has at most {MOST_THREADS} threads")
        self.check("each reason of FACTS.md is that of a text", ", ".join(sorted(listed - given)))
        self.check("each reason of a text is in FACTS.md", ", ".join(sorted(given - listed)))

    def test_each_kind_of_row_and_word_is_in_the_suite(self):
        """Each kind of row of ROWS.md, and each word of a line of FACTS.md, is in the suite."""
        kinds = set(re.findall(r"(?m)^\*\*(\w+)\*\* \*", page("ROWS.md")))
        lines = [line for path in SUITE.glob("*.rows") for line in path.read_text().splitlines()]
        found = {line.split()[0] for line in lines}
        self.equal("each kind of row is in the suite", (found,), (kinds,))
        section = section_of(page("FACTS.md"), "## Bytes, lines, words")
        forms = re.findall(r"(?m)^    ((?:time|thread|mutex|object|unseen) ?\S.*?)  ", section.partition("*kind* is")[0])
        kinds = section.partition("*protocol* is")[2].partition("A line from")[0]
        listed = {word for form in forms for word in re.findall(r"[a-z-]{2,}", form)} - SOMETHING
        listed |= set(re.findall(r"`([a-z-]+)`", kinds))
        found = {word for path in SUITE.glob("*.facts") for word in path.read_text().split()}
        missing = listed - found if len(listed) > 25 else {"the table isn't read"}
        self.check("each word of a line is in the suite", ", ".join(sorted(missing)))

    def test_laws_hold_in_random_texts(self):
        """The laws of ROWS.md, after each line of random texts and of their rows."""
        broken, statuses = [], set()
        for seed in range(TEXTS):
            random_facts.RandomText(seed).data(lambda world: broken.extend(laws.broken_in_world(world)))
            for text in random_facts.texts_of(seed):
                out, _, status = rows.answer(text)
                statuses.add(status)
                found = [(word, *map(int, more)) for word, *more in map(str.split, out.splitlines())]
                wrong = laws.broken_in_rows(found, b" off " in text)
                broken += [f"seed {seed}: {law}" for law in wrong]
        self.check(f"the laws of ROWS.md hold in {TEXTS} random texts", "; ".join(broken[:3]))
        self.equal("random texts have each status", (statuses,), ({0, 1, 2},))

    def test_other_numbers_change_nothing_else(self):
        """Rows of random texts whose threads, mutexes and objects have other numbers are the rows with these numbers."""
        differ = []
        for seed in range(TEXTS):
            text = random_facts.RandomText(seed).data()
            numbers = renumbered.Numbers(text, random.Random(seed))
            for (program, (status, out, _)), (_, got) in zip(said(text), said(numbers.text(text))):
                wanted = status, numbers.rows(out), ""
                if (got[0], sorted(got[1].splitlines()), got[2]) != wanted:
                    differ.append(f"{program}, seed {seed}: {got} in place of {wanted}")
        self.check(f"other numbers change nothing else in {TEXTS} random texts", "; ".join(differ[:2]))

    def test_compare_finds_a_difference(self):
        """The command compare finds where a program says something else than rows.py."""
        compare = [sys.executable, str(PLAIN / "compare"), "--texts", "1"]
        for name, (says, options, differs) in OTHERS.items():
            other = [sys.executable, "-c", OTHER.format(folder=str(PLAIN), says=says)]
            status, out, err = got = answer([*compare, *options, shlex.join(other)])
            found = re.search(rb"\n?4 texts: .*; (\d+) differ\n$", out)
            is_right = found and (status, int(found[1]) > 0, err) == (int(differs), differs, b"")
            self.check(f"compare, {name}", None if is_right else f"{got}")

    def test_rows_py_as_a_command(self):
        """rows.py as a command: its streams, statuses and arguments."""
        for name in ("nothing_happened", "meanwhile", "invalid/tab"):
            text = (SUITE / f"{name}.facts").read_bytes()
            out, err, status = rows.answer(text)
            wanted = status, out.encode(), err.encode()
            self.check(f"the command rows.py: {name}", difference(answer(ROWS_PY, text), wanted))
        status, out, err = answer([*ROWS_PY, "--help"])
        got = status, out.startswith(b"Reads a text of facts"), err
        self.equal("rows.py --help", got, (0, True, b""))
        status, out, err = answer([*ROWS_PY, "run.facts"])
        self.equal("rows.py takes no argument", (status, out, bool(err)), (2, b"", True))

    def test_pim_findings_as_a_user_meets_it(self):
        """pim-findings as a user meets it: its help, its manual page, a file, and faults."""
        shim, made = [ROOT / "pim-findings"], [proved()]
        for word in ("--help", "-h", "--version", "-V"):
            self.check(f"./pim-findings {word} prints what the program prints",
                  difference(answer([*shim, word]), answer([*made, word])))
        page = (ROOT / "launcher/pim-findings.1.in").read_text().replace("\\-", "-")
        shown = {"--help": re.sub("(?m)^    ", "", answer([*made, "--help"])[1].decode()), "the page": page}
        for name, said_there in shown.items():
            text = re.search(r"^\$ cat run.facts\n((?:.+\n)+?)(?=\n|\$)", said_there, re.M)[1]
            found = re.search(r"^\$ pim-findings run.facts\n((?:\w+(?: \d+)+\n)+)", said_there, re.M)[1]
            got = answer(made, text.encode())
            self.equal(f"the example of {name}", got, (1, found.encode(), b""))
        with tempfile.TemporaryDirectory() as folder:
            path = pathlib.Path(folder, "run.facts")
            path.write_text(text)
            self.check("a file", difference(answer([*made, path]), (1, found.encode(), b"")))
            path.unlink()
            why = f"pim-findings: {path}: it can't be read\n".encode()
            self.check("a file that isn't there", difference(answer([*made, path]), (2, b"", why)))
        status, out, err = answer([*made, "--rows"])
        got = status, out, b"--rows" in err
        self.equal("an option that there isn't", got, (2, b"", True))

    def test_windows_that_cannot_be(self):
        """A window that can't be one has a fault that names its option, and nothing is written."""
        for words, option in (
                ("--spans --from", b"--from"), ("--spans --to", b"--to"), ("--spans --from 5x", b"--from"),
                ("--spans --from -1", b"-1"), ("--spans --to 18446744073709551616", b"--to"),
                ("--from 5", b"--spans"), ("--to 5", b"--spans"), ("--spans --from 6 --to 5", b"--from is after --to")):
            status, out, err = answer([proved(), *words.split()], b"facts 1\n")
            got = status, out, option in err.partition(b"\n\n")[0]
            self.equal(f"pim-findings {words}", got, (2, b"", True))
        text = b"facts 1\nthread 1 30 high\n5 end\n"
        for words in ("--from 5", "--from 3 --to 3", f"--from {2**64 - 1}"):
            got = answer([proved(), "--spans", *words.split()], text)
            self.check(f"a window without spans: {words}", difference(got, (0, b"", b"")))
