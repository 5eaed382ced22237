"""The texts of suite/ and examples/ on every implementation.

The program, the judge alone, the judge in C++, the plain manager, the web page's module and libpim print the report of
each trace, and accept the trace of each script; those that read texts by themselves name the first invalid line of each
invalid one. The program, if asked, and the module say why it is invalid. The program runs and checks each script.
"""
import functools
import hashlib
import pathlib
import re

from tests.cases import Case
from tests.web import module
from tests.shared.checks import ROOT, answer, built, compiled, difference, made, program, soak
from tests.shared.suite_texts import (SUITE, accepted, explained, invalid, runs_of_scripts,
                                      scripts, traces)

RUNS = 200
# What the report of each run of a script has, or doesn't have, in whichever order its threads come.
ALWAYS = {"chain_of_three": b"  task 3 at 60 ceiling 3\n"}
NEVER = {"two_tasks_lock_two_mutexes_in_the_same_order": b"refused"}


# ---- the texts

def reasons_alone(paths):
    """Returns the names of reasons without an invalid text."""
    names = {suffix: {path.stem for path in paths if path.suffix == suffix} for suffix in (".why", ".error")}
    return names[".why"] - names[".error"]


# ---- who prints reports

def first_wrong(texts, judge):
    """Returns the first text that isn't judged as it must be, and how, or None."""
    for name, (text, wanted) in texts.items():
        why = difference(judge(text), wanted)
        if why:
            return f"{name}: {why}"
    return None


def last_line(judge, text):
    status, out, err = judge(text)
    return status, b"".join(out.splitlines(True)[-1:]), err


def without_reason(status, out, err):
    """Returns an answer without its second line, which must name the same line and say why it is invalid."""
    first, _, second = err.partition(b"\n")
    has_reason = re.fullmatch(re.escape(first) + rb": (?!it isn't a line)[^\n]+\n", second)
    return status, out, first + b"\n" if has_reason else err


def command(*words):
    return lambda text: answer([str(word) for word in words], text)


def wrong_run(name, script, run, checks, judge):
    """Runs and checks a script. Returns what is wrong, or None."""
    status, trace, err = run(script)
    judged, report, _ = judge(trace)
    ends = report.endswith(b"\n" + accepted(script))
    has_lines = ALWAYS.get(name, b"") in report and (name not in NEVER or NEVER[name] not in report)
    # A worker makes no step while it waits.
    waits = b" = refused waiting\n" in trace
    why = difference((status, err, judged, ends, has_lines, waits), (0, b"", 0, True, True, False))
    return why or difference(checks(script), (0, accepted(script), b""))


def of_module(line, wanted, has_report, has_reason):
    """Says how the module's answer for a text differs, or returns None. The text may have no report to compare with."""
    status, fault, reason, report, drawn = module.answer_of(line)
    report_wanted = hashlib.sha256(wanted[1]).hexdigest() if has_report else report
    said = fault + reason if has_reason else fault
    return difference((status, said, report, drawn), (wanted[0], wanted[2].decode(), report_wanted, [0, 0]))


class Suite(Case):
    def test_each_text_has_what_it_must_give(self):
        """Each text of suite/ has what it must give, which a script may lack; and there are no other files."""
        kinds = {"traces": ([".pim"], ".report"), "invalid": ([".pim", ".script"], ".error"),
                 "scripts": ([".script"], ".trace")}
        wrong = []
        for folder, (of_texts, of_answers) in kinds.items():
            paths = sorted((SUITE / folder).iterdir())
            texts = [path.stem for path in paths if path.suffix in of_texts]
            answers = [path.stem for path in paths if path.suffix == of_answers]
            alone = set(answers) - set(texts) if folder == "scripts" else set(answers) ^ set(texts)
            known = (*of_texts, of_answers, *([".why"] if folder == "invalid" else []))
            wrong += [path.name for path in paths if path.suffix not in known or path.stem in {*alone, *reasons_alone(paths)}]
        self.assertEqual(wrong, [])

    def test_each_reason_has_a_text(self):
        """Each reason that pim_text has is that of a text, but for the one that says nothing."""
        code = (ROOT / "crates/pim_text/src/explaining/reason.rt").read_text().partition("pub enum Reason {")[2]
        said = ["".join(re.split(r'"\s*|\\\n\s*', it)) for it in re.findall(r'#\[error\(\s*"(.*?)"\s*\)\]', code, re.S)]
        forms = {it: re.compile(re.escape(it).replace(r"\{0\}", ".+")) for it in said}
        given = [wanted[2].decode().splitlines()[1].split(": ", 2)[2] for kind in ("pim", "script")
                 for _, wanted in explained(kind).values()]
        missing = [it for it, form in forms.items() if not any(map(form.fullmatch, given))]
        self.equal(f"{len(said) - 1} reasons have a text", (missing,), (["it isn't a line of the format"],))

    def prints(self, player, judge, reads=True):
        """Plays traces on an implementation that prints reports, and invalid ones if it reads texts by itself."""
        played = traces()
        self.check(f"{player}: {len(played)} traces", first_wrong(played, judge))
        recorded = runs_of_scripts()
        self.check(f"{player}: {len(recorded)} recorded runs", first_wrong(recorded, functools.partial(last_line, judge)))
        if reads:
            lines = invalid("pim")
            self.check(f"{player}: {len(lines)} invalid traces", first_wrong(lines, judge))

    def explains(self, player, judge, kind):
        """Asks for reasons. Each invalid text has one, also those for which suite/ has none."""
        why = explained(kind)
        self.check(f"{player}: {len(why)} reasons", first_wrong(why, judge))
        unsaid = {name: it for name, it in invalid(kind).items() if name not in why and b"line" in it[1][2]}
        self.check(f"{player}: a reason for {len(unsaid)} texts", first_wrong(unsaid, lambda text: without_reason(*judge(text))))

    def test_pim_judges_runs_and_checks(self):
        """The program judges, runs and checks. Each run of a script must be accepted by the judge in C++."""
        own, judge = program(), command(compiled(ROOT / "bench/judge.cpp", self.folder))
        self.prints("pim", command(own))
        run, checks, lines = command(own, "run"), command(own, "check"), invalid("script")
        for job, jobs in (("run", run), ("check", checks)):
            self.check(f"pim {job}: {len(lines)} invalid scripts", first_wrong(lines, jobs))
        self.explains("pim --explain", command(own, "--explain"), "pim")
        for job in ("run", "check"):
            self.explains(f"pim --explain {job}", command(own, "--explain", job), "script")
        traced = {name: (text, (0, trace, b"")) for name, (text, trace) in scripts().items() if trace}
        self.check(f"pim run: {len(traced)} scripts with one trace", first_wrong(traced, run))
        verdicts = {name: (text, (0, accepted(text), b"")) for name, (text, _) in scripts().items()}
        self.check(f"pim check: {len(verdicts)} scripts", first_wrong(verdicts, checks))
        free = {name: text for name, (text, trace) in scripts().items() if not trace}
        for name, text in free.items():
            why = next(filter(None, (wrong_run(name, text, run, checks, judge) for _ in range(RUNS))), None)
            self.check(f"pim run and check: {RUNS} times {name}", why)

    def test_the_judge_alone(self):
        """The judge alone, which ./pim builds first."""
        self.prints("pim_judging", command(built("pim_judging", "pim_judging", "sh", "-c", "rt run < stdin")))

    def test_the_judge_in_cxx(self):
        self.prints("the judge in C++", command(compiled(ROOT / "bench/judge.cpp", self.folder)))

    def test_the_plain_manager(self):
        """The plain manager, which computes each priority from scratch."""
        self.prints("the plain manager", command(soak(), "judge"))

    def test_libpim_replays(self):
        """The replay through libpim, which asks every getter after each step. It reads valid texts alone."""
        made("c", "out/replay")
        self.prints("libpim", command(ROOT / "c/out/replay", "-check"), reads=False)

    def test_the_web_module(self):
        """The module of the web page, in Node. It also counts the states and bars that aren't those of the report."""
        if not module.is_here():
            self.skipTest("node is missing")
        status, _, err = answer([str(ROOT / "web/build")], seconds=3600)
        self.assertEqual(status, 0, err.decode()[-300:])
        kinds = {"traces": traces(), "recorded runs": runs_of_scripts(), "invalid traces": invalid("pim"),
                 "reasons": explained("pim")}
        every = [text for texts in kinds.values() for text, _ in texts.values()]
        _, lines, err = module.judged(every, pathlib.Path(self.folder))
        self.assertGreaterEqual(len(lines), len(every), f"texts were judged: {err[-200:]}")
        lines = iter(lines)
        for kind, texts in kinds.items():
            has_report = kind != "recorded runs"
            wrong = [(name, of_module(next(lines), wanted, has_report, kind == "reasons"))
                     for name, (_, wanted) in texts.items()]
            self.check(f"{len(texts)} {kind}", next((f"{name}: {why}" for name, why in wrong if why), None))
