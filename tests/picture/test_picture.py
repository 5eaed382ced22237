"""The pictures of pim-picture, by hand and compared with the report of pim."""
import json
import os
import pathlib
import re
import resource
import shutil
import subprocess
import sys
import tempfile
import xml.etree.ElementTree as xml

from tests.cases import Case
from tests.shared.checks import ROOT, SECONDS, answer, difference, ended, files_of, program
from tests.picture.lanes import SVG, Lanes, facts, shown
from tests.picture.states import kept
from tests.picture.tracks import Tracks

sys.path += [str(ROOT / "bench"), str(ROOT / "report")]
from trace_report import JudgedTrace, Window  # noqa: E402
from step_lanes import lanes  # noqa: E402
from step_table import table  # noqa: E402
from step_tracks import tracks  # noqa: E402
from texts import TEXTS, mixed, second  # noqa: E402

PICTURE = ROOT / "report/pim-picture"
SUITE = ROOT / "suite/pictures"
LARGE = 4000  # bytes
EXAMPLES = sorted(path.stem for path in (ROOT / "examples").glob("*.pim"))
LEGEND = """\
90^3 boosted to 90 by task 3  40*2 boosted to 40 by the ceiling of mutex 2
[1]  owns mutex 1             ~1   waits for mutex 1
"""
CEILINGS = """\
step  request    reply       task 1        task 2    task 3
   0                         10            20        30
   1  1 lock 2   granted     50*2 [2]      20        30
   2  1 lock 1   granted     50*2 [1,2]    20        30
   3  1 lock 3   granted     50*2 [1,2,3]  20        30
   4  2 lock 1   queued      50*2 [1,2,3]  20 ~1     30
   5  3 lock 2   queued      50*2 [1,2,3]  20 ~1     30 ~2
   6  1 release  released 3  10            40*1 [1]  50*2 [2]
   7  1 release  released 0  10            40*1 [1]  50*2 [2]
"""
FOUR = """\
pim 1
task 1 5
task 2 99
mutex 1 none
mutex 2 inherit
mutex 3 none
mutex 4 none
1 lock 4
1 lock 3
1 lock 2
1 lock 1
2 lock 2
"""
OF_FOUR = """\
step  request   reply    task 1          task 2
   0                      5              99
   1  1 lock 4  granted   5 [4]          99
   2  1 lock 3  granted   5 [3,4]        99
   3  1 lock 2  granted   5 [2,3,4]      99
   4  1 lock 1  granted   5 [1,2,3..]    99
   5  2 lock 2  queued   99^2 [1,2,3..]  99 ~2
"""
WRONG = "pim 1\ntask 1 10\nmutex 1 none\n1 lock 1 = granted\n1 try 1 = granted\n1 unlock 1\n"
OF_WRONG = """\
step  request   reply         task 1
   0                          10
   1  1 lock 1  granted       10 [1]
   2  1 try 1   refused busy  10 [1]
"""
END_OF_WRONG = "2 refused busy but recorded granted\nrejected 2\n"


def run(text="", *arguments, streams="", before=None, **environment):
    """Returns status, standard output and standard error of a run, redirected as by the shell."""
    command = ["sh", "-c", f'exec "$0" "$@" {streams}', PICTURE, *arguments, "--judge", program()]
    environment = {"PATH": os.environ["PATH"], **environment}
    text = text if isinstance(text, bytes) else text.encode()
    status, out, err = answer(command, text, env=environment, preexec_fn=before)
    return status, out.decode(), err.decode()


def example(name, kind="pim"):
    return (ROOT / f"examples/{name}.{kind}").read_text()


def report(text):
    return answer([program()], text.encode())[1].decode()


def judged(text):
    """Returns the states that are drawn, whether the text is rejected, and the report's end."""
    lines = report(text).splitlines(keepends=True)
    if lines[-1].startswith("accepted"):
        return kept(text, "".join(lines)), False, lines[-1]
    # This report has no priorities after its last step. Without recorded replies it has.
    plain = re.sub(" = .*", "", text)
    last = int(lines[-1].split()[1])
    return kept(plain, report(plain))[:last + 1], True, "".join(lines[-2:])


def with_wrong_reply(text):
    """Returns a text with the reply to each step, of which one that changes something is wrong."""
    replies = re.findall(r"^\d+ (.*)$", report(text), re.M)
    lines = text.splitlines()
    first = len(lines) - len(replies)
    changing = [at for at, reply in enumerate(replies) if not reply.startswith("refused")]
    wrong = changing[len(changing) * 2 // 3]
    replies[wrong] = "freed" if replies[wrong] == "granted" else "granted"
    lines[first:] = [f"{line} = {reply}" for line, reply in zip(lines[first:], replies)]
    return "\n".join(lines) + "\n"


def with_few_priorities(text):
    """Returns a text whose tasks often have equal priorities, so that a reason alone changes."""
    before = r"^(task \d+|mutex \d+ protect|\d+ base \d+|\d+ ceil \d+) (\d+)"
    return re.sub(before, lambda it: f"{it[1]} {1 + int(it[2]) // 25}", text, flags=re.M)


def texts():
    """Yields the names and the texts of traces to compare."""
    for name in EXAMPLES:
        yield f"the example {name}", example(name)
    for path in sorted((ROOT / "suite/traces").glob("*.pim")):
        if path.stat().st_size < LARGE:
            yield f"the trace {path.stem}", path.read_text()
    for kind in sorted(set(TEXTS) - {"start"}):
        yield f"100 steps, {kind}", TEXTS[kind](9, 100)
    for seed in range(10):
        for make in (mixed, second):
            text = make(2 + seed % 6, 50, seed)
            yield f"{make.__name__}, seed {seed}", text
            yield f"{make.__name__}, seed {seed}, rejected", with_wrong_reply(text)
            text = with_few_priorities(make(6, 100, seed))
            yield f"{make.__name__}, seed {seed}, few priorities", text


# ---- the table, compared with the report

def cell(state, task):
    """Returns the cell of a task."""
    kind, *numbers = state.reason(task).split()
    boost = {"base": "", "ceiling": "*", "waiter": "^"}[kind] + "".join(numbers[:1])
    owned = ",".join(map(str, state.owned(task)[:3])) + ".." * (len(state.owned(task)) > 3)
    waits = f" ~{state.waits[task]}" if task in state.waits else ""
    return f"{state.prio[task]:>2}{boost}" + (f" [{owned}]" if owned else "") + waits


def rows_of(drawn):
    """Returns the cells of each row, by the places of the titles, over all tables."""
    rows, places = [], []
    for line in drawn.splitlines():
        if line.startswith("90^3"):
            break
        if line.lstrip().startswith("step"):
            places = [match.start() for match in re.finditer(r"request|reply|task \d+", line)]
            at = 0
        else:
            cut = [line[a:b].rstrip() for a, b in zip([0, *places], [*places, len(line)])]
            rows[at : at + 1] = [(rows[at] if at < len(rows) else cut[:3]) + cut[3:]]
            at += 1
    return rows


def steps_of(states, window):
    """Returns the steps of a window."""
    return range(window.first, min(len(states) - 1, window.last) + 1)


# ---- the program


def script(file, text):
    file.write_text(f"#!/bin/sh\n{text}\n")
    file.chmod(0o755)


def on_a_terminal(text, columns=None, **environment):
    """Returns what the program writes to a terminal, which has so many columns."""
    terminal, end_of_it = os.openpty()
    environment = {"PATH": os.environ["PATH"], **environment}
    if columns:
        subprocess.run(["stty", "cols", str(columns)], stdin=end_of_it, check=True)
    with os.fdopen(terminal, "rb", buffering=0) as drawn:
        how = {"input": text.encode(), "stdout": end_of_it, "env": environment, "timeout": SECONDS}
        subprocess.run([PICTURE, "--judge", program()], **how)
        os.close(end_of_it)
        return all_of(drawn)


def all_of(terminal):
    """Returns all that is written to a terminal."""
    found = b""
    while True:
        try:
            found += terminal.read(65_536)
        except OSError:
            return found.decode().replace("\r\n", "\n")


class Pictures(Case):
    def expect(self, name, got, status, out="", err=""):
        self.equal(name, got, (status, out, err))

    def test_tables(self):
        whole = CEILINGS + LEGEND + "accepted 7\n"
        self.expect("ceilings, step by step", run(example("ceilings")), 0, whole)
        self.expect("more than three mutexes", run(FOUR), 0, OF_FOUR + LEGEND + "accepted 5\n")
        self.expect("a rejected trace", run(WRONG), 1, OF_WRONG + LEGEND + END_OF_WRONG)
        rows = CEILINGS.splitlines(keepends=True)
        for words, first, last in (("--from 5", 5, 7), ("--to 2", 0, 2), ("--from=4 --to=4", 4, 4)):
            shown = "".join([rows[0], *rows[first + 1 : last + 2]])
            got = run(example("ceilings"), *words.split())
            got = (got[0], re.sub(" +", " ", got[1]), got[2])
            self.expect(f"the rows of {words}", got, 0, re.sub(" +", " ", shown + LEGEND + "accepted 7\n"))
        none = "step  request  reply  task 1\n" + LEGEND + END_OF_WRONG
        self.expect("no row", run(WRONG, "--from", "9"), 1, none)
        none = "step  request  reply\n   0\n" + LEGEND + "accepted 0\n"
        self.expect("no task", run("pim 1\n"), 0, none)

    def test_many_tasks_are_several_tables(self):
        """Tasks that don't fit next to each other follow in further tables."""
        text = "pim 1\n" + "".join(f"task {n} {n}\n" for n in range(1, 13)) + "1 release\n"
        left = ["step  request    reply      ", "   0                        "]
        left.append("   1  1 release  released 0 ")

        def table(first, last):
            titles = [f"{left[0]}"] + [f" task {n} " for n in range(first, last + 1)]
            values = [f" {n:>2}" + " " * (len(f"task {n}") - 1) for n in range(first, last + 1)]
            rows = ["".join(titles), left[1] + "".join(values), left[2] + "".join(values)]
            return "".join(row.rstrip() + "\n" for row in rows)

        # The left is 27 wide, and a task 6 and then 7, each behind two spaces: six fit 80 columns.
        whole = table(1, 6) + table(7, 12) + LEGEND + "accepted 1\n"
        self.expect("twelve tasks in 80 columns", run(text), 0, whole)
        for name, columns in {"COLUMNS=0": "0", "COLUMNS=x": "x", "COLUMNS=": ""}.items():
            wanted = whole if columns != "0" else None
            got = run(text, COLUMNS=columns)
            self.check(f"twelve tasks, {name}", difference(got[:2], (0, wanted or got[1])))
        one = "".join(table(n, n) for n in range(1, 13))
        self.expect("a table for each task", run(text, COLUMNS="1"), 0, one + LEGEND + "accepted 1\n")
        all_in_one = table(1, 12) + LEGEND + "accepted 1\n"
        self.expect("twelve tasks in 126 columns", run(text, COLUMNS="126"), 0, all_in_one)
        two = table(1, 11) + table(12, 12) + LEGEND + "accepted 1\n"
        self.expect("twelve tasks in 125 columns", run(text, COLUMNS="125"), 0, two)

    def same_cells(self, name, trace, states, verdict):
        """Checks that each cell says what follows from the report."""
        drawn = "".join(table(trace, Window(), 80, False))
        wanted = [[f"{step:>4}", " ".join(words or []), reply or "",
                   *(cell(state, task) for task in sorted(state.base))]
                  for step, (words, reply, state) in enumerate(states)]
        is_narrow = all(len(line) <= 80 for line in drawn.splitlines())
        rows = rows_of(drawn)
        got = (is_narrow, drawn.endswith(LEGEND + verdict), len(rows), *rows)
        self.equal(f"the cells of {name}", got, (True, True, len(wanted), *wanted))

    def same_lanes(self, name, trace, states, window):
        """Checks that each lane says of each step what follows from the report."""
        steps, got, wanted = steps_of(states, window), [], []
        shows = Lanes("".join(lanes(trace, window)), steps)
        for step in steps:
            words, reply, state = states[step]
            for task in state.base:
                got.append((step, task, *shown(shows, task, step), shows.lanes[task].made.get(step)))
                is_refused = reply.startswith("refused") if words and int(words[0]) == task else None
                wanted.append((step, task, *facts(state, task), is_refused))
        self.equal(f"the lanes of {name}", got, wanted)

    def test_files(self):
        """An SVG is XML, has no script and asks for nothing; that of the pages is what the program draws."""
        drawn = run(example("inversion_avoided"), "--svg")[1]
        stored = (ROOT / "docs/inversion.svg").read_text()
        self.equal("docs/inversion.svg is what the program draws", (stored,), (drawn,))
        names = {part.tag.removeprefix(SVG) for part in xml.fromstring(drawn).iter()}
        got = (names, re.findall(r"https?://[^\"]*", drawn), re.findall(r"href|url\(|@import", drawn))
        wanted = ({"svg", "title", "rect", "text", "path", "circle"}, [SVG[1:-1]], [])
        self.equal("an SVG has nothing but shapes and words", got, wanted)
        self.expect("an SVG of no task", (*run("pim 1\n", "--svg")[::2], ""), 0)

    def same_tracks(self, name, trace, states, window):
        """Checks that each track says of each step what follows from the report."""
        shows = Tracks("".join(tracks(trace, window)))
        got, wanted, flows = [shows.fault(), shows.unit], [None, "ms"], []
        for step in steps_of(states, window):
            state = states[step][2]
            waited = states[step - 1][2].waits if step > window.first else {}
            for task in state.base:
                got.append((step, task, *shows.shown(task, step)))
                wanted.append((step, task, *facts(state, task)))
                if task in state.waits and waited.get(task) != state.waits[task]:
                    flows.append((step, task, state.owner[state.waits[task]]))
        self.check(f"the tracks of {name}", difference([*got, shows.arrows()], [*wanted, sorted(flows)]))

    def test_pictures_show_what_the_report_says(self):
        """Each picture of a trace says what follows from the report of pim."""
        for name, text in texts():
            states, is_rejected, verdict = judged(text)
            trace = JudgedTrace(text.encode(), [program()])
            self.equal(f"the verdict of {name}", (trace.is_rejected,), (is_rejected,))
            self.same_cells(name, trace, states, verdict)
            for same in (self.same_lanes, self.same_tracks):
                same(name, trace, states, Window())
        text = mixed(5, 60)
        states, _, _ = judged(text)
        for window in (Window(10, 20), Window(0, 0), Window(60, 60), Window(30, 99)):
            for same in (self.same_lanes, self.same_tracks):
                name = f"the steps {window.first} to {window.last}"
                same(name, JudgedTrace(text.encode(), [program()]), states, window)

    def test_a_broken_file_breaks_a_rule(self):
        """A file that breaks a rule of the format is found."""
        drawn = run(example("boost_through_a_chain"), "--perfetto")[1]
        self.check("a whole file breaks no rule", Tracks(drawn).fault())

        def broken(name, kind, change, nth=0):
            file = json.loads(drawn)
            events = [it for it in file["traceEvents"] if it["ph"] == kind]
            change(file["traceEvents"], events[nth])
            fault = Tracks(json.dumps(file)).fault()
            self.check(f"a file breaks a rule by {name}", None if fault else "no rule is broken")

        later = lambda all_, it: all_.append({**it, "ts": it["ts"] + 1})  # noqa: E731
        broken("a slice over the end of another", "X", later)
        broken("an empty slice", "X", lambda all_, it: it.update(dur=0))
        broken("a slice without a length", "X", lambda all_, it: it.pop("dur"))
        broken("a track without a name", "X", lambda all_, it: it.update(tid=999_999))
        broken("a track of two groups", "X", lambda all_, it: it.update(pid=99))
        broken("a negative time", "C", lambda all_, it: it.update(ts=-1))
        broken("a counter of words", "C", lambda all_, it: it.update(args={"priority": "90"}))
        broken("a flow without an end", "f", lambda all_, it: all_.remove(it))
        broken("a flow without a slice", "s", lambda all_, it: it.update(ts=it["ts"] - 1))
        broken("a flow to the next slice", "f", lambda all_, it: it.update(bp="n"))

        def first(name, **changes):
            """Returns a change of the arguments of the first event whose name begins so."""
            return lambda all_, _: next(
                it["args"] for it in all_ if it["name"].startswith(name)).update(changes)

        broken("another owner of a mutex", "X", first("owns ", owner=99))
        broken("another owner of an awaited mutex", "X", first("waits for mutex", owner=99))
        broken("a base above its boost", "X", first("task ", base=99))
        broken("a group at another place", "M", first("process_sort", sort_index=99))
        broken("a track at another place", "M", first("thread_sort", sort_index=99))
        broken("an unknown kind", "M", lambda all_, it: it.update(ph="Z"))
        broken("an unknown name", "M", lambda all_, it: it.update(name="thread_label"))

    def test_pictures_of_the_suite(self):
        """Draws the pictures by hand: suite/README.md says what the files are."""
        for name in sorted(path.stem for path in SUITE.glob("*.pim")):
            parts = files_of(SUITE, name)
            status, out, err = run(parts["pim"], *parts.get("options", "").split())
            if "json" in parts:
                events = [(*json.loads(one)["traceEvents"], "no event") for one in (out, parts["json"])]
                why = difference((status, err), (0, "")) or difference(*events)
            elif "error" in parts:
                why = difference((status, out, err), (2, "", f"pim-picture: {parts['error']}"))
            else:
                why = difference((f"{out}status {status}\n", err), (parts["txt"], ""))
            self.check(f"the picture {name}", why)

    def test_each_fault_is_a_line_and_status_2(self):
        """Faults and statuses are those of pim, with the program's name."""
        accepted, invalid = "pim 1\ntask 1 10\n", "pim 1\ntask 1 100\n"

        def few_bytes():
            resource.setrlimit(resource.RLIMIT_AS, (100_000_000, 100_000_000))

        cases = {
            "line 2": run(invalid),
            "line 1": run(""),
            "line 4": run(example("ceilings").replace("task 3 30", "task 3 100")),
            "line 3": run(b"pim 1\ntask 1 10\n\xff\n"),
            "line 65538": run("pim 1\n" + "1 release\n" * 65_537),
            "read": run(streams="0> /dev/null"),
            "write": run(accepted, streams="> /dev/full"),
            "memory": run(TEXTS["chain"](256, 65_536), before=few_bytes),
        }
        for fault, got in cases.items():
            self.expect(f"fault: {fault}", (got[0], "", got[2]), 2, err=f"pim-picture: {fault}\n")
            self.expect(f"nothing is written: {fault}", (2, got[1], ""), 2)
        for form in ("--svg", "--perfetto"):
            self.expect(f"{form} of an invalid trace", run(invalid, form), 2, err="pim-picture: line 2\n")
            full = run(WRONG, form, streams="> /dev/full")
            self.expect(f"{form} on a full disk", full, 2, err="pim-picture: write\n")
        self.expect("fault, standard error closed", run(invalid, streams="2>&-"), 2)
        self.expect("fault, standard error full", run(invalid, streams="2> /dev/full"), 2)
        self.expect("standard input closed", run(streams="<&-"), 2, err="pim-picture: read\n")
        self.expect("standard output closed", run(accepted, streams=">&-"), 2, err="pim-picture: write\n")
        endless = run(streams="< /dev/zero", before=few_bytes)
        self.expect("an input without an end", endless, 2, err="pim-picture: line 1\n")

    def test_a_reader_that_leaves_early(self):
        """A reader that leaves before all is written."""
        text = "pim 1\n" + "1 release\n" * 40_000
        pipes = {name: subprocess.PIPE for name in ("stdin", "stdout", "stderr")}
        with subprocess.Popen([PICTURE, "--judge", program()], **pipes) as child:
            child.stdin.write(text.encode())
            child.stdin.close()
            child.stdout.read(1000)
            child.stdout.close()
            got = (ended(child), child.stderr.read().decode())
        self.equal("a reader that leaves early", got, (2, "pim-picture: write\n"))

    def test_arguments(self):
        more = "; pim-picture --help says more\n"
        wrong = {
            "x": "unrecognized arguments: x",
            "--foo": "unrecognized arguments: --foo",
            "--from": "argument --from: expected one argument",
            "--from x": "argument --from: x isn't the number of a step",
            "--from=-1": "argument --from: -1 isn't the number of a step",
            "--to 1.5": "argument --to: 1.5 isn't the number of a step",
            "--svg --perfetto": "argument --perfetto: not allowed with argument --svg",
            "--svg=x": "argument --svg: ignored explicit argument 'x'",
            "--names=x": "unrecognized arguments: --names=x",
        }
        for words, why in wrong.items():
            got = run(WRONG, *words.split())
            self.expect(f"the wrong arguments {words}", got, 2, err=f"pim-picture: {why}{more}")
        self.check("an argument that is not UTF-8", difference(run("", b"\xff")[:2], (2, "")))
        version = f"pim-picture {(ROOT / 'VERSION').read_text()}"
        for word in ("--version", "-V"):
            self.expect(word, run("", word), 0, version)
        self.expect("-h", run("", "-h"), 0, run("", "--help")[1])
        wide = [line for line in run("", "--help")[1].splitlines() if len(line) > 100]
        self.equal("no line of --help is too wide", (wide,), ([],))
        full = run("", "-h", streams="> /dev/full")
        self.expect("--help on a full disk", full, 2, err="pim-picture: write\n")

    def test_the_judge_is_the_program_that_is_given(self):
        """pim is found next to pim-picture, or on PATH. What isn't pim is a fault."""
        wrong = {
            "true": "true wrote no report",
            "sh -c 'echo accepted'": "sh wrote no report",
            "sh -c 'exit 5'": "sh judged nothing, with status 5",
            "/none": "/none: No such file or directory",
        }
        for command, why in wrong.items():
            status, out, err = answer([PICTURE, "--judge", command], WRONG.encode())
            got = (status, out.decode(), err.decode())
            self.expect(f"--judge {command}", got, 2, err=f"pim-picture: {why}\n")
        with tempfile.TemporaryDirectory() as place:
            folder = pathlib.Path(place)
            shutil.copytree(ROOT / "report", folder / "report")
            (folder / "pim-picture").symlink_to("report/pim-picture")
            (folder / "path").mkdir()

            def got():
                settings = {"env": {"PATH": f"{folder}/path:{os.environ['PATH']}"}, "cwd": "/"}
                status, out, err = answer([folder / "pim-picture"], WRONG.encode(), **settings)
                return status, out.decode(), err.decode()

            why = "pim isn't next to pim-picture, nor on PATH: --judge names it"
            self.expect("no pim", got(), 2, err=f"pim-picture: {why}\n")
            for name in ("path/pim", "pim", "report/pim"):
                # What it says is passed on, with the name of pim-picture where it names itself.
                script(folder / name, f"echo pim: {name} >&2; echo a note >&2; exec '{program()}'")
                said = f"pim-picture: {name}\na note\n" * 2
                self.expect(f"{name} comes first", got(), 1, OF_WRONG + LEGEND + END_OF_WRONG, said)

    def test_what_pim_says_is_passed_on_while_it_runs(self):
        """What pim says is passed on before it ends: it may have to be built first."""
        with tempfile.TemporaryDirectory() as place:
            pim = pathlib.Path(place, "pim")
            os.mkfifo(pim.with_name("go"))
            script(pim, f"echo pim: proving >&2; read go < {place}/go; echo accepted 0")
            pipes = {name: subprocess.PIPE for name in ("stdin", "stdout", "stderr")}
            with subprocess.Popen([PICTURE, "--judge", pim], **pipes) as child:
                child.stdin.write(b"pim 1\n")
                child.stdin.close()
                first = child.stderr.readline().decode()
                pim.with_name("go").write_text("go\n")
                got = (first, child.stdout.read().decode(), ended(child))
        none = "step  request  reply\n   0\n" + LEGEND + "accepted 0\n"
        wanted = ("pim-picture: proving\n", none, 0)
        self.equal("what pim says is passed on while it runs", got, wanted)

    def test_links_start_the_programs(self):
        """The links at the root run the programs from any folder."""
        version = (ROOT / "VERSION").read_text()
        for name in ("pim-picture", "pim-report"):
            got = answer([ROOT / name, "--version"], cwd="/")
            self.equal(f"./{name}", got, (0, f"{name} {version}".encode(), b""))

    def test_traces_of_65536_steps(self):
        """A trace of 65,536 steps is drawn in a few seconds of CPU time; thirty are too many."""
        for name, make, tasks in (("8 tasks", mixed, 8), ("a queue of 256 tasks", TEXTS["wide"], 256)):
            text = make(tasks, 65_536)
            before = resource.getrusage(resource.RUSAGE_CHILDREN).ru_utime
            status, drawn, err = run(text)
            took = resource.getrusage(resource.RUSAGE_CHILDREN).ru_utime - before
            got = (status, err, drawn[-len("accepted 65536\n"):], took < 30)
            self.equal(f"65,536 steps of {name}", got, (0, "", "accepted 65536\n", True))

    def test_examples_of_help_and_manual_page(self):
        """The examples of the help and of the manual page are what the program draws."""
        shown = run("", "--help")[1]
        example_of = r"^    \$ (.*) \| pim-picture\n((?:    .*\n)*)"
        command, drawn = re.search(example_of, shown, re.M).groups()
        text = subprocess.run(["sh", "-c", command], capture_output=True, text=True).stdout
        self.expect("the example of --help", run(text), 0, re.sub("^    ", "", drawn, flags=re.M))
        page = (ROOT / "report/pim-picture.1.in").read_text()
        page = page.replace("\\(aq", "'").replace("\\e", "\\")
        example_of = r"^\.EX\n\$ ([^\n]*) \| pim-picture\n(.*?)^\.EE$"
        command, drawn = re.search(example_of, page, re.M | re.S).groups()
        text = subprocess.run(["sh", "-c", command], capture_output=True, text=True).stdout
        self.expect("the example of the manual page", run(text), 0, drawn)

    def test_the_table_of_PICTURES(self):
        """The table of docs/PICTURES.md is what the program draws."""
        page = (ROOT / "docs/PICTURES.md").read_text()
        name, drawn = re.search(r"^    \$ ./pim-picture < examples/(\w+).pim\n((?:    .*\n)*)", page, re.M).groups()
        self.expect("the table of PICTURES.md", run(example(name)), 0, re.sub("^    ", "", drawn, flags=re.M))

    def test_terminals(self):
        text = "pim 1\ntask 1 10\ntask 2 5\nmutex 1 protect 40\nmutex 2 none\n1 lock 1\n1 lock 2\n"
        bold = """\
step  request   reply    task 1      task 2
   0                     10           5
   1  1 lock 1  granted  \x1b[1m40*1 [1]\x1b[0m     5
   2  1 lock 2  granted  \x1b[1m40*1 [1,2]\x1b[0m   5
""" + LEGEND + "accepted 2\n"
        self.equal("boosts are bold on a terminal", (on_a_terminal(text),), (bold,))
        plain = re.sub("\x1b\\[.m", "", bold)
        self.equal("NO_COLOR on a terminal", (on_a_terminal(text, NO_COLOR="1"),), (plain,))
        self.expect("no escapes in a pipe", run(text), 0, plain)
        text = "pim 1\n" + "".join(f"task {n} 9\n" for n in range(1, 21))
        # The left is 20 wide, and a task 8 or, from task 10 on, 9: 20 + 9 * 8 + 11 * 9 = 191. In 80
        # columns there are the tasks 1 to 7, 8 to 13, 14 to 19 and 20.
        for columns, tables in ((191, 1), (190, 2), (80, 4)):
            count = on_a_terminal(text, columns).count("step  request")
            name = f"twenty tasks on a terminal of {columns} columns"
            self.equal(name, (count,), (tables,))
