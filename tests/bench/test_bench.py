"""What measures, in bench/, c/bench/ and crates/pim_soak, with little of each.

The tables are complete, the plot is XML with a curve for each program, pim and libpim answer as plain C++ does on
what is measured, rows.cpp writes the rows of docs/ROWS.md, and the scripts end with the right status.
"""
import io
import pathlib
import re
import subprocess
import sys
import xml.etree.ElementTree as xml

from tests.cases import Case, temporary_folder
from tests.shared.checks import ROOT, answer, difference, made, program, soak

sys.path[:0] = [str(ROOT / "bench"), str(ROOT / "tests/facts/plain")]
import facts  # noqa: E402
import rows  # noqa: E402
import runs  # noqa: E402
from texts import TEXTS  # noqa: E402

SVG = "{http://www.w3.org/2000/svg}"
PAGE = (ROOT / "docs/SPEED.md").read_text()


def run(file, *arguments):
    """Returns status and both outputs of a script that measures."""
    status, out, err = answer([sys.executable, ROOT / file, *map(str, arguments)])
    return status, out.decode(), err.decode()


def script(folder, *lines):
    """Returns the path of a shell script of these lines."""
    path = pathlib.Path(folder, "other")
    path.write_text("\n".join(["#!/bin/sh", *lines, ""]))
    path.chmod(0o755)
    return path


def wrong_rates(lines, threads):
    """Returns what is wrong with the rows of rates, one for each number of threads, or None."""
    found = [[int(word) for word in line.split()] for line in lines if re.match(r"\s*\d", line)]
    if [row[0] for row in found] != threads:
        return f"rows for {[row[0] for row in found]}"
    return next((f"no rate in {row}" for row in found if min(row[1:3]) <= 0), None)


class Measuring(Case):
    def tables(self, name, got, heads):
        """The script measured, and the lines of its tables begin so and have numbers."""
        status, out, err = got
        lines = [line[2:] for line in out.splitlines() if line.startswith("| ")]
        begun = [head for line, head in zip(lines, heads) if line.startswith(head)]
        numbers = re.search(r"\| +[\d.,]+ \|", out)
        got = (status, err, len(lines), begun, bool(numbers))
        self.equal(name, got, (0, "", len(heads), heads, True))

    def gives_up(self, name, got, status, said):
        """The script ended with this status, and said so on standard error alone."""
        same = (got[0], got[1]) == (status, "") and said in got[2]
        self.check(name, None if same else f"status {got[0]}, {got[2]!r}")


class Rows(Measuring):
    @classmethod
    def setUpClass(cls):
        """Compiles rows.cpp with all warnings as errors."""
        cls.program = f"{temporary_folder(cls.addClassCleanup)}/rows_in_cpp"
        warnings = ["-Wall", "-Wextra", "-Wpedantic", "-Wshadow", "-Wconversion", "-Werror"]
        subprocess.run(["g++", "-std=c++17", "-O1", *warnings, ROOT / "bench/rows.cpp", "-o", cls.program], check=True)

    def test_rows_cpp_plays_the_suite(self):
        """rows.cpp says what suite/facts has, but for the reason why a line is invalid."""
        wrong = []
        for text in sorted((ROOT / "suite/facts").glob("**/*.facts")):
            status, out, err = answer([self.program], text.read_bytes())
            if text.parent.name == "invalid":
                line = re.match(r"pim-findings: line \d+", text.with_suffix(".error").read_text())[0]
                wanted = 2, "", f"{line}\n"
            else:
                found = text.with_suffix(".rows").read_text()
                wanted = int(any(map(int, found.split()[-2:]))), found, ""
            if (status, out.decode(), err.decode()) != wanted:
                wrong.append(text.stem)
        self.check("rows.cpp plays suite/facts", ", ".join(wrong))

    def test_rows_of_large_texts(self):
        """The generated texts are valid, and rows.cpp writes the rows of the plain implementation."""
        small = {name: shape._replace(
            threads=12, mutexes=min(24, shape.mutexes), waiting=min(6, shape.waiting),
            blocked=min(4, shape.blocked)) for name, shape in facts.TEXTS.items()}
        small["apart"] = small["half"]._replace(apart=(4, 8))
        for name, shape in small.items():
            texts = [io.BytesIO(), io.BytesIO()]
            for text in texts:
                facts.write(text, shape, 150, seed=7)
            data, again = (text.getvalue() for text in texts)
            self.check(f"facts.py writes {name} twice", None if data == again else "the texts differ")
            out, err, status = rows.answer(data)
            self.check(f"facts.py writes {name}", err or None if status < 2 else err)
            wanted = status, out.encode(), b""
            self.check(f"the rows of {name}", difference(answer([self.program], data), wanted))

    def test_rows_are_measured(self):
        """bench/rows, with rows.cpp as the other program, too."""
        kept = ["--texts", f"{self.folder}/texts", "--flags=-O0"]
        little = ["bench/rows", "--small", *kept, "--only", "half"]
        if not runs.counter():
            self.skipTest("valgrind is missing")
        heads = ["Text", "half", "Text", "half", "half", "half", "Program", "rows.cpp", "rows_in_cpp"]
        self.tables("bench/rows", run(*little, self.program), heads)
        other = script(self.folder, "cat >/dev/null", "echo end 0")
        self.gives_up("rows that differ", run(*little, other), 1, "the reports differ in line 1")
        self.gives_up("a program that is missing", run(*little, f"{self.folder}/missing"), 2, "no such program")
        for wrong in (["--only", "none"], ["--facts", 1], ["--repeat", 0]):
            self.gives_up(f"bench/rows {wrong}", run("bench/rows", *wrong), 2, "rows: error: ")


class Bench(Measuring):
    @classmethod
    def setUpClass(cls):
        made("c", "out/steps")

    def test_measure_prints_its_tables(self):
        little = ["--tasks", 6, "--steps", 100, "--repeat", 1]
        self.tables("measure.py", run("bench/measure.py", *little, program()), ["Trace", *TEXTS])
        beside = ["bench/measure.py", *little, "--only", "free", program(), "--beside"]
        got = run(*beside, script(self.folder, "cat >/dev/null", "echo accepted 1"))
        self.gives_up("reports that differ", got, 1, "free.pim: the reports differ in line 1")
        got = run(*beside, script(self.folder, "exit 2"))
        self.tables("a program that doesn't know the version of a text", got, ["Trace", "free"])
        missing = [f"{self.folder}/missing"]
        for arguments in (["--only", "none"], ["--steps", 0], ["--tasks", 257], ["/"], missing):
            self.gives_up(f"wrong arguments {arguments[0]}", run("bench/measure.py", *arguments), 2, "measure.py: ")

    def test_growth_prints_its_tables_and_plots(self):
        plot = f"{self.folder}/plot.svg"
        little = ["--sizes", 4, 8, "--steps", 40, "--repeat", 1]
        kinds = ["free", "mixed", "wide", "chain"]
        heads = [head for kind in kinds for head in (kind, "pim", "C++", "ratio")]
        self.tables("growth.py", run("bench/growth.py", *little, "--time", "--plot", plot, program()), heads)
        drawn = ROOT / "docs/growth.svg"
        for name, file, sizes in (("its plot", plot, 2), ("the plot of docs", drawn, 6)):
            curves = [line.get("points").split() for line in xml.parse(file).iter(f"{SVG}polyline")]
            wanted = [2, 2] + [sizes] * 2 * len(kinds)  # the names of the curves come first
            self.equal(name, ([len(points) for points in curves],), (wanted,))

    def test_instructions_are_counted(self):
        """What counts instructions, or says that it can't."""
        steps = runs.stepper()
        little = ["--tasks", 6, "--repeat", 1, "--steps", 40, "--only"]
        sized = ["--sizes", 4, "--steps", 20, "--only", "free", program()]
        scripts = {
            "bench/growth.py": (sized, ["free", "pim", "C++", "ratio"]),
            "c/bench/measure": ([*little, "mixed", steps], ["Trace", "mixed", "mixed"]),
            "c/bench/worst": ([*little, "handovers", steps], ["The step", "handovers", "mixed"]),
        }
        for file, (arguments, heads) in scripts.items():
            if runs.counter():
                self.tables(f"{file} counts", run(file, *arguments), heads)
            else:
                self.gives_up(f"{file} says what it needs", run(file, *arguments), 2, "valgrind")
                self.skip(f"{file} counts", "valgrind is missing")

    def test_scenes_of_the_worst_cases_are_traces(self):
        """Each scene of the worst cases is a trace, and answered by libpim as by plain C++."""
        names = re.search(r"--show \{(.*)\}", run("c/bench/worst", "--help")[1])[1].split(",")
        for name in names:
            text = run("c/bench/worst", "--tasks", 9, "--show", name)[1].encode()
            statuses = answer([runs.stepper(), "check"], text)[0], answer([program()], text)[0]
            self.equal(f"the scene {name}", statuses, (0, 0))

    def test_pim_soak_prints_reads_and_calls_a_second(self):
        """pim_soak prints how many reads and calls a second there are, next to locks round the same manager."""
        status, out, err = answer([soak(), "bench", "small"])
        lines = out.decode().splitlines()
        begin = next((n for n, line in enumerate(lines) if line.startswith("threads")), len(lines))
        self.equal("pim_soak ends", (status, err), (0, b""))
        self.check("its reads", wrong_rates(lines[:begin], [1, 4, 8]))
        self.check("its calls", wrong_rates(lines[begin:], [1, 4, 16]))

    def test_the_page_has_what_measure_found(self):
        found = PAGE.partition("<!-- by bench/measure.py -->\n")[2].partition("<!-- end -->\n")
        has_table = found[1] and "|---" in found[0]
        self.check("docs/SPEED.md has what bench/measure.py found", None if has_table else "no table")
