"""Runs the tests of parts, each module by itself, on all CPUs. `./test -h` has the arguments.

`python3 -m unittest tests.suite.test_suite` runs a module alone, too. Here it runs in a process of its own,
whose output is printed when it has ended. What several modules need is built before they start.
"""
import argparse
import collections
import json
import os
import pathlib
import signal
import subprocess
import sys
import tempfile
import time
import unittest

from tests.parts import BUILDS, GIVEN, NAMED, ONE_AT_A_TIME, PARTS

ROOT = pathlib.Path(__file__).resolve().parents[1]
ENDS = "== what was counted: "


class Result(unittest.TextTestResult):
    """Counts the subtests of a test in its place, if it has some."""

    def __init__(self, *arguments, **how):
        super().__init__(*arguments, **how)
        self.passed, self.having_subtests = 0, set()

    def getDescription(self, test):
        return test.id()

    def addSubTest(self, test, subtest, fault):
        super().addSubTest(test, subtest, fault)
        self.having_subtests.add(test.id())
        self.passed += fault is None

    def addSuccess(self, test):
        super().addSuccess(test)
        self.passed += test.id() not in self.having_subtests


def run_module(name, patterns):
    """Runs a module's tests in this process, and prints what was counted in a last line."""
    loader = unittest.TestLoader()
    loader.testNamePatterns = [it if "*" in it else f"*{it}*" for it in patterns] or None
    runner = unittest.TextTestRunner(sys.stdout, descriptions=False, verbosity=2, resultclass=Result)
    result = runner.run(loader.loadTestsFromName(name))
    failed = len(result.failures) + len(result.errors) + len(result.unexpectedSuccesses)
    skipped = [(str(test), why) for test, why in result.skipped]
    print(ENDS + json.dumps([result.passed, failed, skipped]))


def counted(output):
    """Returns a module's output without its last line, and what that counted: None if it isn't there."""
    text, _, last = output.rpartition(ENDS)
    return (text, json.loads(last)) if last and text else (output, None)


class Module:
    """A module's tests in a process of their own."""

    def __init__(self, part, name):
        self.part, self.name = part, name
        self.uses = {what for what, modules in ONE_AT_A_TIME.items() if name in modules}

    def start(self, patterns):
        words = ["tests.run", "--module", self.name, *(word for it in patterns for word in ("-k", it))]
        self.output, self.began = tempfile.TemporaryFile("w+", errors="replace"), time.monotonic()
        how = {"stdin": subprocess.DEVNULL, "stdout": self.output, "stderr": subprocess.STDOUT}
        self.child = subprocess.Popen([sys.executable, "-m", *words], cwd=ROOT, start_new_session=True, **how)

    def finish(self):
        """Prints what the module printed, and returns what it counted. One that broke off has failed."""
        self.output.seek(0)
        text, counts = counted(self.output.read())
        if counts == [0, 0, []]:
            return counts  # no test of it was asked for
        minutes, seconds = divmod(round(time.monotonic() - self.began), 60)
        print(f"== {self.name}, {minutes} min {seconds} s\n{text}", end="", flush=True)
        if counts is None:
            print(f"FAIL: {self.name} broke off with status {self.child.returncode}", flush=True)
            counts = [0, 1, []]
        return counts

    def kill(self):
        if self.child.poll() is None:
            os.killpg(self.child.pid, signal.SIGTERM)


def modules_of(part):
    """Returns the modules of a part."""
    return [Module(part, f"tests.{part}.{path.stem}") for path in sorted((ROOT / "tests" / part).glob("test_*.py"))]


def build(parts, left_out):
    """Builds what several modules use, one after the other, and returns how many builds failed."""
    failed = 0
    for name, (users, command) in BUILDS.items():
        if name not in left_out and parts & set(users.split()):
            print(f"== building {name}, unless it is built", flush=True)
            how = {"stdout": subprocess.DEVNULL, "stderr": subprocess.PIPE, "text": True, "errors": "replace"}
            done = subprocess.run(["sh", "-c", command], cwd=ROOT, **how)
            if done.returncode:
                failed += 1
                print(f"FAIL: {name} isn't built\n{done.stderr[-2000:]}", flush=True)
    return failed


def run_all(modules, patterns, jobs):
    """Runs the modules, so many at the same time, and returns what the parts counted."""
    counts, running = collections.defaultdict(lambda: [0, 0, []]), []
    waiting = list(modules)
    try:
        while waiting or running:
            busy = set().union(*(module.uses for module in running))
            free = next((it for it in waiting if not it.uses & busy), None)
            if free and len(running) < jobs:
                waiting.remove(free)
                free.start(patterns)
                running.append(free)
                continue
            ended = [module for module in running if module.child.poll() is not None]
            for module in ended:
                running.remove(module)
                counts[module.part] = [sum(pair, type(pair[0])()) for pair in zip(counts[module.part], module.finish())]
            time.sleep(0 if ended else 0.05)
    finally:
        for module in running:
            module.kill()
    return counts


def arguments():
    lines = [f"  {name:<10}{text}" for name, text in {**PARTS, **NAMED}.items()]
    parser = argparse.ArgumentParser(
        prog="./test", formatter_class=argparse.RawDescriptionHelpFormatter,
        description="Without a part: the proof gate (rt ci), and then each part but for the last.",
        epilog="\n".join(["parts:", *lines, "", "`./test mutations` tries the must-fail edits that CI doesn't, "
                          "`./test measure` prints times."]))
    parser.add_argument("parts", metavar="PART", nargs="*", help="these parts alone, without the proof gate")
    parser.add_argument("-k", metavar="PATTERN", dest="patterns", action="append", default=[],
                        help="only the tests that have the text in their name; may be repeated")
    parser.add_argument("--program", metavar="PATH", help="test this program in place of the repository's")
    parser.add_argument("--jobs", type=int, default=os.cpu_count(), help="modules at the same time; one a CPU if omitted")
    parser.add_argument("--module", help=argparse.SUPPRESS)
    given = parser.parse_args()
    for part in given.parts:
        if part not in {**PARTS, **NAMED}:
            parser.error(f"there is no part {part}")
    return given


def main():
    given = arguments()
    if given.module:
        return run_module(given.module, given.patterns)
    for number in (signal.SIGTERM, signal.SIGHUP):
        signal.signal(number, lambda number, _: sys.exit(128 + number))  # and ends what runs
    if given.program:
        os.environ["PIM_PROGRAM"] = str(pathlib.Path(given.program).resolve())
    modules = [module for part in dict.fromkeys(given.parts or PARTS) for module in modules_of(part)]
    parts, left_out = {module.part for module in modules}, GIVEN if given.program else ()
    unbuilt = 0 if given.patterns else build(parts, left_out)
    counts = run_all(modules, given.patterns, given.jobs)
    passed, failed = (sum(it[at] for it in counts.values()) for at in (0, 1))
    failed += unbuilt
    for part, (its_passed, its_failed, its_skipped) in counts.items():
        print(f"{part}: {its_passed} passed, {its_failed} failed, {len(its_skipped)} skipped")
        for name, why in its_skipped:
            print(f"    skipped {name}: {why}")
    print(f"{passed} passed, {failed} failed")
    return 1 if failed or not any(map(any, counts.values())) else 0


if __name__ == "__main__":
    sys.exit(main())
