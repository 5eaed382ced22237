"""The replay of traces through libpim, which must print what the program prints of them."""
import subprocess
import sys

from tests.shared.checks import ROOT, SECONDS, difference, program

sys.path.insert(0, str(ROOT / "bench"))
from texts import TEXTS, mixed, wide  # noqa: E402

SIZES = [(2, 30), (3, 100), (5, 200), (17, 400), (64, 800), (256, 2_000)]


def locked_often():
    """Yields recorded texts in which a recursive mutex is locked as often as it may be, or more often."""
    declared = ["pim 2", "task 1 10", "task 2 50", "mutex 1 inherit recursive"]
    for locks in (1, 2, 255, 256):
        granted = min(locks, 255)
        steps = ["1 lock 1 = granted"] * granted + ["1 lock 1 = refused again"] * (locks - granted)
        steps += ["1 try 1 = refused again"] if granted == 255 else []
        steps += ["2 lock 1 = queued"] + ["1 unlock 1 = kept"] * (granted - 1)
        for last in ("1 unlock 1 = handed 2", "1 release = released 1", "1 unlock 1 = kept"):
            yield "\n".join([*declared, *steps, last, ""]).encode()


class Replayed:
    def replayed(self, name, texts):
        """Replays each text, and asks every getter after each step; compares with what the program prints."""
        count = 0
        for count, text in enumerate(texts, 1):
            wanted = subprocess.run([program()], input=text, capture_output=True, timeout=SECONDS)
            why = difference(self.MACHINE.replay(text), (wanted.returncode, b"", wanted.stdout))
            if why:
                return self.check(f"{name}", f"text {count}: {why}")
        self.check(f"{name}, {count} texts", None if count else "there is none")


class Replays(Replayed):
    def test_the_suite_is_replayed(self):
        """The traces of suite/ and examples/, which tests/suite replays on the machine that it runs on."""
        files = [file for folder in ("suite/traces", "examples") for file in sorted((ROOT / folder).glob("*.pim"))]
        self.replayed("the suite", (file.read_bytes() for file in files))

    def test_texts_are_replayed(self):
        for kind, make in TEXTS.items():
            self.replayed(kind, (make(*size).encode() for size in SIZES))
        self.replayed("mixed again", (mixed(2 + seed % 11, 150, seed).encode() for seed in range(200)))
        self.replayed("many locks of a recursive mutex", locked_often())
        self.replayed("each number of tasks", (mixed(tasks, 60 + tasks).encode() for tasks in range(2, 257, 3)))
        self.replayed("queues of many lengths", (wide(tasks, 2 * tasks).encode() for tasks in range(3, 257, 6)))


class FewReplays(Replayed):
    def test_texts_of_few_tasks_are_replayed(self):
        """Texts of few tasks, for a machine that takes long."""
        for kind, make in TEXTS.items():
            self.replayed(f"{kind}, few tasks", (make(*size).encode() for size in SIZES[:4]))
        self.replayed("mixed again, few tasks", (mixed(2 + seed % 11, 100, seed).encode() for seed in range(100)))
        self.replayed("many locks of a recursive mutex", locked_often())
        self.replayed("many tasks", [wide(256, 40).encode()])
