"""Each prefix and each change of one byte of three small texts.

The two traces, one of each version, go to `pim`, and the script goes to `pim check`. tests/program/reading.py
says which line is the first invalid one. It is written after the pages, not after the code. Each
prefix of a trace of suite/ goes to `pim`, and what some of them must give is worked by hand.
"""
import concurrent.futures
import os

from tests.cases import Case
from tests.program.reading import first_bad_line, lines_of
from tests.shared.checks import ROOT, answer, difference, program

TRACE = b"pim 1\ntask 1 10\nmutex 1 protect 20\n1 lock 1 = granted\n"
SECOND = (
    b"pim 2\nmutex 1 inherit recursive\n1 ceil 1 9 = refused not-protect\n"
    b"1 unlock 1 = kept\n1 lock 1 = refused again\n"
)
DONATION = (ROOT / "suite/traces/waiter_donates_its_priority_until_the_unlock.pim").read_bytes()
# What the program says of its prefixes, by their lengths: the last line of the report, or the fault.
BY_HAND = {0: "pim: line 1", 4: "pim: line 1", 5: "accepted 0", 6: "accepted 0", 7: "pim: line 2", 9: "pim: line 2",
           14: "accepted 0", 60: "accepted 1", 62: "pim: line 7", 69: "accepted 2", 79: "pim: line 8", 80: "accepted 3"}
SCRIPT = b"pim 1\ntask 1 9\ntask 2 10\nmutex 1 none\n1 try 1\n2 base 1 7\n"


def prefixes(text):
    return [text[:length] for length in range(len(text) + 1)]


def changes(text):
    """Returns each text that differs from this one in one byte."""
    return [
        text[:at] + bytes([byte]) + text[at + 1 :]
        for at in range(len(text))
        for byte in range(256)
        if byte != text[at]
    ]


def wanted(text, script):
    """Returns what the program must say: status, the last line of its output, and standard error."""
    bad = first_bad_line(text, script)
    if bad is not None:
        return 2, b"", b"pim: line %d\n" % bad
    steps = sum(line[:1].isdigit() for line in lines_of(text))
    tasks = sum(line.startswith(b"task") for line in lines_of(text))
    return 0, b"accepted %d\n" % (steps + tasks if script else steps), b""


def last_line(pim, text, script):
    """Returns status, the last line of standard output, and standard error."""
    status, out, err = answer([pim, *(["check"] if script else [])], text)
    return status, b"".join(out.splitlines(True)[-1:]), err


def accepted(text, script, got):
    """Returns what is wrong with the answer. A recorded reply may differ from the model's."""
    want = wanted(text, script)
    if not script and want[0] == 0 and got[0] == 1:
        want = (1, b"rejected 1\n", b"")
    return difference(got, want)


class Texts(Case):
    @classmethod
    def setUpClass(cls):
        cls.pim = program()

    def compare(self, texts, script=False):
        """Gives each text to the program. One difference is enough: if the program hangs, the others would take hours."""
        whys = []

        def compare_one(text):
            why = whys or accepted(text, script, last_line(self.pim, text, script))
            if why and not whys:
                whys.append(f"{text!r}: {why}")

        with concurrent.futures.ThreadPoolExecutor(os.cpu_count()) as pool:
            list(pool.map(compare_one, texts))
        self.check(f"{len(texts)} texts", whys[0] if whys else None)

    def test_prefixes_worked_by_hand(self):
        for length, said in BY_HAND.items():
            _, out, err = last_line(self.pim, DONATION[:length], False)
            self.equal(f"{length} bytes", ((out + err).decode(),), (f"{said}\n",))

    def test_prefixes_of_a_trace_in_which_a_waiter_donates(self):
        self.compare(prefixes(DONATION))

    def test_prefixes_of_a_trace(self):
        self.compare(prefixes(TRACE))

    def test_changes_of_a_byte_of_a_trace(self):
        self.compare(changes(TRACE))

    def test_prefixes_of_a_trace_of_version_2(self):
        self.compare(prefixes(SECOND))

    def test_changes_of_a_byte_of_a_trace_of_version_2(self):
        self.compare(changes(SECOND))

    def test_prefixes_of_a_script(self):
        self.compare(prefixes(SCRIPT), script=True)

    def test_changes_of_a_byte_of_a_script(self):
        self.compare(changes(SCRIPT), script=True)
