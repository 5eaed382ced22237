"""Texts that the web page's module judges, in Node."""
import json
import shutil

from tests.shared.checks import ROOT, answer

WEB = ROOT / "web"
NODE = ["node", "--experimental-wasm-memory64"]
# The exit status and the line of each kind of answer.
KINDS = {0: (0, ""), 1: (1, ""), 2: (2, "pim: line {}\n"), 3: (2, "pim: memory\n")}


def is_here():
    """Returns whether Node is installed."""
    return shutil.which("node") is not None


def judged(texts, folder):
    """Judges texts. Returns the status, a list for each text and three more, and the errors.

    The three say what is wrong with the memory, the heap, and what both functions write.
    """
    folder.mkdir(exist_ok=True)
    for number, text in enumerate(texts):
        (folder / str(number)).write_bytes(text)
    words = [ROOT / "tests/web/module.mjs", WEB / "page", WEB / "dist/pim.wasm", folder]
    status, out, err = answer([*NODE, *map(str, words)], seconds=3600)
    return status, [json.loads(line) for line in out.decode().splitlines()], err.decode()


def answer_of(line):
    """Returns status, line of a fault, the line that says why, the report's SHA-256, and how many states and bars are
    wrong."""
    kind, at, reason, digest, *wrong = line
    fault = KINDS[kind][1].format(at)
    return KINDS[kind][0], fault, f"pim: line {at}: {reason}\n" if reason else "", digest, wrong
