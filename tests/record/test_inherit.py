"""docs/FINDINGS.md: both forms of its mutexes compile, and inherit."""
import pathlib
import re
import subprocess

from tests.cases import Case
from tests.shared.checks import ROOT, answer
from tests.record.logs import setUpModule, without_end

PAGE = ROOT / "docs/FINDINGS.md"
RECORD = ROOT / "record"


def block(language):
    """Returns the only code of the page in this language."""
    found, = re.findall(rf"^```{language}\n(.*?)^```$", PAGE.read_text(), re.M | re.S)
    return found


def compiled(folder):
    """Compiles a program of the page's forms, and returns what is wrong with it, or None."""
    for language in ("c", "cpp"):
        pathlib.Path(folder, f"inherit_{language}.h").write_text(block(language))
    flags = ["-std=c++17", "-O2", "-Wall", "-Wextra", "-Werror", "-pthread", f"-I{folder}"]
    command = ["g++", *flags, ROOT / "tests/record/inherits.cpp", "-o", f"{folder}/inherits"]
    done = subprocess.run(command, capture_output=True, text=True)
    return done.stderr.strip()[:400] if done.returncode else None


def protocols(lines):
    """Returns for each event its protocols, of all mutexes together."""
    found = {}
    for event, protocol in re.findall(r" (init|granted|release) mutex=\S+ protocol=(\w+)", lines):
        found.setdefault(event, set()).add(protocol)
    return found


class Inherit(Case):
    def test_the_mutexes_of_FINDINGS_inherit(self):
        if answer(["g++", "--version"])[0] != 0:
            return self.skip("the mutexes of docs/FINDINGS.md", "g++ is missing")
        why = compiled(self.folder)
        self.check("the mutexes of docs/FINDINGS.md compile", why)
        if why:
            return None
        status, out, err = answer([RECORD / "pim-record", "-o", f"{self.folder}/run", f"{self.folder}/inherits"])
        self.equal("a program with them is recorded", (status, out, without_end(err.decode())), (0, b"", ""))
        status, out, _ = answer([RECORD / "pim-log", f"{self.folder}/run"])
        text = out.decode()
        wanted = {"init": {"inherit"}, "granted": {"inherit"}, "release": {"inherit"}}
        self.equal("they inherit", (status, protocols(text), text.count(" init ")), (0, wanted, 2))
