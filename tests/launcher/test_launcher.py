"""When ./pim builds the program, what it says then, and what else it does.

What ./pim does is done by launcher/start for each program. Runs ./pim in a copy of the repository's
outline, in which files are old, with stubs for the toolchain: 'rt', which tells where the toolchain
is, and its prover and linker, which log their calls.
"""
import contextlib
import os
import pathlib
import re
import select
import shutil
import signal
import subprocess
import tempfile
import time

from tests.cases import Case
from tests.shared.checks import ROOT, SECONDS, difference, until

STUB_RT = """#!/bin/sh
case $1 in doc) echo "$KIT/START-HERE.md" ;; version) echo "$VERSION" ;; esac
"""
# Proves a crate if the libraries that it is given are there. Each crate in MEETS waits until the
# others have begun, and the crate HELD until the file calls.go is there; for minutes, if need be.
STUB_RATTLE = """#!/bin/sh
while [ $# -gt 0 ]; do
    case $1 in
        --crate-name) name=$2 ;;
        --extern) [ "${2%%=*}" = std ] || [ -d "${2#*=}" ] || { echo "no ${2#*=}"; exit 1; } ;;
        -o) made=$2 ;;
    esac
    shift
done
echo "$name" >> "$CALLS"
: > "$CALLS.$name"
for other in $MEETS; do
    case " $MEETS " in *" $name "*) ;; *) continue ;; esac
    for try in $(seq 1000); do [ -e "$CALLS.$other" ] && break; sleep 0.3; done
    [ -e "$CALLS.$other" ] || { echo "alone"; exit 1; }
done
for try in $(seq 3000); do
    [ "$name" = "$HELD" ] && [ ! -e "$CALLS.go" ] || break
    sleep 0.1
done
echo "fn $name::good: proved"
[ "$name" != "$BROKEN" ] || { echo "fn $name::bad: not proved"; exit 1; }
echo "logic=proved functions=1 of=$name"
case $made in *.rlib) mkdir "$made" ;; *) echo object > "$made" ;; esac
"""
STUB_LINK = """#!/bin/sh
while [ $# -gt 0 ]; do case $1 in -o) made=$2 ;; esac; shift; done
printf '#!/bin/sh\\necho "ran $*"; cat; exit 1\\n' > "$made"
chmod +x "$made"
"""
STUBS = {"bin/rt": STUB_RT, "kit/bin/rattle": STUB_RATTLE, "kit/bin/rattle-link": STUB_LINK}
LISTED = """# NAME: what it stands on
pim_base:
pim_queue: pim_base
pim_text: pim_base itoa # a library of the toolchain, and not pim_outer
pim_tool: pim_queue pim_text clap
pim: pim_tool clap
pim_judging: pim_text
pim_outer: pim_tool
pim_other: pim_text
"""
# A second program, of the crate pim_other.
OTHER = """#!/bin/sh
exec "$(dirname "$0")/launcher/start" pim-other pim_other "$@"
"""
# The crates of the program, and for each those that stand on it, and itself.
STANDS_ON = ["pim_base", "pim_queue", "pim_text", "pim_tool", "pim"]
ABOVE = {crate: [crate, "pim_tool", "pim"] for crate in ("pim_queue", "pim_text")}
ABOVE |= {"pim_base": STANDS_ON, "pim_tool": ["pim_tool", "pim"], "pim": ["pim"]}
OF_CRATE = ["specs/Lib.antt", "proofs/Lib.antt", "proofs/deep/Answers.antt"]
OF_CRATE += ["must-fail/an.edit", "data/an.pim", "out/stamp"]
LIBRARIES = [crate for crate in [*STANDS_ON, "pim_outer"] if crate != "pim"]
FILES = [f"crates/{crate}/{file}" for crate in [*LIBRARIES, "pim"] for file in OF_CRATE]
FILES += [f"crates/{crate}/src/lib.rt" for crate in LIBRARIES]
FILES += ["crates.txt", "crates/pim/src/main.rt", "crates/pim/stdin", "crates/pim/stdout"]
FILES += ["crates/pim_other/src/main.rt", "crates/pim_other/out/stamp"]
FILES += ["crates/pim_judging/src/main.rt", "crates/pim_judging/out/stamp"]
FILES += ["README.md", "bench/measure.py", "docs/SPEED.md", "tests/program"]


def proved_again(file):
    """Returns the crates that are proved after a change of the file, in alphabetical order."""
    parts = file.split("/")
    if file == "crates.txt":
        return sorted(STANDS_ON)
    is_source = len(parts) > 2 and parts[2] in ("src", "specs", "proofs")
    return sorted(ABOVE.get(parts[1], [])) if is_source else []


class Outline:
    """The files that ./pim looks at, old, and the crates that it had proved."""

    def __init__(self, folder):
        self.root, self.calls = pathlib.Path(folder, "repository"), pathlib.Path(folder, "calls")
        for file in FILES:
            self.path(file).parent.mkdir(parents=True, exist_ok=True)
            self.path(file).write_text(LISTED if file == "crates.txt" else "")
        self.path("VERSION").write_text("1.2.3\n")
        for library in ("itoa", "clap"):
            pathlib.Path(folder, f"kit/rlibs/{library}.rlib").mkdir(parents=True)
        shutil.copy(ROOT / "pim", self.path("pim"))
        shutil.copytree(ROOT / "launcher", self.path("launcher"))
        for name, stub in {**STUBS, "repository/pim-other": OTHER}.items():
            path = pathlib.Path(folder, name)
            path.parent.mkdir(exist_ok=True)
            path.write_text(stub)
            path.chmod(0o755)
        self.environment = {**os.environ, "PATH": f"{folder}/bin:{os.environ['PATH']}"}
        self.environment |= {"CALLS": str(self.calls), "KIT": f"{folder}/kit", "VERSION": "kit 1"}
        self.environment |= {"BROKEN": "", "HELD": "", "MEETS": "", "DESTDIR": ""}
        self.date(3600, *FILES)

    def path(self, file):
        return self.root / file

    def date(self, seconds_ago, *files):
        then = time.time() - seconds_ago
        for file in files:
            os.utime(self.path(file), (then, then))

    def date_built(self):
        """Dates what was built half an hour back: after the files, and before the next change."""
        built = [path for path in self.root.glob("crates/*/out/**/*") if path.name != "stamp"]
        self.date(1800, *built)

    def build(self):
        """Builds the program, as if half an hour back."""
        self.run("x")
        self.date_built()

    def start(self, *words, program="pim", **environment):
        """Starts ./pim, or another program, from another folder."""
        pipe = subprocess.PIPE
        how = {"stdin": pipe, "stdout": pipe, "stderr": pipe, "text": True, "cwd": "/"}
        environment = {**self.environment, **environment}
        return subprocess.Popen([self.path(program), *words], env=environment, **how)

    def start_and_hold(self, crate):
        """Starts ./pim, and returns it when the proof of the crate has begun."""
        self.forget()
        child = self.start("x", HELD=crate)
        until(lambda: crate in self.proved())
        return child

    def run(self, *words, text="", **environment):
        """Returns status and streams of ./pim, and the crates that were proved, in order."""
        self.forget()
        child = self.start(*words, **environment)
        out, err = child.communicate(text, timeout=SECONDS)
        return child.returncode, out, err, self.proved()

    def forget(self):
        for file in self.calls.parent.glob("calls*"):
            file.unlink()
        self.calls.write_text("")

    def proved(self):
        return sorted(self.calls.read_text().split())

    def said_on_a_terminal(self):
        """Returns what ./pim says on standard error where that is a terminal."""
        terminal, end = os.openpty()
        with os.fdopen(terminal, "rb", buffering=0) as said:
            none = subprocess.DEVNULL
            how = {"stdin": none, "stdout": none, "env": self.environment, "timeout": SECONDS}
            subprocess.run([self.path("pim"), "x"], stderr=end, **how)
            os.close(end)
            text = b""
            with contextlib.suppress(OSError):  # the end of a terminal that nobody has open any more
                while select.select([said], [], [], SECONDS)[0] and (part := said.read(65_536)):
                    text += part
            return text.decode()


class Launcher(Case):
    def setUp(self):
        self.outline = Outline(self.folder)

    def test_a_build_that_fails_says_why(self):
        status, out, err, proved = self.outline.run("judge", "x", text="input\n", BROKEN="pim_text")
        last = "pim: pim_text was not proved, so the program was not built\n"
        is_told = err.endswith("fn pim_text::bad: not proved\n" + last)
        got = (status, out, is_told, "good" in err, "pim_tool" in proved)
        name = "a build that fails says what is not proved, and ends with status 2"
        self.equal(name, got, (2, "", True, False, False))
        with tempfile.TemporaryDirectory() as tools:
            for folder in ("/bin", "/usr/bin"):
                for tool in set(os.listdir(folder)) - {"rt"} - set(os.listdir(tools)):
                    os.symlink(f"{folder}/{tool}", f"{tools}/{tool}")
            status, out, err, _ = self.outline.run(PATH=tools)
        got = (status, out, "building the program needs rt" in err)
        self.equal("a build without rt ends with status 2", got, (2, "", True))

    def test_a_signal_ends_what_a_build_started(self):
        """A signal ends the launcher and the proofs that it started."""
        child = self.outline.start_and_hold("pim_tool")
        found = subprocess.run(["pgrep", "-P", str(child.pid)], capture_output=True, text=True)
        began = time.monotonic()
        os.kill(int(found.stdout.split()[0]), signal.SIGTERM)
        child.communicate(timeout=SECONDS)
        got = (child.returncode, time.monotonic() - began < SECONDS / 2)  # it doesn't wait for the proof that is held
        self.equal("a build that is ended ends what it started", got, (2, True))

    def test_a_build_names_its_crates_and_proves_side_by_side(self):
        self.outline.date(0, "crates.txt")
        said = self.outline.said_on_a_terminal()
        named = [f"pim: proving {name} ({at} of 5)\r" for at, name in enumerate(STANDS_ON, 1)]
        self.equal("a build names its crates on a terminal", (sorted(said.split("\n")),), (sorted(["", *named]),))
        kept = [self.outline.path(f"crates/{name}/out/rlib/statements/verdict").read_text() for name in STANDS_ON]
        wanted = [f"logic=proved functions=1 of={name}\n" for name in STANDS_ON]
        self.equal("a build keeps what the prover counted of each crate", (kept,), (wanted,))
        self.outline.date(0, "crates.txt")
        got = self.outline.run("judge", "x", text="input\n", MEETS="pim_queue pim_text")
        wanted = (1, "ran judge x\ninput\n", sorted(STANDS_ON))
        name = "crates that don't stand on each other are proved side by side"
        self.equal(name, (*got[:2], got[3]), wanted)

    def test_a_change_during_a_build_is_seen(self):
        """A crate that changed while it was proved is proved again by the next run."""
        self.outline.build()
        self.outline.date(0, "crates/pim_text/src/lib.rt")
        child = self.outline.start_and_hold("pim_text")
        self.outline.date(0, "crates/pim_text/src/lib.rt")
        pathlib.Path(f"{self.outline.calls}.go").touch()
        child.communicate(timeout=SECONDS)
        got = (child.returncode, self.outline.run("x")[3])
        self.equal("a change during a build is seen", got, (1, sorted(ABOVE["pim_text"])))
        self.outline.date(3600, "crates/pim_text/src/lib.rt")

    def test_a_smaller_program_judges_while_the_program_is_not_built(self):
        """While the program isn't built, a smaller one judges; it isn't built where the program is."""
        stands_on = ["pim_base", "pim_judging", "pim_text"]
        got = self.outline.run("judge", text="input\n")
        named = [f"pim: proving {name} ({at} of 3)\n" in got[2]
                 for at, name in enumerate(["pim_base", "pim_text", "pim_judging"], 1)]
        got = (*got[:2], named, got[3])
        name = "judge is done by a smaller program while the program isn't built"
        self.equal(name, got, (1, "ran judge\ninput\n", [True] * 3, stands_on))
        self.outline.date_built()
        for words in ((), ("judge",)):
            got = self.outline.run(*words, text="input\n")
            wanted = (1, f"ran {' '.join(words)}\ninput\n", "", [])
            self.equal(f"the smaller program is kept for {[*words]}", got, wanted)
        for file, again in (("crates/pim_text/src/lib.rt", ["pim_judging", "pim_text"]),
                            ("crates/pim_judging/src/main.rt", ["pim_judging"])):
            self.outline.date(0, file)
            got = self.outline.run()[3]
            self.equal(f"the smaller program after a change of {file}", (got,), (again,))
            self.outline.date(3600, file)
            self.outline.date_built()
        for words in (("run",), ("check",), ("judge", "x"), ("Judge",)):
            got = self.outline.run(*words, BROKEN="pim_queue")
            wanted = (2, ["pim_queue"])
            self.equal(f"{' '.join(words)} is for the whole program", (got[0], got[3]), wanted)
        self.outline.run("run")
        self.outline.date_built()
        self.outline.path("crates/pim_judging/out/pim_judging").unlink()
        for words in ((), ("judge",)):
            got = self.outline.run(*words)
            wanted = (1, f"ran {' '.join(words)}\n", "", [])
            self.equal(f"the program, where it is built, does {[*words]}", got, wanted)
        self.outline.date(0, "crates.txt")

    def test_one_of_two_builds_waits(self):
        self.outline.date(0, "crates.txt")
        first = self.outline.start_and_hold("pim_tool")
        second = self.outline.start("b")
        waits = second.stderr.readline()
        pathlib.Path(f"{self.outline.calls}.go").touch()
        said = [child.communicate(timeout=SECONDS) for child in (first, second)]
        got = (*[out for out, _ in said], waits, said[1][1], self.outline.proved())
        wanted = ("ran x\n", "ran b\n", "pim: waiting for another build\n", "", sorted(STANDS_ON))
        self.equal("of two builds at the same time one waits", got, wanted)
        self.outline.date(3600, "crates.txt")

    def test_what_is_proved_again_after_a_change(self):
        self.outline.build()
        ran = (1, "ran a  b\n", "", [])
        name = "the next run builds nothing and says nothing"
        self.check(name, difference(self.outline.run("a ", "b"), ran))
        for file in FILES:
            self.outline.date(0, file)
            status, out, err, proved = self.outline.run("a ", "b")
            again = proved_again(file)
            got, wanted = (status, out, bool(err), proved), (1, ran[1], bool(again), again)
            self.equal(f"proves {', '.join(again) or 'nothing'} for {file}", got, wanted)
            self.outline.date(3600, file)
            self.outline.date_built()
        self.outline.path("crates/pim/out/pim").unlink()
        proved = self.outline.run("a ", "b")[3]
        self.equal("builds the program again where only that is gone", (proved,), (["pim"],))
        self.outline.date(0, "crates/pim/src/main.rt", "crates/pim_queue/out/rlib/statements/proved")
        proved = self.outline.run("x")[3]
        name = "proves what stands on a crate that was proved later"
        self.equal(name, (proved,), (["pim", "pim_tool"],))
        self.outline.date(0, "crates/pim/src/main.rt")
        proved = self.outline.run("x", VERSION="kit 2")[3]
        name = "proves all for another version of the toolchain"
        self.equal(name, (proved,), (sorted(STANDS_ON),))

    def test_help_and_version_are_printed_and_nothing_is_built(self):
        """Help and the version are printed as they are in the files, and nothing is built."""
        cases = {words: "pim 1.2.3\n" for words in ("--version", "-V")}
        for name in ("judge", "run", "check", "pim"):
            forms = (f"{name} --help", f"{name} -h", f"help {name}")
            forms = ("--help", "-h", "help") if name == "pim" else forms
            cases |= {words: (ROOT / "launcher/help" / name).read_text() for words in forms}
        for words, text in cases.items():
            got = self.outline.run(*words.split(), BROKEN="pim_base")
            self.equal(f"{words} before anything is built", got, (0, text, "", []))
        for words in (["judge -h"], ["--help", "x"], ["-h", "judge"], ["help", "help"]):
            got = self.outline.run(*words, BROKEN="pim_base")
            self.equal(f"{words} is for the program", (got[0], got[3]), (2, ["pim_base"]))
        full = ["sh", "-c", f"{self.outline.path('pim')} --help > /dev/full 2> /dev/null"]
        self.equal("help on a full disk", (subprocess.run(full).returncode,), (2,))

    def test_another_program_is_built_and_installed_by_its_name(self):
        """Another program is built of its own crates, and answers, says and installs by its own name."""
        stands_on = ["pim_base", "pim_other", "pim_text"]
        self.outline.date(0, "crates.txt")
        status, out, err, proved = self.outline.run("a ", "b", program="pim-other")
        named = [line.startswith("pim-other: proving pim_") for line in err.splitlines()]
        got, wanted = (status, out, named, proved), (1, "ran a  b\n", [True] * 3, stands_on)
        self.equal("another program is built of its own crates", got, wanted)
        self.outline.date(3600, "crates.txt")
        self.outline.date_built()
        for file, again in (("crates/pim_other/src/main.rt", ["pim_other"]),
                            ("crates/pim_text/src/lib.rt", ["pim_other", "pim_text"]),
                            ("crates/pim_queue/src/lib.rt", []), ("crates/pim/src/main.rt", [])):
            self.outline.date(0, file)
            proved = self.outline.run(program="pim-other")[3]
            self.equal(f"another program after a change of {file}", (proved,), (again,))
            self.outline.date(3600, file)
            self.outline.date_built()
        self.outline.path("launcher/help/pim-other").write_text("Does what another does.\n")
        self.outline.path("launcher/pim-other.1.in").write_text("version @VERSION@\n")
        for words, text in {"--help": "Does what another does.\n", "-V": "pim-other 1.2.3\n"}.items():
            got = self.outline.run(words, program="pim-other", BROKEN="pim_base")
            self.equal(f"{words} of another program", got, (0, text, "", []))
        for words in (["help"], ["run", "-h"]):
            got = self.outline.run(*words, program="pim-other")[:2]
            name = f"{' '.join(words)} is for another program"
            self.equal(name, got, (1, f"ran {' '.join(words)}\n"))
        with tempfile.TemporaryDirectory() as folder:
            status = self.outline.run("install", folder, program="pim-other")[0]
            page = pathlib.Path(folder, "share/man/man1/pim-other.1").read_text()
            how = {"input": "", "capture_output": True, "text": True}
            ran = subprocess.run([f"{folder}/bin/pim-other", "x"], **how)
            got, wanted = (status, page, ran.stdout), (0, "version 1.2.3\n", "ran x\n")
            self.equal("another program is installed by its name", got, wanted)

    def test_the_launcher_and_libpim_have_the_version(self):
        """The launcher and libpim have the version that the file VERSION has."""
        wanted = f"pim {(ROOT / 'VERSION').read_text()}"
        pim = subprocess.run([ROOT / "pim", "--version"], capture_output=True, text=True).stdout
        make = ["make", "-s", "-C", str(ROOT / "c"), "--eval=version: ; @echo pim $(VERSION)"]
        made = subprocess.run([*make, "version"], capture_output=True, text=True).stdout
        is_version = re.fullmatch(r"pim \d+\.\d+\.\d+\n", wanted) is not None
        got = (is_version, pim, made)
        self.equal("the launcher and libpim have the version of VERSION", got, (True, wanted, wanted))

    def test_installs_the_program_and_its_page(self):
        """What is installed is the program and its manual page, below PREFIX or DESTDIR/PREFIX."""
        cases = (([], "a", "a/usr/local"), (["{}/b"], "", "b"), (["/c"], "d", "d/c"))
        for prefix, stage, below in cases:
            with tempfile.TemporaryDirectory() as folder:
                words = [word.format(folder) for word in prefix]
                stage = f"{folder}/{stage}" if stage else ""
                status = self.outline.run("install", *words, DESTDIR=stage)[0]
                files = [path for path in pathlib.Path(folder).rglob("*") if path.is_file()]
                files = sorted(str(path.relative_to(folder)) for path in files)
                wanted = [f"{below}/bin/pim", f"{below}/share/man/man1/pim.1"]
                self.equal(f"installs below {below}", (status, files), (0, wanted))
                how = {"input": "y", "capture_output": True, "text": True, "cwd": "/", "env": {}}
                ran = subprocess.run([f"{folder}/{wanted[0]}", "x"], **how)
                name = f"the program below {below} runs from elsewhere"
                self.equal(name, (ran.stdout,), ("ran x\ny",))
                page = pathlib.Path(folder, wanted[1]).read_text()
                got = ("pim 1.2.3" in page, "@" in page)
                self.equal(f"the page below {below} has the version", got, (True, False))
        status, _, err, _ = self.outline.run("install", "/dev/null/x")
        self.equal("installs nothing where it can't", (status, bool(err)), (2, True))

    def test_manual_pages_have_each_option_and_no_warning(self):
        """The manual pages are laid out without a warning, by the programs for it that are installed.

        Those of programs that aren't built here have each option of the program's --help.
        """
        lint = {"mandoc": ["-T", "lint", "-W", "warning"], "groff": ["-man", "-Tutf8", "-ww", "-z"]}
        for file in sorted(ROOT.glob("*/pim*.1.in")):
            program, text = file.with_suffix("").with_suffix(""), file.read_text().replace("\\-", "-")
            if program.exists():
                told = subprocess.run([program, "--help"], capture_output=True, text=True).stdout
                own = re.sub(r"(?m)^ +[$#] .*", "", told)  # without its examples
                options = set(re.findall(r"(?<![\w-])--[a-z-]+", own))
                lacks = sorted(it for it in options if not re.search(rf"{it}(?![a-z-])", text))
                self.check(f"{file.stem} has each option", "no help" if not options else ", ".join(lacks))
            for tool, words in lint.items():
                if shutil.which(tool):
                    done = subprocess.run([tool, *words, file], capture_output=True, text=True)
                    self.check(f"{tool} lays out {file.stem}", done.stdout + done.stderr)

    def test_each_program_is_started_by_its_name(self):
        started = re.compile(r'^exec "\$here/launcher/start" (\S+) (\S+) "\$@"$', re.M)
        scripts = [path for path in ROOT.glob("pim*") if path.is_file() and not path.is_symlink()]
        for path in scripts:
            got = [program for program, _ in started.findall(path.read_text())]
            self.equal(f"./{path.name} starts {path.name}", (got,), ([path.name],))
