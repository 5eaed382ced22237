"""libpim as a C program meets it: crates/pim_c, and the files of c/.

The demo, the threads and the program without a C library end as they should; what is installed is found by programs
of one's own; libpim needs no other symbols than c/README.md names; and replays of traces print what the program prints.
"""
import os
import re
import shutil
import subprocess

from tests.c.archive import Archive, machine_code
from tests.c.cases import CCase
from tests.c.code import Calls
from tests.c.header import Layouts
from tests.c.machines import C, HEADER, HERE, OUT, README, run, said
from tests.c.replays import Replays
from tests.shared.checks import ROOT, SECONDS, made

# What `make install` puts below its prefix.
INSTALLED = """
include/pim.h include/pim_errno.h include/pim_heap.h include/pim_heap_given.h include/pim_names.h
lib/libpim.a lib/pim/libpim.so lib/libpim_malloc.a
lib/pkgconfig/pim.pc lib/pkgconfig/pim-malloc.pc lib/pkgconfig/pim-shared.pc
lib/cmake/pim/pim-config.cmake lib/cmake/pim/pim-config-version.cmake
share/man/man3/libpim.3 share/pim/heap/given.c share/pim/heap/malloc.c share/pim/heap/static.c
""".split()
INSTALLED.append("lib/libpim.so." + (ROOT / "VERSION").read_text().rpartition(".")[0])


def install(prefix, *variables):
    """Installs, and returns how the files below a prefix differ from the list, None where they don't."""
    status, out = run("make", "-s", "-C", C, "install", *variables)
    if status:
        return said(out)
    files = {os.path.relpath(os.path.join(at, file), prefix) for at, _, names in os.walk(prefix) for file in names}
    missing, more = sorted({*INSTALLED} - files), sorted(files - {*INSTALLED})
    return " ".join([*(f"no {file}" for file in missing), *(f"also {file}" for file in more)]) or None


def setUpModule():
    made("c", "all", "pthreads", "out/freestanding", "out/steps")


class Library(Archive, Calls, Layouts, Replays, CCase):
    test_the_suite_is_replayed = None  # tests/suite does

    def test_programs_end_as_they_should(self):
        self.expect("the demo", run(OUT / "demo"), (C / "demo.expected").read_bytes())
        for attempt in range(3):
            got = run(OUT / "threads")
            if got != (0, (C / "threads/expected").read_bytes()):
                break
        self.expect("threads, three times", got, (C / "threads/expected").read_bytes())
        self.expect("a program without a C library", run(OUT / "freestanding"))

    def test_what_is_installed(self):
        """`make install` installs the files of the list, and programs of one's own find them by pkg-config."""
        prefix, staged, other = (f"{self.folder}/{name}" for name in ("installed", "staged", "other"))
        wrong = install(prefix, f"PREFIX={prefix}")
        self.check("what is installed", wrong)
        wrong_staged = install(staged + other, f"PREFIX={other}", f"DESTDIR={staged}")
        self.check("what is staged by DESTDIR", wrong_staged)
        self.check("DESTDIR keeps the prefix free", "it is there" if os.path.exists(other) else None)
        if wrong or wrong_staged:
            return
        with open(f"{staged}{other}/lib/pkgconfig/pim.pc") as file:
            self.equal("the prefix of what is staged", (file.readline(),), (f"prefix={other}\n",))
        self.same_as_here(prefix)
        os.environ["PKG_CONFIG_PATH"] = f"{prefix}/lib/pkgconfig"
        version = re.search(r'^#define PIM_VERSION "(.*)"$', HEADER, re.M)[1]
        self.equal("the version of pim.h and of pkg-config", (self.pkg_config("--modversion", "pim"),), ([version],))
        self.own_program()
        self.own_memory()
        self.links_with_the_shared_library(prefix)
        self.is_used_by_a_project(prefix)
        self.manual(prefix)

    def same_as_here(self, prefix):
        """The installed headers and heaps are those of c/, and the rest has no name left that is to be filled in."""
        for path in INSTALLED:
            with open(f"{prefix}/{path}", "rb") as file:
                text = file.read()
            here = C / (path.replace("share/pim/", "") if "/heap/" in path else os.path.basename(path))
            if path.startswith("include/") or "/heap/" in path:
                self.check(f"installed as it is here: {path}", None if text == here.read_bytes() else "another text")
            elif not re.search(r"\.a$|\.so", path):
                self.check(f"filled in: {path}", "it has a name between @" if re.search(rb"@[A-Z]+@", text) else None)

    def pkg_config(self, *words):
        status, out = run("pkg-config", *words)
        self.check(f"pkg-config {' '.join(words)}", said(out) if status else None)
        return out.decode().split()

    def own_program(self):
        """The program of c/README.md, by each of its commands, and as C++."""
        source = f"{self.folder}/own.c"
        with open(source, "w") as file:
            file.write(re.search(r"```c\n(.*?)```", README, re.S)[1])
        shown = re.search(r"    \$ \./own\n    (.*\n)", README)[1].encode()
        commands = re.findall(r"^    \$ (cc own\.c (?:.*\\\n)*.*-o own)$", README, re.M)
        self.equal("the README's commands", (len(commands),), (2,))
        commands.append(commands[0].replace("cc own.c", "g++ -x c++ -std=c++17 own.c -x none"))
        for command in commands:
            status, out = run("sh", "-c", command.replace("own.c", "own.c -Wall -Wextra -Werror -pedantic", 1), cwd=self.folder)
            self.expect(f"the README's program by {command.split(' $(')[0]}", run(f"{self.folder}/own") if status == 0 else (status, out), shown)

    def own_memory(self):
        """A program with the installed files alone, whose memory is the static array or what it hands over."""
        heaps, flags = self.pkg_config("--variable=heapdir", "pim"), self.pkg_config("--cflags", "--libs", "pim")
        both = ("-include", "pim.h", "-DPIM_HEAP_BYTES=(PIM_MEMORY(3,1)+PIM_MEMORY(5,4))")
        for file, defined in (("static", both), ("given", ("-DGIVEN",))):
            made = f"{self.folder}/own_{file}"
            words = ["cc", "-std=c11", *defined, ROOT / "tests/c/two_managers.c", f"{''.join(heaps)}/{file}.c", *flags, "-o", made]
            status, out = run(*words)
            if status:
                self.check(f"the installed heap/{file}.c", said(out))
            else:
                self.passes(f"the installed heap/{file}.c", made)

    def manual(self, prefix):
        """The manual page names each function, is formatted without a warning, and its program runs."""
        page = f"{prefix}/share/man/man3/libpim.3"
        with open(page) as file:
            text = file.read()
        names = {name for header in C.glob("pim*.h") for name in re.findall(r"\b(pim_\w+)\([^()]*\)(?:;| \{)", header.read_text())}
        names = {name for name in names if not name.endswith("_to")}  # pim.h has these for itself, on 32 bits
        missing = [name for name in sorted(names) if not re.search(rf"\b{name}\b", text)]
        self.check("libpim(3) names each function", " ".join(missing) or (None if len(names) > 20 else "too few functions"))
        if not shutil.which("man"):
            self.skip("libpim(3) is formatted", "there is no man")
            return
        environment = {**os.environ, "LC_ALL": "C.UTF-8", "MANWIDTH": "80"}
        done = subprocess.run(["man", "--warnings", "-l", page], capture_output=True, env=environment, timeout=SECONDS)
        shown = done.stdout.decode(errors="replace")
        why = done.stderr.decode(errors="replace").strip() or (None if "LIBPIM(3)" in shown else "nothing is shown")
        self.check("libpim(3) is formatted without a warning", why)
        self.manual_program(text)

    def manual_program(self, text):
        source = f"{self.folder}/manual.c"
        with open(source, "w") as file:
            file.write(re.search(r"^\.EX\n(.*?)^\.EE", text, re.S | re.M)[1].replace("\\&\n", "\n"))
        made = HERE.compiled(self.folder, "manual", source, C / "heap/malloc.c")
        self.expect("the program of libpim(3)", run(made))

    def test_the_Rust_wrapper(self):
        if not shutil.which("cargo"):
            self.skipTest("there is no cargo")
        settings = {"cwd": C / "rust", "env": {**os.environ, "CARGO_TARGET_DIR": f"{self.folder}/rust"}}
        status, out = run("cargo", "test", "--offline", "--quiet", **settings)
        self.check("the Rust wrapper's tests", said(out) if status else None)
        (C / "rust/Cargo.lock").unlink(missing_ok=True)

    def test_instructions_are_of_x86_64_v2(self):
        """libpim uses instructions of x86-64-v2, as pim.h says, and none of a later level.

        An earlier CPU executes tzcnt as bsf, with the same result for what isn't 0; compilers count on that.
        """
        used = set(re.findall(r"^ +[0-9a-f]+:\t(\w+)", machine_code(HERE), re.M))
        second = {"pinsrb", "pinsrd", "pinsrq", "pextrb", "pextrd", "pshufb", "ptest", "popcnt", "pmaxud", "pminud"}
        self.check("libpim uses x86-64-v2", None if used & second else "none of its instructions")
        later = {name for name in used if re.match(r"v[a-z]|(andn|bextr|bls|bzhi|lzcnt|mulx|pdep|pext$|pext[lq]|rorx|s[ah][lr]x|movbe)", name)}
        self.check("libpim uses no later level", " ".join(sorted(later)))
