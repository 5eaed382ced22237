"""The folder kulgyozi-VERSION-x86_64-linux: programs and pages, with the repository's layout."""
import re

import pages
import version
from files import ROOT, Fault, copy, filled, highest, kit, run, tracked, write

# The programs of Rattle, and their crates.
PROGRAMS = {"pim": "pim", "pim-findings": "pim_findings"}
# Those of other languages. Links at the top lead to those of the folder report.
SCRIPTS = ("record/pim-record", "record/pim-log", "report/pim-report", "report/pim-picture",
           "conform/pim-conform")
LINKS = ("pim-report", "pim-picture")
PAGE, CRATES = ROOT / "web/dist/index.html", ROOT / "launcher/crates"
# Commands that a C compiler makes.
COMMANDS = ("record/out/pim-facts",)
# What is copied as it is.
COPIED = """
README.md CHANGELOG.md SECURITY.md VERSION docs examples web/inversion.svg
record/pim-record record/pim-log record/show record/from-lttng record/kernel_text.py record/places_text.py
record/valgrind.supp record/FORMAT.md record/INSIDE.md
report
conform/pim-conform conform/compare.py conform/fuzz.py conform/walk.py
conform/set conform/performed
""".split()
# What a C compiler makes: the folder, the target and the files.
COMPILED = (
    ("record", "recorder", ("libpim_record.so", "pim-launch", "pim-facts")),
    ("conform", "all", ("perform",)),
)


def build(to, work):
    """Builds all of the folder but its page PROOFS.md.

    `rt ci` leaves a program without its object file where it had kept the proof: both are made anew.
    """
    for program, crate in PROGRAMS.items():
        if not built(crate).with_suffix(".o").exists():
            built(crate).unlink(missing_ok=True)
        run(ROOT / program, "install", work / "installed")
        copy(work / f"installed/share/man/man1/{program}.1", to / f"man/man1/{program}.1")
        link(crate, work, to / program)
    for script in (*SCRIPTS, *(command.replace("/out/", "/") for command in COMMANDS)):
        page = (ROOT / f"{script}.1.in").read_text()
        write(to / f"man/man1/{script.rpartition('/')[2]}.1", filled(page, VERSION=version.current()))
    for folder, target, files in COMPILED:
        run("make", "-s", "-C", ROOT / folder, target, f"OUT={work / folder}")
        for file in files:
            copy(work / folder / file, to / folder / "out" / file)
    for path in binaries(to):
        run("strip", "--strip-unneeded", path)
        path.chmod(0o644 if path.suffix == ".so" else 0o755)
    if not is_current(PAGE):
        run(ROOT / "web/build")
    copy(PAGE, to / "web/dist/index.html")
    copy_tracked(to)
    for name in LINKS:
        (to / name).symlink_to(f"report/{name}")


def copy_tracked(to):
    """Copies what is copied as it is, and leaves out links of pages to files that aren't there."""
    for file in tracked(*COPIED):
        if not file.endswith(".in"):
            copy(ROOT / file, to / file)
    pages.unlink_missing(to)


def is_current(page):
    """Returns whether the page is newer than all that it is made of."""
    crates = {crate for top in ("pim_c", "pim_web") for crate in run(CRATES, top).split()}
    parts = [f"crates/{crate}/{part}" for crate in crates for part in ("src", "specs", "proofs")]
    parts = [part for part in parts if (ROOT / part).exists()]
    files = tracked("crates.txt", "c/pim.h", "examples", "web", *parts)
    newest = max((ROOT / file).stat().st_mtime for file in files)
    return page.exists() and page.stat().st_mtime > newest


def built(crate):
    """Returns where the toolchain leaves the program of a crate."""
    return ROOT / "crates" / crate / "out" / crate


def link(crate, work, to):
    """Links a program that was proved and built with a C library of its own.

    The toolchain links to the C library of the machine, and a program of an earlier Debian then
    finds functions missing. The object file must be that of the program which the tests run.
    """
    made = built(crate)
    objects = [made.with_suffix(".o"), kit() / "c/libos_c.a", kit() / "c/liblibc_c.a"]
    words = ["--target", "x86_64-unknown-linux-gnu", "--toolchain", kit() / "toolchain"]
    run(kit() / "bin/rattle-link", *words, "-o", work / crate, *objects)
    if (work / crate).read_bytes() != made.read_bytes():
        raise Fault(f"{objects[0]} isn't what {made} was linked from: remove both")
    run("cc", "-static-pie", *objects, "-o", to)


def is_binary(path):
    if path.is_symlink() or not path.is_file():
        return False
    with path.open("rb") as file:
        return file.read(4) == b"\x7fELF"


def binaries(folder):
    """Returns the files of a folder that are machine code."""
    return [path for path in sorted(folder.rglob("*")) if is_binary(path)]


def glibc_of(path):
    """Returns the version of glibc that a file needs at least, or None if it needs none."""
    if not is_binary(path) or "(NEEDED)" not in run("readelf", "-dW", path):
        return None
    return highest(re.findall(r"GLIBC_(\d+(?:\.\d+)+)", run("objdump", "-T", path)))
