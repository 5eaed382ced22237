"""Builds a kernel from a source of Linux, small enough for a guest without disk and network."""
import os
import pathlib
import re
import shutil
import subprocess
import sys
from collections import namedtuple

from compare import Fault

HERE = pathlib.Path(__file__).resolve().parent

# What a build needs besides what guests.py names: each tool, and its package in Debian.
TOOLS = {"ld": "binutils", "flex": "flex", "bison": "bison", "bc": "bc"}
# A C program that needs a package's header and library, by the package.
LIBRARIES = {"libelf-dev": ("#include <gelf.h>", "-lelf")}
# What a tree has of its own, in each of its folders. The rest are links to the source.
FOLDER, CHANGED = "kernel/locking", ("rtmutex.c", "rtmutex_api.c")
OWN = {"": ("kernel",), "kernel": ("locking",), FOLDER: CHANGED}
# Which kernel is wanted: the ways of mended/mend or None, whether it is PREEMPT_RT, whether it
# checks itself, whether it can trace, and a file of more lines for its configuration or None.
Kind = namedtuple("Kind", "ways is_rt is_debug is_traced more")


# ---- what is needed

def missing():
    """Returns what this machine lacks, each with the package that has it."""
    lacks = [f"{tool} ({package})" for tool, package in TOOLS.items() if not shutil.which(tool)]
    return lacks + [package for package in LIBRARIES if shutil.which("cc") and not links(package)]


def links(package):
    """Whether a program can be made with the package's header and library."""
    header, library = LIBRARIES[package]
    command = ["cc", "-x", "c", "-", library, "-o", "/dev/null"]
    program = f"{header}\nint main(void) {{ return 0; }}\n"
    return subprocess.run(command, input=program.encode(), capture_output=True).returncode == 0


# ---- the source

def mended(file, ways):
    """Returns a file of the source, with the changes for these ways."""
    command = [sys.executable, HERE / "mended/mend", "--ways", ",".join(ways), file]
    done = subprocess.run(command, capture_output=True)
    if done.returncode:
        raise Fault(done.stderr.decode(errors="replace").strip())
    return done.stdout


def make_tree(source, tree, ways):
    """Makes a tree of links to the source, in which the changed files are its own."""
    files = [source / FOLDER / name for name in CHANGED]
    if not (source / "Kconfig").is_file() or not all(file.is_file() for file in files):
        raise Fault("it isn't the folder of a Linux source: it has no Kconfig and kernel/locking")
    contents = [mended(file, ways) if ways else file.read_bytes() for file in files]
    shutil.rmtree(tree, ignore_errors=True)
    for folder, own in OWN.items():
        (tree / folder).mkdir(parents=True)
        for path in (source.resolve() / folder).iterdir():
            if path.name not in own:
                (tree / folder / path.name).symlink_to(path)
    for name, text in zip(CHANGED, contents):
        (tree / FOLDER / name).write_bytes(text)


# ---- the configuration

def suffix_of(kind):
    """Returns what the kernel's release ends with, which says what kind it is."""
    parts = [f"mended{kind.ways}" if kind.ways else "", "rt" if kind.is_rt else "",
             "debug" if kind.is_debug else ""]
    return "".join(f"-{part}" for part in parts if part)


def configuration(kind):
    """Returns the values that are asked for, by name. What isn't named is off."""
    files = [HERE / "config/small.config"]
    files += [HERE / "config/rt.config"] if kind.is_rt else []
    files += [HERE / "config/debug.config"] if kind.is_debug else []
    files += [HERE / "config/trace.config"] if kind.is_traced else []
    files += [kind.more] if kind.more else []
    values = {}
    for file in files:
        for line in file.read_text().splitlines():
            found = re.fullmatch(r"(CONFIG_\w+)=(.+)", line)
            if found:
                values[found[1]] = found[2]
            elif line and not line.startswith("#"):
                raise Fault(f"{file}: '{line}' isn't a line of a configuration")
    return values | {"CONFIG_LOCALVERSION": f'"{suffix_of(kind)}"'}


def configure(tree, objects, kind):
    """Configures the build. A value that this source doesn't take is a fault."""
    objects.mkdir(parents=True, exist_ok=True)
    values = configuration(kind)
    wanted = [f"{name}={value}" for name, value in values.items()]
    (objects / "wanted").write_text("".join(f"{line}\n" for line in wanted))
    make(tree, objects, ["allnoconfig", f"KCONFIG_ALLCONFIG={objects / 'wanted'}"])
    got = (objects / ".config").read_text().splitlines()
    lacks = [line for line in wanted if line not in got and not line.endswith("=n")]
    if lacks:
        raise Fault(f"this source doesn't take {', '.join(lacks)}")


# ---- the build

def command_of(tree, objects, words):
    """Returns make's command. If this script is killed, make ends, and what it has started."""
    bound = ["setpriv", "--pdeathsig", "TERM"] if shutil.which("setpriv") else []
    return [*bound, "make", "-C", tree, f"O={objects}", "ARCH=x86_64", "LOCALVERSION=", *words]


def make(tree, objects, words, follow=lambda line: None):
    """Calls make, and `follow` with each line that it prints."""
    of_make = {"MAKEFLAGS", "MFLAGS", "MAKELEVEL", "KBUILD_OUTPUT", "KCONFIG_CONFIG"}
    environment = {name: value for name, value in os.environ.items() if name not in of_make}
    said = objects / "said"
    with open(said, "wb") as errors, subprocess.Popen(
            command_of(tree, objects, words), stdin=subprocess.DEVNULL, stdout=subprocess.PIPE,
            stderr=errors, text=True, errors="replace", env=environment) as child:
        try:
            for line in child.stdout:
                follow(line.rstrip("\n"))
            status = child.wait()
        finally:
            child.terminate()
    if status:
        raise Fault(f"make {words[0]}: {trouble(said.read_text(errors='replace'))}")


def trouble(said):
    """Returns the first line that says what is wrong, of what make said."""
    lines = [line.strip() for line in said.splitlines() if line.strip()]
    pattern = r"\*\*\*|\berror\b|not found|No such file|No space"
    return next((line for line in lines if re.search(pattern, line)), (lines or ["it failed"])[-1])


def kernel_of(source, folder, kind, jobs, follow):
    """Builds a kernel in a folder, which may have the objects of another. Returns its file."""
    tree, objects = folder / "source", folder / "objects"
    make_tree(source, tree, kind.ways)
    configure(tree, objects, kind)
    make(tree, objects, ["bzImage", f"-j{jobs}"], follow)
    image = objects / "arch/x86/boot/bzImage"
    release = (objects / "include/config/kernel.release").read_text().strip()
    shutil.copy(image, folder / f"vmlinuz-{release}")
    return folder / f"vmlinuz-{release}"
