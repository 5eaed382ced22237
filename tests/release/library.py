"""libpim of a release: its archive and its packages, in a root of Debian with a C compiler."""
import re
import shutil
import subprocess

from tests.shared.checks import ROOT, difference
from tests.release.programs import VERSION, earlier, left
from tests.release.root import said

C = ROOT / "c"
README = (C / "README.md").read_text()
PAGE = (ROOT / "packaging/LIBPIM.md.in").read_text()
SHOWN = re.search(r"    \$ \./own\n    (.*\n)", README)[1]
LIBRARIES = "usr/lib/x86_64-linux-gnu"
# A CPU: the prefix of its tools, the folder of its libpim in c/, and what runs its programs here.
CPUS = {
    "x86-64": ("", "out", ""),
    "64-bit ARM": ("aarch64-linux-gnu-", "out/aarch64-unknown-linux-gnu", "qemu-aarch64-static"),
    "64-bit RISC-V": ("riscv64-linux-gnu-", None, "qemu-riscv64-static"),
}
CMAKE = """\
cmake_minimum_required(VERSION 3.10)
project(own C)
add_executable(own own.c)
"""
# Finds no version that it can't use, and has programs of the three targets.
TARGETS = """\
find_package(pim 99.0 QUIET)
if(pim_FOUND)
  message(FATAL_ERROR "99.0 was found")
endif()
find_package(pim {series} REQUIRED)
add_executable(memory own.c ${{pim_HEAPS}}/static.c)
target_compile_definitions(memory PRIVATE PIM_HEAP_BYTES=16384)
target_link_libraries(memory pim::pim)
add_executable(shared own.c ${{pim_HEAPS}}/malloc.c)
target_link_libraries(shared pim::shared)
"""


def here(case, files, folder):
    """The archive, by the compilers of this machine for each CPU."""
    archive = next(files.glob("libpim-*.tar.gz"))
    subprocess.run(["tar", "xf", archive, "-C", folder], check=True)
    tree = folder / archive.name[:-len(".tar.gz")]
    case.check("the Makefile of libpim has ten lines", lines_but_ten(tree / "Makefile"))
    for cpu, (tools, out, runs) in CPUS.items():
        lacking = [it for it in (f"{tools}gcc", runs) if it and not shutil.which(it)]
        if lacking:
            case.skip(f"libpim.S for {cpu}", f"there is no {lacking[0]}")
            continue
        if out:
            same_code(case, cpu, tree, C / out / "libpim.a", folder)
        command = f"{tools}gcc -static {examples()[0]} && {runs} ./own"
        case.check(f"libpim.S for {cpu}: a program", difference(shell(command, tree), (0, SHOWN)))
        command = f"{tools}gcc -static -O2 {DEMO} && {runs} ./demo"
        wanted = (0, (tree / "examples/demo.expected").read_text())
        case.check(f"libpim.S for {cpu}: the demo", difference(shell(command, tree), wanted))
    manual(case, tree / "libpim.3")


DEMO = "-I. examples/demo.c libpim.S heap/malloc.c -o demo"


def lines_but_ten(makefile):
    """Returns how many lines with rules a Makefile has, if these aren't ten."""
    lines = [it for it in makefile.read_text().splitlines() if it and not it.startswith("#")]
    return None if len(lines) == 10 else f"{len(lines)} lines"


def examples():
    """Returns what LIBPIM.md.in says behind cc, and behind make."""
    commands = re.findall(r"^    \$ cc (.*)$", PAGE, re.M)
    return commands if len(commands) == 2 else [str(commands)] * 2


def shell(command, folder):
    """Returns the status and the output of a command of the shell, in a folder."""
    how = {"stdout": subprocess.PIPE, "stderr": subprocess.STDOUT, "text": True}
    done = subprocess.run(["sh", "-c", command], cwd=folder, **how)
    return done.returncode, done.stdout


def same_code(case, cpu, tree, library, folder):
    """libpim.S has the code of rt's library: section by section, and linked.

    A linked library has no relocations of code, so that it also shows where each of them led.
    """
    tools = CPUS[cpu][0]
    made = folder / "libpim.o"
    status, out = shell(f"{tools}gcc -c libpim.S -o {made}", tree)
    if status:
        return case.check(f"libpim.S for {cpu} is assembled", said(out))
    got, wanted = (dumped(tools, it) for it in (made, library))
    wrong = sorted(it for it in got.keys() | wanted.keys() if got.get(it) != wanted.get(it))
    few = "too few functions" if sum(it.startswith(".text.pim_") for it in wanted) < 20 else None
    case.check(f"libpim.S for {cpu} has the code of rt's library", " ".join(wrong) or few)
    linked = []
    for name, part in (("assembled", made), ("built", f"-Wl,--whole-archive {library}")):
        to = folder / f"{name}.so"
        status, out = shell(f"{tools}gcc -shared -nostdlib {part} -o {to}", folder)
        if status:
            return case.check(f"libpim.S for {cpu} is linked", said(out))
        linked.append([dumped(tools, to).get(it) for it in (".text", ".rodata", ".data.rel.ro")])
    case.check(f"libpim.S for {cpu} is linked as rt's library is", difference(*linked))


def dumped(tools, file):
    """Returns the bytes of a file's sections that are in a program's memory, as objdump has them."""
    out = shell(f"{tools}objdump -hs {file}", "/")[1]
    loaded = re.findall(r"^ +\d+ (\S+) .*\n.*\bALLOC\b", out, re.M)
    parts = re.split(r"^Contents of section (\S+):\n", out, flags=re.M)[1:]
    return {name: text.strip() for name, text in zip(parts[::2], parts[1::2]) if name in loaded}


def manual(case, page):
    """libpim(3) is formatted without a warning."""
    for tool, command in (("man", f"man --warnings -l {page} >/dev/null"),
                          ("mandoc", f"mandoc -T lint -W warning {page}")):
        if not shutil.which(tool):
            case.skip(f"libpim(3) for {tool}", f"there is no {tool}")
            continue
        status, out = shell(f"LC_ALL=C.UTF-8 {command}", "/")
        case.check(f"{tool} has no warning for libpim(3)", said(out) or (status and f"status {status}"))


def archive(case, root, files, debian):
    """The archive in a root that has gcc, and then make and CMake."""
    before = root.files()
    root.take(next(files.glob("libpim-*.tar.gz")), "srv/own")
    root.run("cd /srv/own", "tar xf *.tar.gz")
    tree = root.run("cd /srv/own/libpim-*/", "pwd")[1].strip()
    what = f"libpim of the archive, {debian}"
    alone, linked = examples()
    got = root.run(f"cd {tree}", f"cc {alone}", "./own")
    case.check(f"{what}: by cc alone", difference(got, (0, SHOWN)))
    status, out = root.run(f"make -s -C {tree} install PREFIX=/srv/pim")
    case.check(f"{what}: make install", said(out) if status else None)
    uses(case, root, what, tree, linked, "/srv/pim/lib", "/srv/pim")
    root.run("rm -r /srv/own /srv/pim")
    case.check(f"{what}: it leaves nothing", left(root, before))


def uses(case, root, what, tree, linked, libraries, prefix):
    """Links a program by pkg-config, as LIBPIM.md.in says, and others by CMake."""
    paths = f"export PKG_CONFIG_PATH={libraries}/pkgconfig LD_LIBRARY_PATH={libraries}"
    got = root.run(f"cd {tree}", paths, f"cc {linked}", "./own")
    case.check(f"{what}: by pkg-config", difference(got, (0, SHOWN)))
    words = "pkg-config --cflags --libs pim-shared"
    command = f"cc examples/own.c $({words}) -lpim_malloc -o own"
    got = root.run(f"cd {tree}", paths, command, "./own")
    case.check(f"{what}: the shared library", difference(got, (0, SHOWN)))
    project = root.path / "root/project"
    project.mkdir()
    shutil.copy(root.path / tree[1:] / "examples/own.c", project)
    lines = re.search(r"```cmake\n(.*?)```", PAGE, re.S)[1]
    text = CMAKE + lines + TARGETS.format(series=VERSION.rpartition(".")[0])
    (project / "CMakeLists.txt").write_text(text)
    status, out = root.run(f"cmake -DCMAKE_PREFIX_PATH={prefix} -S /root/project -B /root/made",
                           "cmake --build /root/made")
    case.check(f"{what}: by CMake", said(out) if status else None)
    for program in () if status else ("own", "memory", "shared"):
        got = root.run(f"/root/made/{program}")
        case.check(f"{what}: by CMake, {program}", difference(got, (0, SHOWN)))
    root.run("rm -rf /root/project /root/made")


def packages(case, root, files, folder, debian):
    """The packages of libpim, over an earlier version of themselves."""
    before, what = root.files(), f"libpim of the packages, {debian}"
    mine = {"usr/share/pim/heap/own.c": "int own;\n", "root/own.pim": "pim 1\n"}
    for deb in sorted(files.glob("libpim*.deb")):
        root.take(deb, "root/later")
        root.take(earlier(deb, folder))
    status, out = root.run("dpkg -i /root/*.deb")
    case.check(f"{what}: an earlier version is installed", said(out) if status else None)
    linked = examples()[1].replace("examples/", "/usr/share/doc/libpim-dev/examples/")
    words = "pkg-config --cflags --libs pim-shared"
    status, out = root.run("cd /root", f"cc {linked.replace('-o own', '-o static')}",
                           f"cc {linked.split()[0]} $({words}) -lpim_malloc -o shared")
    case.check(f"{what}: programs are linked with it", said(out) if status else None)
    for file, text in mine.items():
        (root.path / file).write_text(text)
    status, out = root.run("dpkg -i /root/later/*.deb", "dpkg-query -W -f '${Version} ' 'libpim*'")
    is_right = status == 0 and out.endswith(f"\n{VERSION}-1 {VERSION}-1 ")
    case.check(f"{what}: they are upgraded", None if is_right else said(out))
    got = root.run("/root/static", "/root/shared")
    case.check(f"{what}: these programs still run", difference(got, (0, SHOWN * 2)))
    there = [file for file in mine if (root.path / file).exists()]
    kept = {file: (root.path / file).read_text() for file in there}
    case.check(f"{what}: an upgrade keeps what a user wrote", difference((kept,), (mine,)))
    tree = "/usr/share/doc/libpim-dev"
    root.run("mkdir /root/tree", f"cp -r {tree}/examples /root/tree")
    uses(case, root, what, "/root/tree", examples()[1], f"/{LIBRARIES}", "/usr")
    root.run(f"rm -r {' '.join(f'/{file}' for file in mine)}", "rm -r /root/*")
    status, out = root.run("dpkg -P libpim-dev libpim0")
    case.check(f"{what}: they are removed", said(out) if status else None)
    case.check(f"{what}: they leave nothing", left(root, before))
