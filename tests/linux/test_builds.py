"""linux/builds.py and kernels --build, where no kernel is built.

A shell script stands for make: it configures what it is asked for, and its kernel is the file that
mended/mend changes.
"""
import os
import shutil
import sys

from tests.conform.cases import SET, changed, fault_of, script
from tests.linux.cases import LINUX, LinuxCase, first_on_path, guest_output, setUpModule, with_tools
from tests.linux.test_mended import API, RTMUTEX, TAKEN
from tests.shared.checks import answer, program

import builds
import compare
import guests

PLAIN = builds.Kind(None, False, False, False, None)
KERNELS = LINUX / "kernels"
# What stands for make, where the guest's programs aren't made: O= is its third argument.
MAKE = f"""case "$*" in *O=*) ;; *) exec {shutil.which("make")} "$@" ;; esac
printf '%s\\n' "$*" >> ASKED
objects=${{3#O=}}
case "$6" in
    allnoconfig) sed '/EPOLL/d; s/^\\(.*\\)=n$/# \\1 is not set/' "${{7#*=}}" > "$objects/.config"
                 echo CONFIG_EPOLL=EPOLL >> "$objects/.config" ;;
    bzImage) mkdir -p "$objects/arch/x86/boot" "$objects/include/config"
             printf '  CC      a.o\\n  HOSTCC  b\\n  CC      c.o\\n'
             cat "$2/kernel/locking/rtmutex.c" > "$objects/arch/x86/boot/bzImage"
             ends=$(sed -n 's/^CONFIG_LOCALVERSION="\\(.*\\)"/\\1/p' "$objects/.config")
             echo "9.1.2$ends" > "$objects/include/config/kernel.release" ;;
esac"""


def stand_in(folder, asked, epoll="y"):
    return script(folder, "make", MAKE.replace("ASKED", str(asked)).replace("=EPOLL", f"={epoll}"))


def source_in(folder):
    """Makes what the build takes for a source."""
    source = folder / "linux"
    (source / "kernel/locking").mkdir(parents=True)
    (source / "Kconfig").write_text("")
    (source / "kernel/fork.c").write_text("fork")
    (source / "kernel/locking/mutex.c").write_text("mutex")
    (source / "kernel/locking/rtmutex.c").write_text(RTMUTEX)
    (source / "kernel/locking/rtmutex_api.c").write_text(API)
    return source


def contents(folder):
    """Returns the files of a folder, with those behind links, by name."""
    return {str(path.relative_to(folder)): path.read_text() for path in folder.rglob("*.c")}


# ---- kernels --build, and --run


def guest_of_build(release):
    """Returns what a guest prints: the set, as it is stored."""
    texts = sorted(SET.glob("*.pim"))
    return guest_output(release, (), {path.stem: compare.Text(path.read_text()) for path in texts})


class Builds(LinuxCase):
    def test_a_tree_of_links_has_the_files_of_the_source(self):
        """A tree of links has the source's files, and the changed ones of its own."""
        source, tree = source_in(self.folder), self.folder / "tree"
        plain = contents(source)
        walk, other = (f"kernel/locking/{name}" for name in ("rtmutex.c", "rtmutex_api.c"))
        for ways in (None, "2", "123", None):
            builds.make_tree(source, tree, ways)
            links = [path for path in tree.rglob("*") if path.is_symlink()]
            names = {str(path.relative_to(tree)) for path in links}
            wanted = {"Kconfig", "kernel/fork.c", "kernel/locking/mutex.c"}
            self.same(f"the links of a tree, ways {ways}", names, wanted)
            got = contents(tree)
            is_mended = "rt_mutex_adjust_prio(lock, task);" in got[walk], "if (!waiter) {" in got[other]
            self.same(f"the changed files, ways {ways}", is_mended, bool(ways), ways == "123")
            if ways == "123":
                self.check("all changes are made", None if TAKEN in got[walk] else "no")
            self.same(f"the rest, ways {ways}", {**got, walk: RTMUTEX, other: API}, plain)
        self.same("the source isn't changed", contents(source), plain)
        what = "it isn't the folder of a Linux source: it has no Kconfig and kernel/locking"
        self.same("another folder", fault_of(builds.make_tree, self.folder, tree, "1"), what, 2)
        (source / "kernel/locking/rtmutex.c").write_text("none")
        got = fault_of(builds.make_tree, source, tree, "1")
        self.check("another source", None if "there is no function rt_mutex_adjust" in got[0] else str(got))

    def test_what_a_kind_of_kernel_is_configured_with(self):
        """What a kind of kernel is configured with, and what is said of a value that isn't taken."""
        plain = builds.configuration(PLAIN)
        rt = builds.configuration(PLAIN._replace(is_rt=True))
        debug = builds.configuration(PLAIN._replace(is_debug=True, ways="13"))
        traced = builds.configuration(PLAIN._replace(is_traced=True))
        names = ("CONFIG_PREEMPT", "CONFIG_PREEMPT_RT", "CONFIG_PROVE_LOCKING", "CONFIG_FTRACE",
                 "CONFIG_SMP", "CONFIG_LOCALVERSION")
        kinds = (plain, rt, debug, traced)
        self.same("the values of each kind", [[kind.get(name) for name in names] for kind in kinds],
                  [["y", None, None, None, "y", '""'], ["n", "y", None, None, "y", '"-rt"'],
                   ["y", None, "y", None, "y", '"-mended13-debug"'], ["y", None, None, "y", "y", '""']])
        more = self.folder / "more"
        more.write_text("# why\n\nCONFIG_SMP=n\nCONFIG_NEW_ONE=3\n")
        got = builds.configuration(PLAIN._replace(more=more))
        self.same("more lines come last", (got["CONFIG_SMP"], got["CONFIG_NEW_ONE"]), "n", "3")
        more.write_text("CONFIG_SMP is not set\n")
        got = fault_of(builds.configuration, PLAIN._replace(more=more))
        self.same("a line of another form", got,
                  f"{more}: 'CONFIG_SMP is not set' isn't a line of a configuration", 2)
        for epoll, wanted in (("y", None), ("n", ("this source doesn't take CONFIG_EPOLL=y", 2))):
            stand_in(self.folder, self.folder / "asked", epoll)
            with first_on_path(self.folder):
                got = fault_of(builds.configure, self.folder, self.folder / "objects", PLAIN)
            self.check(f"a source that sets a value to {epoll}", None if got == wanted else str(got))

    def test_a_make_that_fails(self):
        """What is said of a make that fails, and what make is given."""
        said = {"a\nb.c:3:1: error: c\nmake[1]: *** [b.o] Error 1\n": "b.c:3:1: error: c",
                "x: warning: y\nsh: 1: flex: not found\nz\n": "sh: 1: flex: not found",
                "one\n\ntwo\n": "two", "": "it failed"}
        self.same("what make says", [builds.trouble(it) for it in said], list(said.values()))
        lines = []
        script(self.folder, "make", 'test -z "$MAKEFLAGS" && echo "  CC  a.o"',
               "echo 'no: error: x' >&2; exit 2")
        with first_on_path(self.folder), changed(os, environ={**os.environ, "MAKEFLAGS": "-j9"}):
            got = fault_of(builds.make, self.folder, self.folder, ["bzImage"], lines.append)
        self.same("a make that fails", (got, lines), ("make bzImage: no: error: x", 2), ["  CC  a.o"])

    def test_without_a_tool_nothing_is_built(self):
        """Where a tool of the build is missing, nothing is built or booted."""
        with first_on_path(self.folder / "none"):
            tools = [f"{tool} ({name})" for tool, name in builds.TOOLS.items()]
            self.same("all tools of a build are missing", builds.missing(), tools)
        script(self.folder, "cc", "exit 1")
        with first_on_path(self.folder):
            got = builds.missing()
        self.check("a library is missing", None if "libelf-dev" in got else str(got))
        if shutil.which("cc"):
            wanted = {"libgone-dev": ("#include <gone.h>", "-lc"), "libc6-dev": ("", "-lc")}
            with changed(builds, LIBRARIES=wanted, TOOLS={}):
                self.same("a header is missing", builds.missing(), ["libgone-dev"])
        environment = {**os.environ, "PATH": str(self.folder)}
        command = [sys.executable, KERNELS, "--build", source_in(self.folder)]
        status, out, err = answer(command, env=environment)
        wanted = [name in err for name in (b"qemu-system-x86_64 (", b"flex (flex)", b"libelf-dev")]
        self.same("without the tools it is skipped", (status, out, wanted), 77, b"", [True] * 3)

    def test_from_the_command_line_to_the_table(self):
        """A build from the command line to the table; its kernel and its objects, if they are kept."""
        if not guests.links_static() or builds.missing():
            return self.skip("a build with a guest", f"it lacks {builds.missing() or 'a static libc'}")
        environment, source, asked = with_tools(self.folder), source_in(self.folder), self.folder / "asked"
        tools, keep, objects = self.folder / "tools", self.folder / "keep", self.folder / "built"
        stand_in(tools, asked)
        image = '$(echo "$*" | sed "s/.*-kernel \\([^ ]*\\).*/\\1/")'
        script(tools, guests.QEMU, f'cat {image} > {self.folder}/booted; cat {self.folder}/guest')
        (self.folder / "guest").write_text(guest_of_build("9.1.2-mended123-rt"))
        command = [KERNELS, "--random", "0", "--pim", program(), "--jobs", "3", "--build", source]
        more = ["--mended", "1,3,2", "--rt", "--keep", keep, "--objects", objects]
        status, out, err = answer([*command, *more], env=environment)
        is_said = [text in out + err for text in (b"9.1.2-mended123-rt", b"linux: 2 files compiled, ")]
        self.same("a build", (status, is_said), 1, [True, True])
        self.check("the mended kernel is booted", None if TAKEN in (self.folder / "booted").read_text() else "no")
        is_asked = "bzImage -j3" in asked.read_text() and f"O={objects}/objects " in asked.read_text()
        self.check("make is asked for so many jobs", None if is_asked else asked.read_text())
        names = sorted(path.name for path in keep.iterdir())
        self.same("what is kept", names, ["9.1.2-mended123-rt.out", "vmlinuz-9.1.2-mended123-rt"])
        self.same("the objects are kept", (objects / "objects/.config").exists(), True)
        status, out, err = answer(command, env=environment)
        self.same("a build that isn't kept", (status, (self.folder / "booted").read_text()), 1, RTMUTEX)
        for more, wanted in (([], False), (["--trace", "kernel_stop"], True)):
            answer([*command, *more, "--objects", objects], env=environment)
            got = "CONFIG_FTRACE=y" in (objects / "objects/.config").read_text()
            self.same(f"a build that can trace: {wanted}", got, wanted)
        stand_in(tools, asked, "n")
        status, other, err = answer([*command, self.folder / "image"], env=environment)
        lacks = f"kernels: {source}: this source doesn't take CONFIG_EPOLL=y\n".encode()
        self.same("a build that fails, and a kernel", (status, lacks in err, other == out), 2, True, True)
        left = [path.name for path in (self.folder / "tmp").iterdir()]
        return self.same("nothing of a build is left behind", left, [])

    def test_a_signal_ends_make(self):
        """A signal ends make."""
        if not guests.links_static() or builds.missing() or not shutil.which("setpriv"):
            return self.skip("a build is ended by a signal", "it lacks a tool")
        environment, source = with_tools(self.folder), source_in(self.folder)
        real = f'case "$*" in *O=*) ;; *) exec {shutil.which("make")} "$@" ;; esac'
        script(self.folder / "tools", "make", real, f"echo $$ > {self.folder}/begun", "exec sleep 1000")
        script(self.folder / "tools", guests.QEMU, "exit 1")
        return self.ends_by_signals("a build", environment, "--build", source)
