"""What libpim.a has on each CPU: the symbols, and the stack that its functions take; and the installed libraries."""
import os
import re
import shutil

from tests.c.header import exports
from tests.c.machines import ARM, C, HEADER, HERE, README, run, said


def dynamic(machine, file, tag):
    status, out = run(f"{machine.tools}readelf", "-dW", file)
    return re.findall(rf"\({tag}\).*\[(.*)\]", out.decode())


def vector_registers(code):
    """Returns those that instructions name. An address has its function after it."""
    lines = re.findall(r"^ +[0-9a-f]+:\t(.*)$", code, re.M)
    return {name for line in lines for name in re.findall(r"[ ,{\[\t]([vqdshb]\d{1,2})\b(?! <)", line)}


def assembled(folder, lines):
    """Returns what the assembler for ARMv8.0-A says of these instructions, None where it takes them."""
    source = f"{folder}/again.s"
    with open(source, "w") as file:
        file.write("\n".join([*lines, ""]))
    status, out = run(f"{ARM.tools}as", "-march=armv8-a", source, "-o", f"{folder}/again.o")
    return said(out) if status else None


def machine_code(machine):
    return machine.tool("objdump", "-dr", "--no-show-raw-insn")


def taken_x86(line):
    """Returns how many bytes of stack an instruction takes."""
    if re.search(r"\tcall +\*|\tsub +%\w+,%rsp", line):
        return UNBOUNDED
    moved = re.search(r"\tsub +\$0x([0-9a-f]+),%rsp", line)
    return 8 if re.search(r"\tpush\b", line) else int(moved[1], 16) if moved else 0


def taken_arm(line):
    """Returns how many bytes of stack an instruction takes: a store that moves sp, or a subtraction from it."""
    if re.search(r"\tblr\t|\tsub\tsp, sp, [xw]", line):
        return UNBOUNDED
    if stored := re.search(r"\tst[rp]\t.*\[sp, #-(\d+)\]!", line):
        return int(stored[1])
    moved = re.search(r"\tsub\tsp, sp, #0x([0-9a-f]+)(, lsl #12)?", line)
    return int(moved[1], 16) << (12 if moved[2] else 0) if moved else 0


UNBOUNDED = 1 << 20
# What a call takes by itself, what an instruction takes, and the relocations of calls and jumps to functions.
STACKS = {
    HERE: (8, taken_x86, r"R_X86_64_PLT32"),
    ARM: (0, taken_arm, r"R_AARCH64_(?:CALL26|JUMP26)"),
}
# Functions by hand, and the stack that each takes with those that it calls.
BY_HAND = {
    HERE: """
        inner: push %rbx; sub $0x40,%rsp; add $0x40,%rsp; pop %rbx; ret       # 8 + 8 + 64
        outer: sub $0x108,%rsp; call inner; call *%rax; ret                   # without bound
        jumps: push %rbp; call last; pop %rbp; jmp inner                      # 8 + 8 + 80
        moves: sub %rax,%rsp; ret                                             # without bound
        last: ret                                                             # 8
        """,
    ARM: """
        inner: stp x29, x30, [sp, #-32]!; sub sp, sp, #0x40; stp x19, x20, [sp, #16]; ret // 32 + 64
        outer: str x30, [sp, #-16]!; bl inner; blr x8; ret                    // without bound
        jumps: sub sp, sp, #0x2, lsl #12; bl last; b inner                    // 8192 + 96
        moves: sub sp, sp, x1; ret                                            // without bound
        last: ret                                                             // 0
        """,
}
BY_HAND_TAKEN = {HERE: [80, UNBOUNDED, 96, UNBOUNDED, 8], ARM: [96, UNBOUNDED, 8288, UNBOUNDED, 0]}


def frames(machine, code):
    """Returns the stack that each function takes by itself, and which it calls."""
    call, taken, relocation = STACKS[machine]
    calling = re.compile(relocation + r"\s+(?:\.text\.(?:unlikely\.)?)?(\S.*?)(?:-0x[0-9a-f]+)?$")
    own, calls, name = {}, {}, None
    for line in code.splitlines():
        if header := re.match(r"[0-9a-f]+ <(.*)>:$", line):
            name = header[1]
            own[name], calls[name] = call, set()
        elif called := calling.search(line):
            calls[name].add(called[1])
        elif name:
            own[name] += taken(line)
    return own, calls


def most(own, calls, name, above=()):
    """Returns the stack that a function takes with those that it calls."""
    if name in above:
        return UNBOUNDED
    below = (most(own, calls, called, (*above, name)) for called in calls.get(name, ()))
    return min(UNBOUNDED, own.get(name, 0) + max(below, default=0))


class Archive:
    """Tests for each CPU."""

    def test_symbols(self):
        found = re.findall(r"^[0-9a-f ]{16} (\w) (\S+)$", self.MACHINE.tool("nm", "-g"), re.M)
        defined = {name for kind, name in found if kind != "U"}
        needed = {name for kind, name in found if kind == "U"}
        named = set(re.findall(r"`(\w+)`", re.search(r"^libpim calls (.*?)\.$", README, re.M | re.S)[1]))
        self.equal("libpim has the exports, and no other symbol", (defined,), (set(exports()),))
        self.equal("libpim needs the symbols that its README names", (needed,), (named,))
        sections = self.MACHINE.tool("size").split()
        self.assertEqual(sections[7:9], ["0", "0"], "libpim has data of its own")

    def links_with_the_shared_library(self, prefix):
        """The shared library has the symbols of the archive and the version's name, and a program uses it."""
        library = f"{prefix}/lib/pim/libpim.so"
        name = "libpim.so." + re.search(r'#define PIM_VERSION "(\d+\.\d+)\.', HEADER)[1]
        self.equal("libpim.so is a link", (os.path.islink(library) and os.readlink(library),), (f"../{name}",))
        self.equal("the SONAME of libpim.so", (dynamic(self.MACHINE, library, "SONAME"),), ([name],))
        self.check("libpim.so needs no library", " ".join(dynamic(self.MACHINE, library, "NEEDED")))
        status, out = run(f"{self.MACHINE.tools}nm", "-D", library)
        found = sorted(re.findall(r"(\w \S+)$", out.decode(), re.M))
        wanted = sorted(re.findall(r"^[0-9a-f ]{16} (\w \S+)$", self.MACHINE.tool("nm", "-g"), re.M))
        self.equal("the symbols of libpim.so", (found,), (wanted,))
        own, source = f"{self.folder}/own_shared", C / "demo.c"
        status, flags = run("pkg-config", "--cflags", "--libs", "pim-shared")
        status, out = run(self.MACHINE.compiler, "-std=c11", source, *flags.decode().split(), "-lpim_malloc", "-o", own)
        if status:
            return self.check("the demo with libpim.so", said(out))
        self.check("the demo needs libpim.so", None if name in dynamic(self.MACHINE, own, "NEEDED") else "it doesn't")
        path = f"LD_LIBRARY_PATH={prefix}/lib"
        runs = [*self.MACHINE.runs, "-E", path] if self.MACHINE.runs else ["env", path]
        self.expect("the demo with libpim.so", run(*runs, own), (C / "demo.expected").read_bytes())

    def is_used_by_a_project(self, prefix):
        """The README's program in a project of CMake, with the README's lines."""
        if not shutil.which("cmake"):
            return self.skip("a project of CMake", "cmake isn't installed")
        here = f"{self.folder}/project"
        os.mkdir(here)
        lines = re.search(r"```cmake\n(.*?)```", README, re.S)[1]
        with open(f"{here}/CMakeLists.txt", "w") as file:
            file.write(f"cmake_minimum_required(VERSION 3.10)\nproject(own C)\nadd_executable(own own.c)\n{lines}")
        with open(f"{here}/own.c", "w") as file:
            file.write(re.search(r"```c\n(.*?)```", README, re.S)[1])
        cross = [] if self.MACHINE is HERE else ["-DCMAKE_SYSTEM_NAME=Linux", "-DCMAKE_SYSTEM_PROCESSOR=aarch64"]
        words = [f"-DCMAKE_C_COMPILER={self.MACHINE.compiler}", f"-DCMAKE_PREFIX_PATH={prefix}", *cross]
        status, out = run("cmake", "-S", here, "-B", f"{here}/made", *words)
        if not status:
            status, out = run("cmake", "--build", f"{here}/made")
        shown = re.search(r"    \$ \./own\n    (.*\n)", README)[1].encode()
        self.expect("a project of CMake", (status, out) if status else self.MACHINE.run(f"{here}/made/own"), shown)

    def test_the_stack_of_functions_by_hand(self):
        """The stack of functions by hand is counted as it is by hand."""
        source, made = f"{self.folder}/by_hand.s", f"{self.folder}/by_hand.o"
        names = re.findall(r"^ *(\w+):", BY_HAND[self.MACHINE], re.M)
        with open(source, "w") as file:
            file.write(re.sub(r"^ *(\w+):", r".section .text.\1; .globl \1; \1:", BY_HAND[self.MACHINE], flags=re.M))
        status, out = run(f"{self.MACHINE.tools}as", source, "-o", made)
        if status:
            return self.check("functions by hand are assembled", said(out))
        status, out = run(f"{self.MACHINE.tools}objdump", "-dr", "--no-show-raw-insn", made)
        own, calls = frames(self.MACHINE, out.decode())
        got = [most(own, calls, name) for name in names]
        self.equal("the stack of functions by hand", (got,), (BY_HAND_TAKEN[self.MACHINE],))

    def test_the_stack_is_that_of_the_header(self):
        """The table of the header has each function, with at least the stack that its calls add up to."""
        own, calls = frames(self.MACHINE, machine_code(self.MACHINE))
        told = {name: int(size) for name, size in re.findall(r"^ \*   (pim_\w+) +(\d+)  ", HEADER, re.M)}
        self.equal("the header's table of costs", (sorted(told),), (sorted(exports()),))
        for name in sorted(told):
            taken = most(own, calls, name)
            self.check(f"the stack of {name}, at most {told[name]}", f"{taken} bytes" if taken > told[name] else None)
        limit = int(re.search(r"#define PIM_STACK (\d+)u", HEADER)[1])
        self.check("PIM_STACK", None if limit == max(told.values()) else f"{limit} and {max(told.values())}")
