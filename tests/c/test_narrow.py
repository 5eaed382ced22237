"""c/narrow, libpim for CPUs of 32 bits: built for four of them, and run on a Cortex-M3 in qemu.

It is skipped without Debian's gcc-arm-none-eabi, libnewlib-arm-none-eabi and qemu-system-arm.
"""
import re
import shutil
import subprocess
import unittest

from tests.c.cases import CCase
from tests.c.code import Calls
from tests.c.header import Layouts, exports
from tests.c.machines import C, CORTEX_M3, HEADER, run, said
from tests.c.replays import FewReplays, Replays

BUILT = {}  # what the build prints
NARROW, PAGE = C / "narrow", (C.parent / "docs/PORTING.md").read_text()
CPUS = ("cortex-m0", "cortex-m3", "cortex-r5", "rv32imac")
HEAP = {"rattle_alloc", "rattle_dealloc", "rattle_realloc"}
BARE = ("-Os", "-ffreestanding", "-fno-tree-loop-distribute-patterns", "-nostdlib")
# Modules of a line, with what `narrow` makes of each. None: it stops.
LINES = {
    "  store ptr %a, ptr %b, align 8": ["  %narrow0 = ptrtoint ptr %a to i64", "  store i64 %narrow0, ptr %b, align 8"],
    "  %c = load ptr, ptr %b, align 8, !noundef !1":
        ["  %narrow0 = load i64, ptr %b, align 8", "  %c = inttoptr i64 %narrow0 to ptr"],
    "  %d = alloca ptr, align 8": ["  %d = alloca i64, align 8"],
    "define noundef i16 @pim_owner(ptr %a) {": ["define noundef zeroext i16 @pim_owner(ptr %a) {"],
    "define i64 @pim_lock(ptr noundef %a0, i16 noundef %a1, i16 noundef %a2) #0 {":
        ["define i64 @pim_lock(ptr noundef %a0, i16 noundef %a1, i16 noundef %a2) #0 {"],
    "  %e = call { i64, i64 } @rattle_alloc(i64 8, i64 8)": ["  %e = call { i64, i64 } @narrow_alloc(i64 8, i64 8)"],
    "  store ptr inttoptr (i64 8 to ptr), ptr %b, align 8": None,
    "  store volatile ptr %a, ptr %b, align 8": None,
    "  %f = load <2 x ptr>, ptr %b, align 16": None,
    "  %g = alloca [2 x ptr], align 8": None,
    "  %h = insertvalue { i64, ptr } poison, ptr %a, 1": None,
    "  %i = load { i64, ptr }, ptr %b, align 8": None,
    "  %j = cmpxchg ptr %b, ptr %c, ptr %d seq_cst seq_cst": None,
    "  %k = atomicrmw xchg ptr %b, ptr %a seq_cst": None,
    "  %l = ptrtoaddr ptr %a to i64": ["  %l = ptrtoint ptr %a to i64"],
    "  %l = ptrtoaddr ptr %a to i32": None,
    "  %m = call i64 @llvm.x86.sse42.crc32.64.64(i64 0, i64 1)": None,
    "  call void asm sideeffect \"nop\", \"\"()": None,
    "@n = private constant ptr null, align 8": None,
}


def linked(made, script):
    sources = (NARROW / "small.c", C / "heap/given.c", CORTEX_M3.out / "libpim.a")
    return run(CORTEX_M3.compiler, "-mcpu=cortex-m3", "-mthumb", *BARE, f"-I{C}", "-std=c11", "-Wall", "-Wextra", "-Werror",
               "-T", script, "-Wl,--gc-sections", "-Wl,--no-warn-execstack", *sources, "-o", made)


def setUpModule():
    lacking = [name for name in (CORTEX_M3.compiler, CORTEX_M3.runs[0]) if not shutil.which(name)]
    if lacking:
        raise unittest.SkipTest(f"there is no {' and no '.join(lacking)}")
    status, BUILT["out"] = run(NARROW / "build", *CPUS)
    if status:
        raise OSError(f"c/narrow/build: {said(BUILT['out'])}")


class Narrow(CCase):
    def test_each_form_of_a_line(self):
        """Each form of a line becomes what it should, or stops the script."""
        source, target = f"{self.folder}/in.ll", f"{self.folder}/out.ll"
        for line, wanted in LINES.items():
            with open(source, "w") as file:
                file.write(line + "\n")
            done = subprocess.run([NARROW / "narrow", source, target, "thumbv7m-none-eabi"], capture_output=True, text=True)
            if wanted is None:
                got, wanted = (done.returncode, done.stderr.strip()), (1, f"narrow: another form: {line}")
            else:
                with open(target) as file:
                    got, wanted = (done.returncode, file.read().split("\n")[:len(wanted)]), (0, wanted)
            self.equal(f"narrow: {line.strip()}", got, wanted)

    def test_the_bytes_of_code(self):
        """Builds libpim for the CPUs. The script prints the bytes of code of each."""
        found = re.findall(r"^(\S+) (\d+)$", BUILT["out"].decode(), re.M)
        self.equal("the CPUs whose bytes of code c/narrow/build prints", (tuple(cpu for cpu, _ in found),), (CPUS,))
        for cpu, size in found:
            self.check(f"the bytes of code for {cpu}", None if 10_000 < int(size) < 40_000 else size)

    def test_symbols(self):
        """The archive of each CPU has the exports, and needs what the page names."""
        by_pointer = set(re.findall(r"^void (pim_\w+_to)\(", HEADER, re.M))
        self.equal("eleven functions write a struct through a pointer", (len(by_pointer),), (11,))
        named = set(re.findall(r"`(\w+)`", re.search(r"^On ARM it calls (.*?)\.$", PAGE, re.M | re.S)[1]))
        for cpu in CPUS:
            done = subprocess.run(["nm", "-g", C / f"out/narrow/{cpu}/libpim.a"], capture_output=True, text=True)
            found = re.findall(r"^[0-9a-f ]{8} (\w) (\S+)$", done.stdout, re.M)
            self.equal(f"the exports for {cpu}", ({name for kind, name in found if kind == "T"},), (set(exports()) | by_pointer,))
            needed = {name for kind, name in found if kind == "U"} - HEAP
            allowed = {"memcpy", "memmove", "memset"} if cpu.startswith("rv") else named
            self.check(f"what libpim needs for {cpu}", " ".join(sorted(needed - allowed)) or None)

    def test_16_tasks_and_32_mutexes_in_8_KB(self):
        """16 tasks and 32 mutexes in 8 KB, without a C library."""
        made, script = f"{self.folder}/small", f"{self.folder}/smaller.ld"
        status, out = linked(made, NARROW / "small.ld")
        if status:
            self.fail(f"not linked: {said(out)}")
        self.expect("16 tasks and 32 mutexes in 8 KB", CORTEX_M3.run(made))
        with open(script, "w") as file:
            file.write((NARROW / "small.ld").read_text().replace("LENGTH = 8K", "LENGTH = 4K"))
        status, out = linked(made, script)
        self.check("4 KB aren't enough", None if status and b"overflowed" in out else f"status {status}")


class CortexM3(Layouts, FewReplays, CCase):
    """The programs of tests/c and the replay of traces, by newlib."""

    MACHINE = CORTEX_M3
    test_calls = Calls.test_calls
    test_two_managers_over_a_heap = Calls.test_two_managers_over_a_heap
    test_each_block_refused = Calls.test_each_block_refused
    test_PIM_MEMORY = Calls.test_PIM_MEMORY
    test_the_suite_is_replayed = Replays.test_the_suite_is_replayed

    @classmethod
    def setUpClass(cls):
        CORTEX_M3.compiled(CORTEX_M3.out, "replay", C / "replay.c", C / "heap/malloc.c")
