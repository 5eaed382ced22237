"""What libpim's calls do on each CPU, and the C around it: c/heap, c/threads, and blocks that are refused."""
import re

from tests.c.machines import C
from tests.shared.checks import ROOT

TESTS = ROOT / "tests/c"
STATIC_BYTES = (1, 16, 100, 128, 160)


def wrapped(source, *names):
    """Returns the linker's flags for the functions that a C file replaces, and for these."""
    found = re.findall(r"\b__wrap_(\w+)\(", source.read_text()) + re.findall(r"^GUARDED\([^,]*, (\w+),", source.read_text(), re.M)
    return [f"-Wl,--wrap={name}" for name in sorted({*found, *names})]


class Calls:
    """Tests for each CPU."""

    def test_calls(self):
        """What the functions of pim.h return and write, where no trace has a line for it."""
        files = (TESTS / "calls.c", C / "heap/malloc.c")
        made = self.MACHINE.compiled(self.folder, "calls", *files, flags=self.MACHINE.sanitized)
        self.told("calls.c", self.MACHINE.run(made))

    def test_each_file_of_heap_by_a_table_of_blocks(self):
        """The functions of each file of c/heap are compared with a table of blocks."""
        for size in STATIC_BYTES:
            self.heap(f"heap/static.c, {size} bytes", "static", "-DSTATIC", f"-DPIM_HEAP_BYTES={size}")
        self.heap("heap/given.c", "given", "-DGIVEN")
        self.heap("heap/malloc.c", "malloc", "-DMALLOC", *wrapped(TESTS / "heaps.c"))

    def heap(self, name, file, *flags):
        sources = (TESTS / "heaps.c", C / f"heap/{file}.c")
        made = self.MACHINE.compiled(self.folder, f"heap_{file}", *sources, flags=(*self.MACHINE.sanitized, *flags))
        self.passes(name, made)

    def test_two_managers_over_a_heap(self):
        both = "-DPIM_HEAP_BYTES=(PIM_MEMORY(3,1)+PIM_MEMORY(5,4))"
        for file, flags in (("static", ("-include", "pim.h", both)), ("given", ("-DGIVEN",))):
            sources = (TESTS / "two_managers.c", C / f"heap/{file}.c")
            made = self.MACHINE.compiled(self.folder, f"two_{file}", *sources, flags=(*self.MACHINE.sanitized, *flags))
            self.passes(f"two managers over heap/{file}.c", made)

    def test_getters_in_memory_that_can_only_be_read(self):
        """Getters work in memory that can only be read."""
        made = self.MACHINE.compiled(self.folder, "read_only", TESTS / "read_only.c", C / "heap/given.c")
        self.passes("getters in memory that can only be read", made)

    def test_each_block_refused(self):
        refused = self.MACHINE.compiled(self.folder, "refused", TESTS / "refused_blocks.c", flags=self.MACHINE.sanitized)
        self.passes("each block refused", refused)

    def test_PIM_MEMORY(self):
        sized = self.MACHINE.compiled(self.folder, "sized", TESTS / "manager_memory.c", C / "heap/given.c")
        self.passes("PIM_MEMORY", sized)

    def test_pi_mutex_over_stubs(self):
        """pi_mutex.c over stubs of the C library's functions: the calls that it makes, in their order."""
        source = TESTS / "pi_mutex.c"
        files = (source, C / "threads/pi_mutex.c", C / "heap/malloc.c")
        made = self.MACHINE.compiled(self.folder, "pi_mutex", *files, flags=(*self.MACHINE.sanitized, "-pthread", *wrapped(source)))
        self.told("pi_mutex.c over stubs", self.MACHINE.run(made))
