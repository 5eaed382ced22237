"""libpim for 64-bit ARM, in qemu, on a CPU that has ARMv8.0-A alone.

It has the same symbols, layouts and memory as on x86-64, and takes no more stack than pim.h says. It is skipped without
Debian's gcc-aarch64-linux-gnu and qemu-user-static.
"""
import os
import re
import shutil
import unittest

from tests.c.archive import Archive, assembled, machine_code, vector_registers
from tests.c.cases import CCase
from tests.c.code import Calls
from tests.c.header import Layouts
from tests.c.machines import ARM, ARM_GENERAL, ARM_TARGET, C, run, said
from tests.c.replays import Replays
from tests.shared.checks import made


def setUpModule():
    lacking = [name for name in (ARM.compiler, ARM.runs[0]) if not shutil.which(name)]
    if lacking:
        raise unittest.SkipTest(f"there is no {' and no '.join(lacking)}")
    made("c", "all", f"out/{ARM_TARGET}/freestanding", f"TARGET={ARM_TARGET}")


class Arm(Archive, Calls, Layouts, Replays, CCase):
    MACHINE = ARM

    def test_programs_end_as_they_should(self):
        self.expect("the demo", self.MACHINE.run(self.MACHINE.out / "demo"), (C / "demo.expected").read_bytes())
        self.expect("threads", self.MACHINE.run(self.MACHINE.out / "threads"), (C / "threads/expected").read_bytes())
        self.expect("a program without a C library", self.MACHINE.run(self.MACHINE.out / "freestanding"))

    def test_the_archive_is_for_64_bit_ARM(self):
        """The archive is for 64-bit ARM, and so are the programs."""
        formats = {line.split()[-1] for line in self.MACHINE.tool("objdump", "-f").splitlines() if "file format" in line}
        self.equal("libpim is built for 64-bit ARM", (formats,), ({"elf64-littleaarch64"},))

    def test_what_is_installed(self):
        """`make install` installs this archive, and pkg-config finds it."""
        status, out = run("make", "-s", "-C", C, "install", f"TARGET={ARM_TARGET}", f"PREFIX={self.folder}/installed")
        if status:
            self.fail("make install", said(out))
        with open(f"{self.folder}/installed/lib/libpim.a", "rb") as file:
            self.check("the installed archive", None if file.read() == (self.MACHINE.out / "libpim.a").read_bytes() else "another one")
        os.environ["PKG_CONFIG_PATH"] = f"{self.folder}/installed/lib/pkgconfig"
        self.links_with_the_shared_library(f"{self.folder}/installed")
        status, flags = run("pkg-config", "--cflags", "--libs", "pim-malloc")
        words = flags.decode().split()
        status, out = run(self.MACHINE.compiler, "-std=c11", C / "demo.c", *words, "-o", f"{self.folder}/demo")
        if status:
            self.fail("the demo with the installed files", said(out))
        self.expect("the demo with the installed files", self.MACHINE.run(f"{self.folder}/demo"), (C / "demo.expected").read_bytes())
        self.is_used_by_a_project(f"{self.folder}/installed")

    def test_instructions_are_of_ARMv8_0(self):
        """libpim for ARM has only instructions of ARMv8.0-A: an assembler for that version takes all of them."""
        lines = re.findall(r"^ +[0-9a-f]+:\t(.*?)(?:[ \t]+//.*)?$", machine_code(ARM), re.M)
        lines = [re.sub(r"\b([0-9a-f]+) <.*>$", r"0x\1", line) for line in lines]
        self.check("libpim for ARM has instructions", None if len(lines) > 1000 else str(len(lines)))
        self.check("libpim for ARM uses ARMv8.0-A alone", assembled(self.folder, lines))
        later = assembled(self.folder, [*lines, "ldaddal w0, w1, [x2]"])
        self.check("an instruction of ARMv8.1-A would be seen", None if later and "ldaddal" in later else str(later))


class WithoutVectors(CCase):
    """`make general` builds libpim without floating-point and vector registers, which libpim has otherwise."""

    MACHINE = ARM_GENERAL

    @classmethod
    def setUpClass(cls):
        made("c", "general", f"TARGET={ARM_TARGET}")

    def test_it_has_no_vector_registers(self):
        used, none = (vector_registers(machine_code(machine)) for machine in (ARM, ARM_GENERAL))
        self.assertTrue(used, "libpim has none otherwise")
        self.assertEqual(none, set())

    test_symbols = Archive.test_symbols
    test_calls = Calls.test_calls
