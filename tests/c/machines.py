"""The files of libpim, and the CPUs that it is built for: runs of compilers and programs."""
import os
import subprocess
import tempfile

from tests.shared.checks import ROOT, SECONDS

C = ROOT / "c"
OUT = C / "out"
HEADER = (C / "pim.h").read_text()
README = (C / "README.md").read_text()


def run(*command, text=None, **settings):
    """Returns status and standard output of a run, with standard error where the status isn't 0."""
    try:
        words = [str(word) for word in command]
        done = subprocess.run(words, input=text, capture_output=True, timeout=SECONDS, **settings)
    except subprocess.TimeoutExpired:
        return 124, b"it hangs"
    return done.returncode, done.stdout + (done.stderr if done.returncode else b"")


def said(out):
    """Returns the end of an output as text, for the reason of a failure."""
    return out.decode(errors="replace").strip()[-300:]


class Machine:
    """A CPU that libpim is built for: its folder of c/, its compiler and tools, and what runs its programs."""

    def __init__(self, out, compiler, tools, runs, sanitizers):
        self.out, self.compiler, self.tools, self.runs = out, compiler, tools, runs
        self.sanitized = ("-g", "-O1", f"-fsanitize={sanitizers}", "-fno-sanitize-recover=all")
        self.options, self.bits = (), 64

    def tool(self, name, *words):
        """Returns what a tool prints of libpim.a."""
        command = [self.tools + name, *words, self.out / "libpim.a"]
        return subprocess.run(command, capture_output=True, text=True, check=True).stdout

    def run(self, program, *words, **settings):
        return run(*self.runs, program, *words, **settings)

    def replay(self, text):
        """Returns status, standard error and standard output of c/replay.c, which asks every getter."""
        command = [*self.runs, self.out / "replay", "-check"]
        done = subprocess.run(command, input=text, capture_output=True, timeout=SECONDS)
        return done.returncode, done.stderr, done.stdout

    def compiled(self, folder, name, *sources, flags=("-O2",)):
        """Returns the path of what the compiler makes of C files with libpim, which must take them."""
        made = os.path.join(folder, name)
        command = [self.compiler, *self.options, f"-I{C}", "-std=c11", "-Wall", "-Wextra", "-Werror", *flags]
        status, out = run(*command, *sources, self.out / "libpim.a", "-o", made)
        if status:
            raise AssertionError(f"{name} isn't compiled: {said(out)}")
        return made


HERE = Machine(OUT, "cc", "", (), "address,undefined")
# Cortex-A53 has ARMv8.0-A and nothing more: qemu raises SIGILL at an instruction of a later version.
QEMU = ("qemu-aarch64-static", "-cpu", "cortex-a53", "-L", "/usr/aarch64-linux-gnu")
ARM_TARGET = "aarch64-unknown-linux-gnu"
ARM, ARM_GENERAL = (Machine(folder, "aarch64-linux-gnu-gcc", "aarch64-linux-gnu-", QEMU, "undefined")
                    for folder in (OUT / ARM_TARGET, OUT / ARM_TARGET / "general"))


class Narrow(Machine):
    """qemu's Cortex-M3, with newlib. Its programs read a file, and write both streams to standard output."""

    CORTEX_M3 = ("qemu-system-arm", "-M", "mps2-an385", "-cpu", "cortex-m3", "-nodefaults", "-display", "none",
                 "-monitor", "none", "-serial", "null", "-net", "none", "-chardev", "stdio,id=console")

    def __init__(self):
        super().__init__(OUT / "narrow/cortex-m3", "arm-none-eabi-gcc", "arm-none-eabi-", self.CORTEX_M3, None)
        self.sanitized, self.bits = ("-O1",), 32
        self.options = ("-mcpu=cortex-m3", "-mthumb", "--specs=rdimon.specs", "-nostartfiles", C / "narrow/m3.c",
                        "-T", C / "narrow/m3.ld", "-Wl,--gc-sections", "-Wl,--no-warn-execstack")

    def run(self, program, *words, text=b""):
        with tempfile.NamedTemporaryFile() as file:
            file.write(text)
            file.flush()
            arguments = "".join(f",arg={word}" for word in (program, file.name, *words))
            shared = f"enable=on,target=native,chardev=console{arguments}"
            command = [*self.runs, "-semihosting-config", shared, "-kernel", str(program)]
            done = subprocess.run(command, stdin=subprocess.DEVNULL, capture_output=True, timeout=SECONDS)
        return done.returncode, done.stdout

    def replay(self, text):
        status, out = self.run(self.out / "replay", "-check", text=text)
        return status, b"", out



CORTEX_M3 = Narrow()
