"""The folder libpim-VERSION: libpim for those who build with a C compiler alone."""
import re

from assembly import as_built, renamed, sections
from files import ROOT, Fault, copy, filled, run, tracked, write

C = ROOT / "c"
ARM = "out/aarch64-unknown-linux-gnu"
# A CPU: how the preprocessor knows it, its libpim's folder in c/, and the prefix of its tools.
CPUS = {
    "x86_64": ("defined(__x86_64__) && defined(__LP64__)", "out", ""),
    "aarch64": ("defined(__AARCH64EL__) && defined(__LP64__)", ARM, "aarch64-linux-gnu-"),
}
RISCV = "defined(__riscv) && __riscv_xlen == 64 && defined(__riscv_float_abi_double)"
COPIED = """
c/pim.h c/pim_names.h c/pim_errno.h c/pim_heap.h c/pim_heap_given.h c/heap c/libpim.3 c/install.sh
c/pim.pc.in c/pim-malloc.pc.in c/pim-shared.pc.in
c/pim-config.cmake.in c/pim-config-version.cmake.in
""".split()
EXAMPLES = ("demo.c", "demo.expected", "freestanding.c")
HEAD = """\
/* libpim @VERSION@: what the compiler of @TOOLCHAIN@
 * made of its proved code, at commit @COMMIT@.
 * PROOFS.md says what that means, and README.md how to link it. */
"""


def build(to, work, release):
    """Builds all of the folder but its page PROOFS.md."""
    names = {"VERSION": release.version, "SERIES": release.version.rpartition(".")[0]}
    for file in tracked(*COPIED):
        copy(ROOT / file, to / file[len("c/"):])
    for file in EXAMPLES:
        copy(C / file, to / "examples" / file)
    write(to / "examples/own.c", shown("c", C / "README.md"))
    for template, file in (("libpim.mk.in", "Makefile"), ("LIBPIM.md.in", "README.md")):
        write(to / file, filled((ROOT / "packaging" / template).read_text(), **names))
    write(to / "libpim.S", assembly(work, release))
    for cpu in CPUS:
        compare(cpu, to / "libpim.S", work)


def shown(language, page):
    """Returns the first program of a language that a page shows."""
    return re.search(rf"^```{language}\n(.*?)^```", page.read_text(), re.S | re.M)[1]


def assembly(work, release):
    """Returns the text of libpim.S, with a part for each CPU."""
    names = {"VERSION": release.version, "COMMIT": release.commit}
    parts, word = filled(HEAD, TOOLCHAIN=run("rt", "version").strip(), **names), "#if"
    for cpu, (condition, folder, tools) in CPUS.items():
        made = (f"{folder}/libpim.a", f"{folder}/module/libpim.s")
        run("make", "-s", "-C", C, f"TARGET={cpu}-unknown-linux-gnu", *made)
        text, built = (C / made[1]).read_text(), sections(library(cpu, work), tools)
        parts += f"{word} {condition}\n{as_built(text, built, tools, work)}"
        word = "#elif"
    run("make", "-s", "-C", C, "out/riscv64/libpim.s")
    parts += f"#elif {RISCV}\n{renamed((C / 'out/riscv64/libpim.s').read_text())}"
    return parts + '#else\n#error "libpim is built for x86-64 and 64-bit ARM"\n#endif\n'


def library(cpu, work):
    """Returns the path of the object file in the library that rt built for a CPU."""
    _, folder, tools = CPUS[cpu]
    (work / cpu).mkdir(exist_ok=True)
    run(f"{tools}ar", "x", C / folder / "libpim.a", cwd=work / cpu)
    return next((work / cpu).iterdir())


def compare(cpu, source, work):
    """Raises Fault if an assembler doesn't make of libpim.S the bytes that rt's library has."""
    tools, made = CPUS[cpu][2], work / f"{cpu}.assembled.o"
    run(f"{tools}gcc", "-c", source, "-o", made)
    got, wanted = sections(made, tools), sections(library(cpu, work), tools)
    if wrong := sorted(it for it in got.keys() | wanted.keys() if got.get(it) != wanted.get(it)):
        raise Fault(f"for {cpu}, these sections of libpim.S aren't those of rt: {' '.join(wrong)}")
