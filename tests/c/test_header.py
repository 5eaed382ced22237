"""The headers of c/ say the numbers and functions of the Rattle types."""
import errno
import itertools
import re
import shutil

from tests.c.cases import CCase
from tests.c.header import constants, exports, sources, spelled, tables
from tests.c.machines import C, HEADER, HERE, run, said
from tests.shared.checks import ROOT, made

LANGUAGES = {"cc": ("c99", "c11", "c17"), "clang": ("c99", "c11"), "g++": ("c++98", "c++17", "c++20"), "clang++": ("c++98",)}
MAIN = "int main(void) { struct pim_handle h = PIM_HANDLE_INIT; return h.at != 0; }\n"


def setUpModule():
    made("c", "all")


class Header(CCase):
    def test_the_version(self):
        """The version is its three numbers, as text, as one number and in the library."""
        body = """#include "pim.h"
        #include <stdio.h>
        #include <string.h>
        int main(void) {
            char text[32];
            snprintf(text, sizeof text, "%d.%d.%d", PIM_VERSION_MAJOR, PIM_VERSION_MINOR, PIM_VERSION_PATCH);
            return strcmp(text, PIM_VERSION) != 0 || pim_version() != PIM_VERSION_NUMBER;
        }
    """
        source = f"{self.folder}/version.c"
        with open(source, "w") as file:
            file.write(body)
        self.passes("PIM_VERSION and pim_version", HERE.compiled(self.folder, "version", source, C / "heap/malloc.c"))

    def test_numbers(self):
        """The header has the names and numbers of both numbers.rt, and the limits, and no other names in its tables."""
        wanted = constants("\n".join(text for path, text in sources().items() if path.name == "numbers.rt"))
        in_tables = re.findall(r"^ *PIM_([A-Z_]+) = \d+", HEADER, re.M)
        self.equal("the header's tables", (set(in_tables) | {"UNKNOWN", "KERNEL"},), (set(wanted),))
        limits = {"MAX_TASKS": 256, "MAX_MUTEXES": 256, "MAX_COUNT": 255}
        limits_file = (ROOT / "crates/pim_base/src/limits.rt").read_text()
        self.equal("the limits", (limits,), ({k: constants(limits_file)[k] for k in limits},))
        tests = [f'_Static_assert(PIM_{name} == {number}, "{name}");' for name, number in {**wanted, **limits}.items()]
        self.compiles("the header's numbers", tests)

    def test_numbers_of_two_sets_are_not_compared(self):
        """The compiler warns where numbers of two sets are compared."""
        found = re.findall(r"^enum (\w+) \{\s+(PIM_\w+)", HEADER, re.M)
        self.check("the sets of numbers", None if len(found) == 5 else f"{len(found)} enumerations")
        for (left, one), (right, other) in itertools.combinations(found, 2):
            source = f"{self.folder}/sets.c"
            with open(source, "w") as file:
                file.write(f'#include "pim.h"\nint same(void);\nint same(void) {{ return {one} == {other}; }}\n')
            words = ["cc", f"-I{C}", "-std=c11", "-Wall", "-Werror=enum-compare", "-fsyntax-only", source]
            status, out = run(*words)
            self.check(f"{left} isn't compared with {right}", None if status and b"enum-compare" in out else f"status {status}")

    def test_languages(self):
        """The headers are C99, C11 and C++ from C++98 on, by each compiler that is there; and none takes 32 bits."""
        for compiler, standards in LANGUAGES.items():
            for standard in standards if shutil.which(compiler) else ():
                source = f"{self.folder}/header.{'cpp' if '++' in standard else 'c'}"
                with open(source, "w") as file:
                    file.write("".join(f'#include "{header.name}"\n' for header in sorted(C.glob("*.h"))) + MAIN)
                words = [compiler, f"-I{C}", f"-std={standard}", "-Wall", "-Wextra", "-Werror", "-pedantic", "-fsyntax-only"]
                status, out = run(*words, source)
                self.check(f"the headers by {compiler} as {standard}", said(out) if status else None)
                # Without a C library: there may be none for 32 bits.
                status, out = run(compiler, f"-I{C}", f"-std={standard}", "-m32", "-ffreestanding", "-fsyntax-only", C / "pim.h")
                # C++98 may lack UINTPTR_MAX, and has an assertion's name alone.
                message = rb"libpim is built for 64 bits" + (rb"|pim_fits_libpim" if standard == "c++98" else b"")
                refused = status != 0 and re.search(message, out)
                self.check(f"32 bits are refused by {compiler} as {standard}", None if refused else f"status {status}: {said(out)}")

    def test_names_and_error_numbers(self):
        """Each answer and refusal has its name as text, and each refusal the error number that pim.h has for it."""
        answers, refusals = tables()
        lines = [f'printf("%s\\n", pim_answer_name({name}));' for name, _ in answers]
        lines += [f'printf("%s %d\\n", pim_refusal_name({name}), pim_errno({name}));' for name, _ in refusals]
        lines += ['printf("%s %s %d %d\\n", pim_answer_name(255), pim_refusal_name(255), pim_errno(255), pim_errno(0));']
        source = f"{self.folder}/names.c"
        with open(source, "w") as file:
            includes = '#include "pim_errno.h"\n#include "pim_names.h"\n#include <stdio.h>\n'
            file.write(includes + "int main(void) {\n" + "\n".join(lines) + "\nreturn 0;\n}\n")
        wanted = [spelled(name) for name, _ in answers]
        for name, text in refusals:
            error = re.search(r"\((E[A-Z]+)\)", text)
            wanted.append(f"{spelled(name)} {getattr(errno, error[1] if error else 'EINVAL')}")
        wanted.append(f"? ? {errno.EINVAL} 0")
        made = HERE.compiled(self.folder, "names", source)
        self.expect("the names and the error numbers", HERE.run(made), ("\n".join(wanted) + "\n").encode())

    def test_each_export_has_its_prototype(self):
        """Each export has the prototype that C needs for it, and each prototype an export."""
        prototypes = {}
        for result, name, params in re.findall(r"^((?:struct )?\w+) (pim_\w+)\(([^()]*)\);", HEADER, re.M):
            named = [] if params == "void" else re.split(r",\s+", params)
            prototypes[name] = [result] + [re.sub(r"\w+$", "", param).strip() for param in named]
        prototypes = {name: kinds for name, kinds in prototypes.items() if not name.endswith("_to")}  # those of c/narrow
        wanted = exports()
        self.equal("the header's functions", (sorted(prototypes),), (sorted(wanted),))
        for name in wanted:
            self.equal(f"the prototype of {name}", (prototypes.get(name),), (wanted[name],))
