"""What the tests of libpim share: a CPU, and checks of what programs print there."""
import re

from tests.c.machines import C, HERE, run, said
from tests.cases import Case


class CCase(Case):
    MACHINE = HERE

    def expect(self, name, got, out=b""):
        """Checks that a run ended with status 0, and printed this."""
        self.equal(name, got, (0, out))

    def passes(self, name, program):
        """Checks that a program ends with status 0."""
        status, out = self.MACHINE.run(program)
        self.check(name, (said(out) or f"status {status}") if status else None)

    def told(self, name, done):
        """Makes the checks that a program has told, one a line, and one more if it failed and told none."""
        status, out = done
        lines = out.decode(errors="replace").splitlines()
        for line in lines:
            if found := re.match(r"(ok|FAIL) ([^:]*: [^:]*)(?:: )?(.*)", line):
                self.check(found[2], (found[3] or "it failed") if found[1] == "FAIL" else None)
        if status and not any(line.startswith("FAIL") for line in lines):
            self.check(name, said(out) or f"status {status}")

    def compiles(self, name, tests):
        """Checks that the compiler takes assertions about the header."""
        source = f"{self.folder}/tests.c"
        with open(source, "w") as file:
            file.write("\n".join(['#include "pim.h"', *tests, ""]))
        words = [self.MACHINE.compiler, f"-I{C}", "-std=c11", "-Wall", "-Wextra", "-Werror", "-pedantic", "-fsyntax-only"]
        status, out = run(*words, source)
        self.check(name, None if status == 0 else out.decode()[:300])
