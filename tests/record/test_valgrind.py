"""Programs under valgrind, and with callers that were linked without the C library."""
import pathlib
import re
import shutil

from tests.cases import Case
from tests.record.logs import setUpModule
from tests.record.test_collector import PROGRAMS, RECORD, run

# Linked without the C library, it gets the oldest form of each function, which initialises little of the memory. A
# signal of the newest form waits for ever for what the rest of it says.
SIGNAL = """#include <pthread.h>
void signal_once(void *memory) {
    pthread_cond_init(memory, 0);
    pthread_cond_signal(memory);
    pthread_cond_destroy(memory);
}
"""
MAIN = """#include <pthread.h>
#include <string.h>
void signal_once(void *memory);
int main(void) {
    pthread_cond_t condition;
    memset(&condition, 0x82, sizeof condition);
    signal_once(&condition);
    return 0;
}
"""


class Valgrind(Case):
    def test_a_caller_that_was_linked_without_the_c_library(self):
        """Its library has functions without a version."""
        for name, text in (("signal.c", SIGNAL), ("main.c", MAIN)):
            pathlib.Path(self.folder, name).write_text(text)
        library, program = f"{self.folder}/libsignal.so", f"{self.folder}/main"
        for command in (("-shared", "-fPIC", "-nostdlib", f"{self.folder}/signal.c", "-o", library),
                        (f"{self.folder}/main.c", library, "-o", program)):
            done = run("cc", *command)
            self.assertEqual(done.returncode, 0, f"it isn't built: {done.stderr[:200]}")
        plain = run("timeout", "-s", "KILL", "100", program).returncode
        done = run(RECORD / "pim-record", "-o", f"{self.folder}/run", "timeout", "-s", "KILL", "100", program)
        self.assertEqual((plain, done.returncode), (0, 0))

    def finds_no_error(self, tool):
        """A tool that finds no error in a program finds none if that is recorded, and the program ends."""
        if not shutil.which("valgrind"):
            self.skipTest("valgrind isn't installed")
        command = "valgrind", f"--tool={tool}", PROGRAMS / "pair", "300", "2"
        plain = run(*command)
        if plain.returncode or "ERROR SUMMARY: 0 errors" not in plain.stderr:
            self.skipTest(f"it has errors without the recorder, or can't run: {plain.stderr[-200:]}")
        done = run(RECORD / "pim-record", "-o", f"{self.folder}/run", "timeout", "-s", "KILL", "200", *command)
        said = re.findall(r"ERROR SUMMARY: (\d+) errors", done.stderr)
        self.assertEqual((done.returncode, said), (0, ["0"]))

    def test_a_program_under_memcheck(self):
        self.finds_no_error("memcheck")

    def test_a_program_under_helgrind(self):
        self.finds_no_error("helgrind")

    def test_a_program_under_drd(self):
        self.finds_no_error("drd")
