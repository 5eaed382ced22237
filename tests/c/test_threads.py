"""c/threads and c/pthreads where priorities can be set, and c/pthreads over stubs."""
import re

from tests.c.cases import CCase
from tests.c.code import TESTS, wrapped
from tests.c.machines import C, HERE, OUT, run, said
from tests.shared.checks import made

SKIPPED = 77
# What a program finds in c/pthreads in place of the C library's.
SHIM = """
pthread_cond_broadcast pthread_cond_clockwait pthread_cond_signal pthread_cond_timedwait pthread_cond_wait
pthread_getschedparam pthread_mutex_clocklock pthread_mutex_destroy pthread_mutex_getprioceiling pthread_mutex_init
pthread_mutex_lock pthread_mutex_setprioceiling pthread_mutex_timedlock pthread_mutex_trylock pthread_mutex_unlock
pthread_setschedparam pthread_setschedprio
""".split()


def setUpModule():
    made("c", "all", "pthreads")


class Threads(CCase):
    def test_an_inversion_over_pi_mutex(self):
        """The inversion by the system's scheduler: skipped where the process may not set priorities."""
        name = "medium priority can't delay a high one, on one CPU under SCHED_FIFO"
        self.inverts(name, self.folder, C / "threads/pi_mutex.c", ("env",))

    def inverts(self, name, folder, mutexes, runs):
        files = (TESTS / "inversion.c", mutexes, C / "heap/malloc.c")
        made = HERE.compiled(folder, f"inversion_{mutexes.stem}", *files, flags=("-O2", "-pthread"))
        status, out = run(*runs, made)
        if status == SKIPPED:
            self.skip(name, said(out))
        else:
            self.check(name if status else f"{name}: {said(out)}", (said(out) or f"status {status}") if status else None)

    def test_libpim_behind_pthreads(self):
        """c/pthreads, linked into a program with stubs for priorities; and preloaded, where priorities can be set."""
        source, library = TESTS / "pthreads.c", OUT / "libpim-pthreads.so"
        files = (source, *sorted(C.glob("pthreads/*.c")))
        made = HERE.compiled(self.folder, "pthreads", *files, flags=(*HERE.sanitized, "-pthread", "-fexceptions", *wrapped(source)))
        self.told("c/pthreads with stubs", run(made))
        status, out = run("nm", "-D", "--defined-only", "--format=just-symbols", library)
        self.equal("what libpim-pthreads.so exports", (out.decode().split(),), (SHIM,))
        preloaded = ("env", f"LD_PRELOAD={library}")
        self.expect("threads over libpim-pthreads.so", run(*preloaded, OUT / "threads"), (C / "threads/expected").read_bytes())
        name = "the same of pthread_mutex_lock over libpim-pthreads.so"
        self.inverts(name, self.folder, TESTS / "pthread_inversion.c", preloaded)
        self.benchmark("a benchmark of mutexes over libpim-pthreads.so", preloaded)

    def benchmark(self, name, runs):
        """c/bench/mutexes.c prints five times."""
        status, out = run(*runs, OUT / "mutexes")
        if status == SKIPPED:
            return self.skip(name, "the process may not use SCHED_FIFO")
        times = re.findall(r"^\S.* +\d+\.\d ns$", out.decode(errors="replace"), re.M)
        self.check(name, None if status == 0 and len(times) == 5 else said(out) or f"status {status}")
