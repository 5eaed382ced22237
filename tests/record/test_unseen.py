"""What pim-record says of waits that aren't recorded, by what a program imports."""
import pathlib
import struct
import subprocess

from tests.cases import Case
from tests.shared.checks import ROOT, answer, difference
from tests.record.logs import setUpModule, without_end

PIM_RECORD = ROOT / "record/pim-record"
CALLS = {
    "sem_wait": "sem_wait(&semaphore)", "sem_timedwait": "sem_timedwait(&semaphore, &soon)",
    "pthread_rwlock_rdlock": "pthread_rwlock_rdlock(&lock)",
    "pthread_rwlock_wrlock": "pthread_rwlock_wrlock(&other)",
    "pthread_barrier_wait": "pthread_barrier_wait(&barrier)", "pthread_spin_lock": "pthread_spin_lock(&spin)",
    "mtx_lock": "mtx_lock(&mutex)", "mtx_timedlock": "mtx_timedlock(&timed, &soon)", "syscall": "syscall(SYS_getpid)",
    "dlmopen": "dlmopen(LM_ID_NEWLM, NULL, RTLD_NOW)", "GOMP_critical_start": "(void)({\n#pragma omp critical\nown_number++; 0; })",
    "GOMP_parallel": "(void)({\n#pragma omp parallel\nown_number = 1; 0; })",
    "thrd_join": "thrd_create(&other_thread, run, NULL), thrd_join(other_thread, NULL)",
    "pthread_create": "pthread_create(&thread, NULL, begin, NULL), pthread_join(thread, NULL)",
}
PROGRAM = """
#define _GNU_SOURCE
#include <dlfcn.h>
#include <pthread.h>
#include <semaphore.h>
#include <sys/syscall.h>
#include <threads.h>
#include <time.h>
#include <unistd.h>
sem_t semaphore;
pthread_rwlock_t lock = PTHREAD_RWLOCK_INITIALIZER, other = PTHREAD_RWLOCK_INITIALIZER;
pthread_barrier_t barrier;
pthread_spinlock_t spin;
pthread_mutex_t own = PTHREAD_MUTEX_INITIALIZER;
mtx_t mutex, timed;
struct timespec soon;
pthread_t thread;
int own_number;
thrd_t other_thread;
void *begin(void *unused) { return unused; }
int run(void *unused) { return unused != NULL; }
int main(void)
{
    sem_init(&semaphore, 0, 2), pthread_barrier_init(&barrier, NULL, 1), pthread_spin_init(&spin, 0), mtx_init(&mutex, 0);
    mtx_init(&timed, mtx_timed);
    pthread_mutex_lock(&own), pthread_mutex_unlock(&own);
    CALLS;
    return 0;
}
"""


def built(folder, *names):
    """Returns the path of a program that calls these functions, once each."""
    path = pathlib.Path(folder, "_".join(names) or "none")
    text = PROGRAM.replace("CALLS", ", ".join(CALLS[name] for name in names) or "(void)0")
    openmp = ["-fopenmp"] if any(name.startswith("GOMP") for name in names) else []
    words = ["cc", "-O0", *openmp, "-x", "c", "-", "-o", path, "-pthread"]
    subprocess.run(words, input=text.encode(), check=True, capture_output=True)
    return path


def said(folder, program):
    """Returns the status of a recorded program, and what pim-record says."""
    status, _, err = answer([str(PIM_RECORD), "-o", f"{folder}/run", str(program)])
    return status, without_end(err.decode())


def without_sections(program, begin):
    """Returns the path of a copy whose list of sections begins elsewhere."""
    data = bytearray(program.read_bytes())
    struct.pack_into("<Q", data, 40, begin)  # e_shoff
    copy = program.with_name("damaged")
    copy.write_bytes(data)
    copy.chmod(0o755)
    return copy


class Unseen(Case):
    def test_what_waits_unseen(self):
        """Plays all of it."""
        cases = {
            (): "",
            ("sem_wait", "sem_timedwait", "pthread_rwlock_rdlock", "pthread_rwlock_wrlock", "pthread_barrier_wait",
             "pthread_create"): "",
            ("pthread_spin_lock",): "pthread_spin_lock",
            ("sem_timedwait", "syscall", "pthread_create"): "syscall",
            ("syscall",): "",
            ("thrd_join",): "thrd_join",
            ("dlmopen",): "dlmopen",
            ("GOMP_parallel",): "GOMP_parallel",
            ("GOMP_critical_start", "GOMP_parallel"): "GOMP_critical_start",
            ("mtx_timedlock", "mtx_lock", "thrd_join", "pthread_spin_lock"): "pthread_spin_lock and mtx_lock",
            ("syscall", "pthread_create", "pthread_spin_lock", "mtx_timedlock", "pthread_barrier_wait"):
                "pthread_spin_lock, mtx_timedlock and syscall",
        }
        for names, listed in cases.items():
            program = built(self.folder, *names)
            line = f"pim-record: {program} also calls {listed}: what waits by these isn't recorded\n"
            got = said(self.folder, program)
            self.equal(f"a program that calls {', '.join(names) or 'nothing else'}", got, (0, line if listed else ""))
        program = built(self.folder, "mtx_lock")
        for name, begin in (("no sections", 0), ("sections behind its end", 1 << 40), ("sections at an odd place", 65)):
            self.check(f"a program with {name}", difference(said(self.folder, without_sections(program, begin)), (0, "")))
        status, err = said(self.folder, "./nowhere")
        self.equal("nothing more is said of what isn't run", (status, err.count("\n")), (127, 1))
