"""Programs under a seccomp filter, which ends them at a system call of the recorder."""
import os
import select
import signal

from tests.cases import Case
from tests.record.logs import broken, reader, setUpModule
from tests.shared.checks import difference, is_gone, until
from tests.record.test_collector import CHUNK_RECORDS, PROGRAMS, Running, counted, read

BATCH = 3  # the policy SCHED_BATCH, as a record has it
MANY = CHUNK_RECORDS * 2 * 256  # pairs: four times as many records as have room in 256 slots


def story(running, pairs):
    """Ends a recording. Returns its log, and what is wrong with its status, its grants, or what it lost."""
    status, _, said = running.end()
    log = read(running.path)
    return log, difference((status, said, counted(log, reader.GRANTED), log.head.lost), (0, "", pairs, 0))


def level_of(path):
    """Returns the detail of the second thread's first record, which is the policy here, or None if it isn't written."""
    if not reader.head_of(path):
        return None
    threads = [record for record in read(path).records if record.event == reader.THREAD]
    return threads[1].detail if len(threads) > 1 else None


class Filtered(Case):
    def test_more_locks_than_a_chunk_has_room_for(self):
        """More locks than a chunk has room for. The collector is stopped, so that the memory has to grow."""
        running = Running(self.folder, PROGRAMS / "filtered", "first", MANY)
        self.equal("a program gets a filter", (running.child.stdout.readline(),), ("ready\n",))
        collector, program = running.helper("pim-collector"), running.helper("filtered")
        os.kill(collector, signal.SIGSTOP)
        running.child.stdin.write("go\n")
        running.child.stdin.flush()
        until(lambda: is_gone(program) or select.select([running.child.stdout], [], [], 0)[0])
        os.kill(collector, signal.SIGCONT)
        done = running.child.stdout.readline()
        log, fault = story(running, MANY)
        self.check("locks under a filter, faster than they are written",
                   difference((done,), ("done\n",)) or broken(log) or fault)

    def test_the_level_of_a_thread_that_comes_later(self):
        """The collector asks for the level of a thread that comes later, which may not ask for it itself."""
        running = Running(self.folder, PROGRAMS / "filtered", "thread", 1000)
        running.child.stdout.readline()
        done = running.says("go")
        until(lambda: level_of(running.path) == BATCH or running.child.poll() is not None)
        log, fault = story(running, 1000)
        self.check("a thread that is created under a filter", difference((done,), ("done",)) or broken(log) or fault)
        self.equal("its level is known", (level_of(running.path),), (BATCH,))
