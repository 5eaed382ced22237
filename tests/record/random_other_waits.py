"""Random logs with waits for what isn't a mutex, for record_to_facts.py. They are records of no program: most break laws
of record/FORMAT.md, which a reader need not test."""
import random

from tests.record.logs import log_of, reader

THREADS, RECORDS, PROCESS, SECOND_PROCESS = 5, (5, 120), 100, 200
NONE, LOCK, CONDITION = 0x04, 0, 4
OBJECTS, SELVES, MUTEX = (0x600, 0x600, 0x700), (0x10, 0x20), 0x500
KINDS = {reader.WAIT: (1, 2, 3, 4, 4, 5, 5, 6, 7), reader.WAITED: (1, 2, 3, 4, 5), reader.GIVE: (1, 1, 2, 2, 4, 6, 6)}
PRIORITIES = 0, 0x0A01, 0x1402, 0x5A01, 6, 0x1E0F  # SCHED_OTHER, FIFO 10, RR 20, FIFO 90, DEADLINE, kept 30
SHARE = {reader.WAIT: 6, reader.WAITED: 5, reader.GIVE: 16, reader.CONDITION: 2, reader.GRANTED: 3, reader.FAILED: 1,
         reader.RELEASE: 1, reader.RELEASE_FAILED: 1, reader.PRIORITY: 2, reader.EXIT: 1, reader.THREAD: 1}


def row_of(choose, thread):
    """Returns a random record of a thread."""
    event = choose.choices(list(SHARE), SHARE.values())[0]
    target, value, detail, how = 0, 0, 0, 0
    if event in reader.WITH_KIND:
        detail = choose.choice(KINDS[event])
        target = choose.choice(SELVES if detail == 5 else OBJECTS)
        how = choose.choice((0, 0, 0, 0, 0, 22, 110)) if event == reader.WAITED else 0
    elif event == reader.CONDITION:
        target = choose.choice(OBJECTS)
    elif event in (reader.THREAD, reader.PRIORITY):
        target, detail = choose.choice(SELVES), choose.choice(PRIORITIES)
        if event == reader.PRIORITY and choose.random() < 0.3:
            target, value = 0, PROCESS + choose.randrange(THREADS)
    elif event != reader.EXIT:
        target, how = MUTEX, choose.choice((LOCK, CONDITION, CONDITION))
        detail = NONE if event in (reader.GRANTED, reader.RELEASE) else 0
    return thread, event, target, value, detail, how


def random_log(seed):
    """Returns a log. Its times mostly ascend."""
    choose = random.Random(seed)
    rows = [(thread, reader.THREAD, choose.choice(SELVES), 0, choose.choice(PRIORITIES), 0)
            for thread in range(1, THREADS)]
    rows += [row_of(choose, choose.randint(1, THREADS)) for _ in range(choose.randint(*RECORDS))]
    rows += [(1, reader.GIVE, OBJECTS[0], 0, 1, 0)]  # so the log is of version 3
    times = [10_000 + 100 * at + choose.choice((0, 0, 150)) for at in range(len(rows))]
    processes = {THREADS: SECOND_PROCESS if choose.random() < 0.3 else PROCESS}
    return bytes(log_of(rows, THREADS, times, processes=processes))
