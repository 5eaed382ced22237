"""Random texts of the kernel's events, for record_to_facts.py. They are events of no program: most break laws of
record/FORMAT.md, which a reader need not test."""
import random

TASKS, LINES, BEGAN = (11, 12, 13, 14), (5, 300), 1000
HEAD = f"pim-kernel 2\nkernel 6.18.44 x86_64\nclock mono\nprocess 11\nbegan {BEGAN}\ncpus 2\n"
PRIORITIES = 89, 89, 69, 69, 9, 0, -1, 98, 99, 120
STATES = "S", "S", "S", "S", "D", "R", "R+", "S+", "T"
ADDRESSES, RESULTS = ("0x5f0", "0x7ffe12345678"), (0, 0, 0, 0, 1, -110, -4, -11, -512)
SHARE = {"switch": 10, "wait": 6, "return": 6, "wake": 12, "setprio": 2, "lock": 1, "end": 0.3, "lost": 0.2}


def words_of(choose, what, times):
    """Returns what is behind the time of a random line, which is the last of these."""
    cpu, task, other = choose.randrange(2), choose.choice(TASKS), choose.choice((0, 21, *TASKS))
    priority = lambda: choose.choice(PRIORITIES)
    if what == "wake":  # by any task
        return f"{cpu} {other} wake {task}"
    return f"{cpu} {task} " + {
        "switch": f"switch {priority()} {choose.choice(STATES)} {other} {priority()}",
        "end": f"switch {priority()} {choose.choice('XZ')} {other} {priority()}",
        "wait": f"wait {choose.choice(ADDRESSES)} {choose.choice(('private', 'shared'))}",
        "return": f"return {choose.choice(RESULTS)}",
        "setprio": f"setprio {other} {priority()} {priority()}",
        "lock": f"lock {choose.choice(ADDRESSES)} private",
        "lost": f"lost 3 {choose.choice(times[-9:])}"}[what]


def random_text(seed):
    """Returns a text. Every fourth isn't whole, and every tenth is longer."""
    choose = random.Random(seed)
    times, lines = [BEGAN], []
    count = choose.randint(*LINES) * (1 if seed % 10 else 5)
    for what in choose.choices(list(SHARE), SHARE.values(), k=count):
        times.append(times[-1] + choose.choice((0, 10, 10, 25, 100)))
        words = words_of(choose, what, times)
        lines.append(f"{times[-1]} " + (f"0 0 {words.split(' ', 2)[2]}" if what == "lost" else words))
    end = [] if seed % 4 == 0 else [f"end {times[-1] + choose.choice((0, 50))} 0 0"]
    return HEAD + "".join(f"{line}\n" for line in lines + end)
