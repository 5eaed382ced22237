"""What the text of a trace is, read as plainly as the pages say it: for tests that look for the first invalid line."""
import re

NUMBER = rb"(?:[1-9][0-9]{0,4})"
STEP = rb"(%N) (?:(?:lock|try|unlock|cancel) %N|release|(?:base|ceil) %N %N)".replace(b"%N", NUMBER)
NAMES = (
    rb"no-task|waiting|no-mutex|deadlock|ceiling|busy|not-owner|not-waiting|priority|tickets"
    rb"|not-protect|again"
)
REPLY = (
    rb"granted|queued|freed|withdrawn|set|kept|handed %N|released (?:0|%N)|refused (?:%R)"
).replace(b"%N", NUMBER).replace(b"%R", NAMES)

TASK = re.compile(rb"task (%N) (%N)".replace(b"%N", NUMBER))
MUTEX = re.compile(
    rb"mutex (%N) (?:none|inherit|inherit recursive|protect (%N))".replace(b"%N", NUMBER)
)
STEP_LINE = re.compile(rb"%S( = (?:%R))?".replace(b"%S", STEP).replace(b"%R", REPLY))
# What has come with version 2.
LATER = re.compile(
    rb"[0-9]+ ceil .*|mutex .* inherit recursive|.* = (?:kept|refused not-protect|refused again)"
)
LIMITS = {"task": 256, "mutex": 256, "step": 65_536}
PARTS = ["task", "mutex", "step"]


def lines_of(text):
    """Returns the lines, without an empty one behind the last newline."""
    lines = text.split(b"\n")
    return lines[:-1] if lines[-1] == b"" else lines


def first_bad_line(text, script=False):
    """Returns the number of the first invalid line, or None where the text is valid."""
    lines = lines_of(text)
    if not lines or lines[0] not in (b"pim 1", b"pim 2"):
        return 1
    counts, reached = dict.fromkeys(PARTS, 0), 0
    for number, line in enumerate(lines[1:], 2):
        part = part_of(line, counts, script)
        if lines[0] == b"pim 1" and LATER.fullmatch(line):
            return number
        if part is None or PARTS.index(part) < reached or counts[part] == LIMITS[part]:
            return number
        reached = PARTS.index(part)
        counts[part] += 1
    return None


def part_of(line, counts, script):
    """Returns which part of a text the line is of, behind so many lines of each; None where it is of none."""
    declared = TASK.fullmatch(line) or MUTEX.fullmatch(line)
    if declared:
        part = "task" if line.startswith(b"task") else "mutex"
        fits = int(declared[1]) == counts[part] + 1 and (not declared[2] or int(declared[2]) <= 99)
        return part if fits else None
    step = STEP_LINE.fullmatch(line)
    if not step or any(int(number) > 65_535 for number in re.findall(rb"[0-9]+", line)):
        return None
    strange = script and (step[2] or int(step[1]) > counts["task"])
    return None if strange else "step"
