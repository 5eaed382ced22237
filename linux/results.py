"""What kernels did with the texts, as a table: a column for each kernel."""
import collections
import re

import compare
import fuzz
import guests
import storms
from walk import HABITS

SET = compare.HERE / "set"
# The kernel that the files beside the texts are of; another may have files of its own.
STORED = "linux-6.18"
# Each way of docs/LINUX.md: the habit of walk.py, and how the names of its texts begin.
WAYS = {"1": ("stop", "kernel_stop"), "2": ("toptask", "kernel_toptask"),
        "3": ("pitree", "kernel_pitree")}


def found_in(pattern, text, otherwise):
    found = re.search(pattern, text)
    return found[1] if found else otherwise


class Result:
    """What a kernel did with each text: what differs, and why."""

    def __init__(self, out, texts, wanted, pim):
        self.found = guests.sections(out)
        said = (self.found.get("system") or [""])[0]
        self.system = " ".join(said.split()[:2])
        self.release = guests.release_of(out)
        self.version = found_in(r"Debian (\S+)", said, "-")
        self.mended = found_in(r"-mended(\d+)", self.release, "")
        self.set, self.causes, self.lines = {}, collections.Counter(), []
        self.random = self.differ = self.faults = 0
        for name, text in texts.items():
            self.compare(name, text, wanted[name])
        self.storm = self.stormed(pim)

    def compare(self, name, text, wanted):
        out = "\n".join(self.found.get(f"text {name}", []))
        try:
            done = compare.performance(out, len(text.steps))
        except compare.Fault as fault:
            self.faults += 1
            self.lines.append(f"{name}: {fault}")
            return
        lines = compare.differences(text, done.steps, wanted)
        if name.startswith("random"):
            self.count_random(name, lines, fuzz.causes_of(text, done.steps) if lines else ())
        else:
            self.compare_stored(name, lines)

    def count_random(self, name, lines, causes):
        self.random += 1
        self.differ += bool(lines)
        self.causes.update(causes or ())
        if lines and not causes:
            self.causes["unexplained"] += 1
            self.lines += [f"{name}: {line}" for line in lines]

    def compare_stored(self, name, lines):
        kernels = [*compare.kernels_of(self.system), STORED]
        _, stored = compare.expected(SET / f"{name}.pim", kernels)
        if any(name.startswith(WAYS[way][1]) for way in self.mended):
            stored = []
        self.set[name] = bool(lines), sorted(lines) == sorted(stored)
        self.lines += [f"{name}: {line}" for line in lines if line not in stored]
        self.lines += [f"{name}: not seen: {line}" for line in stored if line not in lines]

    def stormed(self, pim):
        """Judges the stops of the guest's storm, if there was one."""
        if "storm" not in self.found:
            return None
        storm = storms.Storm(pim, self.lines.append)
        try:
            for line in self.found["storm"]:
                storm.take(line)
            storm.end()
        except compare.Fault as fault:
            self.faults += 1
            self.lines.append(f"storm: {fault}")
        return storm

    def rows(self):
        """Returns the cells of its column, by the name of the row."""
        stored = sum(is_stored for _, is_stored in self.set.values())
        rows = {"Debian's version": self.version, "set: as stored": f"{stored} of {len(self.set)}"}
        for way, (_, begin) in WAYS.items():
            shown = [it for name, (it, _) in self.set.items() if name.startswith(begin)]
            rows[f"way {way}: texts that show it"] = f"{sum(shown)} of {len(shown)}"
        rows["random: differ"] = f"{self.differ} of {self.random}"
        for cause in [*HABITS, "unexplained"]:
            way = next((f", way {way}" for way, (habit, _) in WAYS.items() if habit == cause), "")
            rows[f"... by {cause}{way}"] = str(self.causes[cause])
        return rows | self.waits() | self.storm_rows() | self.run_rows()

    def waits(self):
        """What the page's programs say: how long a thread waited, and how long without the way."""
        rows = {}
        for name in [it for it in self.found if it.startswith("program ")]:
            waits = re.findall(r" waited (\d+) ms ", "\n".join(self.found[name]))
            rows[f"{name.split()[1]}, ms (without)"] = "{} ({})".format(*waits, "-", "-")
        return rows

    def storm_rows(self):
        if not self.storm:
            return {}
        return {"storm: stops": str(self.storm.stop),
                "... with a wrong priority": str(self.storm.wrong_stops),
                "... threads above, below": f"{self.storm.above}, {self.storm.below}"}

    def run_rows(self):
        """What --run's command ended with. A status but 0 has a line of the guest."""
        if "run" not in self.found:
            return {}
        ends = re.findall(r"^it ended with status (\d+)$", "\n".join(self.found["run"][-1:]), re.M)
        return {"the command's status": ends[0] if ends else "0"}

    def status(self):
        """Returns 0 if all is as it is known, 1 if not, 2 if something couldn't be compared."""
        is_known = all(is_stored for _, is_stored in self.set.values())
        is_explained = not self.causes["unexplained"]
        is_right = not self.storm or not self.storm.wrong_stops or len(self.mended) < len(WAYS)
        is_right &= all(cell == "0" for cell in self.run_rows().values())
        return 2 if self.faults else 0 if is_known and is_explained and is_right else 1


def print_table(results):
    """Prints a column for each kernel, and behind it a line for each difference."""
    columns = [result.rows() for result in results]
    names = list(dict.fromkeys(name for column in columns for name in column))
    lines = [["kernel", *(result.release for result in results)]]
    lines += [[name, *(column.get(name, "-") for column in columns)] for name in names]
    widths = [max(map(len, cells)) for cells in zip(*lines)]
    rows = [f"| {' | '.join(map(str.ljust, cells, widths))} |" for cells in lines]
    rows.insert(1, f"|{'|'.join('-' * (width + 2) for width in widths)}|")
    print("\n".join(rows))
    for result in results:
        said = [f"the command says: {line}" for line in result.found.get("run", [])]
        said += [f"the trace says: {line}" for line in result.found.get("trace", [])]
        said += [f"the kernel says: {line}" for line in result.found.get("messages", [])]
        for line in result.lines + said:
            print(f"{result.release}: {line}")
