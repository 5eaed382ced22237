"""The page PROOFS.md: what was proved of what was built, what that means, and what is trusted."""
import re
import time

from files import ROOT, Fault, filled, run, sum_of
from programs import glibc_of

# What users have of a crate and of those that it stands on.
TOPS = {
    "pim": ["pim"],
    "pim_findings": ["pim-findings"],
    "pim_c": ["libpim", "the page"],
    "pim_web": ["the page"],
}
PROVED = re.compile(r"^logic=proved\b.* functions=(\d+)", re.M)
# What the gate's last line must be.
PASSED = re.compile(r"[1-9]\d* passed, 0 failed")
DRAFT = "This is a draft, and no release: the output of the proof gate wasn't given."


def crates():
    return re.findall(r"^(\w+)[^:\n#]*:", (ROOT / "crates.txt").read_text(), re.M)


class Gate:
    """What `rt ci` printed, or nothing for a draft."""

    def __init__(self, path):
        self.text = path.read_text(errors="replace") if path else ""
        self.last = self.text.rstrip().rpartition("\n")[2]
        sections = re.split(r"^== ", self.text, flags=re.M)[1:]
        self.sections = dict(section.split("\n", 1) for section in sections)
        if path and not PASSED.fullmatch(self.last):
            raise Fault(f"the gate that wrote {path} didn't pass: it ended with '{self.last}'")
        for crate in crates() if path else ():
            if not re.search(rf"^rt: {crate} (proved$|is kept\b)", self.text, re.M):
                raise Fault(f"{path} doesn't say that {crate} is proved")

    def functions(self, crate):
        """Returns how many functions of a crate were proved, or None if that isn't known.

        The gate counts what it proves, and not what it kept of an earlier run. launcher/build
        keeps the prover's line.
        """
        kept = ROOT / "crates" / crate / "out/rlib/statements/verdict"
        found = PROVED.findall(self.sections.get(crate, ""))
        if not found and kept.exists():
            found = PROVED.findall(kept.read_text())
        return int(found[-1]) if found else None


def inside():
    """Returns what each crate is in, if it is in anything that users have."""
    found = {}
    for top, names in TOPS.items():
        for crate in run(ROOT / "launcher/crates", top).split():
            found.setdefault(crate, {}).update(dict.fromkeys(names))
    return found


def page(built, release):
    """Returns the page, with a row for each file that was built, by its name."""
    gate, used, rows, uncounted = release.gate, inside(), [], []
    for crate in filter(used.get, crates()):
        functions = gate.functions(crate)
        rows.append(f"| {crate} | {functions or ''} | {', '.join(used[crate])} |")
        uncounted += [] if functions else [crate]
    files = [f"| {it} | {glibc_of(path) or ''} | {sum_of(path)} |" for it, path in built.items()]
    names = {
        "VERSION": release.version,
        "COMMIT": release.commit,
        "DATE": time.strftime("%Y-%m-%d", time.gmtime(release.epoch)),
        "TOOLCHAIN": run("rt", "version").strip(),
        "STATUS": "" if gate.text else f"\n{DRAFT}",
        "CI": gate.last or "(not given)",
        "CRATES": "\n".join(rows),
        "OTHERS": ", ".join(crate for crate in crates() if crate not in used),
        "UNCOUNTED": f"Not counted: {', '.join(uncounted)}." if uncounted else "",
        "FILES": "\n".join(files),
    }
    return filled((ROOT / "packaging/PROOFS.md.in").read_text(), **names)
