"""The texts of suite/ and examples/, with what each implementation must answer."""
import re

from tests.shared.checks import ROOT

SUITE, EXAMPLES = ROOT / "suite", ROOT / "examples"


def files(folder, kind):
    return {path.stem: path for path in sorted(folder.glob(f"*.{kind}"))}


def traces():
    """Returns the name of each trace with its text, and the status and the outputs that it must have."""
    found = {}
    for name, path in {**files(SUITE / "traces", "pim"), **files(EXAMPLES, "pim")}.items():
        report = path.with_suffix(".report").read_bytes()
        status = 1 if b"rejected " in report.splitlines()[-1] else 0
        found[name] = (path.read_bytes(), (status, report, b""))
    return found


def invalid(kind):
    """Returns the name of each invalid text of this kind with its text, and the status and the outputs that it has."""
    return {name: (path.read_bytes(), (2, b"", path.with_suffix(".error").read_bytes()))
            for name, path in files(SUITE / "invalid", kind).items()}


def explained(kind):
    """Returns each invalid text of this kind for which suite/ says why, with what --explain must give."""
    found = {name: (text, (2, b"", fault + (SUITE / "invalid" / f"{name}.why").read_bytes()))
             for name, (text, (_, _, fault)) in invalid(kind).items() if (SUITE / "invalid" / f"{name}.why").exists()}
    if kind == "pim":
        why = b"pim: line 65538\npim: line 65538: a text has at most 65536 steps\n"
        found["65537_steps"] = (b"pim 1\n" + b"1 release\n" * 65_537, (2, b"", why))
    return found


def scripts():
    """Returns the name of each script with its text, and its trace, None if that depends on the schedule."""
    found = {}
    for name, path in {**files(SUITE / "scripts", "script"), **files(EXAMPLES, "script")}.items():
        trace = path.with_suffix(".trace")
        found[name] = (path.read_bytes(), trace.read_bytes() if trace.exists() else None)
    return found


def steps_of_run(script):
    """Returns how many steps a run of a script has: those of its lines, and a release for each task."""
    return len(re.findall(rb"^(?:task|[0-9])", script, re.M))


def accepted(script):
    return b"accepted %d\n" % steps_of_run(script)


def runs_of_scripts():
    """Returns the trace of each script that has one, and that it must be accepted."""
    return {name: (trace, (0, accepted(script), b"")) for name, (script, trace) in scripts().items() if trace}
