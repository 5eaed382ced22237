#!/usr/bin/env python3
"""The version. The file VERSION has it, and the places below repeat it.

    packaging/version.py         prints VERSION, and each place that says otherwise
    packaging/version.py 1.2.3   writes this version to VERSION and to all places

The launchers, c/Makefile and ./release read VERSION. A crate can't: its version is in its code, so
a new version has it proved again. tests/docs checks the places. The status is 1 if a place
disagrees, and 2 for wrong arguments.
"""
import pathlib
import re
import sys

ROOT = pathlib.Path(__file__).resolve().parent.parent
FILE = ROOT / "VERSION"
# A file, and what is there once. For version 1.2.3, {major} is 1, {minor} 2, {patch} 3, {series} 1.2
# and {number} 10203.
PLACES = [
    ("crates/pim_tool/src/command_line.rt", '.version("{version}")'),
    ("crates/pim_findings/src/command_line.rt", '.version("{version}")'),
    ("crates/pim_tool_tests/src/command_words.rt", r'"pim {version}\n"'),
    ("crates/pim_c/src/version.rt", "the version {version} as one number"),
    ("crates/pim_c/src/version.rt", "ensures {{ result ≡ {number} }}"),
    ("crates/pim_c/src/version.rt", "{{\n    {number}\n}}"),
    ("c/pim.h", "#define PIM_VERSION_MAJOR {major}\n"),
    ("c/pim.h", "#define PIM_VERSION_MINOR {minor}\n"),
    ("c/pim.h", "#define PIM_VERSION_PATCH {patch}\n"),
    ("c/pim.h", '#define PIM_VERSION "{version}"'),
    ("c/rust/Cargo.toml", '\nversion = "{version}"\n'),
    ("c/README.md", "`libpim.so.{series}`"),
]


def spelled(template, version):
    """Returns what a place says of a version."""
    major, minor, patch = parts(version)
    number, series = 10000 * major + 100 * minor + patch, f"{major}.{minor}"
    names = {"version": version, "major": major, "minor": minor, "patch": patch}
    return template.format(**names, series=series, number=number)


def any_version(template):
    """Returns the pattern of what a place says of any version."""
    fixed = re.split(r"\{(?:version|series|major|minor|patch|number)\}", template)
    return r"\d+(?:\.\d+)*".join(re.escape(part.format()) for part in fixed)


def current():
    return FILE.read_text().strip()


def announced():
    """Returns the version with which the changelog begins: VERSION, or a later one."""
    return re.match(r"# Changelog\n\n## ([\d.]+)\n", (ROOT / "CHANGELOG.md").read_text())[1]


def parts(version):
    return [int(part) for part in version.split(".")]


def disagreeing():
    """Returns the files in which a place doesn't say VERSION once, with what should be there."""
    wrong = []
    for file, template in PLACES:
        wanted = spelled(template, current())
        if re.findall(any_version(template), (ROOT / file).read_text()) != [wanted]:
            wrong.append(f"{file}: {' '.join(wanted.split())}")
    if parts(announced()) < parts(current()):
        wrong.append(f"CHANGELOG.md: a section {current()}")
    return wrong


def put(version):
    FILE.write_text(version + "\n")
    for file, template in PLACES:
        text, wanted = (ROOT / file).read_text(), spelled(template, version)
        (ROOT / file).write_text(re.sub(any_version(template), lambda _: wanted, text))


def main():
    given = sys.argv[1:]
    if given in (["-h"], ["--help"]):
        return print(__doc__, end="")
    if len(given) > 1 or not all(re.fullmatch(r"\d+\.\d\d?\.\d\d?", word) for word in given):
        print(__doc__, end="", file=sys.stderr)
        return 2
    if given:
        put(given[0])
    wrong = disagreeing()
    print(current(), *wrong, sep="\n")
    return 1 if wrong else 0


if __name__ == "__main__":
    sys.exit(main())
