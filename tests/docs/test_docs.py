"""Compares the pages with the files, and with each other.

The pages are those at the top and in its folders, as docs/.
"""
import pathlib
import re
import sys
import tempfile

from tests.cases import Case
from tests.shared.checks import ROOT, answer

sys.path.append(str(ROOT / "packaging"))
import programs
import version

PAGES = [*sorted(ROOT.glob("*.md")), *sorted(ROOT.glob("[!.]*/*.md")),
         *sorted(ROOT.glob("linux/mended/*.md"))]
# A name that several crates have is that of pim_base.
SPECS = {path.name: path.read_text()
         for path in sorted(ROOT.glob("crates/*/specs/*.antt"), key=lambda path: "pim_base" in path.parts)}
CODE = re.compile(r"^( {4}|```)")


def prose(page):
    """Returns the lines of a page but for its code."""
    inside, lines = False, []
    for line in page.read_text().splitlines():
        inside ^= line.startswith("```")
        if not inside and not CODE.match(line):
            lines.append(line)
    return lines


def anchors(page):
    """Returns the anchors of a page's headings, as a forge makes them."""
    titles = [line.lstrip("#").strip() for line in prose(page) if line.startswith("#")]
    return {re.sub(r"[^\w\- ]", "", title.lower()).replace(" ", "-") for title in titles}


def commands():
    """Returns the commands of README and TEXT.md, each with the output that is shown below it."""
    found = []
    lines = [line for name in ("README.md", "docs/TEXT.md") for line in [*(ROOT / name).read_text().splitlines(), ""]]
    for line in lines:
        if re.match(r"(    |)\$ ", line):
            found.append([line, line.partition("$ ")[2], ""])
        elif found and (line.startswith("```") or not line.startswith(found[-1][0].partition("$ ")[0])):
            found.append(["", "", ""])
        elif found:
            found[-1][2] += line[len(found[-1][0].partition("$ ")[0]):] + "\n"
    return [(command, text) for _, command, text in found if command]


def targets(page):
    """Returns where the links of a page lead."""
    return re.findall(r"\]\(([^)]+)\)", "\n".join(prose(page)))


def help_of(command):
    """Returns what --help of a command prints, or the text of it that its code has."""
    if "/" not in command:
        return (ROOT / "launcher/help" / command).read_text()
    if command.endswith("pim-facts"):
        return (ROOT / "record/facts/facts.c").read_text().replace('\\n"', "").replace('    "', "")
    return answer([ROOT / command, "--help"])[1].decode()


def missing_names(files, contracts, text):
    """Returns the names that a text has in a file, or as clauses of a function, which aren't there."""
    missing = []
    for place, listed in re.findall(r"`([\w./]+)`(?:: | \()(`\w+`(?:(?:,| and)\s`\w+`)*)", text):
        has = "\n".join(body for path, body in files.items() if path.endswith("/" + place))
        for name in re.findall(r"`(\w+)`", listed):
            there = re.search(rf"\b{name}\b", has) if "." in place else f"ensures {name} " in contracts.get(place, "")
            missing += [] if there else [f"{place}: {name}"]
    for name, place in re.findall(r"\| `(\w+)(?: [^`]*)?` (?:in|\|) `([\w/]+\.(?:rt|antt))` \|", text):
        has = "\n".join(body for path, body in files.items() if path.endswith("/" + place))
        if not re.search(rf"\b(pub|record|struct|fn|trait|enum) {name}\b", has):
            missing.append(f"{place}: {name}")
    return missing


class Pages(Case):
    def test_the_lines_of_CONTRACTS_are_those_of_the_tests(self):
        source = (ROOT / "crates/pim_tool_tests/src/library.rt").read_text()
        lines = source[source.index("\nghost use ") + 1:source.index("\n#[cfg(test)]")].rstrip()
        shown = re.search(r"```rust\n(.*?)\n```", (ROOT / "docs/CONTRACTS.md").read_text(), re.S)
        self.assertEqual(shown and shown[1], lines)

    def test_examples_are_shown_as_they_are(self):
        """Compares what the README shows of an example with its file, and a verdict with the length of its script.

        tests/picture compares a picture.
        """
        reports = 0
        for command, text in commands():
            named = re.search(r"examples/(\w+)\.(pim|script)", command)
            if not named or not text or "pim-picture" in command:
                continue
            file = ROOT / "examples" / f"{named[1]}.{named[2]}"
            if "pim check" in command:
                # Each step is an entry, and each task's release.
                lines = file.read_text().splitlines()
                wanted = f"accepted {sum(line[0].isdigit() or line.startswith('task') for line in lines)}\n"
            else:
                shows_report = not command.startswith("cat ")
                wanted = (file.with_suffix(".report") if shows_report else file).read_text()
                reports += shows_report
            self.equal(f"the lines of {command}", (text,), (wanted,))
        self.assertTrue(reports, "no command of the README has a report below it")

    def test_lines_of_late_c_that_pages_name_call_its_mutex(self):
        """A line of examples/late.c that a page names, as `late.c:37`, calls a function of POSIX threads."""
        source, wrong = (ROOT / "examples/late.c").read_text().splitlines(), []
        for page in PAGES:
            for number in map(int, re.findall(r"\blate\.c:(\d+)", page.read_text())):
                if not 0 < number <= len(source) or "pthread_mutex_" not in source[number - 1]:
                    wrong.append(f"{page.name}: {number}")
        self.assertEqual(wrong, [])

    def test_links_lead_somewhere(self):
        wrong = []
        for page in PAGES:
            for target in targets(page):
                if target.startswith("https://"):
                    continue
                path, _, anchor = target.partition("#")
                file = (page.parent / path).resolve() if path else page
                if not file.exists() or (anchor and anchor not in anchors(file)):
                    wrong.append(f"{page.name}: {target}")
        self.assertEqual(wrong, [])

    def test_links_of_a_release_lead_somewhere(self):
        """The pages of a release have all links to files that are there, and no others."""
        with tempfile.TemporaryDirectory() as name:
            folder = pathlib.Path(name)
            programs.copy_tracked(folder)
            wrong, count = [], 0
            for page in sorted(folder.rglob("*.md")):
                own = ROOT / page.relative_to(folder)
                had, has = (targets(it) for it in (own, page))
                wanted = [it for it in had if (page.parent / it.partition("#")[0]).exists() or "//" in it]
                count += len(has)
                if has != wanted:
                    wrong.append(f"{page.relative_to(folder)}: {sorted(set(has) ^ set(wanted))}")
            self.assertTrue(count, "no page has a link")
            self.assertEqual(wrong, [])

    def test_exit_statuses_are_those_of_help(self):
        """The exit statuses of a command on COMMANDS.md are those that its help names."""
        wrong, numbers = [], re.compile(r"\b(\d+)\b(?! us)")
        rows = re.findall(r"(?m)^\| `([\w/-]+)` \|.*\| (.*) \|$", (ROOT / "docs/COMMANDS.md").read_text())
        for command, cell in rows:
            said = re.search(r"(?s)[Ss]tatus: (.*?)(?:\n\n|;\n|$)", help_of(command))
            if not said or set(numbers.findall(cell)) != set(numbers.findall(said[1])):
                wrong.append(command)
        self.assertTrue(rows, "no command is listed")
        self.assertEqual(wrong, [])

    def test_tables_are_complete(self):
        """A table begins with a heading and a line of dashes, and each of its rows has as many cells."""
        wrong = []
        for page in PAGES:
            cells, above = 0, False
            lines = page.read_text().splitlines()
            for number, line in enumerate(lines, 1):
                if line.startswith("|"):
                    count = len(re.findall(r"(?<!\\)\|", line))
                    begins = number < len(lines) and re.fullmatch(r"[|-]+", lines[number])
                    if count != (cells if above else count) or not (above or begins):
                        wrong.append(f"{page.name}:{number}")
                    cells = count
                above = line.startswith("|")
        self.assertEqual(wrong, [])

    def test_paths_are_there(self):
        """A path begins at the top, at crates/, in a crate, or at the page; a name alone is that of some file."""
        files = {path.relative_to(ROOT) for path in ROOT.glob("**/*") if "out" not in path.parts}
        names = {path.name for path in files}
        ends = {"/".join(path.parts[skip:]) for path in files for skip in (0, 1, 2)} | names
        wrong = []
        for page in PAGES:
            for path in re.findall(r"`([\w./-]+\.(?:rt|antt|md|txt|py|cpp)|[a-z_]+/[\w/]+)`", "\n".join(prose(page))):
                if "NAME" not in path and path.rstrip("/") not in ends and not (page.parent / path).exists():
                    wrong.append(f"{page.name}: {path}")
        self.assertEqual(wrong, [])

    def test_crates_are_those_of_ARCHITECTURE(self):
        """Each crate of crates.txt is a row of ARCHITECTURE's layout, and each row is a crate. NAME_tests is in NAME's row."""
        listed = set(re.findall(r"^(\w+)[^:\n#]*:", (ROOT / "crates.txt").read_text(), re.M))
        listed -= {f"{name}_tests" for name in listed}
        page = (ROOT / "docs/ARCHITECTURE.md").read_text()
        layout = re.search(r"(?m)^    pim_base  .*\n(?:    .*\n)+", page)
        rows = re.findall(r"(?m)^    (\w+)  ", layout[0] if layout else "")
        wrong = sorted(listed ^ set(rows)) + [name for name in rows if not (ROOT / "crates" / name / "src").is_dir()]
        self.assertEqual(wrong, [])

    def test_definitions_are_in_the_files_that_headings_name(self):
        """A heading names files of definitions; the first word of each row below it is defined in one of them."""
        wrong, specs = [], ""
        for page in (ROOT / "docs/DEFINITIONS.md", ROOT / "docs/TEXT.md"):
            for line in page.read_text().splitlines():
                if line.startswith("## "):
                    specs = "\n".join(SPECS.get(name, "") for name in re.findall(r"`(\w+\.antt)`", line))
                row = re.match(r"(?:\| `|    )([a-z]\w*_\w+|[A-Z][a-z]+[A-Z]\w+)\b", line)
                defined = row and rf"^(abbrev |unfoldable )?pub (record )?{row[1]}\b"
                if row and specs and not re.search(defined, specs, re.M):
                    wrong.append(f"{page.name}: {row[1]}")
        self.assertEqual(wrong, [])

    def test_what_is_named_in_a_file_or_a_contract_is_there(self):
        """`FILE`: `name`, or `FILE` (`name`): words of the file; `name` in `FILE`, or beside it in a table: defined there;
        `function`: `clause`: clauses of its contract."""
        places = [path for path in ROOT.glob("crates/*/*/*") if path.suffix in (".rt", ".antt")]
        files = {path.as_posix(): path.read_text() for path in [*places, *ROOT.glob("bench/*.*")]}
        contracts = {}
        for text in files.values():
            for function, contract in re.findall(r"\bfn (\w+)(.*?)\n\s*\{\n", text, re.S):
                contracts[function] = contracts.get(function, "") + contract
        wrong = []
        for page in PAGES:
            wrong += [f"{page.name}: {it}" for it in missing_names(files, contracts, "\n".join(prose(page)))]
        self.assertEqual(wrong, [])

    def test_edits_of_mutations_can_be_applied(self):
        """Each text that an edit of tests/mutations replaces is once in its file. CI tries none of them.

        A line names the crates whose edits are due. It is no check: they are tried before a release.
        """
        wrong = []
        for edit in sorted(ROOT.glob("tests/mutations/*/*.edit")):
            file = None
            for line in edit.read_text().splitlines():
                word, _, text = line.partition(": ")
                if word == "file":
                    file = ROOT / "crates" / edit.parent.name / text
                elif word == "old" and not (file.exists() and file.read_text().count(text) == 1):
                    wrong.append(f"{edit.parent.name}/{edit.stem}")
        self.assertEqual(wrong, [])
        _, due, _ = answer([ROOT / "tests/tools/mutate", "--due"])
        if due:
            print(f"note: './test mutations' is due for {due.decode()}", end="", flush=True)

    def test_the_version_is_that_of_VERSION(self):
        self.assertEqual(version.disagreeing(), [])
