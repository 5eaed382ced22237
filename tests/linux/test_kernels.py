"""linux/kernels where no kernel is booted.

Shell scripts stand for apt-get and qemu. What a guest prints is made of the stored performances of
the set and of the model's of random texts, or written by hand.
"""
import contextlib
import io
import os
import pathlib
import shutil
import subprocess
import sys
import time
import types

from tests.conform.cases import SET, fault_of, parsed_as, script, script_module
from tests.linux.cases import LINUX, STORED, LinuxCase, first_on_path, guest_output, setUpModule, with_tools
from tests.linux.test_storm import STORM
from tests.shared.checks import SECONDS, answer, program

import compare
import guests
import results

KERNELS, RANDOM = LINUX / "kernels", 30


# ---- guests.py

def members(archive):
    """Returns the members of a cpio archive as (name, mode, device, contents)."""
    at, found = 0, []
    while not found or found[-1][0] != "TRAILER!!!":
        fields = [int(archive[at + 6 + 8 * k:at + 14 + 8 * k], 16) for k in range(13)]
        begin = at + 110
        name = archive[begin:begin + fields[11] - 1].decode()
        begin += fields[11]
        begin += -begin % 4
        found.append((name, fields[1], tuple(fields[9:11]), archive[begin:begin + fields[6]]))
        at = begin + fields[6] + -fields[6] % 4
    return found


def make_package(folder, count):
    """Makes a Debian package, with so many kernels."""
    tree = folder / f"tree{count}"
    for name in ("boot", "DEBIAN"):
        (tree / name).mkdir(parents=True)
    (tree / "DEBIAN/control").write_text("Package: image\nVersion: 1\nArchitecture: all\n"
                                         "Maintainer: a test <a@b>\nDescription: a test\n")
    for number in range(count):
        (tree / f"boot/vmlinuz-{number}").write_text(f"kernel {number}")
    command = ["dpkg-deb", "--build", tree, folder / f"image{count}.deb"]
    subprocess.run(command, check=True, stdout=subprocess.DEVNULL)


# ---- results.py

def texts_and_reports(pim):
    module = script_module("linux/kernels")
    given = types.SimpleNamespace(random=RANDOM, seed=1)
    texts = {name: compare.Text(source) for name, source in module.texts_of(given).items()}
    return texts, {name: compare.reported(pim, text) for name, text in texts.items()}


def table_of(outs, texts, wanted, pim):
    """Returns the statuses, the cells by the name of the row, and the lines behind the table."""
    found = [results.Result(out, texts, wanted, pim) for out in outs]
    with contextlib.redirect_stdout(io.StringIO()) as said:
        results.print_table(found)
    lines = said.getvalue().splitlines()
    rows = [[cell.strip() for cell in line.split(" | ")] for line in lines if line.startswith("| ")]
    rows = {row[0].strip("| "): [cell.strip(" |") for cell in row[1:]] for row in rows}
    return [it.status() for it in found], rows, [line for line in lines if not line.startswith("|")]


# What a guest printed otherwise, and what is said of it: the status, the set's cell, and lines.
SET_LINE = "step 5 '1 base 2 20': task 2 executes at 20, should at 40 (waiter 3 mutex 1)"
HANDED = "4 handed 2\n  task 1 at 10\n5 set\n  task 2 at 20\n"
CHANGES = {
    "an expected difference that isn't seen": (HANDED, HANDED.replace("20", "40"), 1, "33 of 34", [
        f"kernel_toptask: {SET_LINE}".replace("5", "6").replace("20", "21"),
        f"kernel_toptask: not seen: {SET_LINE}"]),
    "another answer": (HANDED, HANDED.replace("handed 2", "freed"), 1, "33 of 34", [
        "kernel_toptask: step 4 '1 unlock 1': the answer is freed, should be handed 2;"
        " later steps aren't compared",
        f"kernel_toptask: not seen: {SET_LINE}"]),
    "a text that was cut": (f"{HANDED}6 set\n", HANDED, 2, "33 of 33", [
        "kernel_toptask: what was performed isn't whole, or is of another text"]),
    "a message of the kernel": ("=== messages\n", "=== messages\nBUG: here\n", 0, "34 of 34", [
        "the kernel says: BUG: here"]),
}


# ---- the command line

# What can't be given together, or isn't in range.
TOGETHER = "give kernels, --build or --from, and --from without --keep, --run, --storm, --trace"
RANGES = "--random is at least 0, --smp from 1 to 8"
TIMES = "--seconds, --storm and --jobs are at least 1"
COUNT = "--count goes with neither --kvm nor --storm"
OF_BUILD = "--mended, --rt, --debug, --config and --objects go with --build"
WRONG = {"": TOGETHER, "a --from f": TOGETHER, "--from f --keep k": TOGETHER,
         "--from f --storm 1": TOGETHER, "--from f --run true": TOGETHER,
         "--from f --trace t": TOGETHER,
         "--build s --from f": TOGETHER, "a --count --kvm": COUNT, "a --count --storm 1": COUNT,
         "a --random -1": RANGES, "a --smp 0": RANGES, "a --smp 9": RANGES, "a --seconds 0": TIMES,
         "a --storm 0": TIMES, "--build s --jobs 0": TIMES, "a --rt": OF_BUILD, "a --debug": OF_BUILD,
         "a --mended 1": OF_BUILD, "a --config c": OF_BUILD, "a --objects o": OF_BUILD,
         **{f"--build s --mended {words}":
            f"argument --mended: '{words}' isn't a list of 1, 2 and 3, as 1,2"
            for words in ("1,4", "12", "1,")}}


class Kernels(LinuxCase):
    def test_the_initramfs(self):
        """The initramfs has the guest's first process, the programs and the texts."""
        program = script(self.folder, "perform", "exit 0")
        archive = guests.gzip.decompress(guests.initramfs([program], {"a": "pim 1\n", "bb": "pim 2\n"}))
        found = {name: rest for name, *rest in members(archive)}
        init, none = (LINUX / "guest/init").read_bytes(), (0, 0)
        wanted = {**{name: [0o40755, none, b""] for name in ("bin", "dev", "texts")},
                  "dev/console": [0o20600, (5, 1), b""], "init": [0o100755, none, init],
                  "bin/perform": [0o100755, none, program.read_bytes()],
                  "texts/a.pim": [0o100644, none, b"pim 1\n"],
                  "texts/bb.pim": [0o100644, none, b"pim 2\n"], "TRAILER!!!": [0, none, b""]}
        self.same("an initramfs", found, wanted)
        self.same("its members begin at multiples of four", len(archive) % 4, 0)

    def test_a_command_in_the_initramfs(self):
        """The initramfs has the program of a command, and its libraries where they are here."""
        program = script(self.folder, "lives", "exit 0")
        library = self.folder / "lib"
        library.write_text("the library")
        script(self.folder, "ldd", f"echo ' vdso.so.1 (0x7)'; echo \" lib => {library} (0x7f)\"")
        with first_on_path(self.folder):
            archive = guests.gzip.decompress(guests.initramfs([], {}, "lives --long 3"))
            got = fault_of(guests.initramfs, [], {}, "gone 3")
        found = [(name, *rest) for name, *rest in members(archive)]
        rest = {name: data for name, _, _, data in found}
        self.same("a command", (rest["run"], rest["bin/lives"]), b"lives --long 3\n", program.read_bytes())
        self.same("its library", rest[str(library)[1:]], b"the library")
        order = [name for name, *_ in found if str(library)[1:].startswith(name)]
        wanted = [str(path)[1:] for path in [*list(library.parents)[-2::-1], library]]
        self.same("the folders of a library come before it", order, wanted)
        self.same("a command that isn't there", got, "there is no program gone", 2)
        with first_on_path(self.folder):
            archive = guests.gzip.decompress(guests.initramfs([program], {}, "lives"))
        self.same("a command of the guest", [name for name, *_ in members(archive)].count("bin/lives"), 1)

    def test_what_a_guest_printed_by_its_parts(self):
        """What a guest printed, by its parts."""
        out = "boot\n=== system\nLinux 6.1.9 #1 SMP\n=== text a\none\n\ntwo\n=== end\n"
        wanted = {"system": ["Linux 6.1.9 #1 SMP"], "text a": ["one", "", "two"], "end": []}
        self.same("the parts", guests.sections(out), wanted)
        self.same("a guest's release", (guests.release_of(out), guests.release_of("")), "6.1.9", "?")

    def test_a_kernel_that_is_a_file(self):
        """A kernel that is a file, and names that are neither a file nor a package."""
        image = self.folder / "image"
        image.write_text("kernel")
        self.same("a file is the kernel", guests.image_of(str(image), self.folder), image)
        for name in ("./gone", "-o", "Linux", "a b"):
            self.same(f"no kernel: {name}", fault_of(guests.image_of, name, self.folder),
                      "there is no such file, and it isn't the name of a package", 2)

    def test_a_package_is_downloaded(self):
        """A package of one kernel is downloaded, and its kernel taken out."""
        if not shutil.which("dpkg-deb"):
            return self.skip("a package is unpacked", "there is no dpkg-deb")
        script(self.folder, "apt-get", f'test "$1 $2" = "download -qq" && cp {self.folder}/$3.deb .')
        several = "it has {} kernels, not one: name the package of one version"
        for count, wanted in {1: "kernel 0", 2: several.format(2), 0: several.format(0)}.items():
            work = self.folder / f"work{count}"
            work.mkdir()
            make_package(self.folder, count)
            with first_on_path(self.folder), contextlib.redirect_stderr(io.StringIO()):
                got = fault_of(guests.image_of, f"image{count}", work)
            self.same(f"a package of {count} kernels", got[0] if count != 1 else got.read_text(), wanted)
            self.check("the package isn't kept", list(work.glob("package")) if count == 1 else None)
        script(self.folder, "apt-get", "echo 'E: no package' >&2; exit 100")
        with first_on_path(self.folder):
            got = fault_of(guests.image_of, "image9", self.folder)
        return self.same("a package that isn't there", got, "apt-get download: E: no package", 2)

    def test_what_a_guest_prints_is_followed(self):
        """What a guest prints is followed, and a guest that takes too long is ended."""
        followed = []
        qemu = script(self.folder, "qemu", "printf 'one\\r\\ntwo\\n'")
        got = guests.booted([qemu], SECONDS, followed.append)
        self.same("a guest's lines", got, "one\ntwo\n", "")
        self.same("each line is followed", followed, ["one", "two"])
        slow = script(self.folder, "slow", "echo begun", "exec sleep 1000")
        began = time.monotonic()
        for seconds in (1, 10, 100):  # until it has begun before its end, as soon as the machine gets to it
            got = guests.booted([slow], seconds, followed.append)
            if got[0]:
                break
        self.same("a guest that takes too long", got, "begun\n", "")
        self.check("it is ended", None if time.monotonic() - began < SECONDS else "it was waited for")
        mute = script(self.folder, "mute", "echo why >&2")
        self.same("a guest that qemu can't boot", guests.booted([mute], SECONDS, print), "", "why")
        console = self.folder / "console"
        self.same("a kernel that is mute", guests.last_line(console), "the kernel said nothing")
        console.write_text("one\npanic \r\n\n")
        self.same("a kernel's last line", guests.last_line(console), "panic")
        command = guests.command_of("image", self.folder, 3, "pim_do=texts more", ["-a", "b"])
        words = [str(it) for it in command]
        for wanted in (["-nic", "none"], ["-a", "b"], ["-smp", "3,sockets=3,cores=1,threads=1"],
                       ["-kernel", "image"], ["-no-reboot"]):
            at = words.index(wanted[0])
            self.same(f"qemu's arguments: {wanted[0]}", words[at:at + len(wanted)], wanted)
        is_last = words[-1].endswith("rdinit=/init pim_do=texts more")
        self.check("qemu's arguments: the guest's", None if is_last else words[-1])

    def test_without_a_tool_the_script_is_skipped(self):
        """Where a tool is missing, the script says which, and is skipped."""
        image = self.folder / "image"
        image.write_text("kernel")
        place = self.folder / "tools"
        place.mkdir()
        script(place, "busybox", ": ld-linux")
        script(place, "cc", "exit 1")
        with first_on_path(self.folder / "none"):
            all_tools = [f"{tool} ({name})" for tool, name in guests.TOOLS.items()]
            self.same("all is missing", guests.missing([str(image)]), all_tools)
            lacks = guests.missing(["linux-image-1"])
            tools = [*all_tools, "apt-get (apt)", "dpkg-deb (dpkg)"]
            self.same("what packages need is missing", lacks, tools)
        with first_on_path(place):
            lacks = guests.missing([str(image)])
        for wanted in ("a static busybox (busybox-static)", "a static libc (libc6-dev)"):
            self.check(f"missing: {wanted}", None if wanted in lacks else str(lacks))
        environment = {**os.environ, "PATH": str(place)}
        status, out, err = answer([sys.executable, KERNELS, image], env=environment)
        is_said = b"it needs qemu-system-x86_64 (qemu-system-x86)" in err
        self.same("without qemu it is skipped", (status, out, is_said), 77, b"", True)

    def test_the_table_of_kernels(self):
        """The table of kernels that do what the model does, with habits and without."""
        texts, wanted = texts_and_reports(program())
        habits = ("stop", "toptask", "pitree", "raise", "leak", "owntry", "queue", "pichain", "tie")
        outs = [guest_output("9.1.2", habits, texts), guest_output("9.2.0-mended123", (), texts)]
        statuses, rows, lines = table_of(outs, texts, wanted, program())
        self.same("a table's kernels", rows["kernel"], ["9.1.2", "9.2.0-mended123"])
        self.same("the versions", rows["Debian's version"], ["9.1.2-1", "9.1.2-1"])
        self.same("the set, and that of a mended kernel", rows["set: as stored"], ["34 of 34", "27 of 34"])
        for way, count in {1: "3 of 3", 2: "2 of 2", 3: "2 of 2"}.items():
            self.same(f"way {way}", rows[f"way {way}: texts that show it"], [count, count])
        differ = int(rows["random: differ"][0].split()[0])
        mended_differ = rows["random: differ"][1]
        self.same("random texts differ", (differ > 3, mended_differ), True, f"0 of {RANDOM}")
        causes = sum(int(row[0]) for name, row in rows.items() if name.startswith("... by "))
        self.same("each has a cause", (causes >= differ, rows["... by unexplained"]), True, ["0", "0"])
        waits = [rows[f"{name}_boost, ms (without)"] for name in ("lost", "stale")]
        self.same("the page's programs", waits, [["405 (5)"] * 2, ["- (-)"] * 2])
        self.same("the statuses", statuses, [0, 1])
        mended = [line for line in lines if line.startswith("9.2.0-mended123: kernel_")]
        self.same("what a mended kernel shows is told", (len(mended), len(lines)), 7, 7)
        for name, (old, new, status, cell, lines) in CHANGES.items():
            out = guest_output("9.1.2", habits, texts, [(old, new)])
            got = table_of([out], texts, wanted, program())
            self.same(f"a table with {name}", (got[0], got[1]["set: as stored"], got[2]), [status], [cell],
                      [f"9.1.2: {line}" for line in lines])

    def test_differences_by_no_known_cause_are_told(self):
        """A random text that differs by no known cause is told, and so is a storm's wrong stop."""
        texts, wanted = texts_and_reports(program())
        texts = {name: text for name, text in texts.items() if name == "random0000"}
        out = guest_output("9.1.2", (), texts, [("\nperformed", "\n  ! task 1 left\nperformed")])
        statuses, rows, lines = table_of([out], texts, wanted, program())
        self.same("an unexplained text", (statuses, rows["... by unexplained"], len(lines)), [1], ["1"], 1)
        for release, status in (("9.1.2", 0), ("9.1.2-mended12", 0), ("9.1.2-mended123", 1)):
            part = f"=== storm\n{STORM}=== messages"
            out = guest_output(release, (), texts, [("=== messages", part)])
            statuses, rows, lines = table_of([out], texts, wanted, program())
            cells = [rows[name] for name in ("storm: stops", "... with a wrong priority",
                                             "... threads above, below")]
            self.same(f"a storm on {release}", (statuses, cells), [status], [["2"], ["1"], ["1, 2"]])
        for said, status in (("one\n", 0), ("two\nit ended with status 3\n", 3)):
            out = guest_output("9.1.2", (), texts, [("=== messages", f"=== run\n{said}=== messages")])
            statuses, rows, lines = table_of([out], texts, wanted, program())
            self.same(f"a command with status {status}", (statuses, rows["the command's status"], lines),
                      [min(status, 1)], [str(status)],
                      [f"9.1.2: the command says: {line}" for line in said.splitlines()])
        part = "=== trace\nstep 1 '1 lock 1'\n => rt_mutex_setprio\n=== messages"
        out = guest_output("9.1.2", (), texts, [("=== messages", part)])
        said = [f"9.1.2: the trace says: {line}" for line in part.splitlines()[1:-1]]
        self.same("a trace", table_of([out], texts, wanted, program())[2], said)
        part = "=== storm\nit ended with status 2\n=== messages"
        out = guest_output("9.1.2", (), texts, [("=== messages", part)])
        self.same("a storm that didn't end", table_of([out], texts, wanted, program())[0], [2])

    def test_the_table_of_a_guest_that_was_booted(self):
        """The table of a guest that was booted, with 20 random texts."""
        command = [KERNELS, "--random", "20", "--pim", program(), "--from", STORED]
        self.same("the table of a stored run", answer(command), 0, (STORED / "kernels.table").read_bytes(), b"")
        said = f"kernels: {SET} has no RELEASE.out, as --keep stores it\n"
        self.same("a folder without a stored run", answer([*command, "--from", SET]), 2, b"", said.encode())

    def test_from_the_command_line_to_the_table(self):
        """A run from the command line to the table, its stored output, and a guest that ends early."""
        if not guests.links_static():
            return self.skip("a run with a guest", "there is no static libc")
        module = script_module("linux/kernels")
        sources = module.texts_of(types.SimpleNamespace(random=2, seed=3))
        texts = {name: compare.Text(source) for name, source in sources.items()}
        (self.folder / "guest").write_text(guest_output("9.1.2", (), texts))
        environment = with_tools(self.folder)
        tools, keep, image = self.folder / "tools", self.folder / "keep", self.folder / "image"
        script(tools, guests.QEMU, f'cat {self.folder}/guest; echo "$*" >> {self.folder}/asked')
        command = [sys.executable, KERNELS, "--random", "2", "--seed", "3", "--pim"]
        command.append(program())
        more = ["--keep", keep, "--storm", "7", "--run", "true", "--append", "some words", image]
        status, out, err = answer([*command, *more], env=environment)
        self.same("a run", (status, b"34 of 34" in out, b"36 of 36 texts" in err), 0, True, True)
        asked = (self.folder / "asked").read_text()
        words = "pim_do=texts,programs,run,storm pim_seconds=7 some words"
        self.check("what the guest is asked for", None if words in asked else asked)
        status, _, err = answer([*command, "--trace", "kernel_gone", image], env=environment)
        said = b"kernels: --trace: there is no text or program kernel_gone\n"
        self.same("a trace of a text that isn't there", (status, err), 2, said)
        for text in ("kernel_stop", "random0001", "regained_boost"):
            answer([*command, "--trace", text, image], env=environment)
            asked = (self.folder / "asked").read_text().splitlines()[-1]
            words = f"pim_do=texts,programs,trace pim_trace={text} "
            self.check(f"a trace of {text} is asked for", None if words in asked else asked)
        self.same("a stored run", answer([*command, "--from", keep]), 0, out, b"")
        (self.folder / "asked").unlink()
        self.same("a run that counts", answer([*command, "--count", image], env=environment)[0], 0)
        asked = (self.folder / "asked").read_text()
        is_counted = "-accel tcg -icount shift=0 " in asked and "-smp 1,sockets=1," in asked
        self.check("the guest's clock counts instructions, on one CPU", None if is_counted else asked)
        status, other, err = answer([*command, image, self.folder / "none"], env=environment)
        self.same("a kernel that isn't there, and one that is", (status, other), 2, out)
        script(tools, guests.QEMU, f"head -n 99 {self.folder}/guest; echo why >&2")
        status, out, err = answer([*command, image, self.folder / "none"], env=environment)
        lines = [line for line in err.decode().splitlines() if line.startswith("kernels: ")]
        self.same("a guest that ends early, and no kernel", (status, out, len(lines)), 2, b"", 2)
        self.same("what is said of it", lines[0].partition(" s, ")[2], "or ended early: why")
        return self.same("nothing is left behind", list((self.folder / "tmp").iterdir()), [])

    def test_a_signal_ends_the_guest(self):
        """A signal ends the guest."""
        if not guests.links_static() or not shutil.which("setpriv"):
            return self.skip("a guest is ended by a signal", "there is no static libc, or no setpriv")
        environment = with_tools(self.folder)
        script(self.folder / "tools", guests.QEMU, f"echo $$ > {self.folder}/begun", "exec sleep 1000")
        return self.ends_by_signals("a guest", environment, self.folder / "image")

    def test_options(self):
        """What linux/kernels takes, and what it doesn't."""
        kernels = script_module("linux/kernels")
        usual = {"kernels": ["a", "b"], "random": 300, "seed": 1, "smp": 2, "append": "", "storm": 5,
                 "keep": None, "stored": None, "kvm": False, "seconds": 1800, "pim": None, "run": None,
                 "count": False, "build": None, "mended": None, "rt": False, "debug": False,
                 "config": None, "jobs": len(os.sched_getaffinity(0)), "objects": None, "trace": None}
        self.same("kernels: what isn't given", parsed_as(kernels, "a", "b", "--storm", "5"), usual)
        got = parsed_as(kernels, "--build", "s", "--mended", "3,1,3", "--rt", "--debug")
        self.same("kernels: a build", [got[name] for name in ("kernels", "build", "mended", "rt", "debug")],
                  [[], pathlib.Path("s"), "13", True, True])
        for words, wanted in WRONG.items():
            self.same(f"kernels: {words or 'nothing'}", parsed_as(kernels, *words.split()), 2, wanted)
        status, out, _ = answer([KERNELS, "--help"])
        self.same("kernels --help", (status, b"linux-image-" in out, b"Status: 0" in out), 0, True, True)
