"""./release, and what it makes, in a root of Debian that is made for it.

Makes a draft of a release twice, in two folders, and compares all bytes; or tries the files of the folder RELEASE, an
environment variable. Makes roots of Debian, of this machine's and of Debian 11, that have neither a compiler nor the
toolchain. There the archive of the programs runs from any folder, and the package is installed, upgraded and removed
without a trace. The programs judge, report, draw and compare as the repository's do. In roots that have gcc and CMake,
programs link libpim from its archive and from its packages. Here, libpim is assembled for each CPU, and has the code of
the library that rt built.
"""
import os
import pathlib
import shutil
import subprocess
import unittest

from tests.cases import Case, temporary_folder
from tests.release import library
from tests.release import programs
from tests.shared.checks import ROOT, difference
from tests.release.root import Root, said, suite

NEEDED = ("rt", "dpkg-deb", "xz")
# What the last line of a gate that passed may be.
PASSED = "1 passed, 0 failed\n"
# The oldest Debian whose glibc the programs need.
OLDEST = "bullseye"
COMPILERS = ["gcc", "libc6-dev", "make", "cmake", "pkg-config"]
# The folder of the files to try, if it is given.
GIVEN = os.environ.get("RELEASE")


def setUpModule():
    lacking = [tool for tool in NEEDED if not shutil.which(tool)]
    if why := Root.lacking() or (f"there is no {lacking[0]}" if lacking else None):
        raise unittest.SkipTest(why)


def release(repository, *words):
    """Returns the status of ./release in a repository, and what it said of a fault."""
    done = subprocess.run([repository / "release", *words], capture_output=True, text=True)
    return done.returncode, done.stderr


def copied(to):
    """Copies the repository with its programs, and without what only a proof reads."""
    left_out = ("*.rlib", "incremental", "*.by-rattle*", "target", "./out")
    words = ["--format=posix", *(f"--exclude={name}" for name in left_out), "-C", ROOT]
    to.mkdir()
    packed = subprocess.Popen(["tar", *words, "-cf", "-", "."], stdout=subprocess.PIPE)
    subprocess.run(["tar", "-C", to, "-xf", "-"], stdin=packed.stdout, check=True)
    if packed.wait():
        raise OSError("the repository couldn't be copied")


def difference_and(text, got, wanted):
    """Returns the first difference of two tuples, with what was printed, or None if they are equal."""
    why = difference(got, wanted)
    return why and f"{why}: {said(text)}"


class Release(Case):
    @classmethod
    def setUpClass(cls):
        """Finds the files, or makes a draft of them."""
        cls.work = pathlib.Path(temporary_folder(cls.addClassCleanup))
        cls.files = pathlib.Path(GIVEN).resolve() if GIVEN else cls.work / "release"
        if not GIVEN:
            status, fault = release(ROOT, "--draft", "--output", cls.files)
            if status:
                raise OSError(f"no release is made: status {status}: {said(fault)}")

    def test_a_release_that_is_made_in_another_folder_has_the_same_bytes(self):
        if GIVEN:
            self.skipTest("RELEASE has the files, so none are made")
        copy, again = self.work / "copy", self.work / "again"
        copied(copy)
        self.addCleanup(shutil.rmtree, copy)
        status, fault = release(copy, "--draft", "--output", again)
        self.assertEqual(status, 0, said(fault))
        names, others = (sorted(path.name for path in it.iterdir()) for it in (self.files, again))
        self.assertEqual(others, names)
        differing = [it for it in names if (self.files / it).read_bytes() != (again / it).read_bytes()]
        self.assertEqual(differing, [])
        self.refuses(copy)

    def refuses(self, repository):
        """./release says what it lacks, and removes no files but those of a release."""
        full, passed, failed = (self.work / name for name in ("full", "passed", "failed"))
        full.mkdir()
        (full / "own").write_text("own\n")
        passed.write_text(PASSED)
        failed.write_text(f"rt: pim proved\n{PASSED}1 passed, 1 failed\n")
        subprocess.run(["git", "-C", repository, "checkout", "-q", "--", "."], check=True)
        subprocess.run(["git", "-C", repository, "clean", "-q", "-d", "-f"], check=True)
        cases = {
            "the gate's output": ((), "what did the proof gate say?"),
            "a gate that failed": (("--ci", failed), "'1 passed, 1 failed'"),
            "a gate that proved nothing": (("--ci", passed), "doesn't say that pim_base is proved"),
            "a folder with other files": (("--draft", "--output", full), "it stays as it is"),
            "changes": (("--ci", passed), "no commit has these changes"),
        }
        for name, (words, wanted) in cases.items():
            if name == "changes":
                (repository / "README.md").write_text("changed\n")
            status, fault = release(repository, *words)
            got = (status, wanted in fault, (full / "own").exists())
            self.check(f"./release refuses: {name}", difference_and(fault, got, (2, True, True)))

    def test_SHA256SUMS_lists_all_six_files(self):
        words = ["sha256sum", "--strict", "-c", "SHA256SUMS"]
        done = subprocess.run(words, cwd=self.files, capture_output=True, text=True)
        listed = sorted(line.partition(": ")[0] for line in done.stdout.splitlines())
        wanted = sorted(path.name for path in self.files.iterdir() if path.name != "SHA256SUMS")
        self.assertEqual((done.returncode, listed, len(wanted)), (0, wanted, 6))

    def test_lintian_has_no_error(self):
        if not shutil.which("lintian"):
            self.skipTest("lintian isn't installed")
        words = ["lintian", "--fail-on", "error", *sorted(self.files.glob("*.deb"))]
        environment = {**os.environ, "LC_ALL": "C.UTF-8"}
        done = subprocess.run(words, capture_output=True, text=True, env=environment)
        errors = [line for line in done.stdout.splitlines() if line.startswith("E:")]
        self.assertEqual((done.returncode, errors), (0, []), said(done.stderr))

    def test_the_programs_need_no_later_glibc_than_debian_11_has(self):
        programs.needs_old_glibc(self, self.files, pathlib.Path(self.folder))

    def test_libpim_is_assembled_and_runs_for_each_cpu(self):
        library.here(self, self.files, pathlib.Path(self.folder))

    def root(self, packages, debian):
        """Returns a root with these packages, and skips the test if none can be made."""
        root = Root.made(pathlib.Path(self.folder) / debian, packages, debian)
        if isinstance(root, str):
            self.skipTest(root)
        return root

    def test_the_programs_in_a_root_of_this_debian(self):
        root = self.root(["python3", "xz-utils"], suite())
        programs.archive(self, root, self.files)
        programs.package(self, root, self.files, pathlib.Path(self.folder))

    def test_the_programs_in_a_root_of_debian_11(self):
        if suite() == OLDEST:
            self.skipTest("this machine has Debian 11")
        programs.oldest(self, self.root(["python3", "xz-utils"], OLDEST), self.files)

    def libpim_in(self, debian):
        root = self.root(COMPILERS, debian)
        library.archive(self, root, self.files, debian)
        library.packages(self, root, self.files, pathlib.Path(self.folder), debian)

    def test_libpim_in_a_root_of_this_debian(self):
        self.libpim_in(suite())

    def test_libpim_in_a_root_of_debian_11(self):
        if suite() == OLDEST:
            self.skipTest("this machine has Debian 11")
        self.libpim_in(OLDEST)
