"""What each test case has: checks with names, and a folder that is gone at its end."""
import tempfile
import unittest

from tests.shared.checks import difference


class Case(unittest.TestCase):
    """A test case whose checks are subtests: one that fails stops no other, and has a name."""

    def check(self, name, why=None):
        """Makes a check, which fails if there is a reason why."""
        with self.subTest(name):
            if why:
                self.fail(why)

    def equal(self, name, got, wanted):
        """Checks that two tuples are equal, and reports the first difference."""
        self.check(name, difference(got, wanted))

    def skip(self, name, why):
        """Names a check that can't be made on this machine, or now."""
        with self.subTest(name):
            self.skipTest(why)

    @property
    def folder(self):
        """The path of a folder of the test's own."""
        if not hasattr(self, "_folder"):
            self._folder = temporary_folder(self.addCleanup)
        return self._folder


def temporary_folder(add_cleanup):
    """Returns the path of a new folder, which is removed by the cleanup."""
    folder = tempfile.TemporaryDirectory()
    add_cleanup(folder.cleanup)
    return folder.name
