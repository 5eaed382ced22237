"""What the tests of conform/ and linux/ share: checks of values, the performer, scripts that stand for programs."""
import contextlib
import importlib.machinery
import importlib.util
import io
import os
import pathlib
import platform
import sys

from tests.cases import Case
from tests.shared.checks import ROOT, difference, made

sys.path.insert(0, str(ROOT / "conform"))
import compare

SET = ROOT / "conform/set"


def setUpModule():
    """Builds the performer, without a warning."""
    made("conform", "CFLAGS=-O2 -Werror")


class ConformCase(Case):
    @property
    def folder(self):
        return pathlib.Path(super().folder)

    def same(self, name, got, *wanted):
        """Checks a value, or several of a tuple."""
        self.check(name, difference(got if isinstance(got, tuple) else (got,), wanted))


def is_known():
    """Whether the expected differences of this kernel are there."""
    return bool(list(SET.glob(f"kernel_*.{compare.kernel_of(f'Linux {platform.release()}')}")))


def last_cpu():
    return max(os.sched_getaffinity(0))


def fault_of(call, *arguments):
    """Returns the message of the fault that a call raises, and its status, or what it returns."""
    try:
        return call(*arguments)
    except compare.Fault as fault:
        return str(fault), fault.status


@contextlib.contextmanager
def changed(module, **values):
    """Gives a module other values for a while."""
    kept = {name: getattr(module, name) for name in values}
    vars(module).update(values)
    try:
        yield
    finally:
        vars(module).update(kept)


def script(folder, name, *lines):
    path = folder / name
    path.write_text("\n".join(["#!/bin/sh", *lines, ""]))
    path.chmod(0o755)
    return path


def script_module(name="conform/pim-conform"):
    """Returns a script as a module."""
    sys.dont_write_bytecode = True
    stem = name.rpartition("/")[2].replace("-", "_")
    loader = importlib.machinery.SourceFileLoader(stem, str(ROOT / name))
    made = importlib.util.module_from_spec(importlib.util.spec_from_loader(loader.name, loader))
    loader.exec_module(made)
    return made


def parsed_as(module, *words):
    """Returns the options as they are parsed, or the status and the last line of what is said."""
    said = io.StringIO()
    with changed(sys, argv=["script", *words]), contextlib.redirect_stderr(said):
        try:
            return vars(module.parsed())
        except SystemExit as fault:
            return fault.code, said.getvalue().splitlines()[-1].partition(": error: ")[2]
