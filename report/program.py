"""What pim-report and pim-picture share: their name and version, and how they report a fault."""
import argparse
import gc
import os
import pathlib
import signal
import sys

NAME = pathlib.Path(sys.argv[0]).name
ROOTS = pathlib.Path(__file__).resolve().parent, pathlib.Path(__file__).resolve().parent.parent


class Fault(Exception):
    """Why there is no result, in a line."""


def say(text):
    """Writes to standard error. Where that fails, what else is written to it goes nowhere."""
    try:
        sys.stderr.write(text)
        sys.stderr.flush()
    except OSError:
        os.dup2(os.open(os.devnull, os.O_WRONLY), sys.stderr.fileno())


class Parser(argparse.ArgumentParser):
    def error(self, message):
        raise Fault(f"{message}; {self.prog} --help says more")


def version():
    """Returns the version, which is in a file next to the program or above it."""
    found = [root / "VERSION" for root in ROOTS if (root / "VERSION").is_file()]
    return found[0].read_text().strip() if found else "unknown"


def exit_with(answer):
    """Exits with the status that the arguments are answered with, or with 2 after a fault."""
    signal.signal(signal.SIGINT, signal.SIG_DFL)
    gc.disable()  # what is read is kept: looking for garbage would take a third of the time
    sys.stderr = sys.stderr or open(os.devnull, "w")  # it is closed
    status, why = 2, ""
    try:
        status = answer(sys.argv[1:])
    except Fault as fault:
        why = str(fault)
    except MemoryError:
        why = "memory"
    if why:
        say(f"{NAME}: {why}\n")
    sys.exit(status)
