"""The parts of ./test: what each is about, what is needed by one at a time, and what is built before."""

PARTS = {
    "suite": "the texts of suite/ and examples/ on every implementation, as they must be answered",
    "program": "the program as a user meets it, with changed texts, faults, failing allocations, random scripts",
    "c": "libpim, the manager for C, its kernel c/kernel, and both on other CPUs, in qemu",
    "bench": "the scripts and the program that measure, with little of each",
    "launcher": "./pim: what it proves again, what it says, what it installs",
    "facts": "texts of facts and the rows that follow from them, the laws of rows in random texts",
    "record": "the recorder of real programs, its wrapper, its logs and their reader",
    "report": "pim-report: its text, JSON and page of texts of facts",
    "picture": "the pictures of pim-picture, by hand and compared with the report of pim",
    "conform": "the running kernel: traces performed on its mutexes, compared with the reports",
    "linux": "the study of Linux: other kernels, storms, orders of steps, changed sources",
    "web": "the page of web/ and its module of WebAssembly, compared with the program",
    "docs": "that what the pages say of the files is true",
}
# Parts that run only if they are named.
NAMED = {"release": "./release, twice, and what it makes, in a root of Debian; before a release"}
# What modules use that no two can use at the same time. Of real-time threads on one CPU each would delay the others.
ONE_AT_A_TIME = {
    "the crates of libpim": [f"tests.c.test_{name}" for name in ("library", "header", "threads", "arm", "narrow", "kernel")],
    "web/dist": ["tests.suite.test_suite", "tests.web.test_web"],
    "real-time threads, and tracefs": [
        "tests.conform.test_conform", "tests.linux.test_performed", "tests.suite.test_performers", "tests.c.test_threads",
        *(f"tests.record.test_{name}" for name in ("recorder", "kernel", "report", "pid", "terminal", "contended", "last",
                                                   "futex", "lttng"))],
}
# What is built before the modules of these parts start, since several use it.
BUILDS = {
    "pim": ("suite program c bench picture conform linux web report", "echo pim 1 | ./pim check"),
    "pim-findings": ("facts", "echo facts 1 | ./pim-findings"),
    "pim_soak": ("suite program bench", "python3 -c 'from tests.shared.checks import soak; soak()'"),
    "libpim": ("suite c bench", "make -s -C c all pthreads out/freestanding out/steps"),
    "the recorder": ("record", "make -s -C record CFLAGS='-O2 -Werror'"),
    "the performer": ("suite conform linux", "make -s -C conform CFLAGS='-O2 -Werror'"),
    "the page": ("suite web", "web/build"),
}
# In whose place a program is tested that is given by --program.
GIVEN = {"pim", "pim-findings"}
