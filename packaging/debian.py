"""Debian's packages kulgyozi, libpim0 and libpim-dev."""
import email.utils
import hashlib
import os
import shutil

import pages
from files import ROOT, copy, filled, fix_modes, highest, run, write, zipped
from programs import COMMANDS, PROGRAMS, SCRIPTS, binaries, glibc_of

# A package's first revision of a version.
REVISION = 1
MAINTAINER = "Kulgyozi maintainers <maintainers@users.noreply.kulgyozi.example>"
# The folders whose files are documents.
DOCUMENTS = ("docs/", "examples/", "web/")
LIBRARIES = "usr/lib/x86_64-linux-gnu"
CONTROL = """\
Package: @PACKAGE@
Version: @VERSION@
Architecture: amd64
Maintainer: @MAINTAINER@
Installed-Size: @KILOBYTES@
Priority: optional
"""
OWN_LINES = {
    "kulgyozi": """\
Section: devel
Depends: libc6 (>= @GLIBC@), python3
Description: judges, records and draws locks with priority inheritance and ceilings
 pim says what each lock and unlock does under the three protocols of POSIX
 mutexes, and agrees with a short model by proof. pim-picture draws it.
 pim-record records the locks of a program, and pim-report says which threads
 less urgent ones held up, and where. pim-conform compares the running kernel.
""",
    "libpim0": """\
Section: libs
Multi-Arch: same
Description: proved manager of mutexes with priority inheritance and ceilings
 A kernel, a thread library or a language's run-time asks libpim about each lock
 and unlock of its mutexes. libpim says who owns a mutex, who waits, and which
 tasks execute at another priority now. Each answer is proved.
 .
 This package has the shared library.
""",
    "libpim-dev": """\
Section: libdevel
Multi-Arch: same
Depends: libpim0 (= @VERSION@)
Description: proved manager of mutexes, headers and static library
 A kernel, a thread library or a language's run-time asks libpim about each lock
 and unlock of its mutexes. libpim says who owns a mutex, who waits, and which
 tasks execute at another priority now. Each answer is proved.
 .
 This package has the headers, the static library, and the files for pkg-config
 and CMake.
""",
}
# Before 1.0 a program of version 0.2 doesn't run with the library of 0.3.
SHLIBS = "libpim @SERIES@ libpim0 (>= @SERIES@), libpim0 (<< @NEXT@~)\n"
COPYRIGHT = """\
Kulgyozi

Copyright @YEAR@ the owner of Kulgyozi

The owner hasn't chosen a licence yet.
"""
CHANGES = """\
@PACKAGE@ (@VERSION@) unstable; urgency=medium

  * New version. changelog.gz says what changed.

 -- @MAINTAINER@  @DATE@
"""


def build(to, programs, library, work, release):
    """Builds the packages of the folder of programs and of libpim's."""
    roots = {name: work / name for name in OWN_LINES}
    fill(roots["kulgyozi"], programs)
    fill_libraries(roots["libpim0"], roots["libpim-dev"], library, work / "libpim", release)
    for name, root in roots.items():
        pack(name, root, to, release)


def pack(name, root, to, release):
    """Builds the package of a folder of its files."""
    version = f"{release.version}-{REVISION}"
    add_documents(root, name, version, release.epoch)
    add_control(root, name, version)
    made, words = to / f"{name}_{version}_amd64.deb", ["--root-owner-group", "-Zxz", "--build"]
    settings = {**os.environ, "SOURCE_DATE_EPOCH": str(release.epoch)}
    run("dpkg-deb", *words, root, made, env=settings)


def fill(root, programs):
    """Puts programs below /usr/lib, with links in /usr/bin, and pages among the documents."""
    own, documents = root / "usr/lib/kulgyozi", root / "usr/share/doc/kulgyozi"
    for path in sorted(programs.rglob("*")):
        name = path.relative_to(programs).as_posix()
        if path.is_dir() or path.is_symlink() or name == "CHANGELOG.md":
            continue
        if name.startswith("man/"):
            write(root / f"usr/share/{name}.gz", zipped(path.read_bytes()))
        elif name.startswith(DOCUMENTS) or name.endswith(".md"):
            copy(path, documents / name)
        else:
            copy(path, own / name)
    pages.unlink_missing(documents)
    (root / "usr/bin").mkdir(parents=True)
    for name in (*PROGRAMS, *SCRIPTS, *COMMANDS):
        (root / "usr/bin" / os.path.basename(name)).symlink_to(f"../lib/kulgyozi/{name}")
    for script in SCRIPTS:
        text = (own / script).read_text()
        write(own / script, text.replace("/usr/bin/env python3", "/usr/bin/python3", 1), 0o755)


def fill_libraries(shared, static, library, work, release):
    """Installs libpim by its own Makefile, with the shared library in a package of its own."""
    shutil.copytree(library, work)
    words = ["PREFIX=/usr", f"LIBDIR=/{LIBRARIES}", f"DESTDIR={static}"]
    run("make", "-s", "-C", work, "install", *words)
    series = release.version.rpartition(".")[0]
    name = f"{LIBRARIES}/libpim.so.{series}"
    copy(static / name, shared / name)
    (static / name).unlink()
    run("strip", "--strip-unneeded", shared / name)
    (shared / name).chmod(0o644)
    page = static / "usr/share/man/man3/libpim.3"
    write(page.with_suffix(".3.gz"), zipped(page.read_bytes()))
    page.unlink()
    write(shared / "DEBIAN/shlibs", filled(SHLIBS, SERIES=series, NEXT=next_series(series)))
    write(shared / "DEBIAN/triggers", "activate-noawait ldconfig\n")
    for root, file in ((shared, "PROOFS.md"), (static, "README.md"), (static, "PROOFS.md")):
        copy(library / file, root / f"usr/share/doc/{root.name}" / file)
    for path in (library / "examples").iterdir():
        copy(path, static / "usr/share/doc/libpim-dev/examples" / path.name)


def next_series(series):
    """Returns the first series whose library a program of this one doesn't run with."""
    major, minor = map(int, series.split("."))
    return f"{major + 1}.0" if major else f"0.{minor + 1}"


def add_documents(root, package, version, epoch):
    """Adds what each package says: who has the rights, and what changed."""
    folder = root / "usr/share/doc" / package
    date = email.utils.formatdate(epoch).replace("-0000", "+0000")
    names = {"PACKAGE": package, "VERSION": version, "MAINTAINER": MAINTAINER, "DATE": date}
    write(folder / "copyright", filled(COPYRIGHT, YEAR=date.split()[3]))
    write(folder / "changelog.Debian.gz", zipped(filled(CHANGES, **names).encode()))
    write(folder / "changelog.gz", zipped((ROOT / "CHANGELOG.md").read_bytes()))


def add_control(root, package, version):
    """Writes the package's paragraph, and the checksums of its files."""
    files = [path for path in sorted((root / "usr").rglob("*")) if path.is_file()]
    files = [path for path in files if not path.is_symlink()]
    sums = {path.relative_to(root): hashlib.md5(path.read_bytes()).hexdigest() for path in files}
    write(root / "DEBIAN/md5sums", "".join(f"{it}  {path}\n" for path, it in sums.items()))
    names = {"PACKAGE": package, "VERSION": version, "MAINTAINER": MAINTAINER}
    names["KILOBYTES"] = sum(-(-path.stat().st_size // 1024) for path in files)
    names["GLIBC"] = highest(filter(None, map(glibc_of, binaries(root))))
    write(root / "DEBIAN/control", filled(CONTROL + OWN_LINES[package], **names))
    fix_modes(root)
