"""The programs of a release, in a root of Debian without a compiler."""
import re
import shutil
import subprocess
import sys

from tests.shared.checks import ROOT, difference
from tests.release.root import said

sys.path.append(str(ROOT / "packaging"))
from programs import LINKS, PROGRAMS, glibc_of

README = (ROOT / "README.md").read_text()
VERSION = (ROOT / "VERSION").read_text().strip()
# The glibc of Debian 11.
OLDEST_GLIBC = "2.31"
FACTS = "chain_from_an_inherit_to_a_none_mutex.facts"
# The programs that say their version: of Rattle, and in Python.
VERSIONED = (*PROGRAMS, *LINKS)
TOOLS = "cc gcc clang make as ld rt rattle"
# A version before all others, for an upgrade.
EARLIER = "0.0.1-1"


def needs_old_glibc(case, files, folder):
    """The programs of Rattle need no later glibc than that of the oldest Debian."""
    archive = next(files.glob("kulgyozi-*.tar.xz"))
    subprocess.run(["tar", "xf", archive, "-C", folder], check=True)
    here = folder / archive.name[:-len(".tar.xz")]
    needed = {name: glibc_of(here / name) or "0" for name in PROGRAMS}
    later = [f"{name}: {it}" for name, it in needed.items() if parts(it) > parts(OLDEST_GLIBC)]
    case.check("the programs need no later glibc than Debian 11 has", ", ".join(later))


def parts(version):
    return [int(part) for part in version.split(".")]


def archive(case, root, files):
    """The archive, by the README's commands, in a folder of its own."""
    status, out = root.run(f"for tool in {TOOLS}; do ! command -v $tool; done")
    case.check("the root has no compiler and no toolchain", said(out) if status else None)
    before = root.files()
    root.take(next(files.glob("kulgyozi-*.tar.xz")), "srv/own")
    commands = re.search(r"release archive.*?```sh\n(.*?)```", README, re.S)[1]
    got = root.run("cd /srv/own", commands)
    wanted = (0, report("inversion_avoided"))
    case.check("the README's commands for an archive", difference(got, wanted))
    here = root.run("cd /srv/own/kulgyozi-*/", "pwd")[1].strip()
    works(case, root, "the archive", f"{here}/", here)
    got = root.run(f"ln -s {here}/pim* {here}/*/pim-[lc]* {here}/record/pim-record /usr/local/bin")
    case.check("links to the programs of the archive", said(got[1]) if got[0] else None)
    records(case, root, "by links to the archive")
    compares(case, root, "by links to the archive", f"{here}/conform")
    root.run("rm -r /srv/own /usr/local/bin/pim* /root/run*")
    case.check("the archive leaves nothing", left(root, before))


def left(root, before):
    """Returns the files that are in a root and weren't before, and those that are gone."""
    return ", ".join(sorted(root.files() ^ before))


def report(name):
    return (ROOT / f"examples/{name}.report").read_text()


def oldest(case, root, files):
    """The archive in the oldest Debian: the programs of Rattle, which need no glibc."""
    before = root.files()
    root.take(next(files.glob("kulgyozi-*.tar.xz")), "srv/own")
    root.run("cd /srv/own", "tar xf *.tar.xz")
    here = root.run("cd /srv/own/kulgyozi-*/", "pwd")[1].strip()
    works(case, root, "the archive in Debian 11", f"{here}/", here)
    root.run("rm -r /srv/own")
    case.check("the archive in Debian 11 leaves nothing", left(root, before))


def works(case, root, what, prefix, here):
    """Judges, reports and draws, and compares with what the repository's programs answer."""
    example = f"{here}/examples/inversion_avoided.pim"
    got = root.run(f"{prefix}pim < {example}")
    case.check(f"{what}: pim judges an example", difference(got, (0, report("inversion_avoided"))))
    for program in VERSIONED:
        got, wanted = root.run(f"{prefix}{program} --version"), f"{program} {VERSION}\n"
        case.check(f"{what}: {program} --version", difference(got, (0, wanted)))
    root.take(ROOT / "suite/facts" / FACTS)
    root.take(ROOT / "examples/inversion_avoided.pim")
    for command in (f"pim-findings {FACTS}", f"pim-report --facts {FACTS}",
                    "pim-picture < inversion_avoided.pim"):
        wanted = own(command, root.path / "root")
        got = root.run("cd /root", f"{prefix}{command}")
        case.check(f"{what}: {command}", difference(got, wanted))
    root.run(f"rm /root/{FACTS} /root/inversion_avoided.pim")


def own(command, folder):
    """Returns what the repository's program answers, in a folder."""
    how = {"shell": True, "cwd": folder, "capture_output": True, "text": True}
    done = subprocess.run(f"'{ROOT}'/{command}", **how)
    return done.returncode, done.stdout + done.stderr


def records(case, root, what):
    """Records a program that was compiled here, and checks and reports the log."""
    folder = root.path / "root"
    made = ["make", "-s", "-C", ROOT / "record", f"{folder}/programs/inversion", f"OUT={folder}"]
    subprocess.run(made, check=True)
    commands = ("cd /root", "pim-record -o run programs/inversion none", "pim-log --check run")
    got = root.run(*commands)
    case.check(f"{what}: a program is recorded", said(got[1]) if got[0] else None)
    status, out = root.run("cd /root", "pim-report run")
    is_found = status in (0, 1) and " waited " in out
    case.check(f"{what}: its inversion is found", None if is_found else said(out))
    shutil.rmtree(folder / "programs")


def compares(case, root, what, folder):
    """Compares the stored performances with the reports of pim."""
    status, out = root.run(f"pim-conform --from {folder}/performed {folder}/set/*.pim")
    counts = re.findall(r"(\d+) (?:agree|differ as expected)\b", out.splitlines()[-1])
    texts = len([*(ROOT / "conform/set").glob("*.pim")])
    why = difference((status, sum(map(int, counts))), (0, texts))
    case.check(f"{what}: pim-conform compares", why and f"{why}: {said(out)}")


def package(case, root, files, folder):
    """The package of the programs, over an earlier version of itself."""
    before = root.files()
    examples = "/usr/share/doc/kulgyozi/examples"
    mine = {"root/own.pim": "pim 1\n", "usr/lib/kulgyozi/conform/set/own.pim": "pim 2\n"}
    deb = next(files.glob("kulgyozi_*.deb"))
    root.take(deb, "root/later")
    root.take(earlier(deb, folder))
    status, out = root.run("dpkg -i /root/*.deb", f"pim < {examples}/ceilings.pim")
    is_right = status == 0 and out.endswith(report("ceilings"))
    case.check("the package is installed", None if is_right else said(out))
    for file, text in mine.items():
        (root.path / file).write_text(text)
    show = "dpkg-query -W -f '${Version}' kulgyozi"
    status, out = root.run("dpkg -i /root/later/*.deb", show)
    is_right = status == 0 and out.endswith(f"\n{VERSION}-1")
    case.check("the package is upgraded", None if is_right else said(out))
    there = [file for file in mine if (root.path / file).exists()]
    kept = {file: (root.path / file).read_text() for file in there}
    case.check("an upgrade keeps what a user wrote", difference((kept,), (mine,)))
    root.run(f"rm -r /root/later /root/*.deb {' '.join(f'/{file}' for file in there)}")
    bare = "[ -f /usr/share/man/man1/${it##*/}.1.gz ] || echo $it"
    out = root.run(f"for it in /usr/bin/pim*; do {bare}; done")[1]
    case.check("each program of the package has a manual page", out.replace("\n", " ").strip())
    works(case, root, "the package", "", "/usr/share/doc/kulgyozi")
    records(case, root, "the package")
    compares(case, root, "the package", "/usr/lib/kulgyozi/conform")
    status, out = root.run("dpkg -P kulgyozi", "rm /root/run*")
    case.check("the package is removed", said(out) if status else None)
    case.check("the package leaves nothing", left(root, before))


def earlier(deb, folder):
    """Returns the path of the same package with an earlier version."""
    package = deb.name.partition("_")[0]
    own_folder, to = folder / f"{package}.earlier", folder / f"{package}_{EARLIER}_amd64.deb"
    shutil.rmtree(own_folder, ignore_errors=True)  # of another root
    subprocess.run(["dpkg-deb", "-R", deb, own_folder], check=True)
    control = own_folder / "DEBIAN/control"
    text = re.sub(r"^Version: .*$", f"Version: {EARLIER}", control.read_text(), flags=re.M)
    control.write_text(text.replace(f"(= {VERSION}-1)", f"(= {EARLIER})"))
    words = ["dpkg-deb", "--root-owner-group", "-Znone", "--build", own_folder, to]
    subprocess.run(words, check=True, stdout=subprocess.DEVNULL)
    return to
