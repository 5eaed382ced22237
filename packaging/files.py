"""What the modules of packaging share: commands, copies, and archives without times and owners."""
import gzip
import hashlib
import pathlib
import shutil
import subprocess

ROOT = pathlib.Path(__file__).resolve().parent.parent


class Fault(Exception):
    """What prevents a release, in a sentence."""


def run(*command, text=None, **settings):
    """Returns the standard output of a command.

    Raises Fault with the end of what it printed, if its status isn't 0.
    """
    words = [str(word) for word in command]
    try:
        done = subprocess.run(words, input=text, capture_output=True, text=True, **settings)
    except FileNotFoundError:
        raise Fault(f"there is no {words[0]}") from None
    if done.returncode:
        said = (done.stdout + done.stderr).strip()[-1000:]
        raise Fault(f"{' '.join(words)} ended with status {done.returncode}: {said}")
    return done.stdout


def kit():
    """Returns the folder of the toolchain."""
    return pathlib.Path(run("rt", "doc").strip()).parent


def tracked(*paths):
    """Returns the files of the repository at or below these paths, as git lists them."""
    listed = run("git", "ls-files", "-z", "--", *paths, cwd=ROOT).split("\0")[:-1]
    for path in paths:
        if not any(file == path or file.startswith(f"{path}/") for file in listed):
            raise Fault(f"the repository has no {path}")
    return listed


def copy(source, to):
    """Copies a file, and makes its folder."""
    to.parent.mkdir(parents=True, exist_ok=True)
    shutil.copyfile(source, to)
    to.chmod(0o755 if source.stat().st_mode & 0o100 else 0o644)


def write(to, text, mode=0o644):
    """Writes a text or bytes to a file, and makes its folder."""
    to.parent.mkdir(parents=True, exist_ok=True)
    to.write_bytes(text if isinstance(text, bytes) else text.encode())
    to.chmod(mode)


def filled(text, **names):
    """Returns a text, in which each @NAME@ is filled in."""
    for name, value in names.items():
        text = text.replace(f"@{name}@", str(value))
    return text


def fix_modes(folder):
    """Gives files and folders modes that don't depend on the umask."""
    for path in [folder, *folder.rglob("*")]:
        if not path.is_symlink():
            is_open = path.is_dir() or path.stat().st_mode & 0o100
            path.chmod(0o755 if is_open else 0o644)


def archive(folder, to, epoch):
    """Writes TO.tar.xz or TO.tar.gz of a folder: its names, modes and contents, and one time."""
    fix_modes(folder)
    plain = to.with_suffix("")
    words = ["--sort=name", "--format=gnu", f"--mtime=@{epoch}"]
    words += ["--owner=0", "--group=0", "--numeric-owner"]
    run("tar", *words, "-cf", plain, "-C", folder.parent, folder.name)
    packer = {".xz": ("xz", "-T1"), ".gz": ("gzip", "-n")}[to.suffix]
    run(*packer, "-f", "-9", plain)


def zipped(data):
    """Returns bytes as gzip packs them, without a time and a name."""
    return gzip.compress(data, 9, mtime=0)


def sum_of(path):
    return hashlib.sha256(path.read_bytes()).hexdigest()


def highest(versions):
    """Returns the highest of versions such as 2.34, or None if there is none."""
    return max(versions, key=lambda it: [int(part) for part in it.split(".")], default=None)
