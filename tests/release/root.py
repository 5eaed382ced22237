"""A root of Debian for tests/release: made, copied, and used by commands of the shell."""
import os
import pathlib
import shutil
import subprocess

# A command that takes longer hangs, on the busiest machine and the slowest mirror.
SECONDS = 1200
MAKERS = (("mmdebstrap", "--quiet"), ("debootstrap",))
# What Debian's tools keep for themselves: notes on packages, logs, and what is computed anew.
NOTES = {"var/lib/dpkg", "var/lib/apt", "var/log", "var/cache", "etc/ld.so.cache"}
NOTES |= {"proc", "dev", "tmp", "run"}
# A command in a root has mounts and processes of its own, which end with it.
INSIDE = 'mount -t proc proc "$0/proc" && exec chroot "$0" sh -ec "$1"'
ENVIRONMENT = {
    "PATH": "/usr/local/sbin:/usr/local/bin:/usr/sbin:/usr/bin:/sbin:/bin",
    "HOME": "/root",
    "LC_ALL": "C.UTF-8",
    "DEBIAN_FRONTEND": "noninteractive",
}


def said(text):
    """Returns the end of what a command printed, for the reason of a failure."""
    return text.strip()[-400:]


def suite():
    """Returns the name of this machine's Debian, or None if it is another system."""
    lines = pathlib.Path("/etc/os-release").read_text().splitlines()
    release = dict(line.split("=", 1) for line in lines if "=" in line)
    return release.get("VERSION_CODENAME") if release.get("ID") == "debian" else None


class Root:
    def __init__(self, path):
        self.path = path

    @staticmethod
    def lacking():
        """Returns what this machine lacks to make a root, or None."""
        if os.geteuid():
            return "it needs root, for chroot"
        if not any(shutil.which(maker) for maker, *_ in MAKERS):
            return "there is no mmdebstrap and no debootstrap"
        return None if suite() else "this machine isn't a Debian of a known name"

    @classmethod
    def made(cls, path, packages, debian):
        """Makes a root of a Debian's smallest set of packages and these, or returns why not."""
        maker = next(words for words in MAKERS if shutil.which(words[0]))
        words = [*maker, "--variant=minbase", f"--include={','.join(packages)}", debian, path]
        done = subprocess.run(words, capture_output=True, text=True, timeout=SECONDS)
        if done.returncode:
            return f"{maker[0]} made no root: {said(done.stdout + done.stderr)}"
        return cls(path)

    def run(self, *commands):
        """Returns the status of a shell's commands in the root, and what they printed."""
        words = ["unshare", "--mount", "--pid", "--fork", "sh", "-c", INSIDE, self.path]
        how = {"stdin": subprocess.DEVNULL, "stdout": subprocess.PIPE, "timeout": SECONDS}
        how |= {"stderr": subprocess.STDOUT, "text": True, "env": ENVIRONMENT}
        done = subprocess.run([*words, "\n".join(commands)], **how)
        return done.returncode, done.stdout

    def take(self, file, to="root"):
        """Copies a file into a folder of the root."""
        (self.path / to).mkdir(parents=True, exist_ok=True)
        shutil.copy(file, self.path / to)

    def files(self):
        """Returns the names of all files and folders but those of NOTES."""
        found = set()
        for at, folders, names in os.walk(self.path):
            here = pathlib.Path(at).relative_to(self.path)
            folders[:] = [name for name in folders if str(here / name) not in NOTES]
            found |= {str(here / name) for name in [*folders, *names]}
        return found - NOTES
