"""Boots kernels under qemu with an initramfs of busybox, the performer and texts."""
import gzip
import pathlib
import re
import shutil
import subprocess
import sys
import threading

import compare
from compare import Fault

HERE = pathlib.Path(__file__).resolve().parent
SKIPPED = 77
QEMU = "qemu-system-x86_64"
# What each tool is for, and its package in Debian.
TOOLS = {QEMU: "qemu-system-x86", "busybox": "busybox-static", "cc": "gcc", "make": "make"}
PACKAGE_TOOLS = {"apt-get": "apt", "dpkg-deb": "dpkg"}
MEGABYTE = 1 << 20


# ---- what is needed

def missing(kernels):
    """Returns what this machine lacks, each with the package that has it."""
    has_package = any(not pathlib.Path(it).is_file() for it in kernels)
    tools = {**TOOLS, **(PACKAGE_TOOLS if has_package else {})}
    lacks = [f"{tool} ({package})" for tool, package in tools.items() if not shutil.which(tool)]
    busybox = shutil.which("busybox")
    if busybox and b"ld-linux" in pathlib.Path(busybox).read_bytes()[:4096]:
        lacks.append("a static busybox (busybox-static)")
    if shutil.which("cc") and not links_static():
        lacks.append("a static libc (libc6-dev)")
    return lacks


def links_static():
    command = ["cc", "-static", "-pthread", "-x", "c", "-", "-o", "/dev/null"]
    tried = subprocess.run(command, input=b"int main(void) { return 0; }", capture_output=True)
    return tried.returncode == 0


# ---- the initramfs

def programs(folder):
    """Builds what the guest executes, static. Returns the files."""
    for here in (compare.HERE, HERE):
        command = ["make", "-s", "-C", here, f"OUT={folder}", "CFLAGS=-O2 -static"]
        made = subprocess.run(command, capture_output=True, text=True)
        if made.returncode:
            raise Fault(f"the guest's programs can't be built: {made.stderr.strip()}")
    return [pathlib.Path(shutil.which("busybox")), *sorted(folder.iterdir())]


def member(name, mode, data=b"", device=(0, 0)):
    """Returns a member of a cpio archive of the form newc, which the kernel reads."""
    fields = [0, mode, 0, 0, 1, 0, len(data), 0, 0, *device, len(name) + 1, 0]
    head = b"070701" + b"".join(b"%08X" % it for it in fields) + name.encode() + b"\0"
    return head + bytes(-len(head) % 4) + data + bytes(-len(data) % 4)


def needed_by(command, files):
    """Returns the program of a command, and the libraries that the guest needs for it.

    The guest's own programs come first.
    """
    name = command.split()[0]
    program = next((str(file) for file in files if file.name == name), shutil.which(name))
    if not program:
        raise Fault(f"there is no program {name}")
    said = subprocess.run(["ldd", program], capture_output=True, text=True).stdout
    return pathlib.Path(program), [pathlib.Path(it) for it in re.findall(r"(/\S+) \(0x", said)]


def libraries_in(files):
    """Returns members for files that are where they are here, and for the folders above them."""
    folders = {folder for file in files for folder in list(file.parents)[:-1]}
    parts = [member(str(folder)[1:], 0o40755) for folder in sorted(folders)]
    return parts + [member(str(file)[1:], 0o100755, file.read_bytes()) for file in sorted(files)]


def initramfs(files, texts, command=None):
    """Returns the archive with the programs and the texts, which are given by name."""
    parts = [member(name, 0o40755) for name in ("bin", "dev", "texts")]
    if command:
        program, libraries = needed_by(command, files)
        parts += libraries_in(libraries)
        words = " ".join([program.name, *command.split()[1:]])
        parts.append(member("run", 0o100755, f"{words}\n".encode()))
        files = files if program in files else [*files, program]
    parts.append(member("dev/console", 0o20600, device=(5, 1)))
    parts.append(member("init", 0o100755, (HERE / "guest/init").read_bytes()))
    parts += [member(f"bin/{path.name}", 0o100755, path.read_bytes()) for path in files]
    parts += [member(f"texts/{name}.pim", 0o100644, source.encode())
              for name, source in texts.items()]
    return gzip.compress(b"".join(parts) + member("TRAILER!!!", 0), 1)


def make_initramfs(folder, texts, command=None):
    """Writes the archive to the folder. A command's program is there, too."""
    (folder / "programs").mkdir()
    archive = initramfs(programs(folder / "programs"), texts, command)
    (folder / "initramfs").write_bytes(archive)


# ---- the kernels

def image_of(kernel, folder):
    """Returns the kernel's file. If there is none, the name is that of a package to download."""
    if pathlib.Path(kernel).is_file():
        return pathlib.Path(kernel)
    if not re.fullmatch(r"[a-z0-9][a-z0-9.+-]+", kernel):
        raise Fault("there is no such file, and it isn't the name of a package")
    where = folder / "package"
    where.mkdir()
    got = subprocess.run(["apt-get", "download", "-qq", kernel], cwd=where, capture_output=True,
                         text=True)
    package = next(where.glob("*.deb"), None)
    if got.returncode or not package:
        raise Fault(f"apt-get download: {got.stderr.strip() or 'no file'}")
    print(f"{kernel}: {package.stat().st_size / MEGABYTE:.0f} MB", file=sys.stderr, flush=True)
    image = unpacked(package, folder)
    shutil.rmtree(where)
    return image


def unpacked(package, folder):
    """Returns the kernel of a package."""
    command = ["dpkg-deb", "--fsys-tarfile", package]
    with subprocess.Popen(command, stdout=subprocess.PIPE) as archive:
        subprocess.run(["tar", "-xf", "-", "-C", package.parent, "./boot"], stdin=archive.stdout,
                       capture_output=True)
    images = list(package.parent.glob("boot/vmlinuz-*"))
    if len(images) != 1:
        raise Fault(f"it has {len(images)} kernels, not one: name the package of one version")
    return images[0].rename(folder / images[0].name)


# ---- a boot

def command_of(image, folder, cpus, words, how=("-accel", "tcg")):
    """Returns qemu's command. The guest has no network; its second serial port is its output."""
    words = f"console=ttyS0 quiet panic=-1 no_timer_check rdinit=/init {words}"
    # If this script is killed, the guest is, too.
    bound = ["setpriv", "--pdeathsig", "KILL"] if shutil.which("setpriv") else []
    # A kernel without ACPI finds its CPUs in a table that has one for each socket.
    return [*bound, QEMU, *how, "-cpu", "max", "-m", "512",
            "-smp", f"{cpus},sockets={cpus},cores=1,threads=1",
            "-nodefaults", "-display", "none", "-no-reboot", "-nic", "none",
            "-kernel", image, "-initrd", folder / "initramfs",
            "-serial", f"file:{folder / 'console'}", "-serial", "stdio", "-append", words]


def booted(command, seconds, follow):
    """Boots a kernel. Returns what the guest printed, and what qemu said of itself.

    Calls `follow` with each line. The guest is ended if it takes longer than so many seconds.
    """
    lines, pipe = [], subprocess.PIPE
    with subprocess.Popen(command, stdin=subprocess.DEVNULL, stdout=pipe, stderr=pipe) as guest:
        watchdog = threading.Timer(seconds, guest.kill)
        watchdog.daemon = True  # so that it keeps nobody from ending, whenever a signal comes
        try:
            watchdog.start()
            for line in guest.stdout:
                lines.append(line.decode(errors="replace").rstrip("\r\n"))
                follow(lines[-1])
            said = guest.stderr.read().decode(errors="replace").strip()
        finally:
            watchdog.cancel()
            guest.kill()
    return "".join(f"{line}\n" for line in lines), said


def sections(out):
    """Returns what a guest printed, by the name of its part."""
    found, name = {}, None
    for line in out.splitlines():
        if line.startswith("=== "):
            name = line[4:]
            found[name] = []
        elif name:
            found[name].append(line)
    return found


def last_line(console):
    """Returns the last line that the kernel printed."""
    text = console.read_text(errors="replace") if console.exists() else ""
    return next((line.strip() for line in text.splitlines()[::-1] if line.strip()),
                "the kernel said nothing")


def release_of(out):
    """Returns the kernel's release, of what its guest printed."""
    return (sections(out).get("system") or ["? ?"])[0].split()[1]
