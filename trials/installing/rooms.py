"""Rooms for trials, in a namespace of mounts: what is mounted there is seen by nobody else, and is gone with the last process in it.

`System` is this machine's system without this checkout, Rattle's kit, homes and /usr/local. It is an overlay: what is installed there is kept in
memory, on top of the machine's files, which stay as they are. It needs no network and no copy, and is there at once.
"""

import os
import re
import subprocess

from c_library import kit
from installing.shared import SECONDS
from packing.parts import Failed
from workbench import TOP

# Where a package of Debian may leave something: what dpkg notes, and the caches of the loader and of man.
NOTED = re.compile(r"var/lib/dpkg/|var/log/|var/cache/(ldconfig|man|fontconfig)/|etc/ld\.so\.cache|tmp/|proc/|dev/|work/")
# This checkout and Rattle's kit.
SOURCES = [TOP, *filter(None, [kit()])]
# These, what else a fresh system hasn't, and what this one's dpkg is told: in an image for containers, to leave out manuals.
HIDDEN = ["/home", "/root", "/usr/local", "/opt", "/srv", "/etc/dpkg/dpkg.cfg.d", *SOURCES]


def inside():
    """The words of a command that runs another in a namespace of mounts, or none where the system allows none."""
    words = ["unshare", "--mount", "--propagation", "private"]
    words += [] if os.geteuid() == 0 else ["--map-root-user"]
    try:
        return words if subprocess.run([*words, "true"], stderr=subprocess.DEVNULL).returncode == 0 else None
    except FileNotFoundError:
        return None


def namespace():
    """The namespace of mounts that this process is in."""
    return os.readlink("/proc/self/ns/mnt")


def mount(*words):
    ran = subprocess.run(["mount", *words], stdout=subprocess.PIPE, stderr=subprocess.STDOUT, text=True)
    if ran.returncode:
        raise Failed(f"mount {' '.join(words)}: {ran.stdout.strip()}")


def hide(*folders):
    """Puts nothing in the place of these folders."""
    for it in folders:
        if os.path.isdir(it):
            mount("-t", "tmpfs", "-o", "ro,size=4k", "none", it)


def hide_sources():
    """Hides this checkout and Rattle's kit."""
    hide(*SOURCES)


class System:
    """The system of this machine, to install something in. A command there has Debian's folders in PATH, and an empty folder to work in."""

    def __init__(self, room):
        self.root, self.upper = f"{room}/root", f"{room}/memory/upper"
        os.makedirs(f"{room}/memory")
        os.mkdir(self.root)
        mount("-t", "tmpfs", "none", f"{room}/memory")
        os.mkdir(self.upper)
        os.mkdir(f"{room}/memory/work")
        mount("-t", "overlay", "none", "-o", f"lowerdir=/,upperdir={self.upper},workdir={room}/memory/work", self.root)
        hide(*(f"{self.root}{it}" for it in HIDDEN))
        mount("--rbind", "/dev", f"{self.root}/dev")
        mount("-t", "proc", "none", f"{self.root}/proc")
        mount("-t", "tmpfs", "none", f"{self.root}/tmp")
        self.work = f"{self.root}/tmp/work"
        os.mkdir(self.work)
        self.begun = self.files()

    def run(self, *words, given="", status=0, **variables):
        """Runs a command. Returns what it prints, on both streams."""
        def enter():
            os.chroot(self.root)
            os.chdir("/tmp/work")

        all_of_them = {"PATH": "/usr/sbin:/usr/bin:/sbin:/bin", "HOME": "/tmp/work", "LANG": "C.UTF-8", "DEBIAN_FRONTEND": "noninteractive", **variables}
        ran = subprocess.run(words, input=given, text=True, errors="replace", timeout=SECONDS, env=all_of_them, stdout=subprocess.PIPE, stderr=subprocess.STDOUT, preexec_fn=enter)
        if ran.returncode != status:
            raise Failed(f"{' '.join(words)[:120]}: status {ran.returncode}\n{ran.stdout[-1500:]}")
        return ran.stdout

    def has(self, command):
        """Whether a command is there."""
        return any(os.access(f"{self.root}/{folder}/{command}", os.X_OK) for folder in ("usr/bin", "usr/sbin", "bin"))

    def files(self):
        """What is on top of the machine's files: what was made or changed, and what was taken away. Folders that the machine has don't count."""
        found = set()
        for place, folders, names in os.walk(self.upper):
            inner = os.path.relpath(place, self.upper)
            found.update(os.path.normpath(f"{inner}/{it}") for it in names)
            found.update(os.path.normpath(f"{inner}/{it}/") for it in folders if not os.path.isdir(f"/{inner}/{it}"))
        return found

    def left(self):
        """What was left that nothing of the system notes or keeps."""
        return sorted(it for it in self.files() - self.begun if not NOTED.match(it))
