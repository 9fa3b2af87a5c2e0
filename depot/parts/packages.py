"""Debian's packages, downloaded and unpacked under cache/: nothing is installed, and no root is needed.

cache/host has QEMU and the libraries that this computer lacks for it. cache/guest has what the guest runs: kernel, busybox,
sg3-utils, dosfstools, udev's scsi_id and their C library, as Debian built them.
"""
import os
import shutil
import subprocess

from .places import CACHE

QEMU = ["qemu-system-x86", "qemu-system-common", "qemu-system-data", "seabios", "ipxe-qemu"]
TOOLS = ["busybox-static", "sg3-utils", "libsgutils2-1.46-2", "dosfstools", "udev", "libc6"]
HOST = os.path.join(CACHE, "host")
GUEST = os.path.join(CACHE, "guest")


def lines(*command):
    return subprocess.run(command, check=True, stdout=subprocess.PIPE, stderr=subprocess.PIPE, text=True).stdout.splitlines()


def kernel_package():
    """linux-image-amd64 is empty: it depends on the kernel of the day."""
    for line in lines("apt-cache", "depends", "linux-image-amd64"):
        word = line.split()[-1]
        if word.startswith("linux-image-") and word != "linux-image-amd64":
            return word
    raise SystemExit("depot: apt knows no linux-image-amd64 (apt-get update?)")


def missing_libraries():
    """What an installation of QEMU would bring to this computer."""
    simulated = lines("apt-get", "install", "--simulate", "--no-install-recommends", *QEMU)
    return [line.split()[1] for line in simulated if line.startswith("Inst ")]


def unpack(folder, names):
    archives = folder + ".archives"
    os.makedirs(archives, exist_ok=True)
    # Without a sandbox, which cannot write here, and of which root would only be warned.
    subprocess.run(["apt-get", "download", "-qq", "-o", "APT::Sandbox::User=root", *names], cwd=archives, check=True)
    versions = sorted(os.listdir(archives))
    for name in versions:
        subprocess.run(["dpkg", "-x", os.path.join(archives, name), folder], check=True)
    shutil.rmtree(archives)
    return versions


def fetch(say):
    """Fills the cache, once: what is in it is taken as it is. The file `filled` names the packages and their versions."""
    filled = os.path.join(CACHE, "filled")
    if not os.path.exists(filled):
        say("downloading Debian's packages into depot/cache (once)")
        os.makedirs(CACHE, exist_ok=True)
        note(filled, unpack(HOST, sorted(set(QEMU + missing_libraries()))) + unpack(GUEST, TOOLS + [kernel_package()]))
    with open(filled, encoding="ascii") as f:
        have = {line.partition("_")[0] for line in f}
    lacking = [name for name in TOOLS if name not in have]  # in a cache that was filled before the depot used it
    if lacking:
        say("downloading %s into depot/cache" % " ".join(lacking))
        note(filled, unpack(GUEST, lacking))


def note(filled, versions):
    with open(filled, "a", encoding="ascii") as f:
        f.write("".join(name + "\n" for name in versions))


def kernel():
    """The kernel's image and its release."""
    boot = os.path.join(GUEST, "boot")
    image = sorted(name for name in os.listdir(boot) if name.startswith("vmlinuz-"))[-1]
    return os.path.join(boot, image), image[len("vmlinuz-"):]


def qemu():
    """QEMU's program, its data folder, and an environment that finds its libraries and its module for usbredir."""
    libraries = [os.path.join(HOST, folder, "x86_64-linux-gnu") for folder in ("usr/lib", "lib")]
    environment = dict(os.environ, LD_LIBRARY_PATH=":".join(libraries), QEMU_MODULE_DIR=os.path.join(libraries[0], "qemu"))
    return os.path.join(HOST, "usr/bin/qemu-system-x86_64"), os.path.join(HOST, "usr/share"), environment
