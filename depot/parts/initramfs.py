"""The guest's first file system: Debian's busybox and tools, the kernel's own modules for USB and disks, and guest/."""
import os
import re
import stat

from . import packages
from .places import GUEST

# The drivers of any Debian desk computer: USB host controllers, usb-storage, disks, generic SCSI, FAT with its code pages.
MODULES = ["xhci_pci", "uhci_hcd", "usb_storage", "crct10dif_generic", "crc64_rocksoft_generic", "sd_mod", "sg",
           "vfat", "nls_cp437", "nls_ascii", "nls_iso8859_1"]
PROGRAMS = ["usr/bin/sg_inq", "usr/bin/sg_readcap", "usr/bin/sg_turs", "usr/bin/sg_requests", "usr/bin/sg_verify",
            "usr/bin/sg_raw", "usr/bin/sg_dd", "usr/bin/sg_vpd", "lib/udev/scsi_id", "sbin/mkfs.fat", "sbin/fsck.fat"]
LIBRARIES = ["lib/x86_64-linux-gnu/libsgutils2-1.46.so.2", "lib/x86_64-linux-gnu/libc.so.6"]
LOADER = "lib/x86_64-linux-gnu/ld-linux-x86-64.so.2"


class Archive:
    """A cpio archive in the kernel's "newc" form."""

    def __init__(self):
        self.parts, self.count, self.folders = [], 0, set()

    def entry(self, name, mode, body, device=(0, 0)):
        self.count += 1
        fields = (self.count, mode, 0, 0, 1, 0, len(body), 0, 0, *device, len(name) + 1, 0)
        head = b"070701" + b"".join(b"%08X" % f for f in fields) + name.encode() + b"\0"
        self.parts += [head, b"\0" * (-len(head) % 4), body, b"\0" * (-len(body) % 4)]

    def folder(self, name):
        if name and name not in self.folders:
            self.folder(os.path.dirname(name))
            self.folders.add(name)
            self.entry(name, stat.S_IFDIR | 0o755, b"")

    def file(self, name, body, mode=0o755):
        self.folder(os.path.dirname(name))
        self.entry(name, stat.S_IFREG | mode, body)

    def link(self, name, target):
        self.folder(os.path.dirname(name))
        self.entry(name, stat.S_IFLNK | 0o777, target.encode())

    def bytes(self):
        self.entry("TRAILER!!!", 0, b"")
        return b"".join(self.parts)


def read(path):
    with open(path, "rb") as f:
        return f.read()


def modules(release):
    """The modules' files, each after those that it depends on. A module names them itself, in its .modinfo."""
    files = {}
    for folder in ("lib", "usr/lib"):
        for at, _, names in os.walk(os.path.join(packages.GUEST, folder, "modules", release)):
            files.update((name[:-3].replace("-", "_"), os.path.join(at, name)) for name in names if name.endswith(".ko"))
    order = []

    def add(name):
        if name not in files:  # built into this kernel
            return
        body = read(files[name])
        for needed in re.search(rb"\0depends=([^\0]*)\0", body).group(1).decode().split(","):
            add(needed.replace("-", "_"))
        if (name, body) not in order:
            order.append((name, body))

    for name in MODULES:
        add(name)
    return order


def find(name):
    for folder in ("", "usr/"):
        path = os.path.join(packages.GUEST, folder + name)
        if os.path.exists(path):
            return path
    raise SystemExit("depot: no %s in the packages" % name)


def build(path, release, extra):
    """Writes the archive; `extra` are the run's own files (name, bytes), such as the blocks to write."""
    archive = Archive()
    for folder in ("dev", "proc", "sys", "tmp", "mnt", "clerk"):
        archive.folder(folder)
    archive.entry("dev/console", stat.S_IFCHR | 0o600, b"", (5, 1))
    archive.file("bin/busybox", read(find("bin/busybox")))
    archive.link("bin/sh", "busybox")
    for name in PROGRAMS:
        archive.file("bin/" + os.path.basename(name), read(find(name)))
    for name in LIBRARIES:
        archive.file(name, read(find(name)))
    archive.file("lib64/" + os.path.basename(LOADER), read(find(LOADER)))
    order = modules(release)
    for name, body in order:
        archive.file("modules/%s.ko" % name, body)
    archive.file("modules/order", "".join(name + "\n" for name, _ in order).encode())
    for name in sorted(os.listdir(GUEST)):
        archive.file("init" if name == "init" else "depot/" + name, read(os.path.join(GUEST, name)))
    for name, body in extra:
        archive.file("depot/" + name, body)
    with open(path, "wb") as f:
        f.write(archive.bytes())
