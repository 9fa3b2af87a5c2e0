"""The computer: QEMU in software emulation, a USB host controller, and a socket where the peer plugs in."""
import os
import queue
import subprocess
import threading

from . import packages

CONTROLLERS = {"xhci": "qemu-xhci", "uhci": "piix3-usb-uhci"}
SOCKET = "usbredir.sock"


def linux(initramfs):
    """Debian's kernel, its log on the first serial line. It does not measure its timer: on a busy host, where the emulation stands still
    for a while, it would take the timer for broken and not start."""
    image, _ = packages.kernel()
    return ["-kernel", image, "-initrd", initramfs, "-append", "console=ttyS0 panic=-1 no_timer_check",
            "-chardev", "file,id=kernel,path=kernel.log", "-serial", "chardev:kernel"]


class Machine:
    """A running computer. The dialogue is its last serial line, which is QEMU's standard input and output.

    With `boots` the BIOS is to boot from what is plugged in: then QEMU waits for the peer, which plugs it in at once.
    """

    def __init__(self, folder, controller, system, boots=False):
        program, data, environment = packages.qemu()
        command = [
            program, "-L", os.path.join(data, "qemu"), "-L", os.path.join(data, "seabios"),
            "-accel", "tcg", "-machine", "pc", "-m", "256", "-nodefaults", "-display", "none", "-no-reboot", *system,
            "-chardev", "stdio,id=dialogue,signal=off", "-serial", "chardev:dialogue",
            "-device", CONTROLLERS[controller] + ",id=usb",
            "-chardev", "socket,id=plug,server=on,path=%s,wait=%s" % (SOCKET, "on" if boots else "off"),
            "-device", "usb-redir,bus=usb.0,chardev=plug" + (",bootindex=0" if boots else ""),
        ]
        with open(os.path.join(folder, "qemu.log"), "wb") as errors:
            self.process = subprocess.Popen(command, cwd=folder, env=environment, stdin=subprocess.PIPE, stdout=subprocess.PIPE, stderr=errors)
        self.lines = queue.Queue()
        threading.Thread(target=self.read, daemon=True).start()

    def read(self):
        for line in self.process.stdout:
            self.lines.put(line.decode("utf-8", "replace").rstrip("\r\n"))
        self.lines.put(None)

    def line(self, seconds):
        """The guest's next line; None where the guest has ended. queue.Empty where it says nothing for so long."""
        return self.lines.get(timeout=seconds)

    def answer(self, text):
        self.process.stdin.write(text.encode("ascii") + b"\n")
        self.process.stdin.flush()

    def stop(self):
        self.process.kill()
        self.process.wait()
