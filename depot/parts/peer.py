"""The usbredir peer with the device in it: started beside QEMU, and given orders line by line."""
import os
import subprocess
import time

from .machine import SOCKET


class Refused(Exception):
    """The peer did not do what it was ordered to. `check` is what fails by it: a device that is not made, or whose switch does not turn,
    is no fault of the peer's."""

    def __init__(self, order, why):
        super().__init__("%s: %s" % (order, why))
        self.check = {"making": "device-made", "turning": "switch-turned"}.get(why.split(" ")[0], "peer")


class Peer:
    def __init__(self, program, folder, start, wrong):
        environment = dict(os.environ, **({"DEPOT_WRONG": wrong} if wrong else {}))
        end = time.time() + 10
        while not os.path.exists(os.path.join(folder, SOCKET)):
            if time.time() > end:
                raise Refused("connect", "QEMU has opened no socket")
            time.sleep(0.02)
        command = [program, "serve", SOCKET, "events.log", repr(start)]
        self.errors = os.path.join(folder, "peer.log")
        with open(self.errors, "wb") as errors:
            self.process = subprocess.Popen(command, cwd=folder, env=environment, stdin=subprocess.PIPE, stdout=subprocess.PIPE, stderr=errors, text=True)

    def order(self, text):
        try:
            self.process.stdin.write(text + "\n")
            self.process.stdin.flush()
            answer = self.process.stdout.readline().strip()
        except BrokenPipeError:
            answer = ""
        if answer != "done":
            raise Refused(text, answer.removeprefix("failed ") or "the peer has ended")

    def stop(self):
        """Ends the orders; the peer then writes its log out. What it complained of, or nothing."""
        try:
            self.process.stdin.close()
        except BrokenPipeError:
            pass
        self.process.wait(timeout=10)
        with open(self.errors, encoding="utf-8", errors="replace") as f:
            return f.read().strip().partition("\n")[0]
