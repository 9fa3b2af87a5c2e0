"""What the run has seen: the timeline and the checks, printed as they come and kept for the picture."""
import json
import os
import time


class Results:
    """`shown` is what is printed: "verdict", "timeline" (with the checks that fail), or "all"."""

    def __init__(self, folder, shown):
        self.start, self.folder, self.shown = time.time(), folder, shown
        self.marks, self.checks, self.since_mark = [], [], 0

    def now(self):
        return time.time() - self.start

    def show(self, text):
        if self.shown != "verdict":
            print("%7.2f s  %s" % (self.now(), text), flush=True)

    def mark(self, text):
        self.marks.append((self.now(), text))
        checks = " (%d check%s)" % (self.since_mark, "" if self.since_mark == 1 else "s") if self.since_mark and self.shown == "timeline" else ""
        self.show(text + checks)
        self.since_mark = 0

    def check(self, name, good, detail):
        self.checks.append((self.now(), name, good, detail))
        self.since_mark += 1
        if self.shown == "all" or not good:
            self.show("    %-34s %s  %s" % (name, "ok    " if good else "FAILED", detail))

    def failed(self):
        return [name for _, name, good, _ in self.checks if not good]

    def write(self):
        with open(os.path.join(self.folder, "results.json"), "w", encoding="utf-8") as f:
            json.dump({"marks": self.marks, "checks": self.checks}, f, indent=1)

    def verdict(self):
        failed = self.failed()
        if failed:
            return "depot: FAILED: " + ", ".join(failed)
        return "depot: all %d checks passed" % len(self.checks)
