"""Holds crates/replay to recordings/: its data/ are the recordings that the texts there make, and its stdout what the texts expect.

Which units replay plays a recording over goes by its name, so a text must say the same units. With --fix the files are written anew.
"""
import glob
import os
import sys

sys.path.insert(0, "tools")
sys.dont_write_bytecode = True
import script

FIRST = "sheet"


def over(name):
    """The blocks of each unit that replay plays a recording over."""
    return [128] if name == FIRST else [64, 7, 1, 128] if name.startswith("units-") else script.BENCH


def read(path):
    with open(path, encoding="utf-8") as f:
        return f.read()


def texts():
    """Name, recording and print-out of each text, the bench sheet's first."""
    names = sorted((os.path.basename(p)[:-4] for p in glob.glob("recordings/*.txt")), key=lambda n: (n != FIRST, n))
    for name in names:
        text = read("recordings/%s.txt" % name)
        events, answers = script.read(text)
        if None in answers:
            raise SystemExit("recordings/%s.txt: a line has no answer" % name)
        if script.units(text) != over(name):
            raise SystemExit("recordings/%s.txt: replay plays it over units of %s blocks" % (name, over(name)))
        yield name, script.recording(events), script.expected(answers)


def times(word):
    n, star, what = word.partition("*")
    return (int(n), what) if star else (1, word)


def formats():
    for line in read("recordings/format.list").splitlines():
        if line and not line.startswith("#"):
            name, rest = line.split(":", 1)
            made, printed = rest.split("->")
            data = b"".join(bytes.fromhex(what) * n for n, what in map(times, made.split()))
            heading, *more = [printed.split()[:2], *printed.split()[2:]]
            said = [what for n, what in map(times, more) for _ in range(n)]
            yield name, data, " ".join(heading) + "\n" + "".join("%d %s\n" % p for p in enumerate(said, 1))


files, names, shown = {}, [], ""
for name, data, printed in [*texts(), *formats()]:
    files["data/%s.rec" % name] = data
    names.append(name + ".rec")
    shown += name + ".rec\n" + printed
files["args"] = "".join(n + "\n" for n in names).encode()
files["stdout"] = shown.encode()

root = "crates/replay/"
if "--fix" in sys.argv:
    os.makedirs(root + "data", exist_ok=True)
    for path, data in files.items():
        with open(root + path, "wb") as f:
            f.write(data)
faults = [p for p in files if not os.path.exists(root + p) or open(root + p, "rb").read() != files[p]]
faults += [p for p in glob.glob(root + "data/*") if p[len(root) :] not in files]
print("%s is not what recordings/ make: python3 .ci/recordings.py --fix" % ", ".join(faults) if faults else "recordings: ok")
sys.exit(1 if faults else 0)
