"""A file of a FAT volume, looked for on the medium itself."""
import re


def has_file(medium, name, contents):
    """A directory entry has the name in its first 11 bytes and the size in its last 4. No block of a CSV is zero: it is in one run."""
    entry = re.compile(name.ljust(8).encode() + b"CSV.{17}" + re.escape(len(contents).to_bytes(4, "little")), re.DOTALL)
    runs = medium.runs()
    return any(entry.search(run) for run in runs) and any(contents in run for run in runs)
