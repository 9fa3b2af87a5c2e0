"""A medium as its blocks that are not zero: of the largest's 1,048,576 (document 02, A5) a run fills few, and 512 MiB are not held."""
import errno
import os

BLOCK = 512
ZERO = bytes(BLOCK)


class Blocks:
    """`count` blocks. `filled` has the bytes of those that are not zero, by number: equal media have equal ones."""

    def __init__(self, count, data=b""):
        self.count, self.filled = count, {}
        self.put(0, data)

    def __eq__(self, other):
        return (self.count, self.filled) == (other.count, other.filled)

    def copy(self):
        copy = Blocks(self.count)
        copy.filled = dict(self.filled)
        return copy

    def get(self, block, count):
        return b"".join(self.filled.get(number, ZERO) for number in range(block, block + count))

    def put(self, block, data):
        for number, at in enumerate(range(0, len(data), BLOCK), block):
            content = data[at:at + BLOCK]
            if content == ZERO:
                self.filled.pop(number, None)
            else:
                self.filled[number] = content

    def changed(self, other):
        """The numbers of the blocks that differ."""
        return sorted(number for number in self.filled.keys() | other.filled.keys() if self.filled.get(number) != other.filled.get(number))

    def runs(self):
        """Neighbours that are not zero, joined."""
        out, last = [], None
        for number in sorted(self.filled):
            if number - 1 != last:
                out.append([])
            out[-1].append(self.filled[number])
            last = number
        return [b"".join(run) for run in out]

    def write(self, path):
        """A sparse file: zeros that were never written take no room on the disk."""
        with open(path, "wb") as f:
            f.truncate(self.count * BLOCK)
            for number, content in self.filled.items():
                f.seek(number * BLOCK)
                f.write(content)


def read(path):
    """A file's blocks. Its holes are zeros, and are not read: the system would fill memory with them."""
    blocks = Blocks(os.path.getsize(path) // BLOCK)
    with open(path, "rb", buffering=0) as f:
        for start, end in extents(f.fileno()):
            blocks.put(start // BLOCK, os.pread(f.fileno(), end - start, start))
    return blocks


def extents(file):
    """Where a file has data: each part's first byte and the one behind its last."""
    end = 0
    while True:
        try:
            start = os.lseek(file, end, os.SEEK_DATA)
        except OSError as fault:
            if fault.errno != errno.ENXIO:
                raise
            return  # a hole to the end, or the end
        end = os.lseek(file, start, os.SEEK_HOLE)
        yield start, end
