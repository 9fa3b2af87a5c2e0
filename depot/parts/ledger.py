"""A run's log as ledgers (document 02, A13), one for each collector that was plugged in.

Unplugging is power off: the ledger ends there, with what was under way, and the next collector's begins empty.
"""
from . import log
from .tools import accounts, ledger_form

# The least that the guest's tests provoke, and what the probe adds, which runs under xhci. "short" are commands that passed with a part of the
# announced bytes, "failed" those that left all of them over, "cut" those that a drop came before the status of: "at the status" where they
# had announced no data.
LEAST = {"commands": 2000, "in, short": 250, "out, short": 1, "in, failed": 23, "out, failed": 18, "in, phase error": 3, "out, phase error": 1}
LEAST_WITH_PROBE = {"commands": 2900, "in, short": 300, "in, failed": 25, "out, failed": 28, "in, phase error": 4, "out, phase error": 2,
                    "cut by Mass Storage Reset": 6, "cut by Set Configuration 1": 2, "cut by bus reset": 4,
                    "cut at the status": 3, "cut in a Read": 4, "cut in a Write": 5, "phase error in a Write": 1}


def kept(entries):
    """The `plugged` note and the accounts of each collector."""
    every = []
    for entry in entries:
        if isinstance(entry, log.Event):
            every[-1][1].event("%.4f" % entry.time, entry.kind, entry.body, entry.word, entry.data)
        elif entry.words[0] == "plugged":
            every.append((entry, accounts.Accounts(log.sizes(entry))))
    return every


def write(every, path):
    with open(path, "w", encoding="utf-8") as f:
        for note, books in every:
            number, *_ = log.identity(note)
            sizes = " and ".join(map(str, log.sizes(note)))
            f.write("Collector %d, of %s blocks, plugged in after %.4f seconds\n" % (number, sizes, note.time))
            f.write("\n".join(ledger_form.lines(books, "seconds")) + "\n\n")


def kinds(row, book):
    """What a command is counted as."""
    way = ("in" if row.wrapper[12] & 0x80 else "out") if row.announced else "no data"
    yield "commands"
    if row.status is None and book.ended:
        yield "cut by " + book.ended
        yield {"in": "cut in a Read", "out": "cut in a Write"}.get(way, "cut at the status")
    elif row.status is None:
        yield "under way"
    elif row.status[2] == 2:
        yield way + ", phase error"
        if row.counted:
            yield "phase error in a Write"
    elif row.status[1]:
        yield way + (", failed" if row.status[2] == 1 else ", short" if row.counted else ", no data")


def balance(every):
    """Whether every row is in balance, and the first that is not, or what the rows come to."""
    for _, books in every:
        for row in books.faults():
            return False, "%s s: %s" % (row.at, row.fault)
    count = lambda what: sum(len(getattr(books, what)()) for _, books in every)
    return True, "%d commands, %d statuses, %d cut, %d drops" % tuple(map(count, ("commands", "statuses", "cut", "drops")))


def census(every, probed):
    """Whether the ledgers have what the run is about."""
    least = {**LEAST, **LEAST_WITH_PROBE} if probed else LEAST
    seen = dict.fromkeys(least, 0)
    for _, books in every:
        for book in books.books:
            for row in book.rows:
                for kind in kinds(row, book) if row.wrapper else ():
                    if kind in seen:
                        seen[kind] += 1
    lacking = ["%s: %d, not %d" % (name, seen[name], n) for name, n in least.items() if seen[name] < n]
    return not lacking, "; ".join(lacking) or ", ".join("%d %s" % (seen[name], name) for name in least)
