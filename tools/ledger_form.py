"""A ledger (accounts.py) as auditors read it: a row a command, a line a drop, and the sum."""
import names
import script

STATUS = {number: "phase error" if name == "phase" else name for name, number in script.STATUS.items()}
HEADING = ("tag", "command", "announced", "counted", "residue", "status")


def ending(row, book):
    """What became of a command: its status, or why it has none."""
    if row.status:
        return STATUS.get(row.status[2], "status %d" % row.status[2])
    if row is not book.latest:
        return "none"
    return "cut by " + book.ended if book.ended else "under way"


def columns(row, book):
    residue = str(row.status[1]) if row.status else "-"
    if row.wrapper is None:
        return "%X" % row.status[0] if row.status else "-", "-", "-", "-", residue, ending(row, book)
    unit = row.wrapper[13]
    command = names.command(row.wrapper[15:]) + (", unit %d" % unit if unit else "")
    announced = "%d %-3s" % (row.announced, ("in" if row.wrapper[12] & 0x80 else "out") if row.announced else "")
    return "%X" % row.tag, command, announced, str(row.counted), residue, ending(row, book)


def total(accounts):
    """The last line."""
    count = lambda things, name, ending: "%d %s%s" % (len(things), name, "" if len(things) == 1 else ending)
    sums = [count(accounts.commands(), "command", "s"), count(accounts.statuses(), "status", "es"), count(accounts.cut(), "cut", "")]
    sums += [count(accounts.drops(), "drop", "s")]
    faults = accounts.faults()
    return ", ".join(sums) + ": " + (count(faults, "row", "s") + " OUT OF BALANCE" if faults else "every row in balance")


def lines(accounts, where="event"):
    """The whole ledger; `where` heads the column that says where in the history a row begins."""
    table = [[(str(row.at), *columns(row, book)) for row in book.rows] for book in accounts.books]
    every = [(where, *HEADING), *(cells for book in table for cells in book), *((str(book.at),) for book in accounts.books)]
    widths = [max(len(cells[i]) for cells in every if len(cells) > i) for i in range(1 + len(HEADING))]
    left = (2, 6)  # command and status; all else is numbers
    line = lambda cells: "  ".join(cell.ljust(w) if i in left else cell.rjust(w) for i, (cell, w) in enumerate(zip(cells, widths)))
    yield line((where, *HEADING)).rstrip()
    for book, rows in zip(accounts.books, table):
        for row, cells in zip(book.rows, rows):
            yield (line(cells) + ("  OUT OF BALANCE: " + row.fault if row.fault else "")).rstrip()
        if book.ended:
            yield "%s  ---- %s" % (str(book.at).rjust(widths[0]), book.ended)
    yield total(accounts)
