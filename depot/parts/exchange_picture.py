"""What host and device say to each other: from the plug to the first block read, then a read of which the device has only half."""
from . import decode
from .svg import FAINT, INK, LINE, Page

HOST, DEVICE, ROW, TOP = 400, 560, 21, 104
LATER = "Later: Linux is made to announce 1,024 bytes for a read of one block. The device sends 512, halts the pipe, and tells the rest."
COLORS = [("stall", "#bb3333"), ("CSW", "#338844"), ("nak", "#bb7733")]


def rows(entries):
    """The two parts, as rows of decode.lines."""
    lines = decode.lines(entries)
    start = next(i for i, row in enumerate(lines) if row[1].startswith("-- plugged"))
    first = next(i for i, row in enumerate(lines) if i > start and "Read block" in row[1])
    short = next(i for i, row in enumerate(lines) if "Read block 0 count 1, 1024 bytes in" in row[1])
    status = lambda begin: next(i for i in range(begin, len(lines)) if lines[i][2].startswith("CSW"))
    return lines[start + 1:status(first) + 1], lines[short:status(short) + 1]


def ladder(page, y, start, part):
    page.line(HOST, y - 14, HOST, y + ROW * len(part) - 6, LINE, 2)
    page.line(DEVICE, y - 14, DEVICE, y + ROW * len(part) - 6, LINE, 2)
    for time, sent, answer in part:
        color = next((color for word, color in COLORS if answer.startswith(word)), "#4477aa")
        page.text(62, y + 4, "%.4f" % (time - start), FAINT, 11, "end", mono=True)
        page.text(HOST - 10, y + 4, sent, INK, 12, "end")
        page.arrow(HOST + 3, y - 3, DEVICE - 3, "#999999")
        page.arrow(DEVICE - 3, y + 5, HOST + 3, color)
        page.text(DEVICE + 10, y + 4, answer, color if color != "#4477aa" else INK, 12)
        y += ROW
    return y


def draw(entries, path):
    plugging, short = rows(entries)
    height = TOP + ROW * (len(plugging) + len(short)) + 110
    page = Page(900, height, "It shows itself as a USB drive: what Linux asked, what the collector answered")
    page.text(HOST, 66, "Linux", INK, 14, "middle", "bold")
    page.text(DEVICE, 66, "the collector", INK, 14, "middle", "bold")
    page.text(62, 66, "seconds", FAINT, 11, "end")
    y = ladder(page, TOP, plugging[0][0], plugging)
    page.text(24, y + 22, LATER, FAINT)
    y = ladder(page, y + 56, short[0][0], short)
    page.write(path)
