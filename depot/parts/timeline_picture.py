"""The run from the guest's start to its end, time going down: the bus's packets, what was plugged in, and what the guest said."""
from . import log
from .svg import FAINT, INK, LINE, Page

SCALE, TOP, ROW = 36, 96, 18  # pixels: a second, the first second's place, a line of text
BIN = 0.1  # seconds in which packets are counted
BUS, PLUG, WIDTH, LABELS = 190, 200, 126, 348  # WIDTH: a box that holds the largest number of blocks
COLORS = ["#4477aa", "#aa7744", "#447755", "#775599", "#996655"]
LEGEND = "Width of the bars on the left: the root of the number of 64-byte packets, requests and asks in %.1f s (at most %d)."


def plugs(entries):
    """(from, to, sizes of the units) of each device."""
    out = []
    for entry in entries:
        if isinstance(entry, log.Note) and entry.words[0] == "plugged":
            out.append([entry.time, entry.time, log.sizes(entry)])
        elif isinstance(entry, log.Note) and entry.words[0] == "unplugged":
            out[-1][1] = entry.time
    return out


def counts(entries):
    """The number of events in each bin of time."""
    bins = {}
    for entry in entries:
        if isinstance(entry, log.Event):
            number = int(entry.time / BIN)
            bins[number] = bins.get(number, 0) + 1
    return bins


def draw_seconds(page, at, boot, end):
    for second in range(int(end - boot) + 2):
        page.line(60, at(boot + second), PLUG + WIDTH + 4, at(boot + second), "#eeeeee")
        page.text(54, at(boot + second) + 4, "%d s" % second, FAINT, 11, "end")


def draw_packets(page, at, bins):
    most = max(bins.values())
    for number, count in bins.items():
        # The root keeps single commands visible beside whole media.
        width = max(1.5, 120 * (count / most) ** 0.5)
        page.box(BUS - width, at(number * BIN), width, SCALE * BIN - 0.6, "#7799bb")
    return most


def draw_plugs(page, at, devices):
    for index, (start, stop, sizes) in enumerate(devices):
        page.box(PLUG, at(start), WIDTH, at(stop) - at(start) - 2, COLORS[index % len(COLORS)], 4)
        words = "%d units" % len(sizes) if len(sizes) > 1 else "{:,} block{}".format(sizes[0], "" if sizes[0] == 1 else "s")
        page.text(PLUG + WIDTH / 2, (at(start) + at(stop)) / 2 + 4, words, "white", 13, "middle")


def draw_marks(page, at, boot, marks):
    """Each text beside its time, or below the text before it."""
    below = 0
    for time, text in marks:
        y = max(at(time), below)
        below = y + ROW
        page.line(PLUG + WIDTH, at(time), LABELS - 6, y, LINE)
        page.text(LABELS, y + 4, "%5.2f" % (time - boot), FAINT, 12, mono=True)
        page.text(LABELS + 52, y + 4, text, INK)


def draw(results, entries, path):
    entries, checks = list(entries), results["checks"]
    boot = next(time for time, text in results["marks"] if text.startswith("the guest is up"))
    marks = [(time, text) for time, text in results["marks"] if time >= boot]
    end = marks[-1][0]
    at = lambda time: TOP + (time - boot) * SCALE
    height = max(at(end + 1), TOP + ROW * len(marks)) + 40
    page = Page(900, int(height), "The collector plugged into Debian's Linux")
    good = sum(1 for check in checks if check[2])
    page.text(24, 52, "Guest up after %.1f s of software emulation; seconds from there. %d of %d checks passed." % (boot, good, len(checks)), FAINT)
    page.text(BUS, TOP - 18, "packets on the bus", FAINT, 11, "end")
    page.text(PLUG, TOP - 18, "plugged in", FAINT, 11)
    draw_seconds(page, at, boot, end)
    most = draw_packets(page, at, counts(entries))
    draw_plugs(page, at, plugs(entries))
    draw_marks(page, at, boot, marks)
    page.text(24, height - 12, LEGEND % (BIN, most), FAINT, 11)
    page.write(path)
