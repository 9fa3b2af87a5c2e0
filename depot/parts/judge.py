"""A run's log held to document 01: every answer, and the medium wherever it was saved."""
import os

from . import blocks, log
from .rules import Collector


def differences(folder):
    """The events' number, and what is wrong, as lines."""
    count, wrong = 0, []
    medium, device = None, None
    contents = lambda name: blocks.read(os.path.join(folder, name))
    for entry in log.read(os.path.join(folder, "events.log")):
        if isinstance(entry, log.Event):
            count += 1
            word, data = device.event(entry.kind, entry.body)
            if (word, data) != (entry.word, entry.data):
                wrong.append("%.3f s: %s %s, document 01: %s %s" % (entry.time, entry.word, entry.data.hex(), word, data.hex()))
        elif entry.words[0] == "loaded":
            medium = contents(entry.words[1])
        elif entry.words[0] == "plugged":
            device = Collector(*log.identity(entry), medium, log.sizes(entry))
        elif entry.words[0] == "unplugged":
            medium, device = device.medium, None
        elif entry.words[0] == "saved" and contents(entry.words[1]) != (device.medium if device else medium):
            wrong.append("%.3f s: %s is not the medium that the events make" % (entry.time, entry.words[1]))
    return count, wrong
