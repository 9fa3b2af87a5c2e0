"""A run's log as a bench recording (document 01, "The bench recording"): what Linux sent to the bench's device."""
import os

from . import blocks, log, script_form
from .rules import Collector

LONGEST, MOST_EVENTS = 16384, 1024
NUMBERS, SIZES = (42, 0, 0, 0), [64]
MEDIUM = blocks.Blocks(sum(SIZES))


def bench_events(path):
    """The events of the first device that is the bench's: number 42, other numbers 0, one unit of 64 zero blocks."""
    events, taking, zero = [], False, False
    for entry in log.read(path):
        if isinstance(entry, log.Event):
            if taking:
                events.append(entry)
        elif entry.words[0] == "loaded":
            zero = blocks.read(os.path.join(os.path.dirname(path), entry.words[1])) == MEDIUM
        elif entry.words[0] == "plugged":
            taking = zero and log.identity(entry) == NUMBERS and log.sizes(entry) == SIZES
        elif entry.words[0] == "unplugged" and taking:
            break
    return events


def cut(events):
    """As many events as fit, whole commands only, with the answers of document 01."""
    device, size, answers, whole = Collector(*NUMBERS, MEDIUM, SIZES), 2, [], 0
    for event in events[:MOST_EVENTS]:
        size += 4 + len(event.body)
        if size > LONGEST:
            break
        answers.append(device.event(event.kind, event.body))
        if device.due == "wrapper":
            whole = len(answers)
    return events[:whole], answers[:whole]


def make(folder):
    """Writes linux.txt, linux.rec and linux.expected beside the log. The answers are those of parts/rules.py, not the log's."""
    events, answers = cut(bench_events(os.path.join(folder, "events.log")))
    text = script_form.text(events, answers)
    recording, expected = script_form.compiled(text)
    for name, body in (("linux.txt", text.encode()), ("linux.rec", recording), ("linux.expected", expected.encode())):
        with open(os.path.join(folder, name), "wb") as f:
            f.write(body)
    return recording, expected
