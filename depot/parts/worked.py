"""parts/rules.py held to the repository's recordings, whose answers were worked out by hand."""
import os

from . import script_form
from .blocks import Blocks
from .places import DEPOT
from .rules import Collector
from .tools import script

RECORDINGS = os.path.join(os.path.dirname(DEPOT), "recordings")
RECORDED = {"linux.txt"}  # a run of the depot, whose answers are those of parts/rules.py itself


def differences():
    """The number of events, and what is wrong, as lines."""
    count, wrong = 0, []
    for name in sorted(os.listdir(RECORDINGS)):
        if not name.endswith(".txt") or name in RECORDED:
            continue
        with open(os.path.join(RECORDINGS, name), encoding="utf-8") as f:
            text = f.read()
        events, answers = script.read(text)
        sizes = script.units(text)
        device = Collector(42, 0, 0, 0, Blocks(sum(sizes)), sizes)
        given = script_form.answers([device.event(kind, body) for kind, body in events])
        count += len(events)
        wrong += ["%s, event %d: %s, not %s" % (name, i, got, answer) for i, (got, answer) in enumerate(zip(given, answers), 1) if got != answer]
    return count, wrong
