"""Where things stand. All of it is under depot/, but for the library that is plugged in."""
import os

DEPOT = os.path.dirname(os.path.dirname(os.path.abspath(__file__)))
CACHE = os.path.join(DEPOT, "cache")
OUT = os.path.join(DEPOT, "out")
GUEST = os.path.join(DEPOT, "guest")


def run_folder(controller, wrong):
    """Where a run leaves its logs."""
    return os.path.join(OUT, "wrong-" + wrong if wrong else controller)
