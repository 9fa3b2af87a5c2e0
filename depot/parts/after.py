"""What is looked at once the guest is down: the kernel's log, and the whole log of events, against document 01 and as a recording."""
import os
import re
import subprocess

from . import bench, census, decode, judge, ledger, log, worked

# What a kernel prints of a disk that it does not like. A deliberate failure through sg does not print it.
COMPLAINTS = re.compile(r"I/O error|FAILED Result|unable to enumerate|device descriptor read|not accepting|offline|timing out|Sense Key")


def look(folder, results, peer, controller, wrong):
    with open(os.path.join(folder, "kernel.log"), encoding="utf-8", errors="replace") as f:
        complaints = [line.strip() for line in f if COMPLAINTS.search(line)]
    results.check("kernel-complains-of-nothing", not complaints, complaints[0] if complaints else "no error in its log")

    count, differences = worked.differences()
    results.check("rules-agree-with-recordings", not differences, differences[0] if differences else "%d events" % count)
    events = os.path.join(folder, "events.log")
    decode.write(log.read(events), os.path.join(folder, "decoded.log"))
    ledgers = ledger.kept(log.read(events))
    ledger.write(ledgers, os.path.join(folder, "ledger.txt"))
    results.check("ledger-in-balance", *ledger.balance(ledgers))
    results.check("seen-in-the-ledger", *ledger.census(ledgers, controller == "xhci"))
    count, differences = judge.differences(folder)
    results.check("answers-of-document-01", not differences, differences[0] if differences else "%d events" % count)
    results.check("seen-on-the-bus", *census.verdict(log.read(events), controller == "xhci"))
    results.check("reads-shown", *census.shown(log.read(events)))

    recording, expected = bench.make(folder)
    environment = dict(os.environ, **({"DEPOT_WRONG": wrong} if wrong else {}))
    played = subprocess.run([peer, "play"], input=recording, env=environment, stdout=subprocess.PIPE, check=False).stdout
    detail = "%d events, %d bytes" % (expected.count("\n") - 1, len(recording))
    results.check("recording-replays", played == expected.encode(), detail)
