"""The ledgers that stand after a report, where workers were replaced, and whether they are those that its journal tells."""
import json
import re

STEP = re.compile(rb"(\d+) w(\d+) (?!skip$)")
LEDGER = re.compile(rb"ledger (\d+) w(\d+) (\{.*\})")


def expected(report, every):
    """The places, workers and counts of the ledgers, by the journal of a report."""
    counts, steps, found = {}, 0, []
    for line in report.split(b"\ncalls ")[0].splitlines():
        step = STEP.match(line)
        if step:
            place, worker = int(step[1]), int(step[2])
            counts[worker] = counts.get(worker, 0) + 1
            steps += 1
            if steps % every == 0:
                found.append((place, worker, counts[worker] - steps // every % 2))
    return found


def fault(report, ledgers, every):
    """What is wrong with the ledgers after a report, if anything is."""
    title, *lines = ledgers.splitlines() or [b""]
    wanted = expected(report, every)
    if title != b"handovers %d" % len(wanted) or len(lines) != len(wanted):
        return "another number of ledgers"
    for line, (place, worker, count) in zip(lines, wanted):
        ledger = LEDGER.fullmatch(line)
        if not ledger or (int(ledger[1]), int(ledger[2])) != (place, worker):
            return f"another line at {place}"
        values = json.loads(ledger[3])
        if list(values) != ["count", "own", "worker"] or json.dumps(values, separators=(",", ":")).encode() != ledger[3]:
            return f"another text at {place}"
        if (values["count"], values["worker"]) != (count, worker):
            return f"another count at {place}"
    return None
