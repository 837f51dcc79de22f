"""Compares what `explain` says with what tools/references/reference-explain does, on policies and files of calls that are drawn at random.

    tools/checks/check-explain [--count N] [--seed N] [--first I] [PROGRAM]

N are drawn (200). Output, status and the line on standard error have to be equal, byte for byte; where they aren't, the number of the draw is told, which --first I --count 1 makes again.
PROGRAM is the one that ./broker runs, if none is named.

Exit status: 0 where all are equal, else 1. The last line is `explain: N passed, N failed`.
"""
from __future__ import annotations

import os
import subprocess
import tempfile
from concurrent.futures import ThreadPoolExecutor
from itertools import zip_longest
from pathlib import Path

from tools.checks.tallies import Tally, TrialParser
from tools.references.stepping.drawn_calls import drawn
from tools.references.stepping.explaining import Refused, explanation
from tools.references.stepping.policies import read_policy

BAD_CALLS = 5


def expected(policy, calls):
    """The status, the output and the line on standard error."""
    try:
        return 0, explanation(read_policy(policy), calls).encode("ascii"), b""
    except Refused as refused:
        return BAD_CALLS, b"", f"calls: {refused}\n".encode()


def fault(program, seed):
    """Where the program differs on a draw, in words; None where it doesn't."""
    policy, calls = drawn(seed)
    with tempfile.TemporaryDirectory(prefix="check-explain-") as room:
        Path(room, "policy.json").write_bytes(policy)
        Path(room, "calls.txt").write_bytes(calls)
        ended = subprocess.run([program, "explain", "policy.json", "calls.txt"], cwd=room, stdin=subprocess.DEVNULL, capture_output=True)
    wanted, said = expected(policy, calls), (ended.returncode, ended.stdout, ended.stderr)
    return None if said == wanted else f"expected {shown(wanted, said)}\n  it is {shown(said, wanted)}"


def shown(one, other):
    """How an end is told: its status, its line on standard error, and the first line of its output that the other one hasn't."""
    lines = zip_longest(one[1].split(b"\n"), other[1].split(b"\n"))
    line = next((line for line, beside in lines if line != beside), None)
    return f"status {one[0]} {one[2].decode('ascii')!r} {line!r}"


def main() -> bool:
    asked = TrialParser().add_draws(200).add_program().with_program()
    numbers = range(asked.first, asked.first + asked.count)
    with ThreadPoolExecutor(os.cpu_count()) as pool:
        found = pool.map(lambda number: fault(asked.program, f"{asked.seed} {number}"), numbers)
        return Tally("explain").note_all((f"draw {number} of seed {asked.seed}", wrong) for number, wrong in zip(numbers, found)).ended()
