"""Calls the C library on random inputs, through a C program that is built with the address sanitizer, and reports each call at fault.

    tools/checks/fuzz-c-library [--count N] [--seed N] [--first I] [--program PATH]

The inputs are those of tools/checks/fuzz. After a third of them the report is checked, whole or damaged, as there, and after a third the script is
played again with workers that are replaced; a third are judged. Each call is made first with room and buffers for every answer, and again with a random room and
buffers of random sizes, including 0 bytes. After each buffer comes a page that can't be touched.

A call is at fault if the C program ends; if a byte after the text was written; if the answer isn't a whole report with status 0, or one line
of its own with another status; if a check doesn't accept the report of the play, or refuses a damaged one before the damage; if a play with
workers that are replaced doesn't begin with that report, or is refused otherwise than the play; if the answer
isn't what the program (--program) prints, says and ends with for the same files, if there is such a program; or if the second call doesn't
follow from the first: the same text as far as it fits, its whole length, and a status that says what didn't fit.
"""
import os
import random
import re
import struct
import subprocess
import sys
import tempfile
import time
from collections import Counter

from tools.checks import fuzz
from tools.checks.tallies import TrialParser, statuses_told
from tools.commands.command_line.top import TOP

ROOM_LIMIT = 1 << 30
DONE, USAGE, WRITE_FAULT, NO_MEMORY, SHORT_BUFFER = 0, 1, 6, 7, 100
FUNCTIONS = {"play": 0, "stress": 1, "audit-check": 2, "handover": 3, "explore": 4, "judge": 5}
# after how many steps workers are replaced, of which the first and the last are none
EVERY = [0, 1, 2, 3, 7, 1000, 200_000, 200_001]
# the last workers and the bounds of delays with which a script is explored, of which the last one each is none
WORKERS, DELAYS = [0, 1, 15, 16], [0, 9]


class Caller:
    """The C program that makes the calls."""

    def __init__(self, place):
        program = f"{place}/answer-calls"
        subprocess.run(["cc", "-std=gnu11", "-Wall", "-Wextra", "-g", "-O1", "-fsanitize=address,undefined", "-fno-sanitize-recover=all",
                        f"-I{TOP}/dist/include", "-o", program, f"{TOP}/tools/checks/c-library/answer-calls.c", f"{TOP}/dist/lib/libseccomp_broker.a", "-pthread"], check=True)
        self.run = subprocess.Popen([program], stdin=subprocess.PIPE, stdout=subprocess.PIPE)

    def call(self, words, texts, room, out_size, line_size):
        """The status, the whole length of what was printed and of the line, and the front of each that fits."""
        numbers = map(int, {"stress": words[1:], "handover": (0, words[-1]), "explore": words[-2:]}.get(words[0], (0, 0)))
        texts = ([] if words[0] == "stress" else [*texts]) + [b""] * 3
        lengths = map(len, texts[:3])
        self.run.stdin.write(struct.pack("9Q", FUNCTIONS[words[0]], *numbers, *lengths, room, out_size, line_size) + b"".join(texts))
        self.run.stdin.flush()
        told = self.run.stdout.read(24)
        if len(told) < 24:
            sys.exit(f"fuzz-c-library: the C program ended with status {self.run.wait()}")
        status, printed, said = struct.unpack("3Q", told)
        return status, printed, said, self.run.stdout.read(min(printed, out_size)), self.run.stdout.read(min(said, line_size))

    def ended(self):
        """How the C program ends when there is no further call: the sanitizer has then looked for memory that wasn't given back."""
        self.run.stdin.close()
        return self.run.wait()


def by_program(program, words, texts, place):
    """The status, the output and the line of the built program."""
    fuzz.write(place, texts)
    run = subprocess.run([program, *words], cwd=place, stdin=subprocess.DEVNULL, capture_output=True)
    return run.returncode, run.stdout, run.stderr


def is_called(words):
    """Whether a call of the library can ask for what the words ask for."""
    numbers = words[1:] if words[:1] == ["stress"] else words[3:] if words[:1] == ["handover"] else []
    return words == fuzz.PLAY or len(numbers) == (2 if words[:1] == ["stress"] else 1) and all(re.fullmatch(r"\d{1,20}", it) for it in numbers) \
        and int(numbers[0]) < 2**64 and int(numbers[-1]) < 2**32


def whole_fault(words, texts, answer, program, place):
    """What is wrong with the answer of a call that had room for all."""
    status, printed, said, out, line = answer
    if (len(out), len(line)) != (printed, said):
        return f"{printed} bytes printed and {said} said, which didn't fit"
    wrong = fuzz.fault_of(words, status, out, line)
    if wrong is None and program and (other := by_program(program, words, texts, place)) != (status, out, line):
        wrong = f"status {status}, {printed} bytes, {line[:200]!r}; of the program status {other[0]}, {len(other[1])} bytes, {other[2][:200]!r}"
    return wrong


def part_fault(whole, answer, room, out_size, line_size):
    """What is wrong with the answer of a call with less room, after that of one with room for all."""
    status, printed, said, out, line = answer
    text, told = whole[3], whole[4]
    if whole[0] == DONE and len(text) > room:
        good = status == WRITE_FAULT and room < printed <= len(text) and told_is(line, b"write fault\n", said, line_size)
    else:
        short = whole[0] == DONE and len(text) > out_size
        good = status == (SHORT_BUFFER if short else whole[0]) and printed == len(text) and told_is(line, told, said, line_size)
    good = good and out == text[:min(printed, out_size)]
    return None if good else f"status {status}, {printed} printed, {said} said, with room {room}, {out_size} and {line_size}, after status {whole[0]}, {len(text)} and {len(told)}"


def told_is(line, whole, said, size):
    return said == len(whole) and line == whole[:size]


def size_for(chance, length):
    """A size that is near a text's length, or far from it."""
    return max(0, chance.choice([0, 1, length // 2, length - 1, length, length + 1, length + 4096]))


def called(caller, words, texts, chance, program, place):
    """What both calls of these words answer, and what is wrong with it."""
    whole = caller.call(words, texts, ROOM_LIMIT, 1 << 22, 1 << 16)
    if whole[0] == SHORT_BUFFER:
        whole = caller.call(words, texts, ROOM_LIMIT, whole[1], 1 << 16)
    room, out_size, line_size = size_for(chance, whole[1]), size_for(chance, whole[1]), size_for(chance, whole[2])
    part = caller.call(words, texts, room, out_size, line_size)
    return whole, part, whole_fault(words, texts, whole, program, place) or part_fault(whole, part, room, out_size, line_size)


def handover_fault(played, every, answer):
    """What is wrong with the answer of a play with workers that are replaced, which is good by itself, after that of the play."""
    status, printed, said = answer
    if not 1 <= every <= 200_000:
        good = status == USAGE
    elif played[0] != DONE:
        good = answer == played
    else:
        good = status == DONE and fuzz.parted(printed)[0] == played[1]
    return None if good else f"with workers replaced after {every} steps: status {status}, {len(printed)} bytes, said {said[:200]!r}, after the play's status {played[0]}"


def handed_over(caller, texts, played, chance, program, place):
    """The statuses of a play with workers that are replaced, and what is wrong with it."""
    every = chance.choice(EVERY)
    handed, its_part, wrong = called(caller, ["handover", *fuzz.PLAY[1:], str(every)], texts, chance, program, place)
    return [handed[0], its_part[0]], wrong or handover_fault(played, every, (handed[0], *handed[3:]))


def explored(caller, texts, played, chance, program, place):
    """The statuses of an exploration without delays, and what is wrong with it."""
    workers, delays = chance.choice(WORKERS), chance.choice(DELAYS)
    found, its_part, wrong = called(caller, ["explore", *fuzz.PLAY[1:], str(workers), str(delays)], texts, chance, program, place)
    if workers > 15 or delays > 8:
        good = found[0] == USAGE
    elif played[0] != DONE:
        good = (found[0], *found[3:]) == played
    else:
        good = found[0] == DONE and found[3].startswith(f"explored workers={workers} delays={delays} histories=1 ".encode())
    return [found[0], its_part[0]], wrong or (None if good else f"explored by workers up to {workers} with {delays} delays: status {found[0]}, said {found[4][:200]!r}")


def judged(caller, texts, played, chance, program, place):
    """The statuses of the judging of this project's own workers, and what is wrong with it."""
    found, its_part, wrong = called(caller, ["judge", *fuzz.PLAY[1:]], texts, chance, program, place)
    good = found[0] == DONE if played[0] == DONE else (found[0], *found[3:]) == played
    return [found[0], its_part[0]], wrong or (None if good else f"judged: status {found[0]}, said {found[4][:200]!r}, after the play's status {played[0]}")


def tried(caller, inputs, at, program, place):
    """The statuses of the calls of an input, of its check, and of its play with workers that are replaced, its exploration and its
    judging, and what is wrong with them; no status where no call asks for its words."""
    words, policy, script, wanted = inputs.made(at)
    if not is_called(words):
        return [], [], [], None
    chance = random.Random(f"{inputs.seed} {at}")
    whole, part, wrong = called(caller, words, [policy, script], chance, program, place)
    answer, statuses = (whole[0], *whole[3:]), [whole[0], part[0]]
    if wrong is None and wanted is not None and not re.fullmatch(wanted, answer[2]):
        wrong = f"it said {answer[2][:200]!r} where {wanted!r} should be said"
    if wrong is not None or words != fuzz.PLAY:
        return statuses, [], [], wrong
    checks, handovers = [], []
    report = inputs.report_after(at, words, *answer[:2])
    if report is not None:
        checked, its_part, wrong = called(caller, fuzz.CHECK, [policy, script, report], chance, program, place)
        checks = [checked[0], its_part[0]]
        wrong = wrong or fuzz.check_fault(answer, report, (checked[0], *checked[3:]))
    if wrong is None and chance.randrange(3) == 0:
        handovers, wrong = handed_over(caller, [policy, script], answer, chance, program, place)
    if wrong is None and chance.randrange(3) == 0:
        found, wrong = explored(caller, [policy, script], answer, chance, program, place)
        handovers += found
    if wrong is None and chance.randrange(3) == 0:
        found, wrong = judged(caller, [policy, script], answer, chance, program, place)
        handovers += found
    return statuses, checks, handovers, wrong


def main():
    asked = TrialParser().add_draws(10_000).add_built().parse_args()
    program = asked.program if os.access(asked.program, os.X_OK) else None
    if program is None:
        print(f"fuzz-c-library: {asked.program} isn't there, so answers aren't compared with the program's")
    subprocess.run([f"{TOP}/tools/commands/make-c-library"], check=True)
    inputs, begun, statuses, checks, handovers, faults, left_out = fuzz.Inputs(asked.seed), time.monotonic(), Counter(), Counter(), Counter(), 0, 0
    with tempfile.TemporaryDirectory(prefix="fuzz-c-") as place:
        caller = Caller(place)
        for at in range(asked.first, asked.first + asked.count):
            ended_with, checked_with, handed_with, wrong = tried(caller, inputs, at, program, place)
            statuses.update(ended_with)
            checks.update(checked_with)
            handovers.update(handed_with)
            left_out += not ended_with
            if wrong is not None:
                faults += 1
                print(f"fuzz-c-library: input {at} of seed {asked.seed}: {wrong}", flush=True)
        ended = caller.ended()
    print(f"fuzz-c-library: {asked.count} inputs of seed {asked.seed} in {time.monotonic() - begun:.0f} s, {left_out} of them words alone; {statuses_told(statuses)}; "
          f"{sum(checks.values())} checks: {statuses_told(checks)}; {sum(handovers.values())} with workers replaced, explorations and judgements: {statuses_told(handovers)}; {faults} at fault; the C program ended with status {ended}")
    return faults > 0 or ended != 0
