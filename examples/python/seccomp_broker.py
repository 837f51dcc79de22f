"""Plays scripts under policies, and checks reports, by the C library: play(policy, script) gives a
Report, hand_over(policy, script, every) its text and the ledgers of workers that were replaced, check(policy, script, report) what is
found of a report, explore(policy, script, workers, delays) what can come of a script, and judge(policy, script) whether the workers of
its schedule mediate; all raise Refused."""
import ctypes
import json
import os
from dataclasses import dataclass
from pathlib import Path


def library():
    """The library's file: the one that SECCOMP_BROKER names, the one beside this module, or the one of this checkout; else the system's."""
    here = Path(__file__).resolve()
    near = [here.with_name("libseccomp_broker.so"), here.parent.parent.parent / "dist/lib/libseccomp_broker.so"]
    return os.environ.get("SECCOMP_BROKER") or next((str(it) for it in near if it.is_file()), "libseccomp_broker.so.1")


LIBRARY = ctypes.CDLL(library())
BYTES, SIZE, LENGTH = ctypes.c_char_p, ctypes.c_size_t, ctypes.POINTER(ctypes.c_size_t)
LIBRARY.broker_play.argtypes = [BYTES, SIZE] * 2 + [SIZE, BYTES, SIZE, LENGTH, BYTES, SIZE, LENGTH]
LIBRARY.broker_audit_check.argtypes = [BYTES, SIZE] * 3 + [SIZE, BYTES, SIZE, LENGTH, BYTES, SIZE, LENGTH]
LIBRARY.broker_handover.argtypes = [BYTES, SIZE] * 2 + [ctypes.c_uint32, SIZE, BYTES, SIZE, LENGTH, BYTES, SIZE, LENGTH]
LIBRARY.broker_explore.argtypes = [BYTES, SIZE] * 2 + [ctypes.c_uint32] * 2 + [SIZE, BYTES, SIZE, LENGTH, BYTES, SIZE, LENGTH]
LIBRARY.broker_judge.argtypes = LIBRARY.broker_play.argtypes
LIBRARY.broker_play.restype = LIBRARY.broker_audit_check.restype = LIBRARY.broker_handover.restype = ctypes.c_uint
LIBRARY.broker_explore.restype = LIBRARY.broker_judge.restype = ctypes.c_uint
DONE, OTHERWISE, SHORT_BUFFER, ROOM_LIMIT, ALL_DELAYS = 0, 11, 100, 1 << 30, 2**32 - 1


class Refused(Exception):
    """No report was given: the status of the program, and its line."""

    def __init__(self, status, line):
        super().__init__(f"status {status}: {line.strip()}")
        self.status, self.line = status, line


@dataclass(frozen=True)
class Report:
    """The lines of each part of a report, and the numbers of its summary."""

    journal: list
    calls: list
    audits: list
    summary: dict


@dataclass(frozen=True)
class Findings:
    """What is found of a report: how many events its history has, whether it is finished, and the lines of its trail."""

    events: int
    finished: bool
    trail: list


def answer(call, *texts, numbers=(), size=65536):
    """What a function of the library gives for these texts, each as bytes or as text, and these numbers."""
    texts = [text.encode() if isinstance(text, str) else text for text in texts]
    out, line = ctypes.create_string_buffer(size), ctypes.create_string_buffer(4096)
    length, said = ctypes.c_size_t(), ctypes.c_size_t()
    status = call(*(part for text in texts for part in (text, len(text))), *numbers, ROOM_LIMIT,
                  out, size, ctypes.byref(length), line, len(line), ctypes.byref(said))
    if status == SHORT_BUFFER:
        return answer(call, *texts, numbers=numbers, size=length.value)
    if status not in (DONE, OTHERWISE):
        raise Refused(status, line.raw[:said.value].decode())
    return out.raw[:length.value].decode()


def report_of(policy, script, size=65536):
    """The text of the report of a script that is played under a policy."""
    return answer(LIBRARY.broker_play, policy, script, size=size)


def play(policy, script, size=65536):
    """The report of a script that is played under a policy."""
    parts, lines = [], report_of(policy, script, size).splitlines()
    while len(parts) < 3:
        end = 1 + int(lines[0].split()[1])
        parts.append(lines[1:end])
        lines = lines[end:]
    return Report(*parts, {name: int(count) for name, count in (field.split("=") for field in lines[0].split()[1:])})


def hand_over(policy, script, every):
    """The text of the report of a script that is played with a worker replaced after every so many steps of workers, and the ledgers
    from which their successors went on: each with the place in the journal of its worker's last step."""
    text = answer(LIBRARY.broker_handover, policy, script, numbers=[every])
    report, _, ledgers = text.partition("\nhandovers ")
    lines = (line.split(" ", 3) for line in ledgers.splitlines()[1:])
    return report + "\n", [(int(place), json.loads(ledger)) for _, place, _, ledger in lines]


def check(policy, script, report):
    """What is found of a report under a policy and a script."""
    first, *trail = answer(LIBRARY.broker_audit_check, policy, script, report).splitlines()
    fields = dict(field.split("=") for field in first.split()[1:])
    return Findings(int(fields["events"]), fields["finished"] == "yes", trail)


def explore(policy, script, workers=0, delays=ALL_DELAYS):
    """What can come of a script under a policy, by workers up to this number: of each outcome its lines, how many histories have it, and
    the lines of a schedule that shows it. And how far that goes: `yes` where there is no bound and none is left, `bound` where none is left with
    so many delays at most, `no` where the limit of events was met."""
    first, *lines = answer(LIBRARY.broker_explore, policy, script, numbers=[workers, delays]).splitlines()
    outcomes = []
    for line in lines:
        if line.startswith("outcome "):
            outcomes.append(([], int(line.rpartition("=")[2]), []))
        outcomes[-1][2 if outcomes[-1][2] or line.startswith("schedule") else 0].append(line)
    return [(told[1:], count, schedule) for told, count, schedule in outcomes], first.rpartition("whole=")[2]


def judge(policy, script):
    """What is found of the workers of a script's schedule, whoever they are: a line that begins with `mediated`, or one that begins with
    `broken`, followed by lines that show why."""
    return answer(LIBRARY.broker_judge, policy, script)
