"""Scripts as they are put on the machine: what they state, and the PIDs that both kernels can give."""
from __future__ import annotations

from tools.commands.messages.script_lines import number_of
from tools.references.stepping.scripts import Container, Refused, read_script

# Above this number Linux gives PIDs cyclically, as a script's kernel does.
FIRST_FREE_PID = 300
HIGH_PIDS = b"pidbase %d" % (FIRST_FREE_PID - 1)


def has_low_pids(script: bytes) -> bool:
    """Whether a script that is taken has PIDs from 1 on."""
    try:
        return not read_script(script).pidbase
    except Refused:
        return False


def has_listener(container: Container) -> bool:
    return any(listens for _, listens in container.filters)


def with_high_pid(line: bytes) -> bytes:
    """The line of a worker's request with the PID that the task has where PIDs are high."""
    words = line.split()
    if words[:1] != [b"w"] or words[2:3] not in ([b"open-mem"], [b"open-base"]):
        return line
    pid = number_of(words[3].decode())
    return b" ".join([*words[:3], b"%d" % (pid + FIRST_FREE_PID - 1 if pid < FIRST_FREE_PID else pid), *words[4:]])


def with_high_pids(script: bytes) -> bytes:
    """A script that has low PIDs with those from 300 on, also in its workers' requests."""
    lines = list(map(with_high_pid, script.split(b"\n")))
    stated = [at for at, line in enumerate(lines) if line.split()[:1] == [b"pidmax"]]
    lines.insert(stated[0] + 1 if stated else 0, HIGH_PIDS)
    return b"\n".join(lines)
