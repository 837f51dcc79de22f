"""Lines that no broker would write: random bytes, requests that are cut and changed, very long lines, and very many at once."""
from __future__ import annotations

import random
from typing import TYPE_CHECKING, Iterator, List, Tuple

from tools.references.stepping.drawn import drawn
from tools.references.stepping.requests import LONGEST

if TYPE_CHECKING:
    from tools.references.stepping.asking import Files

MANY = 100_000
ROUNDS = 12


# lines that may stand in a schedule, or may not
OF_SCHEDULES = (
    b"w 0 9", b"w 15", b"w 16", b"w 0 0", b"w", b"w 0 frob", b"w 0 able", b"w 0 act", b"w 0 act frob", b"w 0 act close", b'w 0 "recv"', b"w 16 recv", b"w 16 check", b"w 99 let-go",
    b"w x recv", b"w -1 recv", b"w 18446744073709551616 recv", b"w 0 recv 1", b"w 0 recv", b"w 0 check", b"w 0 check x", b"w 16 check x", b"w 0 read 65536 65536", b"w 0 read 65536 256",
    b"w 0 act mknod /a 0 0", b'w 0 act mknod "/a\\0" 0 0', b'w 0 act mount "a" "/" "c" 0 "" over "p"', b'w 16 act mount "a" "/" "c" 0 "" over "p"', b'w 0 act mount "a" "/" "c" 0 "" shifted',
    b'w 0 act mount "a" "/" "c" 0 "" via "p" shift', b"w 0 plant 65536 00", b"w 0 plant 65536 " + b"0g" * 112, b"w 0 send-raw " + b"00" * 24, b"w 0 recv-raw " + b"01" * 80,
    b"w 0 recv-raw " + b"00" * 80, b"w 0 addfd-raw " + b"ff" * 24, b"w 0 send 1 0 1 0", b"w 0 send 1 0 -9999 0", b"w 0 addfd 1 0 5 7 0", b"w 0 addfd-result", b"t 0 3", b"t 0.9", b"t 0.0", b"able",
    b"report", b"script", b"judge", b"judge idle", b"judge well", b"close", b"end", b"schedule", b"poke 0 \"a\"", b"recv", b"# w 0 9", b"", b"w 0 let-go\r",
)


def changed_script(chance, script):
    """The script of a session with some lines of its schedule cut, changed, dropped or moved, or with others between them."""
    at = script.index(b"\nschedule\n") + len(b"\nschedule\n") if b"\nschedule\n" in script else len(b"schedule\n")
    lines = script[at:].split(b"\n")[:-1]
    for _ in range(chance.choice((1, 1, 2, 4))):
        place = chance.randrange(len(lines))
        line, cut = lines[place], chance.randrange(len(lines[place]) + 1)
        other = chance.choice(OF_SCHEDULES)
        lines[place:place + 1] = chance.choice((
            [other, line], [other, line], [other, line], [], [line, line], [line[:cut]], [line[:cut] + bytes([chance.choice((32, 34, 48, 57, 92, 120))]) + line[cut:]], [chance.choice(lines), line],
        )) or ([line] if len(lines) == 1 else [])
    return script[:at] + b"".join(line + b"\n" for line in lines)


def random_lines(chance: random.Random, _: Files) -> List[bytes]:
    """Bytes of any value."""
    return bytes(chance.choice((chance.randrange(256), chance.randrange(32, 127), 10)) for _ in range(30_000)).split(b"\n")


def changed_lines(chance: random.Random, files: Files) -> List[bytes]:
    """The requests of a drawn session, cut, doubled, or with other bytes."""
    found = []
    for line in drawn(files.session(), chance.random()).requests:
        at = chance.randrange(len(line) + 1)
        found.append(chance.choice((line, line[:at], line[at:], line + b" " + line, line[:at] + bytes([chance.choice((0, 9, 13, 34, 35, 92, 127, 255, chance.randrange(256)))]) + line[at:])))
    return [line.replace(b"\n", b"") for line in found]


def long_lines(chance: random.Random, _: Files) -> List[bytes]:
    """Lines around the greatest length, and far above it."""
    quoted = b'w 0 act setxattr "/a" "user.a" "%s" 0'
    room = LONGEST - len(quoted) + 2
    return [
        quoted % (b"y" * room), quoted % (b"y" * (room + 1)), quoted % (b'"' * room), b"#" * LONGEST, b"#" * (LONGEST + 1), b" " * (LONGEST + 1), b"x" * (3 * LONGEST), b"able",
        b"able" + b" " * (LONGEST - 4), b"able" + b" " * (LONGEST - 4) + b"\r", b"\x00" * LONGEST, b"able", b"1" * chance.randrange(20, LONGEST), b"w 0 check " + b"1" * 40_000, b"able",
    ]


def many_lines(chance: random.Random, _: Files) -> List[bytes]:
    """Very many requests."""
    kinds = (b"able", b"t 0", b"t 0.1", b"w 0 check 1", b"w 1 read 0x10000 16", b"w 2 let-go", b"w 3 recv", b"w 4 send 1 0 0 0", b"", b"w 5 addfd-result", b"frob")
    return [chance.choice(kinds) for _ in range(MANY)] + [b"report", b"script"]


KINDS = {"random bytes": random_lines, "changed requests": changed_lines, "long lines": long_lines, f"{MANY} requests at once": many_lines}


def trials(seed: int, folders: List[Tuple[str, Files]]) -> Iterator[Tuple[str, Files, List[bytes]]]:
    """Each trial: its name, the files, and the lines."""
    for name, draw in KINDS.items():
        for number in range(1 if draw is many_lines else ROUNDS):
            chance = random.Random(f"{seed} {name} {number}")
            folder, files = chance.choice(folders)
            yield f"{name} over {folder}, trial {number}", files, draw(chance, files)
