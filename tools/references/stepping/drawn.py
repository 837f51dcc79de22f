"""Sessions of `step` that are drawn at random: what a broker would ask, at the wrong time too, and lines that are no requests."""
from __future__ import annotations

import random
from collections import namedtuple
from typing import TYPE_CHECKING, Any, Optional, Tuple, Union

from tools.references.stepping.facts import AT_FDCWD, CALL_NAMES, SEND, SETFD, Fail, Notif, quoted
from tools.references.stepping.rules import PATH_LIMIT, PIECE, plan

if TYPE_CHECKING:
    from tools.references.stepping.sessions import Session

# the last two answers are the report and the script of the session, whose listener is closed
Drawn = namedtuple("Drawn", "requests answers")
SEATS, LONGEST = 4, 90
KINDS = (0o010666, 0o020666, 0o060600, 0o100644, 0o140700, 0o040755, 0o150000, 0o666)
DEVICES = (0, 257, 259, 261, 1281, 2**20 + 3, 2**32 + 259)
NAMES = (b"user.origin", b"trusted.overlay.opaque", b"security.x", b"user.", b"")
TYPES = (b"ext4", b"tmpfs", b"", b"NTFS")
WORD_FAULTS = (
    "", "   ", "# able", "able 1", "able\t", "steps", '"able"', "t", "t 0 1", "t 00", "t 0.0", 't "0"', "t 0.9.9", "w", "w 0", "w 16 recv", "w 99 let-go", "w x recv", "w -1 recv",
    "w 0 send 1 0 0", "w 0 send 1 0 0 0 0", "w 0 check", "w 0 check x", "w 0 check -1", "w 0 check 18446744073709551616", "w 0 read 0 65536", "w 0 read 0 -1", "w 0 read 0x10000 0x10",
    "w 0 open-mem 4294967296", "w 0 open-base 1 2147483648", "w 0 open-base 1", 'w 0 act mknod /a 0 0', 'w 0 act mknod "/a" 0', 'w 0 act mknodat "/a" 0 0', 'w 0 act setxattr "a" "b" "c"',
    'w 0 act mount "a" "/" "c" 0', "w 0 addfd 1 2 3 4", "w 0 addfd-result 1", 'w 0 act mknod "/a', 'w 0 act mknod "/a"x 0 0', "w 0 act mknod \\ 0 0", 'w 0 act mknod "\\q" 0 0', "ab\x01le", "t 0\r", "report x", "script 1", "scripts",
    "w x check", "w 16 check", 'w "0" frob', 'w 0 act mknod "/a" 0 x', "w x act", "w x act frob",
    'w 0 act mknod "/a\\0" 0 0', 'w 0 act setxattr "/a" "b\\0" "c" 0', 'w 0 act setxattr "/a" "b" "c" 4294967297', 'w 0 act mount "a" "/" "c" 0 "" via', 'w 0 act mount "a" "/" "c" 0 "" over "p"',
    "look", "look at", "look pid", "look pid x", 'look pid "1"', "look pid 4294967296", "look fd 1", "look fd 1 -1", "look listener 1", "Look listener", 'look "pid" 1',
    'look path 1 -100 "/"', "look path 1 -100 / follow", 'look path 1 -100 "/" "follow"', 'look path 1 -100 "/" up', 'look path 1 2147483648 "/" up', 'look path 1 -100 "/\\0" nofollow',
    'w 0 act mount "a" "/" "c" 0 "" shift shift', 'w 0 act mount "a" "/" "c" 0 "" shift via "p"', 'w 0 act mount "a" "/" "c" 0 "\\0"', 'w 0 act mount "a" "/" "c" 0 "" via "p\\0"',
)


class Chooser:
    """Draws the requests of one session, each by what the kernel is like at that moment."""

    def __init__(self, session, chance):
        self.session, self.kernel, self.chance = session, session.kernel, chance
        self.notifs = {}
        self.drawn = Drawn([], [])

    def ask(self, request: str) -> None:
        """Adds a request with its answer."""
        line = request.encode("latin-1")
        self.drawn.requests.append(line)
        self.drawn.answers.append(self.session.answer(line))

    def draw(self) -> Drawn:
        for _ in range(self.chance.randrange(10, LONGEST)):
            self.one()
            if self.is_over() and self.chance.random() < 0.4:
                break
        if self.chance.random() < 0.2:
            self.ask("close")
            for _ in range(3):
                self.one()
        for request in ("judge", "judge idle", "report", "script", "close", "judge idle", "judge", "report", "script"):
            self.ask(request)
        return self.drawn

    def is_over(self) -> bool:
        """Whether nothing will come of further steps."""
        return not self.kernel.able() and not self.kernel.calls

    def one(self) -> None:
        kind = self.chance.random()
        if kind < 0.04:
            self.ask(self.chance.choice(("able", self.look(), self.look())))
        elif kind < 0.07:
            self.ask(self.chance.choice(("report", "script", "judge", "judge idle")))
        elif kind < 0.1:
            self.ask(self.chance.choice(WORD_FAULTS))
        elif kind < (0.5 if self.kernel.able() else 0.15):
            self.ask(f"t {self.task()}")
        else:
            self.of_worker(self.chance.choice(list(self.notifs) * 4 + list(range(SEATS))))

    # ---- tasks

    def task(self) -> str:
        able = self.kernel.able()
        if able and self.chance.random() < 0.85:
            return self.chance.choice(able).actor[1:]
        if self.chance.random() < 0.7:
            return self.chance.choice(list(self.kernel.tasks.values())).actor[1:]
        return self.chance.choice(["0.1", "0.7", "0.1.1", "0.2"])

    # ---- looks

    def look(self):
        """A look at what there may be."""
        notif = self.chance.choice([*self.notifs.values(), None])
        pid = self.pid(notif)
        return "look " + self.chance.choice((
            f"pid {pid}", f"fd {pid} {self.chance.choice([0, 2, 3, 3, 4, 9, 2**32 - 1])}", "listener",
            f"path {pid} {self.chance.choice([AT_FDCWD, AT_FDCWD, 3, 4, -1])} {self.path(notif)} {self.chance.choice(['follow', 'nofollow'])}",
        ))

    # ---- workers

    def of_worker(self, seat: int) -> None:
        notif, worker = self.notifs.get(seat), self.kernel.worker(seat)
        is_there = self.kernel.unfetched() is not None and not self.kernel.is_closed
        if self.chance.random() < ((0.8 if is_there else 0.2) if notif is None else 0.03):
            self.receive(seat)
        elif notif and worker.memory is None and self.chance.random() < 0.5:
            self.ask(f"w {seat} {self.open_mem(notif)}")
        else:
            self.ask(f"w {seat} {self.chance.choice(self.deeds(notif, worker))(self, notif)}")
            if self.drawn.requests[-1].endswith(b" let-go"):
                self.notifs.pop(seat, None)

    def deeds(self, notif, worker):
        """What a worker may ask for here, the likely things more often."""
        call = CALL_NAMES.get(notif.number) if notif else None
        likely = {"openat": [Chooser.addfd] * 8, "sysinfo": [Chooser.plant] * 5}.get(call, [Chooser.act] * 4 if call else [])
        return [*DEEDS, *likely, *([Chooser.addfd_result] * 6 if worker.request else [])]

    def receive(self, seat: int) -> None:
        raw = " ".join(["recv-raw", "00" * 80 if self.chance.random() < 0.8 else "01" + "00" * 79])
        before = len(self.kernel.events)
        self.ask(f"w {seat} {self.chance.choice(['recv', 'recv', raw])}")
        event = self.kernel.events[-1]
        if len(self.kernel.events) > before and event.kind == "recv" and not isinstance(event.facts[0], Fail):
            self.notifs[seat] = event.facts[0]

    def id(self, notif: Optional[Notif]) -> int:
        known = [call.id for call in self.kernel.calls] + [it.id for it in self.notifs.values()]
        if notif and self.chance.random() < 0.8:
            return notif.id
        return self.chance.choice(known) if known and self.chance.random() < 0.8 else self.chance.choice([0, 1, 2, 2**64 - 1])

    def pid(self, notif: Optional[Notif]) -> int:
        if notif and self.chance.random() < 0.8:
            return notif.pid
        return self.chance.choice([task.pid for task in self.kernel.tasks.values()] + [0, 2**32 - 1])

    def address(self, notif: Optional[Notif]) -> int:
        stated = [part.address for part in plan(notif.number, notif.args)] or [notif.args[0]] if notif else []
        if stated and self.chance.random() < 0.8:
            return self.chance.choice(stated)
        return self.chance.choice([0, 0x10000, 0x10FFF, 0x1FFF0, 0x20000, 2**47 - 1, 2**64 - 1])

    def open_mem(self, notif: Optional[Notif]) -> str:
        return f"open-mem {self.pid(notif)}"

    def open_base(self, notif: Any) -> str:
        return f"open-base {self.pid(notif)} {self.chance.choice([AT_FDCWD, AT_FDCWD, 0, 3, 4, -1, -2**31])}"

    def check(self, notif):
        return f"check {self.id(notif)}"

    def read(self, notif: Optional[Notif]) -> str:
        address = self.address(notif)
        length = self.chance.choice([PIECE - address % PIECE, PIECE - address % PIECE, 0, 1, 16, 4096, 65535])
        return f"read {self.chance.choice([str(address), hex(address)])} {length}"

    def plant(self, notif: Optional[Notif]) -> str:
        content = self.kernel.container_sysinfo() if self.chance.random() < 0.6 else bytes(self.chance.randrange(256) for _ in range(112))
        return f"plant {self.address(notif)} {self.chance.choice([content.hex(), content.hex().upper()])}"

    def path(self, notif: Optional[Notif]) -> str:
        """A path of the call's, or another one."""
        if notif and self.chance.random() < 0.6:
            group = next((task.group for task in self.kernel.tasks.values() if task.pid == notif.pid), None)
            found = group.read(self.address(notif), PATH_LIMIT) if group else Fail(0)
            if not isinstance(found, Fail) and b"\0" in found:
                return quoted(found[:found.index(b"\0")][:300])
        nodes = [b"/" + node.name for node in self.kernel.tree.nodes if node.name]
        made = [b"/new", b"new", b"", b"/", b"..", b"/a/b", b"/dev/null", b"/./new/../x/", b"x" * 256]
        return quoted(self.chance.choice(nodes + made))

    def act(self, notif: Optional[Notif]) -> str:
        kind = CALL_NAMES.get(notif.number) if notif and self.chance.random() < 0.6 else None
        kind = kind if kind in ACTS else self.chance.choice(list(ACTS))
        return "act " + ACTS[kind](self, notif)

    def mknod(self, notif: Optional[Notif]) -> str:
        return f"mknod {self.path(notif)} {self.chance.choice(KINDS)} {self.chance.choice(DEVICES)}"

    def mknodat(self, notif: Optional[Notif]) -> str:
        return f"mknodat {self.chance.choice([AT_FDCWD, 3, 4, 0, -1])} {self.path(notif)} 0o{self.chance.choice(KINDS):o} {self.chance.choice(DEVICES)}"

    def mount(self, notif: Optional[Notif]) -> str:
        behind = self.chance.choice(["", "", ' via "fuse2fs"', ' via "-"', " shift", ' via "x y" shift', ' via ""'])
        flags = self.chance.choice([0, 1, 32, 4096, 0xC0ED0001, 2**40])
        return f'mount "/dev/sda1" {self.path(notif)} {quoted(self.chance.choice(TYPES))} {flags} {quoted(self.chance.choice([b"", b"a,b", bytes(range(1, 40))]))}{behind}'

    def setxattr(self, notif: Optional[Notif]) -> str:
        value = quoted(self.chance.choice([b"", b"y", b"\0\xff", b"n" * 50]))
        return f"setxattr {self.path(notif)} {quoted(self.chance.choice(NAMES))} {value} {self.chance.choice([0, 0, 1, 2, 3, 4])}"

    def addfd(self, notif: Optional[Notif]) -> str:
        sources = sorted(self.kernel.container.broker) or [5]
        flags = self.chance.choice([0, SEND, SEND, SEND | SETFD, SETFD, 4])
        number = self.chance.choice([0, 0, 3, 9, 1023, 4096, 2**20]) if flags & SETFD or self.chance.random() < 0.1 else 0
        fields = (self.id(notif), flags, self.chance.choice([*sources * 3, 1024]), number, self.chance.choice([0, 0, 0, 0o2000000, 1]))
        if self.chance.random() < 0.5:
            return "addfd " + " ".join(map(str, fields))
        return "addfd-raw " + (fields[0].to_bytes(8, "little") + b"".join(field.to_bytes(4, "little") for field in fields[1:])).hex()

    def addfd_result(self, _: Optional[Notif]) -> str:
        return "addfd-result"

    def send(self, notif):
        value, error, flags = self.chance.choice([(0, 0, 0), (0, 0, 1), (0, -1, 0), (7, 0, 0), (-(2**63), 0, 0), (7, -17, 0), (0, -4095, 0), (0, -4096, 0), (0, 1, 0), (1, 0, 1), (0, 0, 2)])
        if self.chance.random() < 0.5:
            return f"send {self.id(notif)} {value} {error} {flags}"
        raw = self.id(notif).to_bytes(8, "little") + value.to_bytes(8, "little", signed=True) + error.to_bytes(4, "little", signed=True) + flags.to_bytes(4, "little")
        return f"send-raw {raw.hex()}"

    def let_go(self, _: Optional[Notif]) -> str:
        return "let-go"


ACTS = {"mknod": Chooser.mknod, "mknodat": Chooser.mknodat, "mount": Chooser.mount, "setxattr": Chooser.setxattr}
DEEDS = (
    Chooser.open_mem, Chooser.open_mem, Chooser.open_base, Chooser.check, Chooser.check, Chooser.check, Chooser.read, Chooser.read, Chooser.read, Chooser.act, Chooser.act, Chooser.plant,
    Chooser.addfd, Chooser.addfd_result, Chooser.send, Chooser.let_go,
)


def drawn(session: Session, seed: Union[float, str]) -> Drawn:
    """The requests of a session, and their answers."""
    return Chooser(session, random.Random(seed)).draw()


def script_and_report(session: Drawn) -> Tuple[bytes, bytes]:
    """The script of a drawn session, and the report that a play of it has to give."""
    report, script = (answer.encode("latin-1").partition(b"\n")[2] for answer in session.answers[-2:])
    return script, report
