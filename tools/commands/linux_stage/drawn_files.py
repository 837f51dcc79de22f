"""Drawn scripts about paths, mounts, memory, descriptors and arguments."""
from __future__ import annotations

import random
from typing import Callable, List, Optional, Tuple

from tools.commands.linux_stage.drawn_scripts import Draft, poke, rule, served
from tools.commands.real_workloads.script_text import quoted

NAMES = [b"a", b"b", b"c", b"d", b"e", b"l1", b"l2", b"l3"]
OPEN_PATH = "0o10000000"
DEVICES = ["0o020666 259", "0o060666 2049", "0o100666 0", "0o010666 0", "0o140666 0", "0o100644 0", "0 0"]
NODES = ["0o100666 0", "0o010666 0", "0o140666 0", "0o020666 259", "0o040755 0", "0o170000 0", "0o030000 0"]
ACTS = ["mknod", "mknodat", "mount", "setxattr"]


class Tree:
    """A tree in the making: its lines, its directories, and its nodes as they are seen from the container's root."""

    def __init__(self, chance):
        self.chance, self.lines, self.directories, self.taken, self.nodes = chance, [], [b"/"], {b"/"}, []
        self.root = b"/"
        if chance.random() < 0.5:
            self.root = b"/ct"
            self.state("dir", b"/ct")
        for _ in range(chance.randrange(2, 14)):
            self.grow()

    def state(self, kind: str, path: bytes, *operands: str) -> None:
        self.lines.append(" ".join([kind, quoted(path), *operands]))
        self.taken.add(path)
        if kind == "dir":
            self.directories.append(path)

    def grow(self) -> None:
        inside = [path for path in self.directories if path.startswith(self.root)]
        parent = self.chance.choice([*inside, self.chance.choice(self.directories)])
        path = parent.rstrip(b"/") + b"/" + self.chance.choice(NAMES)
        if path in self.taken:
            return
        kind = self.chance.choices(["dir", "reg", "fifo", "sock", "chr", "link"], [50, 10, 3, 3, 3, 31])[0]
        operands = {"chr": ["1", "3"], "link": [quoted(drawn_path(self.chance, self.nodes, 4))]}.get(kind, [])
        self.state(kind, path, *operands)
        if path.startswith(self.root):
            self.nodes.append(path[len(self.root.rstrip(b"/")):] or b"/")

    def settings(self) -> List[str]:
        return self.lines + ([f"root {quoted(self.root)}"] if self.root != b"/" else [])


def component(chance: random.Random) -> bytes:
    kind = chance.random()
    if kind < 0.75:
        return chance.choice(NAMES)
    if kind < 0.94:
        return b".." if kind < 0.88 else b"."
    return b"x" * chance.choice([254, 255, 256]) if kind < 0.96 else b"n%d" % chance.randrange(3)


def drawn_path(chance: random.Random, nodes: List[bytes], most: int = 6, slashes: float = 0.03) -> bytes:
    """A path: often one that begins with a node of the tree, and sometimes with a slash at its end."""
    path = b"/" if chance.random() < 0.6 else b""
    end = b"/" if chance.random() < slashes else b""
    if nodes and chance.random() < 0.6:
        path, most = chance.choice(nodes), 3
        if chance.random() < 0.3:
            return path + end
        path = path[1:] if chance.random() < 0.3 else path
        path += b"/" if path else b""
    parts = [component(chance) for _ in range(chance.randrange(1, most))]
    return path + chance.choice([b"/", b"/", b"/", b"//"]).join(parts) + end


def path_call(chance: random.Random) -> List[str]:
    """The lines of a call on the path at 0x10000."""
    descriptor = chance.choice(["-100", "3", "3", "4", "0", "77", "-1"])
    kind = chance.random()
    if kind < 0.3:
        return [f"call mknod 0x10000 {chance.choice(chance.choice([DEVICES, NODES]))}"]
    if kind < 0.5:
        return [f"call mknodat {descriptor} 0x10000 {chance.choice(chance.choice([DEVICES, NODES]))}"]
    if kind < 0.75:
        return [f"call openat {descriptor} 0x10000 {OPEN_PATH}"]
    if kind < 0.9:
        return [poke(0x12000, b"tmpfs\0"), poke(0x13000, b"none\0"), "call mount 0x13000 0x10000 0x12000 0 0"]
    name = chance.choice([b"user.a\0", b"user.b\0", b"trusted.overlay.opaque\0"])
    flags = chance.choice([0, 0, 1, 2, 3])
    return [poke(0x12000, name), poke(0x13000, b"v"), f"call setxattr 0x10000 0x12000 0x13000 {chance.choice([0, 1])} {flags}"]


def path_rules(chance: random.Random) -> List[dict]:
    return [rule(f"g{at}", call, "grant") for at, call in enumerate(ACTS) if chance.random() < 0.85]


def paths(chance: random.Random, _: int) -> Draft:
    """Walks: links, `..`, kinds of nodes, effects and native calls."""
    slashes = chance.choice([0, 0, 0, 0, 0.3])
    tree = Tree(chance)
    notified = chance.sample([*ACTS, "openat"], chance.randrange(2, 6))
    calls = chance.randrange(2, 8)
    body = [line for _ in range(calls) for line in [poke(0x10000, drawn_path(chance, tree.nodes, 6, slashes) + b"\0"), *path_call(chance)]]
    return Draft([*tree.settings(), "notify " + " ".join(notified)], [("main", body)], served(calls * 2), path_rules(chance))


def plain_paths(chance: random.Random, number: int) -> Draft:
    """As paths, without mounts and without slashes at the ends of paths."""
    draft = paths(chance, number)
    bodies = [(name, [plain(line) for line in body]) for name, body in draft.programs]
    return Draft([plain(line) for line in draft.settings], bodies, draft.schedule, draft.rules)


def plain(line: str) -> str:
    if line.startswith("call mount"):
        return "call mknod 0x10000 0o010666 0"
    if line.startswith("link"):
        head, _, text = line[:-1].rpartition('"')
        return f'{head}"{text.rstrip("/") or "/"}"'
    if line.startswith("poke 0x10000"):
        head, _, text = line.removesuffix('\\0"').rpartition('"')
        return f'{head}"{text.rstrip("/") or "/"}\\0"'
    return line


def among(chance: random.Random, most: int, mounted: List[bytes], opened: List[bytes], relative: List[bytes]) -> List[str]:
    """Mounts, directories that are opened, and calls relative to these."""
    body, descriptors = [], 3
    for _ in range(chance.randrange(4, most)):
        kind = chance.random()
        if kind < 0.33:
            body += [poke(0x10000, chance.choice(mounted) + b"\0"), poke(0x12000, b"tmpfs\0"), "call mount 0 0x10000 0x12000 0 0"]
        elif kind < 0.58 or descriptors == 3:
            body += [poke(0x10000, chance.choice(opened) + b"\0"), f"call openat -100 0x10000 {OPEN_PATH}"]
            descriptors += 1
        elif kind < 0.8:
            descriptor, node = chance.randrange(3, descriptors + 1), chance.choice(["0o100666 0", "0o020666 259"])
            body += [poke(0x10000, chance.choice(relative) + b"\0"), f"call mknodat {descriptor} 0x10000 {node}"]
        else:
            body += [poke(0x10000, chance.choice(relative) + b"\0"), f"call openat {chance.randrange(3, descriptors + 1)} 0x10000 {OPEN_PATH}"]
            descriptors += 1
    return body


GRANT_ALL = [rule("g", ["mknod", "mknodat", "mount"], "grant")]


def mounts(chance: random.Random, _: int) -> Draft:
    """Mounts anywhere, bases below them, and `..`."""
    settings = ['dir "/a"', 'dir "/a/b"', 'dir "/a/b/c"', 'dir "/d"', 'dir "/d/e"', 'link "/l" "a/b"', "notify mknod mknodat mount"]
    anywhere = [b"/a", b"/a/b", b"/a/b/c", b"/d", b"/d/e", b"/l", b"/", b"/a/..", b"/a/b/..", b"/a/b/../..", b"/a/.", b"/l/..", b"/d/../a"]
    relative = [b"..", b"../x", b"x", b"../../x", b"../b", b"../b/x", b".", b"../../a/x", b"../../d/x", b"../..", b"./x", b"c", b"../c/x"]
    return Draft(settings, [("main", among(chance, 10, anywhere, anywhere, relative))], served(20), GRANT_ALL)


def plain_mounts(chance: random.Random, _: int) -> Draft:
    """Mounts on directories to which no `..` leads back."""
    settings = ['dir "/a"', 'dir "/a/b"', 'dir "/a/m"', 'dir "/d"', 'dir "/d/m"', 'dir "/m"', 'link "/l" "a/m"', 'link "/a/k" "../d/m"',
                "notify mknod mknodat mount"]
    mounted = [b"/m", b"/a/m", b"/d/m", b"/l", b"/a/k", b"/d/m/."]
    opened = [*mounted, b"/a", b"/d", b"/a/b", b"/m/..", b"/a/m/..", b"/l/..", b"/a/k/../../a/m", b"/l/../k/.."]
    relative = [b"..", b"../x", b"x", b"../m", b"../m/x", b".", b"m", b"m/x", b"../m/../x", b"../b/../m/x", b"k/x", b"../k/x", b"../../m/x", b"../../a/m/x"]
    return Draft(settings, [("main", among(chance, 14, mounted, opened, relative))], served(24), GRANT_ALL)


# ---- memory

MAPS: List[List[Tuple[int, int]]] = [[], [], [(0x20000, 1), (0x22000, 2)], [(0x10000, 3)], [(0x7FFFF0000000, 2), (0x10000, 1)], [(0x40000, 1), (0x41000, 1)]]
TEXTS = [b"/x\0", b"/y", b"/ab/c\0", b"/" * 255 + b"q\0", b"user.n\0", b"n" * 300, b"/" * 4090 + b"ab\0", b"u" * 255 + b"\0", b"u" * 256,
         b"user." + b"z" * 249 + b"\0", b"tmpfs\0"]


def mapped_address(chance: random.Random, maps: List[Tuple[int, int]], length: int) -> Optional[int]:
    """An address from which so many bytes are mapped, often up to the end of a page, or None."""
    for _ in range(99):
        start, pages = chance.choice(maps)
        end = start + 4096 * pages
        page = start + 4096 * chance.randrange(1, pages + 1)
        address = chance.choice([start, start + chance.randrange(4096 * pages), end - length, page - chance.randrange(1, length + 1)])
        if start <= address and address + length <= end:
            return address
    return None


def any_address(chance: random.Random, maps: List[Tuple[int, int]]) -> int:
    start, pages = chance.choice(maps)
    end = start + 4096 * pages
    page = start + 4096 * chance.randrange(pages + 1)
    return chance.choice([start, start + chance.randrange(4096 * pages), end - chance.choice([1, 2, 5, 16, 111, 112, 255, 256, 257]),
                          page - chance.choice([0, 1, 3, 100]), end, start - 1, 0, 1, 2**64 - 1, 2**64 - 100, 2**63, 2**47 - 1])


def stored_texts(chance: random.Random, maps: List[Tuple[int, int]]) -> Tuple[List[str], List[int]]:
    """Lines that store texts, and their addresses."""
    lines, addresses = [], []
    for _ in range(chance.randrange(2, 8)):
        text = chance.choice(TEXTS)
        address = mapped_address(chance, maps, len(text))
        if address is not None:
            lines.append(poke(address, text))
            addresses.append(address)
    address = mapped_address(chance, maps, 4096) if chance.random() < 0.3 else None
    if address is not None:
        lines.append(f"fill 0x{address:x} {chance.choice([4095, 4096])} {chance.choice([0x2F, 0x61])}")
        addresses.append(address)
    return lines, addresses


def memory_call(chance: random.Random, address: Callable[[], str]) -> str:
    """A call whose arguments are addresses that `address` draws."""
    name = chance.choice(["mknod", "openat", "sysinfo", "mount", "setxattr"])
    if name == "mknod":
        return f"call mknod {address()} 0o{chance.choice(['020666', '010666', '100666'])} 259"
    if name == "openat":
        return f"call openat -100 {address()} {OPEN_PATH}"
    if name == "sysinfo":
        return f"call sysinfo {address()}"
    if name == "mount":
        return f"call mount {address()} {address()} {address()} 0 {chance.choice(['0', address()])}"
    size = chance.choice([0, 1, 4, 255, 256, 257, 1000, 4096, 4097, 65536, 65537])
    return f"call setxattr {address()} {address()} {address()} {size} {chance.choice([0, 0, 1, 2, 4])}"


def memory(chance: random.Random, _: int) -> Draft:
    """Ends of pages, pages that aren't mapped, lengths of texts, and figures that are written."""
    stated = chance.choice(MAPS)
    maps = stated or [(0x10000, 16)]
    notified = chance.sample(["mknod", "mount", "setxattr", "openat", "sysinfo"], chance.randrange(1, 6))
    settings = [*(f"map 0x{start:x} {pages}" for start, pages in stated), "cgroup 400000 0", "figures 60 150000 10 20 0 7", "notify " + " ".join(notified)]
    lines, addresses = stored_texts(chance, maps)

    def address() -> str:
        return f"0x{chance.choice(addresses) if addresses and chance.random() < 0.7 else any_address(chance, maps):x}"

    calls = [memory_call(chance, address) for _ in range(chance.randrange(2, 7))]
    rules = [rule(f"g{at}", call, chance.choice(["grant", "grant", "pass"])) for at, call in enumerate(["mknod", "setxattr", "sysinfo", "mount"])]
    return Draft(settings, [("main", lines + calls)], served(12), rules)


# ---- descriptors

def descriptor_call(chance: random.Random) -> str:
    kind = chance.choice(["close", "data", "other", "relative"])
    if kind == "close":
        return f"call close {chance.choice(['0', '1', '2', '3', '4', '5', '9', '-1', '0x100000003', '5000', '4294967295'])}"
    if kind == "data":
        return f"call openat -100 0x10000 {chance.choice(['0', '0o2000000', '0o2000000'])}"
    if kind == "other":
        return "call openat -100 0x10100 0"
    return f"call openat {chance.choice(['3', '4', '0', '-100', '1', '9', '0x1fffffff9c'])} 0x10200 0"


def descriptors(chance: random.Random, _: int) -> Draft:
    """close, openat, descriptors that are put in with and without a number, and their limits."""
    limit = chance.choice([0, 2, 3, 4, 5, 6, 8, 1024])
    broker = [f"broker {number}" for number in chance.sample([5, 7, 0, 1023], 2)]
    settings = ['dir "/a"', 'reg "/f"', f"rlimit {limit}", *broker, "notify openat" + chance.choice(["", " close"])]
    head = [poke(0x10000, b"/data\0"), poke(0x10100, chance.choice([b"/a", b"/f"]) + b"\0"), poke(0x10200, chance.choice([b"a", b"f", b"../f", b"."]) + b"\0")]
    child = head + [descriptor_call(chance) for _ in range(chance.randrange(1, 4))]
    main = head + [descriptor_call(chance) if chance.random() < 0.8 else chance.choice(["spawn", "thread"]) + " child" for _ in range(chance.randrange(2, 8))]
    then = {"inject": chance.choice([5, 7, 0, 6])}
    if chance.random() < 0.5:
        then["at"] = chance.choice([0, 1, 2, 3, 4, 5, 7, 8, 9, 1023, 1024, 1048575, 1048576, 4294967295])
    schedule = []
    for _ in range(18):
        schedule += [f"t {chance.choice(['0', '0', '0.1', '0.2'])} {chance.choice([1, 2, 4])}", f"w {chance.choice([0, 0, 1])} {chance.choice([1, 7, 9, 12, 12])}"]
    return Draft(settings, [("child", child), ("main", main)], schedule, [rule("i", "openat", then, when={"path": "/data"})])


# ---- arguments

def with_high_bits(chance: random.Random, value: int, bits: int = 32) -> str:
    """The value with bits above those that count."""
    high = chance.choice([0, 0, 1, 0xFFFFFFFF, 0x80000000, chance.getrandbits(32)])
    return f"0x{(value & (2**bits - 1)) | (high << bits) & (2**64 - 1):x}"


def argument_call(chance: random.Random) -> str:
    path = chance.choice(["0x10000", "0x10100", "0x10200", "0x10300"])
    mode = with_high_bits(chance, chance.choice([chance.randrange(16) << 12 | 0o666, 0o010666, 0o100666, 0, 0o140666]), 16)
    device = with_high_bits(chance, chance.choice([259, 0x12345, 2**20 + 3, 0xFFFFFFFF]))
    size = chance.choice(["0", "1", "5", "0x100000001", "0xffffffffffffffff", "65537"])
    return chance.choice([
        f"call mknod {path} {mode} {device}",
        f"call mknodat {with_high_bits(chance, chance.choice([-100, 3, 0, -1, -2**31]))} {path} {mode} {device}",
        f"call openat {with_high_bits(chance, chance.choice([-100, 3, -101]))} {path} {with_high_bits(chance, 0o10000000)}",
        f"call close {with_high_bits(chance, chance.choice([3, 0, 4, -1]))}", "call getpid 1 2 3 4 5 6", "call sysinfo 0x11000 5",
        f"call setxattr 0x10200 0x10400 0x10500 {size} {with_high_bits(chance, chance.choice([0, 1, 2, 3, 4, 0x80000000]))}",
    ])


def arguments(chance: random.Random, _: int) -> Draft:
    """Arguments with bits above those that count, and each kind of mode."""
    calls = ["mknod", "mknodat", "setxattr", "openat", "close", "getpid", "sysinfo", "mount"]
    settings = ['dir "/a"', 'reg "/f"', 'attr "/f" "user.o" "1"', 'fifo "/p"', "notify " + " ".join(chance.sample(calls, chance.randrange(1, 5)))]
    texts = [b"/n%d\0" % chance.randrange(3), b"/a/x\0", b"/f\0", b"a\0", chance.choice([b"user.o\0", b"user.p\0", b"user.\xc3\xa9\0"]), b"value"]
    body = [poke(0x10000 + 0x100 * at, text) for at, text in enumerate(texts)] + [argument_call(chance) for _ in range(chance.randrange(3, 9))]
    return Draft(settings, [("main", body)], served(14), [rule("g", ["mknod", "mknodat", "setxattr", "sysinfo"], chance.choice(["grant", "grant", "pass"]))])
