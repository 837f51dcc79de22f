"""A report's journal, as the requests of `step` that lead through the same events."""
import re

from tools.commands.container_tree import tokens
from tools.references.stepping.facts import CONTINUE, ERROR_NAMES, SEND, SETFD, quoted

ERROR_NUMBERS = {name: number for number, name in ERROR_NAMES.items()}
MODES = {"reg": 0o100000, "chr": 0o020000, "blk": 0o060000, "fifo": 0o010000, "sock": 0o140000, "dir": 0o040000, "bad": 0o150000}
ESCAPED = re.compile(r"\\x([0-9a-f]{2})")
# an effect that wasn't done since its rule was spent: a session of one's own has no such rule
SPENT = re.compile(r"^\d+ w\d+ (act|plant) .* EDQUOT$", re.M)


class NotReplayed(Exception):
    """A report has events that `step` has no request for."""


def device_number(text):
    major, minor = map(int, text.split(":"))
    return minor % 256 + major * 256 + minor // 256 * 1048576


def node_of(words):
    """The mode and the device of a node, as mknod takes them."""
    return f"{MODES[words[0]]:#o} {device_number(words[1]) if len(words) > 1 else 0}".replace("0o", "0o0")


def act_of(words):
    """The request of an act, of which the outcome was left out."""
    if words[0] == "mknod":
        return f"mknod {words[1]} {node_of(words[2:])}"
    if words[0] == "mknodat":
        return f"mknodat {words[1]} {words[2]} {node_of(words[3:])}"
    if words[0] == "setxattr":
        value = b"" if words[3] == "-" else bytes.fromhex(words[3])
        return f"setxattr {words[1]} {words[2]} {quoted(value)} {words[4].removeprefix('flags=')}"
    line = " ".join(words)
    flags, data, via, shift = re.fullmatch(r"mount .* flags=(\d+) data=(\".*\") via=(\S+) shift=([01])", line).groups()
    program = b"" if via == "-" else ESCAPED.sub(lambda found: chr(int(found[1], 16)), via).encode("latin-1")
    return f"mount {' '.join(words[1:4])} {flags} {data}" + (f" via {quoted(program)}" if program else "") + (" shift" if shift == "1" else "")


def answer_of(back):
    """The fields of an answer: its value, its error and its flags."""
    if back == CONTINUE:
        return "0 0 1"
    if re.fullmatch(r"-?\d+", back):
        return f"{back} 0 0"
    return f"0 -{ERROR_NUMBERS.get(back) or int(back[1:])} 0"


def request_of(actor, words, planted):
    """The request of an event, given the structure that a plant of the container's writes."""
    if actor == "listener":
        return "close"
    if actor[0] == "t":
        return f"t {actor[1:]}"
    deed = words[0]
    rest = {
        "recv": "recv", "let-go": "let-go", "addfd-take": "addfd-result", "open-mem": " ".join(words[:2]), "check": " ".join(words[:2]),
        "open-base": " ".join(words[:3]), "read": " ".join(words[:3]), "plant": f"plant {words[1] if len(words) > 1 else ''} {planted.hex()}",
    }.get(deed)
    if deed == "act":
        rest = f"act {act_of(words[1:-1])}"
    elif deed == "send":
        rest = f"send {words[1]} {answer_of(words[2])}"
    elif deed == "addfd-put":
        source, place = words[2].removeprefix("src="), words[3].removeprefix("at=")
        flags = (0 if words[4] == "nosend" else SEND) | (0 if place == "-" else SETFD)
        rest = f"addfd {words[1]} {flags} {source} {'0' if place == '-' else place} 0"
    return f"w {actor[1:]} {rest}"


def replayed(report, planted, may_be_spent=False):
    """The requests that lead through the events of a report, and the report without its skips, which are no events of a session. Raises NotReplayed where a rule was spent, unless that may be."""
    if SPENT.search(report) and not may_be_spent:
        raise NotReplayed("an effect was refused since its rule was spent")
    lines = report.split("\n")[:-1]
    count = int(lines[0].split()[1])
    events = [line.split(" ", 2) for line in lines[1:count + 1]]
    kept = [event for event in events if event[2] != "skip"]
    places = {event[0]: str(place) for place, event in enumerate(kept)}
    requests = [request_of(actor, tokens(words), planted) for _, actor, words in kept[1:]]
    rest = [f"{places[line.split(' ', 1)[0]]} {line.split(' ', 1)[1]}" if line[0].isdigit() else line for line in lines[count + 1:]]
    rest[-1] = rest[-1].replace(f"summary events={count} ", f"summary events={len(kept)} ")
    return requests, "\n".join([f"journal {len(kept)}", *(f"{places[place]} {actor} {words}" for place, actor, words in kept), *rest, ""])
