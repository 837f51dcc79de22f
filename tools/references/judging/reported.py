"""The reports of this program as sessions: what its own worker asked for, which the judge has to find well done."""
import re

from tools.references.judging.sessions import Follower
from tools.references.stepping.facts import CALL_NAMES
from tools.references.stepping.kernel import Kernel
from tools.references.stepping.replay import SPENT, replayed
from tools.references.stepping.requests import read_request
from tools.references.stepping.rules import kind_of

# a report tells the kind of a node and not its permissions
ACT = re.compile(r"w (\d+) act mknod")
MODE = re.compile(r" (0o[0-7]+) (\d+)$")
MODE_ARGUMENT = {"mknod": 1, "mknodat": 2}


def with_permissions(request, judge):
    """The request of an act, with the permissions that its call asks for."""
    acts, mode = ACT.match(request), MODE.search(request)
    serving = judge.servings.get(int(acts[1])) if acts and mode else None
    place = MODE_ARGUMENT.get(CALL_NAMES.get(serving.call.number)) if serving else None
    if place is None or kind_of(serving.call.args[place]) != kind_of(int(mode[1], 8)):
        return request
    return f"{request[:mode.start()]} {serving.call.args[place] % 2**16} {mode[2]}"


def followed_report(report, rules, container) -> Follower:
    """What the judge has heard of the events of a report."""
    follower = Follower(rules, container)
    requests, kept = replayed(report, follower.kernel.container_sysinfo(), may_be_spent=True)
    for request, line in zip(requests, kept.split("\n")[2:]):
        asked = with_permissions(request, follower.judge).encode("latin-1")
        if SPENT.match(line):
            refuse(follower, read_request(asked))
        else:
            follower.answer(asked)
    return follower


def refuse(follower, asked):
    """Asks for an effect whose rule is spent, so that it isn't done."""
    {"act": Kernel.act, "plant": Kernel.plant}[asked.word](follower.kernel, asked.worker, *asked.operands, is_spent=True)
    follower.judge.hear()
