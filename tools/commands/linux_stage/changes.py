"""Tries the comparison itself: a line of a journal is changed, and the machine has to be found to differ from it."""
from __future__ import annotations

import re
from collections import Counter
from typing import Any, Iterator, List, Optional, Tuple

from tools.commands.linux_stage import areas, comparison
from tools.commands.linux_stage.comparison import Bench
from tools.commands.linux_stage.folders import Pair

SEED, SCRIPTS, TRIES = 3000, 40, 3
AREAS = ("signals", "cuts", "races", "filters", "descriptors", "memory", "paths", "requests")


def one_more(match: re.Match[str]) -> str:
    """The number at the end of the match, and one."""
    return match.group(1) + str(int(match.group(2)) + 1)


# what of a line is changed, and into what
CHANGES = [(re.compile(form), into) for form, into in [
    (r"(spawn \S+ pid=)(\d+)", one_more), (r"(recv id=)(\d+)", one_more), (r"(recv id=\d+ pid=)(\d+)", one_more),
    (r"recv id=.*", "recv ENOENT"), (r"recv ENOENT", "skip"),
    (r"(check \d+) ok", r"\1 ENOENT"), (r"(check \d+) ENOENT", r"\1 ok"),
    (r"(open-mem \d+) ok", r"\1 ESRCH"), (r"(open-mem \d+) ESRCH", r"\1 ok"), (r"(open-base .*) ok", r"\1 EBADF"), (r"(open-base .*) E\S+", r"\1 ok"),
    (r"(read \d+ \d+) (?!EF|-)\w\w", r"\1 99"), (r"(read \d+ \d+) EFAULT", r"\1 41"),
    (r"(act .*) ok$", r"\1 EEXIST"), (r"(act .*) E\w+$", r"\1 ok"), (r"(plant \d+) ok", r"\1 EFAULT"),
    (r"(send .*) ok$", r"\1 ENOENT"), (r"(send .*) ENOENT$", r"\1 ok"),
    (r"(addfd-put .*) ok$", r"\1 ENOENT"), (r"(addfd-put .*) E\w+$", r"\1 ok"), (r"((?:install|addfd-take) )(\d+)", one_more),
    (r"(addfd-put .* at=\S+) (\w+)$", r"\1 nosend \2"), (r"(addfd-put .*) nosend", r"\1"),
    (r"(resume )(\d+)$", one_more), (r"resume E\w+", "resume 0"), (r"(native )(\d+)$", one_more), (r"native E\w+", "native 0"),
    (r"deliver (\d+) restart", r"deliver \1 eintr"), (r"deliver (\d+) eintr", r"deliver \1 restart"),
    (r"deliver (\d+) end", r"deliver \1 run"), (r"deliver (\d+) run", r"deliver \1 end"), (r"deliver 10 (\w+)", r"deliver 12 \1"),
    (r"wait 0\.1$", "wait 0.2"), (r"wait 0\.\d+$", "wait ECHILD"), (r"wait ECHILD", "wait 0.1"),
    (r"(kill \d+ \d+) ok", r"\1 ESRCH"), (r"(kill \d+ \d+) ESRCH", r"\1 ok"),
    (r"(call .*) allow", r"\1 notify id=77"), (r"(call .*) notify id=.*", r"\1 allow"), (r"(call .*) errno=(\d+)", r"\1 errno=99"),
    (r"(call .*) kill", r"\1 nosys"), (r"(call .*) nosys", r"\1 kill"), (r"spawn (\S+) EAGAIN", r"spawn \1 pid=300 copy"),
]]


def agreed(bench: Bench) -> Iterator[Tuple[Pair, List[str]]]:
    """Drawn scripts on which the machine agrees, with their journals."""
    for number in range(SCRIPTS):
        for area in AREAS:
            pair = areas.pair(bench, area, SEED, number)
            pair = pair._replace(script=comparison.ways(pair.script)[-1].script)
            result = comparison.compare(bench, pair.policy, pair.script)
            if not (result.refused or result.differences or result.stopped):
                yield pair, result.journal


def changed(lines: List[str], form: re.Pattern[str], into: Any) -> Optional[List[str]]:
    """The lines with the first one changed that can be, and its place."""
    places = [at for at, line in enumerate(lines) if at and form.search(line)]
    if not places:
        return None
    return [*lines[:places[0]], form.sub(into, lines[places[0]]), *lines[places[0] + 1:]]


def run(bench: Bench) -> int:
    """Prints what was missed, and gives the exit status."""
    tried: Counter[int] = Counter()
    noticed = 0
    for pair, lines in agreed(bench):
        for at, (form, into) in enumerate(CHANGES):
            if tried[at] == TRIES or not changed(lines, form, into):
                continue
            tried[at] += 1
            result = comparison.compare(bench, pair.policy, pair.script, lambda lines: changed(lines, form, into))
            if result.differences or result.stopped:
                noticed += 1
            else:
                print(f"on-linux: missed in {pair.name}: {form.pattern}", flush=True)
        if all(tried[at] == TRIES for at in range(len(CHANGES))):
            break
    for at, (form, _) in enumerate(CHANGES):
        if not tried[at]:
            print(f"on-linux: no such line: {form.pattern}")
    print(f"on-linux: {noticed} of {sum(tried.values())} changed lines were noticed")
    return 0 if noticed == sum(tried.values()) else 1
