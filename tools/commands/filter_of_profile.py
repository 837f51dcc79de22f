"""Makes the filter of a script of a seccomp profile as Docker, Podman and containerd take them, by libseccomp.

`./broker help filter-of-profile` has its words.
"""
from __future__ import annotations

import argparse
import json
import sys
from typing import Any, Iterable, List, NoReturn

from tools.commands.command_line import written
from tools.commands.command_line.arguments import Parser
from tools.commands.command_line.ending import reason
from tools.commands.messages import profiles as explained
from tools.commands.messages.findings import Text, message
from tools.commands.real_workloads import bpf, profiles

TOOL = "filter-of-profile"
# of a profile; Docker's own has 20,000
MOST_BYTES = 16 << 20


def names(text: str) -> List[str]:
    return [it for it in text.replace(",", " ").split() if it]


def capabilities(text: str) -> Any:
    try:
        return profiles.capabilities(names(text))
    except profiles.NoCapability as fault:
        raise argparse.ArgumentTypeError(f"no capability is called {fault}") from fault


def architectures(text: str) -> List[str]:
    found = [profiles.with_prefix("SCMP_ARCH_", it) for it in names(text)]
    unknown = [it for it in found if it not in profiles.ARCHITECTURES]
    if unknown or profiles.NATIVE not in found:
        raise argparse.ArgumentTypeError(f"{unknown[0]} can't be in a script" if unknown else "x86_64 has to be among them: a script's calls are of that one")
    return found


def words() -> argparse.Namespace:
    parser = Parser(TOOL)
    parser.add_argument("profile", metavar="PROFILE.json")
    parser.add_argument("-o", dest="file", metavar="FILE", help="the file to write")
    parser.add_argument("--capabilities", type=capabilities, default=set(), metavar="NAMES", help="what the container has")
    parser.add_argument("--architectures", type=architectures, default=[], metavar="NAMES", help="what the filter is for")
    parser.add_argument("--notify", type=names, default=[], metavar="CALLS", help="calls that are notified in any case")
    parser.add_argument("--kernel", type=profiles.version, default=profiles.running_kernel(), metavar="VERSION", help="the kernel, as 6.1")
    parser.add_argument("--binary-tree", action="store_const", const=2, default=1, help="libseccomp's order of tests for large filters")
    return parser.parse_args()


def failed(text: str) -> NoReturn:
    sys.exit(f"{TOOL}: {text}")


def text_of(name: str) -> Text:
    try:
        with open(name, "rb") as file:
            data = file.read(MOST_BYTES + 1)
    except OSError as fault:
        failed(f"{name}: {reason(fault)}")
    if len(data) > MOST_BYTES:
        failed(f"{name}: a profile has at most {MOST_BYTES} bytes")
    return Text(data)


def explain(name: str, text: Text, findings: Iterable[Any]) -> NoReturn:
    """Ends with what is wrong with the profile: each place, and what would be right there."""
    sys.exit("\n".join(line for it in findings for line in message(it, name, text)))


def made_of(name: str, text: Text, wanted: profiles.Asked) -> Any:
    """The filter that a profile comes to."""
    wrong = explained.findings(text, wanted)
    if wrong:
        explain(name, text, wrong)
    try:
        return profiles.filter_of(json.loads(text.whole), wanted, TOOL)
    except profiles.Refused as fault:
        if fault.entry is not None:
            explain(name, text, [explained.entry_finding(text, fault.entry, str(fault), fault.cure)])
        failed(f"{name}: {fault}" if "module" not in str(fault) else str(fault))


def main() -> None:
    asked = words()
    wanted = profiles.Asked(asked.capabilities, asked.architectures, asked.kernel, asked.notify, asked.binary_tree)
    text_of_profile = text_of(asked.profile)
    made = made_of(asked.profile, text_of_profile, wanted)
    instructions = bpf.from_bytes(made.raw)
    if why := bpf.unwritable(instructions):
        failed(f"{asked.profile}: {why}")
    lines = bpf.block(instructions, bpf.answers(instructions, bpf.NOTIFY))
    remark = f"{len(instructions)} instructions for {', '.join(it[len('SCMP_ARCH_'):].lower() for it in made.architectures)}: {made.rules} rules"
    text = "\n".join([f"# {remark}", *lines]) + "\n"
    if asked.file is None:
        print(text, end="", flush=True)
    else:
        written.write(asked.file, text.encode("ascii"))
    for one in explained.unknown_calls(text_of_profile, made.unknown):
        print("\n".join(message(one, asked.profile, text_of_profile, "warning: ")), file=sys.stderr)
    unknown = f"; calls that libseccomp doesn't know: {', '.join(sorted(made.unknown))}" if made.unknown else ""
    print(f"filter-of-profile: {remark}; {made.not_meant} entries are for other capabilities, architectures or kernels{unknown}", file=sys.stderr)
