"""Reads what the program says as it ends, and adds what it means."""
from __future__ import annotations

import os
import re
from dataclasses import dataclass
from typing import Any, Callable, Dict, List, Optional, Tuple

from tools.commands.command_line import table
from tools.commands.messages import policies
from tools.commands.messages.findings import Text, filled, message, near, shown

READ_FAULT = re.compile(r"read fault: (policy|new policy|script|calls|claims|report|requests)")
TOO_LONG = re.compile(r"too long: (policy|new policy|script|calls|claims|report)")
OVERLAP = re.compile(r"pod: pids overlap: (\d+) (\d+)")
POLICY, CLAIMS = re.compile(r"(policy|new policy): (.*)", re.S), re.compile(r"claims: (.*)", re.S)
SCRIPT, CONTAINER = re.compile(r"script: line (\d+): (.*)"), re.compile(r"container (\d): (.*)", re.S)
REQUESTS = re.compile(r"script: requests in the schedule")
CALLS, REPORT, USAGE = re.compile(r"calls: line (\d+): (.*)"), re.compile(r"report: line (\d+)"), re.compile(r"usage: .*")
OPTIONS = ("--explain", "--plain", "--help", "-h")
LIMITS = {"policy": 1_048_576, "new policy": 1_048_576, "claims": 1_048_576, "script": 8_388_608, "calls": 8_388_608, "report": 33_554_432}
CALLED = {"new policy": "a policy", "calls": "a file of calls", "claims": "a file of claims"}
# what the program calls the files of operands with other names
OF_OPERANDS = {"old": "policy", "new": "new policy"}


def parted(entry: Dict[str, Any], operands: List[str]) -> Tuple[List[str], List[Any]]:
    """The operands without the words of options that have no dash, as `every 5`, and those options with what is given to each."""
    named = {it["names"][0]: it for it in entry.get("options", []) if not it["names"][0].startswith("-")}
    before = next((at for at, it in enumerate(entry["operands"], 1) if it["name"] == "CPUS"), None)
    if before is None or operands[before:before + 1] != [*named]:
        return operands, []
    return operands[:before] + operands[before + 2:], [(named[operands[before]], *operands[before + 1:before + 2])]


def files_in(entry: Dict[str, Any], operands: List[str], container: int) -> Dict[str, str]:
    """The files that the operands name, by what the program calls them; of a pod those of one container."""
    operands, _ = parted(entry, operands)
    if entry["word"] == "pod":
        pairs = operands[2:]
        return dict(zip(("policy", "script"), pairs[2 * container:2 * container + 2]))
    names = [OF_OPERANDS.get(it["name"].lower(), it["name"].lower()) for it in entry["operands"]]
    return {name: operand for name, operand in zip(names, operands) if name in LIMITS}


def data_of(path):
    """The bytes of a file that can be read again, or None."""
    try:
        if not os.path.isfile(path):
            return None
        with open(path, "rb") as file:
            return file.read(max(LIMITS.values()))
    except OSError:
        return None


def read_fault(path: Optional[str]) -> List[str]:
    """Why a file can't be read, and which one is near; without a path it is standard input."""
    if path is None:
        return ["standard input can't be opened as /dev/stdin, or can't be read", *filled("help: ", "give it a pipe, a file or a terminal; a socket, or an input that is closed, can't be opened")]
    try:
        with open(path, "rb") as file:
            file.read(1)
    except OSError as fault:
        folder, name = os.path.split(path)
        try:
            found = near(name, os.listdir(folder or "."))
        except OSError:
            found = None
        told = [f"{shown(path)}: {fault.strerror}"]
        return told + (filled("help: ", f"did you mean `{shown(os.path.join(folder, found))}`?") if found and isinstance(fault, FileNotFoundError) else [])
    return []


def too_long(kind: str, path: str) -> List[str]:
    size = os.path.getsize(path) if os.path.isfile(path) else None
    return [f"{shown(path)}: {f'it has {size} bytes' if size is not None else 'it is longer'}, and {CALLED.get(kind, f'a {kind}')} has at most {LIMITS[kind]}"]


def overlap(one, other):
    return filled("help: ", f"the scripts of containers {one} and {other} have a PID in common: give one of them `pidmax N` and `pidbase M`, so that it has the PIDs M + 1 to M + N alone")


def wrong_operand(item: Any, given: Optional[str] = None) -> Optional[str]:
    """What is wrong with an operand, or what is given to an option, that is a number, or None."""
    if given is None:
        return f"a number comes after {item['names'][0]}"
    if item["takes"] != "number" or given in item.get("also", []):
        return None
    if re.fullmatch(r"\d{1,20}", given, re.ASCII) and item["from"] <= int(given) <= item["to"]:
        return None
    also = "".join(f", or {word}" for word in item.get("also", []))
    return f"{item.get('name') or item['value']} is a number from {item['from']} to {item['to']}{also}, and not {shown(given)}"


def counted(number: int, what: str) -> str:
    return f"{number} {what}{'' if number == 1 else 's'}"


def in_pairs(operands):
    """What is wrong with the files of a pod."""
    return f"one to eight pairs of a policy and a script follow the two numbers, not {counted(len(operands) - 2, 'file')}"


def least_count(entry: Dict[str, Any]) -> int:
    """How many operands a word has at least: its form has the others in brackets."""
    return sum(f"[{it['name']}]" not in entry["forms"][0] for it in entry["operands"])


def wrong_count(entry: Dict[str, Any], operands: List[str]) -> str:
    most, least = len(entry["operands"]), least_count(entry)
    front = "at least " if entry["operands"][-1].get("repeats") else f"{least} or " if least < most else ""
    return f"{entry['word']} needs {front}{counted(most, 'argument')}, got {len(operands) or 'none'}"


def usage(entry: Dict[str, Any], operands: List[str], command: str) -> List[str]:
    """The form of a word of the program, and what is wrong with those behind it."""
    form = f"usage: {command} {entry['word']} {entry['forms'][0]}"
    items = entry["operands"]
    late = next((it for it in operands if it in OPTIONS), None)
    if late:
        return [form, f"{late} comes first after {entry['word']}", *filled("help: ", f"write `{command} {entry['word']} {late} ..`")]
    operands, given = parted(entry, operands)
    wrong = next(filter(None, (wrong_operand(*pair) for pair in [*zip(items, operands), *given])), None)
    if wrong is None:
        repeats = items[-1].get("repeats")
        if least_count(entry) <= len(operands) <= len(items) and not repeats:
            return [form]
        wrong = in_pairs(operands) if repeats and len(operands) >= len(items) else wrong_count(entry, operands)
    return [form, wrong, *filled("help: ", f"`{command} help {entry['word']}` has its page")]


@dataclass
class Said:
    """A line that the program said as it ended: the word's entry and operands, and which container it is about."""

    entry: dict
    operands: list
    line: str
    command: str

    def split(self) -> Tuple[str, Dict[str, str]]:
        """The line without its container, and the files that it may be about."""
        of_pod = CONTAINER.fullmatch(self.line)
        return (of_pod[2], files_in(self.entry, self.operands, int(of_pod[1]))) if of_pod else (self.line, files_in(self.entry, self.operands, 0))

    def explained(self, of_report=None):
        """The lines that say more of it; none where nothing is known."""
        line, files = self.split()
        if USAGE.fullmatch(line):
            return usage(self.entry, self.operands, self.command)
        for form, explain in ((READ_FAULT, lambda kind: read_fault(files.get(kind))), (TOO_LONG, lambda kind: too_long(kind, files[kind])), (OVERLAP, overlap)):
            found = form.fullmatch(line)
            if found:
                return explain(*found.groups())
        return self.of_text(line, files, of_report)

    def of_text(self, line, files, of_report):
        # (a script isn't read for what is said of a policy)
        from tools.commands.messages import calls, scripts
        policy, claims, script, asked, report = (form.fullmatch(line) for form in (POLICY, CLAIMS, SCRIPT, CALLS, REPORT))
        if policy:
            return explained_text(files[policy[1]], lambda data: policies.finding_of(data, policy[2]))
        if claims:
            from tools.commands.messages import claims as of_claims
            return explained_text(files["claims"], lambda data: of_claims.finding_of(data, claims[1]))
        if REQUESTS.fullmatch(line):
            return explained_text(files["script"], scripts.finding_of_requests)
        if script:
            return explained_text(files["script"], lambda data: scripts.finding_of(data, int(script[1]), script[2]))
        if asked:
            return explained_text(files["calls"], lambda data: calls.finding_of(data, int(asked[1]), asked[2]))
        return of_report(files, int(report[1])) if report and of_report else []


def explained_text(path: str, explain: Callable) -> List[str]:
    """The message of what is found in a file; none where it can't be read again."""
    data = data_of(path)
    found = explain(data) if data is not None else None
    return message(found, path, Text(data)) if found else []


def entry_of(word: str) -> Dict[str, Any]:
    return table.entry(table.read(), word) or {}
