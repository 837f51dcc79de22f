"""Finds the definitions on which each sentence of what is proved rests, and writes the table in docs/inside/BELIEVED.md anew.

    tools/commands/what-must-be-believed             writes the table
    tools/commands/what-must-be-believed --check     changes nothing, and fails where the table isn't what would be written
    tools/commands/what-must-be-believed SENTENCE    prints the definitions of a sentence, file by file, to be read, and how many lines each file has

A sentence is said by the definitions of specs/ that SENTENCES names. It rests on all that these speak of: each name in a definition leads
to the one of its own file or of an import, and each type to its item in src/*.rt. A name that a definition gives to something of its own
counts as the one in scope, so lines may be counted that needn't be read; none is missed. Lines are those of definitions with their
comments. The toolchain's library isn't followed: its files are named.
"""
from __future__ import annotations

import os
import re
import sys
from collections import namedtuple
from functools import lru_cache
from typing import Any, Dict, List, Optional, Set, Tuple, Union

from tools.commands.command_line.arguments import ToolParser
from tools.commands.command_line.top import TOP

CRATES = f"{TOP}/crates"
DOCUMENT = f"{TOP}/docs/inside/BELIEVED.md"
BEGIN, END = "<!-- begin of what tools/commands/what-must-be-believed writes -->\n", "<!-- end of what tools/commands/what-must-be-believed writes -->\n"
LAW = "hist_model/specs/Mediated.antt"
LEGAL = "legal"

# What a sentence says in short, the section of `Mediated` that says it, and the definitions that do, by their files. Sentences 1 to 5 speak
# of mediated histories too: what these are is counted with 6 to 12.
Sentence = namedtuple("Sentence", "short section definitions", defaults=("", {}))
ANSWERS, WORDS, REFUSALS, PRINTED = "broker_app/specs/Answers.antt", "broker_app/specs/Words.antt", "program_files/specs/Refusals.antt", "program_files/specs/Printed.antt"
CHECKS, GENERATED, HANDOVERS, PRINTINGS = (f"play_words/specs/{name}.antt" for name in ("Checks", "Generated", "Handovers", "Printings"))
PAIRS, RUNS, SERVED = (f"run_words/specs/{name}.antt" for name in ("Pairs", "Runs", "Pods"))
PLAYS, EXPLORATIONS, PODS = "step_words/specs/Plays.antt", "explore_words/specs/Explorations.antt", "pod_broker/specs/Pods.antt"
TELLINGS, TOLD = "policy_words/specs/Tellings.antt", "TookPrefixOf TookAllOf"
SENTENCES = {
    "1": Sentence("what the output took with status 0", definitions={
        PRINTINGS: "TookPlay", PLAYS: "report_of", HANDOVERS: "handover_report", RUNS: "TookRun ByWorkers ByLanes", SERVED: "TookPod", EXPLORATIONS: "TookExplored", REFUSALS: "Stands", PAIRS: "texts",
        WORDS: "form", "io_edge/specs/FileState.antt": "Opens Reads", "io_edge/specs/SinkState.antt": "Writes Flushes"}),
    "2": Sentence("what is printed is of a mediated history", definitions={
        PRINTINGS: "TookPlayPrefix", PLAYS: "report_of", HANDOVERS: "handover_report", GENERATED: "TookSummary TookSummaryPrefix", RUNS: "TookRunPrefix ByWorkers ByLanes",
        SERVED: "TookPodPrefix", CHECKS: "TookFindings TookFindingsPrefix IsNotFound", EXPLORATIONS: "TookExploredPrefix"}),
    "3": Sentence("which policies and scripts are refused, and what is said", definitions={
        REFUSALS: "InputRefused", SERVED: "PairRefused", "broker_app/specs/Lines.antt": "line_of", ANSWERS: "Said",
        "hist_model/specs/PolicyRules.antt": "IsPolicy", "hist_model/specs/ScriptRules.antt": "IsScript"}),
    "4": Sentence("the cause of each other status", definitions={ANSWERS: "Answers", PAIRS: "texts", WORDS: "form"}),
    "5": Sentence("what the output took with each other status", definitions={
        REFUSALS: "TookNothing", PRINTED: "Printed", GENERATED: "TookSummaryPrefix", PRINTINGS: "TookPlayPrefix", PLAYS: "report_of", HANDOVERS: "handover_report", RUNS: "TookRunPrefix ByWorkers ByLanes",
        SERVED: "TookPodPrefix", CHECKS: "TookFindingsPrefix", EXPLORATIONS: "TookExploredPrefix"}),
    LEGAL: Sentence("the premise of 6 to 12: a legal history", definitions={"hist_model/specs/Legal.antt": "Legal"}),
    "6": Sentence("received and answered at most once", "ReceivedAndAnsweredOnce"),
    "7": Sentence("each reply and descriptor reaches its own call, or nobody", "ReachesItsCall"),
    "8": Sentence("each effect is granted on one whole copy found valid", "EffectsAreGranted"),
    "9": Sentence("each answer has its cause, and each denial names its rule", "AnswersHaveCauses"),
    "10": Sentence("what a worker is told is so", "ToldTruly"),
    "11": Sentence("nothing goes past the broker", "NothingGoesPast"),
    "12": Sentence("a passed call runs without the broker's rights", "PassedWithoutRights"),
    "13": Sentence("what the kernel keeps, whatever a broker does", definitions={"hist_model/specs/Legal.antt": "OfKernel", "mediation/specs/Kernels.antt": "KernelKeeps"}),
    "14": Sentence("a successor goes on from a ledger as its worker", definitions={"handover/specs/Ledgers.antt": "LedgersHandOver LedgersBehindHandOver"}),
    "15": Sentence("a container's own steps fix its history", definitions={PODS: "FixedByOwn"}),
    "16": Sentence("PIDs and signals stay inside a container's range", definitions={PODS: "GivesInRange OverlapIsShared RangesSetApart KillsInside KillsNoneBeside"}),
    "17": Sentence("requests have the kernel's answers, whatever is asked", definitions={
        "step_words/specs/Stepping.antt": "TookAnswers TookAnswersPrefix", REFUSALS: "Stands", "hist_model/specs/Legal.antt": "OfKernel", "mediation/specs/Kernels.antt": "KernelKeeps"}),
    "18": Sentence("an explanation names the deciding rule, and what others lack", definitions={
        "policy_words/specs/Explanations.antt": "TookExplained", REFUSALS: "Stands",
        "policy_explain/specs/Laws.antt": "FitsWhereNothingIsMissed EachBeforeMisses DecidingMissesNothing"}),
    "19": Sentence("which history a schedule with requests plays", definitions={PLAYS: "IsLawfullyPlayed", "turn_player/specs/Turns.antt": "turned served"}),
    "20": Sentence("which claims hold of all calls", definitions={TELLINGS: f"TellsOfClaims {TOLD}"}),
    "21": Sentence("which calls two policies decide differently", definitions={TELLINGS: f"TellsOfPolicies {TOLD}"}),
    "22": Sentence("which rules of a policy no call needs", definitions={TELLINGS: f"TellsOfBytes {TOLD}"}),
    "23": Sentence("which event of a broker breaks which clause first", definitions={
        "step_words/specs/Judgements.antt": "TellsOfBroker", TELLINGS: TOLD, "judge_pass/specs/Finding.antt": "FindsTheFirst"}),
    "verdict": Sentence("which clause an event breaks, and what a broker keeps that breaks none", definitions={
        "broker_verdict/specs/Verdicts.antt": "Tells", "broker_verdict/specs/Trusted.antt": "Trusted", "broker_verdict/specs/Sentences.antt": "Sentences"}),
    "26": Sentence("whoever is lent a lock leaves its own history in it", definitions={"crew/specs/Locks.antt": "HaveSeen HasEnded IsFirst"}),
    "27": Sentence("a turn of the lock has the answer of one thread's kernel", definitions={
        "turn_lock/specs/Turns.antt": "Turned", "worker_gate/specs/Keeping.antt": "IsKept Continues TakesTurn"}),
}

# A definition: the file it stands in, below crates/, the number of its first line, and its lines.
Item = namedtuple("Item", "path first lines")
HEAD = re.compile(r"^ *(?:(?:abbrev|unfoldable)(?: pub)?|(?:pub )?(?:record|data)) ([^\W\d][\w'-]*)")
ANYWHERE = re.compile(r" *(?:--|use |pub use |unfoldable pub use |pub mod |module |}$)")
INNER = {"data": r"^ +(\w+) :", "mutual": r"^ +pub (\w+) :"}
TYPE = re.compile(r"^(?:pub(?:\(\w+\))? )?(?:struct|enum) (\w+)")
MODEL = re.compile(r"^impl(?:<.*?>)? Model for (\w+)")
IMPORT = re.compile(r"\buse (Rattle\.[\w.]+)\.\{([^}]*)\}")
WHOLE_IMPORT = re.compile(r"\buse (Rattle\.(?:\w+\.)*(\w+))(?: as (\w+))?;?$", re.M)
RUST_IMPORT = re.compile(r"^(?:pub )?use ([\w:]+)::(?:\{([^}]*)\}|(\w+));", re.M)
NO_CODE = re.compile(r'"(?:\\.|[^"\\])*"|--.*|//.*|^ *(?:ghost )?use .*', re.M)
NAME = re.compile(r"(?<![\w.])[^\W\d][\w']*")


@lru_cache(None)
def text_of(path: str) -> str:
    with open(f"{CRATES}/{path}", encoding="utf-8") as file:
        return file.read()


def with_comments(lines: List[str], at: int, marks: Union[str, Tuple[str, ...]]) -> int:
    """Where what begins at this line begins with the comments right above it."""
    while at and lines[at - 1].lstrip().startswith(marks) and not lines[at - 1].startswith("-- ----"):
        at -= 1
    return at


def ask_for_all_lines(path: str, lines: List[str], heads: List[Tuple[int, str]], found: Dict[str, Item]) -> None:
    """Ends with a word where a line is in no definition, or begins something that is not known here as one."""
    read, named = {item.first - 1 + at for item in found.values() for at in range(len(item.lines))}, dict(heads)
    name = None
    for at, line in enumerate(lines):
        name = named.get(at, name)
        begins_other = line[:1].strip() and at not in named and line.split()[0] != name
        if line.strip() and not ANYWHERE.match(line) and (at not in read or begins_other):
            sys.exit(f"what-must-be-believed: crates/{path}:{at + 1} is in no definition of a form that is known here")


def spec_items(path: str) -> Dict[str, Item]:
    """The definitions of a file of specs/, by name; a constructor has that of its type, and what is defined together is one."""
    lines = text_of(path).splitlines()
    found: Dict[str, Any] = {}
    heads = [(at, match[1]) for at, match in enumerate(map(HEAD.match, lines)) if match]
    starts = [with_comments(lines, at, "--") for at, _ in heads] + [len(lines)]
    for (at, name), start, end in zip(heads, starts, starts[1:]):
        while not lines[end - 1].strip() or lines[end - 1].startswith(("--", "module")):
            end -= 1
        inner = INNER[name] if name in INNER else INNER["data"] if "data " in lines[at] else None
        names = [name] + re.findall(inner, "\n".join(lines[at:end]), re.M) if inner else [name]
        found.update(dict.fromkeys(names, Item(path, start + 1, tuple(lines[start:end]))))
    ask_for_all_lines(path, lines, heads, found)
    return found


def rust_items(path: str) -> Dict[str, Item]:
    """The types of a file of src/, by name, each with the view that contracts have of it."""
    lines = text_of(path).splitlines()
    found: Dict[str, Item] = {}
    for at, line in enumerate(lines):
        match = TYPE.match(line) or MODEL.match(line)
        if match:
            end = at if line.endswith((";", "}")) else lines.index("}", at)
            start = with_comments(lines, at, ("///", "#["))
            # (which values a type lets be made is no part of what its values are)
            part = tuple(it for it in lines[start:end + 1] if "ghost invariant" not in it)
            before = found.get(match[1], Item(path, start + 1, ()))
            found[match[1]] = before._replace(lines=before.lines + part)
    return found


@lru_cache(None)
def items(path: str) -> Dict[str, Item]:
    return rust_items(path) if path.endswith(".rt") else spec_items(path)


def rust_file(crate: str, parts: List[str]) -> str:
    """The file of a module that one of this crate imports from."""
    if os.path.isdir(f"{CRATES}/{parts[0]}"):
        crate, *parts = parts
    elif parts[0] == "crate":
        parts = parts[1:]
    return f"{crate}/src/{'/'.join(parts or ['lib'])}.rt"


@lru_cache(None)
def imports(path: str) -> Dict[str, Tuple[str, str]]:
    """Where the names that a file imports come from: the module, or the file in src/, and the name there."""
    pairs, found = IMPORT.findall(text_of(path)), {}
    if path.endswith(".rt"):
        pairs += [(rust_file(path.split("/")[0], module.split("::")), group or one) for module, group, one in RUST_IMPORT.findall(text_of(path))]
    for module, names in pairs:
        for name in filter(None, map(str.strip, names.split(","))):
            there, _, here = name.partition(" as ")
            found[here or there] = module, there
    return found


def located(module: str, name: str) -> Optional[Tuple[str, Optional[str]]]:
    """Where a module has a name: a file and the name there; no name where it is a module of the toolchain's library, and nothing where
    src/ imports what is no type of the repository."""
    if module.endswith(".rt"):
        if not os.path.exists(f"{CRATES}/{module}"):
            return None
        there = imports(module).get(name)
        return (module, name) if name in items(module) else located(*there) if there and there != (module, name) else None
    crate, _, *parts = module.split(".")[1:]
    if not os.path.isdir(f"{CRATES}/{crate}"):
        return module, None
    if parts[0] == "declared":
        *folders, kind = [part for part in parts[1:] if part != "TheVariants"]
        return f"{crate}/src/{'/'.join(folders)}.rt", kind
    path = f"{crate}/specs/{'/'.join(parts)}.antt"
    if name in items(path):
        return path, name
    if name in imports(path):
        return located(*imports(path)[name])
    sys.exit(f"what-must-be-believed: crates/{path} has no {name} of a form that is known here")


@lru_cache(None)
def spoken_of(item: Item) -> List[Tuple[str, Optional[str]]]:
    """Where the names are that stand in a definition, alone or behind that of a module."""
    bare = NO_CODE.sub("", "\n".join(item.lines))
    known, brought, names = items(item.path), imports(item.path), set(NAME.findall(bare))
    behind = [(module, name) for module, last, alias in WHOLE_IMPORT.findall(text_of(item.path)) for name in re.findall(rf"(?<![\w.]){alias or last}\.(\w+)", bare)]
    found: List[Optional[Tuple[str, Optional[str]]]] = [(item.path, name) for name in names & known.keys()]
    found += [located(*brought[name]) for name in names & brought.keys() - known.keys()]
    found += [located(module, name) for module, name in behind]
    return [at for at in found if at]


def sections_of_law() -> Dict[str, List[str]]:
    """The sections of the record `Mediated`, each by the name of its record, with the names of that record's fields."""
    named = {line.split()[3] for line in items(LAW)["Mediated"].lines if line.startswith("  pub ")}
    return {name: [line.split()[1] for line in items(LAW)[name].lines if line.startswith("  pub ")] for name in sorted(named)}


def reached(roots: List[Item], without: Set[Tuple[str, ...]]) -> Tuple[Dict[Tuple[str, int], Item], Set[str]]:
    """The definitions that these lead to, they themselves among them, by their places, and the files of the library that they speak of."""
    found, library, todo = {}, set(), list(roots)
    while todo:
        item = todo.pop()
        key = item.path, item.first
        if key in found:
            continue
        found[key] = item
        for path, name in spoken_of(item):
            if name is None:
                library.add(path)
            elif (path, name) not in without:
                todo.append(items(path)[name])
    return found, library


@lru_cache(None)
def rests_on(number: str) -> Tuple[Dict[Tuple[str, int], Item], Set[str]]:
    """The definitions on which a sentence rests, by their places, and the files of the library that they speak of."""
    sentence = SENTENCES[number]
    roots = [items(path)[name] for path, names in sentence.definitions.items() for name in names.split()]
    if sentence.section:
        roots.append(items(LAW)[sentence.section])
    return reached(roots, {(LAW, "Mediated")})


def count(definitions: Dict[Tuple[str, int], Item], path: Any = None) -> int:
    return sum(bool(line.strip()) for item in definitions.values() if path in (None, item.path) for line in item.lines)


def files(definitions: Dict[Tuple[str, int], Item]) -> List[str]:
    """The files of these, by their crates in the order of crates.txt, from the lowest on."""
    crates = re.findall(r"^(\w+)[^#\n]*:", text_of("../crates.txt"), re.M)
    return sorted({item.path for item in definitions.values()}, key=lambda path: (crates.index(path.split("/")[0]), path))


def said_by(sentence: Sentence) -> str:
    names = sections_of_law().get(sentence.section, []) + [name for names in sentence.definitions.values() for name in names.split()]
    return ", ".join(f"`{name}`" for name in names)


def sentence_row(number: str) -> str:
    definitions, legal = rests_on(number)[0], rests_on(LEGAL)[0]
    beside = "" if number == LEGAL else count({key: item for key, item in definitions.items() if key not in legal})
    return f"| {number} | {SENTENCES[number].short} | {said_by(SENTENCES[number])} | {len(files(definitions))} | {count(definitions)} | {beside} |\n"


def file_line(definitions: Dict[Tuple[str, int], Item], path: str) -> str:
    """How many lines of a file are counted, and of a file of definitions how many it has."""
    whole = f" of {len(text_of(path).splitlines())}" if path.endswith(".antt") else ""
    return f"{count(definitions, path):>5}{whole} lines of crates/{path}"


def together(numbers: List[str]) -> Dict[Tuple[str, int], Item]:
    return {key: item for number in numbers for key, item in rests_on(number)[0].items()}


def summary(numbers: List[str]) -> str:
    definitions = together(numbers)
    return f"{count(definitions)} lines in {len(files(definitions))} files"


def library_names() -> str:
    modules = sorted(set().union(*(rests_on(number)[1] for number in SENTENCES)))
    return ", ".join(f"`{module.removeprefix('Rattle.')}`" for module in modules)


def written() -> str:
    numbers = list(SENTENCES)
    law = [number for number in numbers if SENTENCES[number].section]
    return "".join((
        BEGIN,
        "| sentence | in short | said by | files | lines | beside a legal history's |\n|---|---|---|---|---|---|\n",
        *map(sentence_row, numbers),
        f"\nTogether, {law[0]} to {law[-1]} and their premise: {summary([LEGAL, *law])}. All sentences: {summary(numbers)}.\n",
        f"\nOf the toolchain's library they speak of {library_names()}.\n",
        END,
    ))


def ask_for_all_sections() -> None:
    """Ends with a word where a section of the law is no sentence's, or a sentence names none."""
    wrong = {sentence.section for sentence in SENTENCES.values() if sentence.section} ^ set(sections_of_law())
    if wrong:
        sys.exit(f"what-must-be-believed: SENTENCES has to name the sections of Mediated, each of them: {' '.join(sorted(wrong))}")


def to_read(number: str) -> None:
    definitions = rests_on(number)[0]
    paths = files(definitions)
    print("\n".join(file_line(definitions, path) for path in paths) + "\n")
    for path in paths:
        print(f"==== crates/{path}\n")
        for item in sorted(item for item in definitions.values() if item.path == path):
            print(f"{item.first}:\n" + "\n".join(item.lines) + "\n")


def main() -> None:
    parser = ToolParser()
    parser.add_argument("--check", action="store_true", help="changes nothing, and says if it would")
    parser.add_argument("sentence", metavar="SENTENCE", nargs="?", choices=SENTENCES)
    asked = parser.parse_args()
    ask_for_all_sections()
    if asked.sentence:
        return to_read(asked.sentence)
    with open(DOCUMENT, encoding="utf-8") as file:
        document = file.read()
    if document.count(BEGIN) != 1 or document.count(END) != 1:
        sys.exit(f"what-must-be-believed: {DOCUMENT} has to have each of the two marks once")
    before, rest = document.split(BEGIN)
    new = before + written() + rest.split(END)[1]
    if asked.check and new != document:
        sys.exit("what-must-be-believed: the table in docs/inside/BELIEVED.md isn't that of the files: run tools/commands/what-must-be-believed")
    if not asked.check:
        with open(DOCUMENT, "w", encoding="utf-8") as file:
            file.write(new)
