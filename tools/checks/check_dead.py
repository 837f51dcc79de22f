"""Finds what nothing uses: definitions and lemmas, imports, public Rust functions, fields, and dependencies.

    tools/checks/check-dead [CRATE ..]            fails where something isn't among the exceptions, which stand in this file, each with its reason
    tools/checks/check-dead --report [CRATE ..]   prints all of it, the exceptions too, and fails nowhere

Public functions that public-calls.txt names stand for whoever uses the crates as libraries, and aren't told. Each call there that stands has to
be a public function of its crate, and each title a decision.

With names of crates only what stands in these is told. A line has the place, what it is, its name and why it counts as unused:

    definition   of a specs/, to which no .rt file leads, by whatever definitions and lemmas stand between
    lemma        of a proofs/, likewise. An answer to a goal of the check, and a worked example, need nobody to cite them.
    import       a name behind `use` which its file has nowhere else, or behind `pub use` in a .antt file, from which no file takes it. Of the
                 toolchain's words only those of .antt files are looked at: a .rt file may need them for a closure's body or a trait's clauses.
    function     a public Rust function that nothing calls. `tried` is one that only tests or must-fail edits call: these count as uses. A law,
                 which is a function with nothing in its body but laws that it cites, needs no caller, and neither does one that the C header declares.
    field        of a struct, or of a variant with named ones, that no code and no contract reads: by `.name`, or in a pattern that binds it to a
                 name without an underscore before it. Setting it is no use, and neither is a derived comparison. Only files count that name the
                 type, or one that has such a value within. Of a variant that a .antt file names all fields count as read, since patterns there
                 have them by their places. Types of tests aren't looked at.
    dependency   in crates.txt, which no file of the crate names

All of it is found by reading, so it is to be tried: remove it, and check the crate. Definitions are told apart by imports, also where two files
have the same name. A Rust method counts as called where any method of its name is. What only a comment names isn't used.

Exit status: 0, or 1 where something that isn't among the exceptions is found, an exception names what isn't found, or public-calls.txt says what
isn't so. The last line is
`dead: N found, M of them excepted, and K tried alone, in FILES files of CRATES crates`.
"""
from __future__ import annotations

import os
import re
from collections import namedtuple
from functools import lru_cache
from pathlib import Path
from typing import Any, Dict, FrozenSet, Iterator, List, Match, Optional, Set, Tuple

from tools.commands.command_line.arguments import ToolParser
from tools.commands.command_line.top import TOP

CRATES = TOP / "crates"
PUBLIC_CALLS, DECISIONS = TOP / "public-calls.txt", TOP / "docs/inside/DECISIONS.md"

# What stays though nothing uses it: its kind, its file or, of a dependency, its crate, and its name; and the reason.
EXCEPTIONS: Dict[Tuple[str, str, str], str] = {}

# Files of worked examples: what the definitions compute on a few rows, each a lemma that nothing needs to cite.
EXAMPLES = {
    "audit_check/proofs/WorkedChecks.antt", "bpf_filter/proofs/TextCases.antt", "call_lines/proofs/WorkedCalls.antt", "generated_input/proofs/WorkedInputs.antt",
    "hist_model/proofs/CopyCases.antt", "hist_model/proofs/Decided.antt", "hist_model/proofs/FilterCases.antt", "hist_model/proofs/PlayedCases.antt",
    "hist_model/proofs/WalkedPaths.antt", "hist_model/proofs/WorkedReports.antt", "lex_core/proofs/WorkedLines.antt",
    "policy_explain/proofs/WorkedExplanations.antt", "policy_reader/proofs/WorkedPolicies.antt", "script_reader/proofs/WorkedScripts.antt", "step_requests/proofs/WorkedLines.antt",
}
# Files whose public items the check asks for.
ANSWERS = {"Answers.antt", "Invariants.antt", "Proof.antt"}

# A word of a .antt file; a dot joins a module and a name of it.
WORD = re.compile(r"[^\s(){}\[\],;\"]+")
HEAD = re.compile(r"(?:(?:abbrev|unfoldable|opaque) )?(?:pub )?"
                  r"(?:(?:record|data|ruleset) (?P<block>[^\s:({]+)|(?P<name>[^\s:({]+)(?: *\{[^}]*\})? :(?=\s|$))")
ANTT_USE = re.compile(r"^ *(?P<pub>(?:unfoldable )?pub )?use (?P<module>[\w.'-]+?)(?:\.\{(?P<names>[^}]*)\}| as (?P<alias>\w+)|)$", re.M)
GHOST_USE = re.compile(r"^ *(?P<pub>pub )?(?:ghost use|use ghost) (?P<module>[\w.'-]+?)(?:\.\{(?P<names>[^}]*)\}| as (?P<alias>\w+)|);", re.M)
RUST_USE = re.compile(r"^ *(?P<pub>pub(?:\(\w+\))? )?use (?P<path>[^;]+);", re.M)
# A public function, or one of a public trait or of an impl of a trait.
CALL = re.compile(r"^(?P<indent> *)(?P<pub>pub )?(?:const |unsafe |extern \"C\" )*fn (?P<name>\w+)", re.M)
HOME = re.compile(r"^(?:pub trait (?P<trait>\w+)|impl(?:<.*?>)? (?:(?P<of>.*) for )?(?P<type>\w+))", re.M)
FUNCTION = re.compile(r"^ *pub (?:const |unsafe |extern \"C\" )*fn (?P<name>\w+)[^(]*\((?P<first>[^,)]*)", re.M)
OWNER = re.compile(r"^impl(?:<.*?>)? (?:.* for )?(?P<type>\w+)", re.M)
CLAUSE = re.compile(r"\b(?:requires|ensures|invariant)\b[^{;]*\{")
# Traits are used where their methods are called, without their name.
TRAITS = {"BufRead", "Display", "FromStr", "Hash", "Hasher", "Read", "Write", "Seek", "Flags"}

Found = namedtuple("Found", "kind crate path line name why")
Import = namedtuple("Import", "name module original line is_passed_on")
Definition = namedtuple("Definition", "path name line text is_public")


# ---- Files


@lru_cache(None)
def text_of(path: str) -> str:
    return (CRATES / path).read_text(encoding="utf-8")


@lru_cache(None)
def files(suffix: str, crate: str = "") -> List[str]:
    """The files of a kind, below crates/, in order; none of those that rt makes, whose folders come and go while it runs."""
    found = []
    for at, folders, names in os.walk(CRATES / crate):
        folders[:] = [name for name in folders if name != "out"]
        found += [Path(at, name).relative_to(CRATES).as_posix() for name in names if name.endswith(suffix)]
    return sorted(found)


@lru_cache(None)
def bare(path: str) -> str:
    """A file without its comments and the insides of its strings, line for line."""
    mark = "//" if path.endswith(".rt") else "--(?= |-|$)"
    parts = rf'"(?:\\.|[^"\\\n])*"|(?:^|(?<=\s)){mark}[^\n]*'
    return re.sub(parts, lambda it: '""' if it[0].startswith('"') else "", text_of(path), flags=re.M)


def line_of(path: str, at: int) -> int:
    return bare(path).count("\n", 0, at) + 1


def crates() -> Dict[str, List[str]]:
    """The crates of crates.txt, each with what it stands on."""
    listed = re.findall(r"^(\w+)([^#\n]*):([^#\n]*)", (TOP / "crates.txt").read_text(encoding="utf-8"), re.M)
    return {name: below.split() for name, _, below in listed}


def found_in(path: str, kind: str, line: int, name: str, why: str) -> Found:
    return Found(kind, path.partition("/")[0], f"crates/{path}", line, name, why)


# ---- Imports


def ghost_imports(path: str) -> Iterator[Import]:
    """What a file imports of specifications and proofs."""
    pattern = ANTT_USE if path.endswith(".antt") else GHOST_USE
    for it in pattern.finditer(bare(path)):
        line, is_passed_on = line_of(path, it.start()), bool(it["pub"])
        if it["names"] is None:
            yield Import(it["alias"] or it["module"].rpartition(".")[2], it["module"], None, line, is_passed_on)
        for name in filter(None, map(str.strip, (it["names"] or "").split(","))):
            there, _, here = name.partition(" as ")
            yield Import(here or there, it["module"], there, line, is_passed_on)


def leaves(text: str) -> Iterator[Tuple[str, str]]:
    """The names that a Rust `use` brings in: pairs of the name here and the whole path."""
    text = text.strip()
    before, brace, inside = text.partition("{")
    if not brace:
        path, _, here = text.partition(" as ")
        yield here.strip() or (path.split("::")[-1] if not path.endswith("::self") else path.split("::")[-2]), path.strip()
        return
    depth, part = 0, ""
    for sign in inside.rstrip()[:-1] + ",":
        depth += (sign == "{") - (sign == "}")
        if sign == "," and depth == 0:
            yield from ((name, before + path) for name, path in leaves(part) if name)
            part = ""
        else:
            part += sign


def rust_imports(path: str) -> Iterator[Import]:
    for it in RUST_USE.finditer(bare(path)):
        for name, whole in leaves(it["path"]):
            yield Import(name, whole.rpartition("::")[0], whole.rpartition("::")[2], line_of(path, it.start()), bool(it["pub"]))


def without_imports(path: str) -> str:
    """A file's text without comments, strings and imports, line for line."""
    text = bare(path)
    for pattern in (ANTT_USE, GHOST_USE, RUST_USE) if path.endswith(".rt") else (ANTT_USE,):
        text = pattern.sub(lambda it: "\n" * it[0].count("\n"), text)
    return text


# ---- Definitions and lemmas


def definitions(path):
    """The definitions of a .antt file, each with its text: from its signature to the next one. Those in a module stand deeper."""
    found, modules, current = [], [], None
    for number, line in enumerate(without_imports(path).split("\n"), 1):
        indent = len(line) - len(line.lstrip())
        if line.strip():
            while modules and indent <= modules[-1]:
                modules.pop()
            if indent == (modules[-1] + 2 if modules else 0):
                head, words = HEAD.match(line.strip()), line.split()
                if words[0] == "module":
                    modules.append(indent)
                    # (what a module takes counts as said by each definition behind it; so it belongs to none)
                    current = [path, "", number, []]
                    found.append(current)
                elif head:
                    current = [path, head["block"] or head["name"], number, []]
                    found.append(current)
        if current:
            current[3].append(line)
    return [Definition(p, name, number, "\n".join(lines), bool(re.match(r"\s*(\w+ )?pub ", lines[0]))) for p, name, number, lines in found]


@lru_cache(None)
def known(path):
    """The definitions of a file by their names; a constructor leads to its type. Several may share a name, in modules of their own."""
    found = {}
    for it in definitions(path):
        if it.name:
            found.setdefault(it.name, []).append(it)
        first = it.text.split("\n")[0].split()
        if "data" in first:
            for name in re.findall(r"^ +(?:pub )?([^\s:]+) :", it.text, re.M):
                found.setdefault(name, []).append(it)
    return found


@lru_cache(None)
def brought(path: str) -> Dict[str, Import]:
    return {it.name: it for it in ghost_imports(path)}


@lru_cache(None)
def path_of(module: str) -> Optional[str]:
    """The file of a module; None where it is the toolchain's, or one that the check makes."""
    crate, _, rest = module.removeprefix("Rattle.").partition(".")
    path = f"{crate}/{rest.replace('.', '/')}.antt"
    return path if (CRATES / path).is_file() else None


# What is taken from a file that only passes it on: that file, and the name.
TAKEN = set()


@lru_cache(None)
def located(module: str, name: str) -> Tuple[Definition, ...]:
    """The definitions that a name of a module stands for."""
    path = path_of(module)
    if path is None:
        return ()
    if name in known(path):
        return tuple(known(path)[name])
    it = brought(path).get(name)
    if it is None:
        return ()
    TAKEN.add((path, name))
    return located(it.module, it.original) if it.original else ()


def led_to(path: str, text: str) -> Iterator[Definition]:
    """The definitions that the words of a text of a file lead to."""
    for word in set(WORD.findall(text)):
        first, *rest = word.split(".")
        it = brought(path).get(first)
        if path.endswith(".antt") and first in known(path):
            yield from known(path)[first]
        elif it is not None and it.original is None:
            yield from located(it.module, rest[0] if rest else "")
        elif it is not None:
            yield from located(it.module, it.original)
    for name, it in brought(path).items():
        # a name with places for its operands stands in a text as the words between them
        if "◌" in name and all(core in text for core in name.split("◌") if core) and it.original:
            yield from located(it.module, it.original)
    if path.endswith(".antt"):
        for name, found in known(path).items():
            if "◌" in name and all(core in text for core in name.split("◌") if core):
                yield from found


def cited_by_rust(path: str) -> Iterator[Definition]:
    """The definitions that a .rt file leads to: by its contracts, and by the lemmas that it names for the search."""
    text = without_imports(path)
    yield from led_to(path, re.sub(r"::", ".", re.sub(r"[&|!<>*]", " ", text)))
    for crate, folder, module, name in re.findall(r"(\w+)::(specs|proofs)::([\w:]+)::(\w+)", text):
        crate = path.split("/")[0] if crate == "crate" else crate
        for spelled in (name, name.replace("_", "-")):
            yield from located(f"Rattle.{crate}.{folder}.{module.replace('::', '.')}", spelled)


def used_definitions() -> Set[Definition]:
    """Whatever the .rt files and the answers lead to."""
    todo = [it for path in files(".rt") for it in cited_by_rust(path)]
    for path in files(".antt"):
        is_answer, is_example = path.rpartition("/")[2] in ANSWERS, path in EXAMPLES
        for it in definitions(path):
            is_lemma = not it.text.lstrip().startswith(("abbrev", "unfoldable", "record", "data"))
            if is_answer and it.is_public or is_example and is_lemma or not it.name:
                todo.append(it)
    found = set()
    while todo:
        it = todo.pop()
        if it not in found:
            found.add(it)
            todo += led_to(it.path, it.text)
    return found


def dead_definitions():
    used = used_definitions()
    everything = [it for path in files(".antt") if not path.endswith("/Lib.antt") for it in definitions(path) if it.name]
    # who cites what is told, where only what is dead does
    citing = {}
    for it in everything:
        if it not in used:
            for other in led_to(it.path, it.text):
                if other != it:
                    citing.setdefault(other, []).append(it.name)
    for it in everything:
        if it not in used:
            by = sorted(set(citing.get(it, [])))
            why = f"only {', '.join(by[:3])} cites it, which nothing uses" if by else "no line cites it"
            yield found_in(it.path, "definition" if "/specs/" in it.path else "lemma", it.line, it.name, why)


# ---- Imports that nothing uses


def has_word(text: str, name: str) -> bool:
    if "◌" in name:
        return all(core in text for core in name.split("◌") if core)
    if name in ("[]", "∷"):
        return name in text
    return re.search(rf"(?<![\w'-]){re.escape(name)}(?![\w'-])", text) is not None


@lru_cache(None)
def homes_of_traits():
    """The repository's traits, each with the files that say it."""
    found = {}
    for path in files(".rt"):
        for name in re.findall(r"\btrait (\w+)", bare(path)):
            found.setdefault(name, []).append(path)
    return found


def dead_imports() -> Iterator[Any]:
    traits = TRAITS | homes_of_traits().keys()
    for path in files(".antt") + files(".rt"):
        text = without_imports(path)
        imports = list(ghost_imports(path))
        if path.endswith(".rt"):
            # (a closure's body and a trait's clauses are contracts too, so the check asks for words that don't stand in the file)
            taken_on = re.findall(r"\bimpl(?:<.*?>)? (\w+)[\w<>:, ]* for ", text)
            text += "".join(bare(home) for trait in taken_on for home in homes_of_traits().get(trait, ()))
            imports = [it for it in imports if not it.module.startswith("Rattle.std.")] + list(rust_imports(path))
        for it in imports:
            if it.is_passed_on:
                # (the empty list is no word, so who takes it from here isn't seen)
                is_used = it.name == "[]" or not path.endswith(".antt") or (path, it.name) in TAKEN or has_word(text, it.name)
                why = "passed on, and no file takes it from here"
            else:
                is_used = has_word(text, it.name) or it.name in traits and path.endswith(".rt") or it.name == "*"
                why = "the file has it nowhere else"
            if not is_used:
                yield found_in(path, "import", it.line, it.name, why)


# ---- Public Rust functions


def end_of(path, at):
    """Where the function ends that begins there: behind the brace that stands as deep as its first line."""
    indent = re.match(" *", bare(path)[at:])[0]
    found = re.compile(rf"^{indent}\}}$|^.*\{{ *\}}$", re.M).search(bare(path), at)
    return found.end() if found else len(bare(path))


def is_law(path: str, at: int) -> bool:
    """Whether a function has nothing between its braces but laws that it cites: it is a law, or shows a fact to the prover."""
    return re.search(r"\{(?:\s*[\w:]+\(\);)*\s*\}\Z", bare(path)[at:end_of(path, at)]) is not None


@lru_cache(None)
def code(path: str) -> str:
    """A .rt file without imports and contracts."""
    text, at = without_imports(path), 0
    while True:
        clause = CLAUSE.search(text, at)
        if clause is None:
            return text
        depth, end = 1, clause.end()
        while depth and end < len(text):
            depth += (text[end] == "{") - (text[end] == "}")
            end += 1
        text, at = text[:clause.start()] + re.sub(r"[^\n]", " ", text[clause.start():end]) + text[end:], end


@lru_cache(None)
def names_of(path: str) -> FrozenSet[str]:
    return frozenset(re.findall(r"\w+", bare(path)))


def owner_of(path: str, at: int) -> Optional[str]:
    """The type in whose `impl` a function stands; None where it stands in none."""
    before = [it["type"] for it in OWNER.finditer(bare(path), 0, at)]
    return before[-1] if before and bare(path)[at:at + 1] == " " else None


@lru_cache(None)
def above(crate: str) -> Set[str]:
    """The crates that stand on this one, and it itself."""
    found, listed = {crate}, crates()
    while True:
        more = {name for name, below in listed.items() if found & set(below)} - found
        if not more:
            return found
        found |= more


def users_of(path: str, it: Match[Any]) -> Iterator[str]:
    """The files that call a public function: code, tests and must-fail edits. A method counts as called wherever one of its name is."""
    name, owner, crate = it["name"], owner_of(path, it.start()), path.split("/")[0]
    if owner is None:
        called = re.compile(rf"(?<!fn )\b{name}\b(?!:(?!:<))")
    elif re.search(r"\bself\b", it["first"]):
        called = re.compile(rf"(?:\.|::)\s*{name}\b")
    else:
        called = re.compile(rf"\b(?:{owner}|Self)(?:::<[^>]*>)?::{name}\b")
    for other in (other for user in sorted(above(crate)) for other in files(".rt", user)):
        if name not in names_of(other):
            continue
        text = code(other)
        if other == path:
            text = text[:it.start()] + text[end_of(path, it.start()):]
        if called.search(text):
            yield other
    for other in files(".edit", crate):
        if any(called.search(new) for new in re.findall(r"^new: (.*)$", text_of(other), re.M)):
            yield other


def is_test(path: str) -> bool:
    return path.startswith("trials_")


# ---- Calls for users of the crates


@lru_cache(None)
def offered(crate):
    """The public functions of a crate, those of types and traits with their names in front."""
    found = set()
    for path in files(".rt", crate):
        homes = [*HOME.finditer(bare(path))]
        for it in CALL.finditer(bare(path)):
            home = next((home for home in reversed(homes) if home.start() < it.start()), None) if it["indent"] else None
            if home and (it["pub"] or home["trait"]):
                found.add(f"{home['trait'] or home['type']}::{it['name']}")
            elif not it["indent"] and it["pub"]:
                found.add(it["name"])
    return found


@lru_cache(None)
def public_calls():
    """The calls of each crate that stand for its users, and those that were replaced, with a decision's title for each."""
    stand, replaced = {}, []
    for line in PUBLIC_CALLS.read_text(encoding="utf-8").splitlines():
        call, arrow, title = line.partition(" -> ")
        if arrow:
            replaced.append((*call.split(), title))
        elif line and not line.startswith("#"):
            crate, calls = line.split(":", 1)
            stand.setdefault(crate, set()).update(calls.split())
    return stand, replaced


def missing_calls():
    """What public-calls.txt says and isn't so."""
    stand, replaced = public_calls()
    titles = set(re.findall(r"^- \*\*(.+?)\*\*", DECISIONS.read_text(encoding="utf-8"), re.M))
    for crate, calls in stand.items():
        yield from (f"{crate} has no public {call}" for call in sorted(calls - offered(crate)))
    for crate, call, title in replaced:
        if call in offered(crate):
            yield f"{crate} has {call}, which is said to be replaced"
        if title not in titles:
            yield f"no decision is titled: {title}"


def is_offered(path: str, it: Match[Any]) -> bool:
    """Whether a function stands for users of its crate."""
    crate, owner = path.split("/")[0], owner_of(path, it.start())
    return (f"{owner}::{it['name']}" if owner else it["name"]) in public_calls()[0].get(crate, ())


def dead_functions() -> Iterator[Found]:
    header = "".join(path.read_text(encoding="utf-8") for path in (TOP / "include").glob("*.h"))
    for path in files(".rt"):
        for it in FUNCTION.finditer(bare(path)):
            if is_law(path, it.start()) or is_offered(path, it) or it["name"] == "main" or re.search(rf"\b{it['name']}\(", header) or is_test(path):
                continue
            users, line = list(users_of(path, it)), line_of(path, it.start())
            if not users:
                yield found_in(path, "function", line, it["name"], "nothing calls it")
            elif all(map(is_test, users)):
                yield found_in(path, "tried", line, it["name"], "only tests call it")
            elif all(user.endswith(".edit") or is_test(user) for user in users):
                yield found_in(path, "tried", line, it["name"], "only must-fail edits and tests call it")


# ---- Fields

HOLDER = re.compile(r"^(?P<pub>pub(?:\(\w+\))? )?(?P<kind>struct|enum) (?P<name>\w+)[^;{(]*\{\n(?P<body>.*?)^\}", re.M | re.S)
TUPLE = re.compile(r"^(?:pub(?:\(\w+\))? )?struct (?P<name>\w+)[^;{(]*\((?P<body>[^;]*)\);", re.M)
FIELD = re.compile(r"(?:^| )(?<!ghost )(?:pub(?:\(\w+\))? )?(?P<name>[a-z_]\w*): (?P<type>[^:=\n]+?),?(?=$| [a-z_]\w*: )", re.M)
VARIANT = re.compile(r"^    (?P<name>[A-Z]\w*) \{\n?(?P<body>[^}]*)\}", re.M)
Holder = namedtuple("Holder", "crate path name type fields types")
Field = namedtuple("Field", "name line types")


def fields_in(path: str, body: str, at: int) -> List[Field]:
    """The fields that a body has, whose text begins there. One that only names a type takes no room."""
    return [Field(it["name"], line_of(path, at + it.start("name")), words_in(it["type"])) for it in FIELD.finditer(body) if "PhantomData" not in it["type"]]


def words_in(text: str) -> FrozenSet[str]:
    return frozenset(re.findall(r"\w+", text))


@lru_cache(None)
def holders() -> List[Holder]:
    """The types of the repository, each variant with named fields by itself."""
    found = []
    for path in files(".rt"):
        crate, text = path.partition("/")[0], bare(path)
        for it in HOLDER.finditer(text):
            is_enum, body, at = it["kind"] == "enum", it["body"], it.start("body")
            types = re.sub(r"^    [A-Z]\w*", "", body, flags=re.M) if is_enum else body
            found.append(Holder(crate, path, it["name"], it["name"], [] if is_enum else fields_in(path, body, at), words_in(types)))
            for of in VARIANT.finditer(body) if is_enum else ():
                found.append(Holder(crate, path, of["name"], it["name"], fields_in(path, of["body"], at + of.start("body")), frozenset()))
        found += [Holder(crate, path, it["name"], it["name"], [], words_in(it["body"])) for it in TUPLE.finditer(text)]
    return found


@lru_cache(None)
def within(crate: str, name: str) -> Set[Tuple[str, str]]:
    """The types that have a value of this one within, and it itself: pairs of the crate and the name."""
    found = {(crate, name)}
    while True:
        more = found | {(it.crate, it.name) for it in holders() if not it.types.isdisjoint({inner for home, inner in found if it.crate in above(home)})}
        if more == found:
            return found
        found = more


@lru_cache(None)
def types_of(field: str) -> FrozenSet[str]:
    """The words in the types of all fields of a name."""
    return frozenset().union(*(of.types for it in holders() for of in it.fields if of.name == field))


@lru_cache(None)
def readings():
    """By the name of a field: the files that read it, whether in code, and of what. That is the name before the dot, if it is a field as well."""
    found = {}
    for path in files(".rt") + files(".antt"):
        texts = [(code(path), True), (without_imports(path), False)] if path.endswith(".rt") else [(without_imports(path), False)]
        for text, is_code in texts:
            for dot, of, name in re.findall(r"(\.)?([\w']*)[)\]]*\.([a-z_]\w*)\b(?!\()", text):
                found.setdefault(name, set()).add((path, is_code, of if dot and types_of(of) else None))
            for kind, name in bound(text) if is_code else ():
                found.setdefault(name, set()).add((path, True, kind))
    return found


def bound(text: str) -> Iterator[Tuple[str, str]]:
    """What the patterns of a text bind: pairs of the type or variant, and the field."""
    for it in re.finditer(r"\b([A-Z]\w*) \{([^{}]*)\}(?P<behind>[\s)\],]*(?:=>|=(?!=)|\||if\b|in\b)?)", text):
        is_pattern = re.search(r"(?:=>|=|\||if|in)$", it["behind"]) or re.search(r"\.\.\s*$", it[2])
        for part in filter(None, map(str.strip, it[2].split(","))) if is_pattern else ():
            name, colon, to = part.partition(":")
            if not (to.strip() if colon else name).startswith("_"):
                yield it[1], name.strip().removeprefix("ref ").removeprefix("mut ")


def is_read(holder: Holder, field: Field) -> bool:
    # (a definition's pattern has the fields of a variant by their places)
    if holder.name != holder.type and any(holder.name in names_of(path) for crate in above(holder.crate) for path in files(".antt", crate)):
        return True
    kin = within(holder.crate, holder.type)
    for path, is_code, of in readings().get(field.name, ()):
        crate = path.partition("/")[0]
        if crate not in above(holder.crate):
            continue
        if of in (holder.name, "Self") or of is not None and holder.type in types_of(of):
            return True
        near = {name for home, name in kin if crate in above(home)} if is_code else {holder.type}
        if of is None and (is_code and crate == holder.crate or not near.isdisjoint(names_of(path))):
            return True
    return False


def dead_fields() -> Iterator[Any]:
    for holder in holders():
        for field in holder.fields if not is_test(holder.path) else ():
            if not is_read(holder, field):
                name = field.name if holder.name == holder.type else f"{holder.name}.{field.name}"
                yield found_in(holder.path, "field", field.line, f"{holder.type}.{name}", "nothing reads it")


# ---- Dependencies


def dead_dependencies() -> Iterator[Any]:
    listed = (TOP / "crates.txt").read_text(encoding="utf-8").split("\n")
    for crate, below in crates().items():
        line = next(number for number, text in enumerate(listed, 1) if re.match(rf"{crate}\b", text))
        texts = [bare(path) for suffix in (".rt", ".antt") for path in files(suffix, crate)]
        for name in below:
            if not any(re.search(rf"\b{name}(::|\.|;)", text) for text in texts):
                yield Found("dependency", crate, "crates.txt", line, name, f"no file of {crate} names it")


def key(it: Found) -> Tuple[str, str, str]:
    """What an exception names."""
    return it.kind, it.crate if it.kind == "dependency" else it.path, it.name


def main() -> int:
    parser = ToolParser()
    parser.add_argument("--report", action="store_true")
    parser.add_argument("crates", nargs="*")
    said = parser.parse_args()
    everything = [*dead_definitions(), *dead_imports(), *dead_functions(), *dead_fields(), *dead_dependencies()]
    found = [it for it in everything if it.crate in said.crates or not said.crates]
    excepted = [it for it in found if key(it) in EXCEPTIONS]
    stale = EXCEPTIONS.keys() - set(map(key, everything))
    at_fault = [it for it in found if it not in excepted and it.kind != "tried"]
    for it in found if said.report else at_fault:
        reason = EXCEPTIONS.get(key(it))
        print(f"{it.path}:{it.line}: {it.kind} {it.name}: {it.why}" + (f" (it stays: {reason})" if reason else ""))
    for kind, where, name in sorted(stale):
        print(f"dead: the exception {kind} {where} {name} is used, or isn't there")
    missing = [] if said.crates else [*missing_calls()]
    print("".join(f"dead: {PUBLIC_CALLS.name}: {what}\n" for what in missing), end="")
    read = [path for suffix in (".rt", ".antt") for path in files(suffix)]
    tried = sum(it.kind == "tried" for it in found)
    print(f"dead: {len(found) - tried} found, {len(excepted)} of them excepted, and {tried} tried alone, in {len(read)} files of {len(crates())} crates")
    return 0 if said.report else len(at_fault) + len(stale) + len(missing) > 0
