"""Completions for bash, zsh and fish, made of the table of words."""
from __future__ import annotations

from typing import Any, Dict, List, Tuple

from tools.commands.command_line import table

# ranges up to this one are offered number by number
FEW = 20
MADE = "made of the table of words; its source is tools/commands/command_line/words.json"


def offered(item: Dict[str, Any]) -> List[str]:
    """The words that are offered for what an operand or an option takes."""
    if item["takes"] == "choice":
        return item["choices"]
    if item["takes"] == "number":
        numbers = range(item["from"], item["to"] + 1) if item["to"] - item["from"] <= FEW else ()
        return [str(it) for it in numbers] + item.get("also", [])
    return []


def options(known: Dict[str, Any], entry: Dict[str, Any]) -> List[Dict[str, Any]]:
    return [*table.options(known, entry), {"names": ["--help"], "help": "prints the command's page"}]


def first_words(known: Dict[str, Any]) -> List[Tuple[str, str]]:
    """What may stand behind the command, with its help."""
    words = [(it["word"], it["summary"]) for it in known["words"]]
    return [*words, (table.HELP, "prints the list of commands, or the page of one")] + [(it["names"][0], it["help"]) for it in known["options"] if "only" not in it]


def marked(known: Dict[str, Any], entry: Dict[str, Any]) -> List[Dict[str, Any]]:
    """The options that begin with a dash, which zsh and fish know alone."""
    return [it for it in options(known, entry) if it["names"][0].startswith("-")]


def bash_kind(item: Dict[str, Any]) -> str:
    """How the function below is told what to offer."""
    kinds = {"file": "file", "folder": "folder", "pid": "pid", "command": "command"}
    return kinds.get(item["takes"]) or f"words {' '.join(offered(item))}".strip()


BASH = r"""# bash completion for seccomp-broker, {made}
_seccomp_broker() {{
  local current=${{COMP_WORDS[COMP_CWORD]}} place=0 at kind='' options='' valued='' operands=() last=''
  COMPREPLY=()
  if [ "$COMP_CWORD" -eq 1 ]; then
    mapfile -t COMPREPLY < <(compgen -W '{first}' -- "$current")
    return
  fi
  case ${{COMP_WORDS[1]}} in
{cases}
    *) return ;;
  esac
  # which operand it is, and whether it is an option's value
  for ((at = 2; at < COMP_CWORD; at++)); do
    case " $valued " in
      *" ${{COMP_WORDS[at]}} "*) at=$((at + 1)) ;;
      *) case ${{COMP_WORDS[at]}} in -?*) ;; *) place=$((place + 1)) ;; esac ;;
    esac
  done
  case ${{COMP_WORDS[1]}}:${{COMP_WORDS[COMP_CWORD - 1]}} in
{values}
    *)
      if [ "$at" -eq "$COMP_CWORD" ]; then
        case $current in
          -?*) kind="words $options" ;;
          *) kind=${{operands[place]:-$last}} ;;
        esac
      fi ;;
  esac
  case $kind in
    file) compopt -o filenames; mapfile -t COMPREPLY < <(compgen -f -- "$current") ;;
    folder) compopt -o filenames; mapfile -t COMPREPLY < <(compgen -d -- "$current") ;;
    command) mapfile -t COMPREPLY < <(compgen -c -- "$current") ;;
    pid) mapfile -t COMPREPLY < <(compgen -W "$(cd /proc && echo [0-9]*)" -- "$current") ;;
    words*) mapfile -t COMPREPLY < <(compgen -W "${{kind#words}}" -- "$current") ;;
  esac
}}
complete -F _seccomp_broker seccomp-broker
"""


def bash() -> str:
    known = table.read()
    cases, values = [f"    help) operands=('words {' '.join(table.names(known))}') ;;"], []
    for entry in known["words"]:
        names = [name for it in marked(known, entry) for name in it["names"]]
        valued = [name for it in options(known, entry) if "value" in it for name in it["names"]]
        kinds = [bash_kind(it) for it in entry.get("operands", [])]
        plain = [it["names"][0] for it in options(known, entry) if it not in marked(known, entry)]
        last = kinds[-1] if kinds and entry["operands"][-1].get("repeats") else " ".join(["words", *plain]) if plain else ""
        told = [f"options='{' '.join(names)}'", f"valued='{' '.join(valued)}'", f"operands=({' '.join(map(repr, kinds))})", f"last='{last}'"]
        cases.append(f"    {entry['word']}) {' '.join(told)} ;;")
        for it in options(known, entry):
            if "value" in it:
                values.append(f"    {' | '.join(entry['word'] + ':' + name for name in it['names'])}) kind='{bash_kind(it)}' ;;")
    return BASH.format(made=MADE, first=" ".join(word for word, _ in first_words(known)), cases="\n".join(cases), values="\n".join(values))


def zsh_text(text: str) -> str:
    """A text inside one of zsh's specifications."""
    return text.replace("{command}", "seccomp-broker").replace("\\", "\\\\").replace("[", "\\[").replace("]", "\\]").replace(":", "\\:").replace("'", "'\\''")


def zsh_action(item: Dict[str, Any]) -> str:
    kinds = {"file": "_files", "folder": "_files -/", "pid": "_pids", "command": "_command_names -e"}
    return kinds.get(item["takes"]) or (f"({' '.join(offered(item))})" if offered(item) else " ")


def zsh_arguments(known: Dict[str, Any], entry: Dict[str, Any]) -> str:
    found = []
    for it in marked(known, entry):
        value = f":{zsh_text(it['value'])}:{zsh_action(it)}" if "value" in it else ""
        found += [f"'*{name}[{zsh_text(it['help'])}]{value}'" for name in it["names"]]
    for it in entry.get("operands", []):
        found.append(f"'{'*' if it.get('repeats') else ''}:{zsh_text(it['name'])}:{zsh_action(it)}'")
    return " ".join(found)


ZSH = r"""#compdef seccomp-broker
# zsh completion for seccomp-broker, {made}
_seccomp_broker() {{
  if (( CURRENT == 2 )); then
    local -a known=({first})
    _describe -t commands command known
    return
  fi
  local word=$words[2]
  shift words
  (( CURRENT-- ))
  case $word in
    help) _arguments '1:command:({names})' ;;
{cases}
  esac
}}
_seccomp_broker "$@"
"""


def zsh() -> str:
    known = table.read()
    first = " ".join(f"'{word}:{zsh_text(text)}'" for word, text in first_words(known))
    cases = "\n".join(f"    {it['word']}) _arguments {zsh_arguments(known, it)} ;;" for it in known["words"])
    return ZSH.format(made=MADE, first=first, names=" ".join(table.names(known)), cases=cases)


def fish_text(text: str) -> str:
    return "'" + text.replace("{command}", "seccomp-broker").replace("\\", "\\\\").replace("'", "\\'") + "'"


def fish_takes(item: Dict[str, Any]) -> str:
    """The words that say what an operand or an option takes."""
    kinds = {"file": "-F", "folder": "-f -a '(__fish_complete_directories)'", "pid": "-f -a '(__fish_complete_pids)'", "command": "-f -a '(__fish_complete_command)'"}
    return kinds.get(item["takes"]) or (f"-f -a '{' '.join(offered(item))}'" if offered(item) else "-f")


def fish() -> str:
    known = table.read()
    begin = "complete -c seccomp-broker"
    lines = [f"# fish completion for seccomp-broker, {MADE}", f"{begin} -f"]
    for word, text in first_words(known):
        name = f"-l {word[2:]}" if word.startswith("--") else f"-a {word}"
        lines.append(f"{begin} -n __fish_use_subcommand {name} -d {fish_text(text)}")
    lines.append(f"{begin} -n '__fish_seen_subcommand_from help' -a '{' '.join(table.names(known))}'")
    for entry in known["words"]:
        here = f"__fish_seen_subcommand_from {entry['word']}"
        for it in marked(known, entry):
            names = " ".join(f"-l {name[2:]}" if name.startswith("--") else f"-s {name[1:]}" for name in it["names"])
            value = f" -r {fish_takes(it)}" if "value" in it else ""
            lines.append(f"{begin} -n '{here}' {names}{value} -d {fish_text(it['help'])}")
        for at, it in enumerate(entry.get("operands", []), 2):
            # places are counted by the words before, so behind options every file is offered
            compare = "-ge" if it.get("repeats") or any(one in marked(known, entry) for one in entry.get("options", [])) else "-eq"
            lines.append(f"{begin} -n '{here}; and test (count (commandline -opc)) {compare} {at}' {fish_takes(it)}")
    return "\n".join(lines) + "\n"


def files() -> Dict[str, str]:
    """The files that shells read, below share/."""
    return {"bash-completion/completions/seccomp-broker": bash(), "zsh/vendor-completions/_seccomp-broker": zsh(), "fish/vendor_completions.d/seccomp-broker.fish": fish()}
