"""Runs the commands that the documents show, and compares their output with what the pages show.

    tools/checks/check-commands [PROGRAM [PAGE ..]]

PROGRAM takes the place of ./broker and seccomp-broker, with the tools' commands besides its own; without it, that is the program which ./broker
runs. PAGE is a document, or `help` for the examples of the command's help; without one, all are tried.

In a block of the kind `console` each line that begins with `$ ` is a command, and the lines after it are its standard output; a line that begins
with `> ` goes on with the command. A command that shows nothing has to end with status 0, or 11. A block after a line that ends with a file's
name and a colon has that file's text. In both, `...` marks omitted text: lines if it is alone, else a part of its line. The commands of a page are
run in one folder; `cd` holds for those that follow. For a page that packages have, that folder is empty, and /usr/share/seccomp-broker has what
the package has there. For another page it has links to the repository's files. Commands with a text of NOT_RUN aren't run. No other block of a
page has a command, but a form may stand there: it has words in capitals, for files and numbers.

YOUR_BROKER, AGENTS and INSTALL need cc, and the first make, too.

Exit status: 0 if each page shows what is so, else 1. The last line is `commands: N passed, N failed`.
"""
import os
import re
import subprocess
import tempfile
from functools import lru_cache
from pathlib import Path

from tools.checks import check_links
from tools.commands.command_line import pages, table
from tools.commands.command_line.arguments import ToolParser
from tools.commands.command_line.top import TOP
from tools.commands.packaging import files, tree

# each with the reason; there are at most ten
NOT_RUN = {
    "sudo apt install": "it changes the machine; check-package installs the packages in a root of its own",
    "tar xf seccomp-broker": "check-package runs the tarball's command",
    "lxc query": "it needs LXD with a container",
    "seccomp-broker filter-of-process": "it needs a container's process, and root",
    "seccomp-broker record": "it needs a container's process, strace and root",
    "seccomp-broker on-linux": "it needs root and Linux 6.14",
    "parallel --sshloginfile": "it needs machines",
    "parts=$(sbatch": "it needs Slurm",
    "go test": "it needs Go, or Rust (cargo test); check-your-broker runs it if that is there",
    "seccomp-broker filter-of-profile": "it needs Debian's python3-seccomp; check-real-workloads runs it if that is there",
}
INSTALLED = "/usr/share/seccomp-broker"
BLOCK = re.compile(r"([^\n]*)\n\n?```(\w*)\n(.*?)^```$", re.M | re.S)
COMMAND = re.compile(r"^\$ (.*(?:\n> .*)*)\n((?:(?!\$ ).*\n)*)", re.M)
GENERATED = re.compile(r"^<!-- from .*? -->\n.*?^<!-- end of .*? -->\n", re.M | re.S)
# a command in a block that isn't run, and what makes it a form
BESIDE = re.compile(r"(?:[$#] )?((?:seccomp-broker|\S*/(?:broker|seccomp-broker)|\.ci/run|tools/\S+|sudo|apt|pip|tar|cc|make|export|parallel|sbatch|xdg-open)(?: .*)?)")
FORM = re.compile(r"\b[A-Z]{3,}\b")
BROKER = """#!/bin/sh
case ${{1-}} in
  {over_program}) word=$1 && shift && exec '{top}/broker' "$word" --program '{program}' "$@" ;;
  *) exec '{top}/tools/checks/over' '{program}' "$@" ;;
esac
"""
FILE = re.compile(r"`([^`]+)`:$")
MOST_SECONDS, FINDING = 300, 11
HELP = "help"


def fits(shown, text):
    """Whether the text is what a page shows of it, with or without a newline at its end."""
    lines = (r"(?:.*\n)*?" if line == "...\n" else ".*?".join(map(re.escape, line.split("..."))) for line in shown.splitlines(keepends=True))
    return re.fullmatch("".join(lines), text if text.endswith("\n") or not text else f"{text}\n") is not None


class Room:
    """A folder for the commands of a page, with a command that runs the program. For a reader with a checkout it has links to the repository's files."""

    def __init__(self, folder, program, share, is_checkout):
        self.at, self.share, self.commands = folder, share, f"{folder}/.commands"
        os.mkdir(self.commands)
        for path in TOP.iterdir() if is_checkout else ():
            if path.name not in ("broker", ".git"):
                os.symlink(path, f"{folder}/{path.name}")
        for path in [f"{self.commands}/seccomp-broker", *[f"{folder}/broker"] * is_checkout]:
            Path(path).write_text(broker(program), encoding="utf-8")
            os.chmod(path, 0o755)

    def ended(self, command):
        """How a command ended, with its standard output, in the folder in which the one before it ended."""
        environment = {**os.environ, "PATH": f"{self.commands}:{os.environ['PATH']}", "PWD": self.at}
        text = f"{command.replace(INSTALLED, self.share)}\nended=$?; pwd >'{self.commands}/at'; exit $ended"
        ended = subprocess.run(["sh", "-c", text], cwd=self.at, env=environment, stdin=subprocess.DEVNULL, stdout=subprocess.PIPE, timeout=MOST_SECONDS, text=True, errors="replace")
        self.at = Path(f"{self.commands}/at").read_text(encoding="utf-8").rstrip("\n")
        return ended

    def text_of(self, name):
        """The text of a file, in the folder of the commands or in the repository; empty if there is none."""
        path = next((path for path in (Path(self.at, name), TOP / name) if path.is_file()), None)
        return path.read_text(encoding="utf-8") if path else ""


def broker(program):
    """The command over the program. The table says which tools ask it, and so have it named."""
    asks = [it["word"] for it in table.read()["words"] if it["kind"] == "tool" and any("--program" in option["names"] for option in it.get("options", []))]
    return BROKER.format(top=TOP, program=program, over_program=" | ".join(asks))


def fault_of(shown, ended):
    """What is wrong with what a page shows of a command, or None."""
    if not fits(shown, ended.stdout):
        return f"the page shows\n{shown}but it is\n{ended.stdout}"
    return None if shown or ended.returncode in (0, FINDING) else f"it ends with status {ended.returncode}\n"


def is_not_run(command):
    return any(it in command for it in NOT_RUN)


def not_in_console(text):
    """The lines of other blocks that are commands, and neither forms nor generated."""
    kind = None
    for line in GENERATED.sub("", text).split("\n"):
        if line.startswith("```"):
            kind = line[3:] if kind is None else None
        elif kind in ("", "sh", "bash") or kind is None and line.startswith("    "):
            found = BESIDE.fullmatch(line.strip())
            if found and not FORM.search(found[1]) and not is_not_run(found[1]):
                yield found[1]


def tried_on(text, room):
    """What a page shows: a name of each thing, with what is wrong with it."""
    for above, kind, block in BLOCK.findall(text):
        file = FILE.search(above)
        if kind == "console":
            for command, shown in COMMAND.findall(block):
                if not is_not_run(command):
                    yield f"$ {command}", fault_of(shown, room.ended(command.replace("\n> ", "\n")))
        elif file:
            found = room.text_of(file.group(1))
            yield file.group(1), None if fits(block, found) else f"the page shows\n{block}but it is\n{found}"
    yield from ((command, "it isn't in a block of the kind console\n") for command in not_in_console(text))


def examples_of_help(room):
    """The examples of `help` and of the man page, with what is wrong with each. One with words in capitals or with a pattern is a form."""
    for command in (pages.filled(it, "seccomp-broker", f"{INSTALLED}/examples") for entry in table.read()["words"] for it in entry.get("examples", [])):
        if not FORM.search(command) and "*" not in command and not is_not_run(command):
            ended = room.ended(command)
            yield f"$ {command}", None if ended.returncode in (0, FINDING) and ended.stdout else f"it ends with status {ended.returncode}, and prints {ended.stdout!r}\n"


@lru_cache(maxsize=None)
def packaged():
    """The pages that packages have."""
    return frozenset(files.documents())


def tried(page, program, share):
    """Whether each thing that a page shows is so."""
    is_help, is_checkout = page == HELP, page not in packaged()
    with tempfile.TemporaryDirectory(prefix="check-commands-") as folder:
        room = Room(folder, program, share, is_checkout and not is_help)
        for name, fault in examples_of_help(room) if is_help else tried_on((TOP / page).read_text(encoding="utf-8"), room):
            if fault:
                print(f"commands: {page}: {name}\n{fault}", end="")
            yield fault is None


def exceptions(documents):
    """Whether the commands that aren't run are few, and each is still on a page."""
    texts = [(TOP / page).read_text(encoding="utf-8") for page in documents]
    unused = [it for it in NOT_RUN if not any(it in text for text in texts)]
    print("".join(f"commands: no page has {it!r}: take it from NOT_RUN\n" for it in unused), end="")
    return [len(NOT_RUN) <= 10, not unused]


def main():
    parser = ToolParser()
    parser.add_program()
    parser.add_argument("pages", metavar="PAGE", nargs="*")
    asked = parser.with_program()
    documents = [str(path.relative_to(TOP)) for path in check_links.documents()]
    with tempfile.TemporaryDirectory(prefix="check-commands-share-") as share:
        tree.write(files.shared(), share, 0)
        all_tried = [passed for page in asked.pages or [*documents, HELP] for passed in tried(page, asked.program, share)] + exceptions(documents)
    print(f"commands: {sum(all_tried)} passed, {len(all_tried) - sum(all_tried)} failed")
    return not all(all_tried)
