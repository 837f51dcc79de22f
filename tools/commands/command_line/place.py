"""Where the command stands: in a checkout, or in a folder that a package made. Both have `broker`, tools/ and examples/."""
from __future__ import annotations

import json
import os
import sys
from typing import Any, Dict, List, Optional

HOME = os.path.dirname(os.path.dirname(os.path.dirname(os.path.dirname(os.path.realpath(__file__)))))
# what a package says of the program in it; a checkout has none
ABOUT = f"{HOME}/about.json"
NOT_PROVED = "broker: this build isn't proved"


def about(home: str = HOME) -> Optional[Dict[str, Any]]:
    """What is known of an installed program, or None where the folder is a checkout or none."""
    try:
        with open(f"{home}/about.json", encoding="utf-8") as file:
            return json.load(file)
    except OSError:
        return None


def command(home: str = HOME) -> str:
    """The command as its user calls it."""
    return "seccomp-broker" if os.path.exists(f"{home}/about.json") else "./broker"


def examples() -> str:
    """The folder of the examples, as it is shown in commands."""
    return os.path.realpath(f"{HOME}/examples") if os.path.exists(ABOUT) else "examples"


def documents() -> str:
    """The last lines of the list of words."""
    known = about()
    if known is None:
        return (f"Documents, in {HOME}:\n  README.md          what it is, and what is proved\n  docs/TUTORIAL.md   test a policy, and then a race\n"
                "  docs/reference     policies, scripts, reports, and exit statuses")
    share = os.path.dirname(os.path.realpath(f"{HOME}/examples"))
    return (f"Manual: seccomp-broker(1), seccomp-broker-policy(5), seccomp-broker-script(5), seccomp-broker-report(5), seccomp-broker-outputs(5),\n"
            f"  seccomp-broker-step(5), seccomp-broker-test(5)\n"
            f"What was proved of this program: {share}/proof.txt")


def program() -> Optional[str]:
    """The path of the program: the installed one, or in a checkout the one of checkout.py. None where it can't be had, and an empty text
    where a trial build can only be made for each run."""
    known = about()
    if known is not None:
        if not known["proved"]:
            print(NOT_PROVED, file=sys.stderr, flush=True)
        return f"{HOME}/seccomp_broker"
    # (an installed command doesn't need these, and begins sooner without them)
    from tools.commands.command_line import checkout, trial
    try:
        return checkout.program()
    except (trial.NotKept, trial.NotMade) as fault:
        trial.say(str(fault))
        return "" if isinstance(fault, trial.NotKept) else None


def runnable() -> Optional[str]:
    """The path by which the program is run: that of the program, or of what makes a trial build for each run. None where neither can be had."""
    path = program()
    return None if path is None else path or f"{HOME}/tools/commands/try"


def said_by(*words: str) -> Optional[str]:
    """What a command prints, or None where it fails or isn't there."""
    import subprocess
    try:
        ended = subprocess.run(words, stdin=subprocess.DEVNULL, stdout=subprocess.PIPE, stderr=subprocess.DEVNULL, universal_newlines=True)
    except OSError:
        return None
    return ended.stdout.strip() if ended.returncode == 0 else None


def state_of_checkout() -> str:
    """Whether the program that a checkout runs is proved, as a text."""
    from tools.commands.command_line import checkout
    if not os.access(checkout.PROVED, os.X_OK):
        return "no: ./broker runs a trial build; ./broker --prove proves and builds the program"
    return "yes" if checkout.is_proved() else "no: a source is newer than the proved program, so ./broker runs a trial build"


def version_lines() -> List[str]:
    """What --version prints."""
    known = about()
    if known is not None:
        proved = "yes" if known["proved"] else "no: this is a trial build"
        return [f"seccomp-broker {known['version']}", f"proved: {proved}", f"toolchain: {known['toolchain']}", f"commit: {known['commit']}",
                f"sources: {known['sources']}"]
    with open(f"{HOME}/VERSION", encoding="ascii") as file:
        version = file.read().strip()
    import shutil
    commit = said_by("git", "-C", HOME, "describe", "--tags", "--always", "--dirty") or "unknown: this folder is no git checkout"
    toolchain = said_by("rt", "version") if shutil.which("rt") else None
    return [f"seccomp-broker {version}, in a checkout", f"proved: {state_of_checkout()}",
            f"toolchain: {toolchain or 'none: its command rt is not on the PATH'}", f"commit: {commit}"]
