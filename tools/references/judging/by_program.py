"""What the program's own judge, its word `judge`, says of a script, beside what the judge in Python says of the same history."""
from __future__ import annotations

import subprocess
from pathlib import Path

from tools.references.judging.command import BROKEN
from tools.references.stepping.asking import script_ended

WORD, USAGE = "judge", "judge POLICY SCRIPT"


def has_judge(program: str) -> bool:
    """Whether a program has the word, by its usage line."""
    return USAGE in subprocess.run([program], stdin=subprocess.DEVNULL, capture_output=True, text=True).stderr


def judgement_fault(program, files, script, text, room):
    """What is wrong with the program's judgement of a script under the policy of files, where this is to be printed; None where nothing is."""
    wanted = (BROKEN if text.startswith("broken ") else 0, text.encode("latin-1"), b"")
    status, printed, said = ended = script_ended(program, WORD, files, script, room)
    if ended == wanted:
        return None
    return f"`judge` ends with status {status}, and says\n{(printed + said).decode('latin-1')}where this is expected, over {Path(files.script).name}:\n{text}"
