"""The pictures of docs/clauses: of each small history that breaks a clause, with the clause at its event and what it rests on."""
import subprocess
import tempfile
from pathlib import Path

from tools.commands.command_line.top import TOP

PICTURES = TOP / "docs/clauses"


def picture_of(follower):
    """The still picture of a history that was judged."""
    with tempfile.TemporaryDirectory(prefix="clauses-") as room:
        for name, text in (("report", follower.session.report()), ("judged", follower.judge.text())):
            Path(f"{room}/{name}").write_text(text, encoding="latin-1")
        words = [TOP / "tools/commands/picture", "--still", "--judged", f"{room}/judged", f"{room}/report"]
        return subprocess.run(words, stdin=subprocess.DEVNULL, stdout=subprocess.PIPE, check=True).stdout


def place_of(session):
    """Where the picture of a session is kept."""
    return PICTURES / f"{session.stem}.svg"
