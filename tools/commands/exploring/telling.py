"""What an exploration prints and saves."""
import subprocess
import sys
from pathlib import Path

from tools.commands.command_line import place, written
from tools.commands.exploring.exploration import Explored, Found
from tools.commands.exploring.runs import Played
from tools.references.judging.sessions import session_text

COMMAND = f"{place.HOME}/broker"
MOST_SHOWN = 4_000


def requests_of(played):
    """The requests that lead to what is told."""
    return b"".join(asked.request + b"\n" for asked in played.session[:played.shown])


def block(name, lines):
    return [name, *lines, "end"]


def shown_output(played):
    """What the broker has written in a run, each line marked; nothing where it has written nothing."""
    text = played.output.decode("utf-8", "backslashreplace")
    cut = text if len(text) <= MOST_SHOWN else text[:MOST_SHOWN] + "\n.."
    return block("output", [f"| {line}" for line in cut.rstrip("\n").split("\n")]) if text.strip() else []


def requests_block(played):
    return block("requests", requests_of(played).decode("latin-1").split("\n")[:-1])


def heading(name, number, found: Found):
    return f"{name} {number} delays={found.played.planned.total} steps={found.played.steps} runs={found.runs}"


def finding_text(number, found: Found):
    assert found.played.told is not None
    lines = [heading("finding", number, found), *found.played.told.text.rstrip("\n").split("\n"), *requests_block(found.played), *shown_output(found.played)]
    return "".join(line + "\n" for line in lines)


def trouble_text(number, found: Found):
    trouble = found.played.trouble
    assert trouble is not None
    lines = [heading("trouble", number, found), f"{trouble.kind.value}: instance {trouble.instance}: {trouble.text}", *requests_block(found.played), *shown_output(found.played)]
    return "".join(line + "\n" for line in lines)


def whole_text(explored: Explored, share=None):
    """What an exploration prints; of a share with its name."""
    counts = f"delays={explored.delays} runs={explored.runs} histories={len(explored.histories)} findings={len(explored.findings)}"
    lines = [f"explored broker {counts} whole={'bound' if explored.is_whole else 'no'}{f' shard={share}' if share else ''}\n"]
    lines += [finding_text(number, found) for number, found in enumerate(explored.in_order(explored.findings), 1)]
    lines += [f"note {note.text}\n" for note in explored.notes.values()]
    lines += [trouble_text(number, found) for number, found in enumerate(explored.in_order(explored.troubles), 1)]
    return "".join(lines)


def save(folder, explored: Explored):
    """Saves what was found, each thing in a folder of its own, which is whole or isn't there. Raises OSError."""
    for name, known in (("finding", explored.findings), ("trouble", explored.troubles)):
        for number, found in enumerate(explored.in_order(known), 1):
            with written.folder(Path(folder) / f"{name}-{number}") as made:
                save_one(made, f"{name}-{number}", found.played)


def save_one(folder: Path, name: str, played: Played) -> None:
    if played.script:
        (folder / "script.txt").write_bytes(played.script.encode("latin-1"))
    (folder / "session.txt").write_bytes(session_text(played.session))
    (folder / "report.txt").write_text(played.report, encoding="latin-1")
    (folder / "output.txt").write_bytes(played.output)
    judged: list[str | Path] = []
    if played.told is not None:
        (folder / "judged.txt").write_text(played.told.text, encoding="latin-1")
        judged = ["--judged", folder / "judged.txt"]
    words: list[str | Path] = ["picture", *judged, "--title", f"{name}/report.txt", "-o", folder / "picture.html", folder / "report.txt"]
    subprocess.run([sys.executable, COMMAND, *words], stdin=subprocess.DEVNULL, check=False)
