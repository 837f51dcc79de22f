"""Explorations of a broker as JSON documents: a whole one, a share of one, and what joins shares."""
from __future__ import annotations

from dataclasses import dataclass, field
from typing import Any, Dict, List, Optional, Tuple, Union

from tools.commands.exploring import telling
from tools.commands.exploring.exploration import Explored, Found
from tools.commands.exploring.kernels import Asked
from tools.commands.exploring.runs import Kind, Played, Told, Trouble
from tools.commands.exploring.schedules import Delay, Planned
from tools.commands.sharding.shares import Described, Share, Unlike
from tools.references.judging.passing import NAME, Note

WORD = "explore-broker"
# how an exploration came to its end
BOUND, LIMIT, STOPPED, INTERRUPTED = "bound", "limit", "undecided", "interrupted"


@dataclass
class ExploredShare(Explored):
    """An exploration that keeps of each run what it takes to join it with those of others."""

    schedules: List[dict] = field(default_factory=list)

    def take(self, played: Played) -> None:
        super().take(played)
        self.schedules.append(schedule_of(played, self.is_smallest(played)))

    def is_smallest(self, played: Played) -> bool:
        """Whether no run before shows the same thing with fewer delays or steps."""
        kept = [self.findings.get(played.told.about) if played.told else None, self.troubles.get(tuple(played.trouble)) if played.trouble else None]
        return any(found is not None and found.played is played for found in kept)


# ---- documents


def shown_of(played: Played) -> Dict[str, Any]:
    """What a finding shows of its run."""
    return {"requests": telling.requests_of(played).decode("latin-1").split("\n")[:-1], "output": played.output.decode("utf-8", "backslashreplace")}


def told_of(told: Optional[Told]) -> Dict[str, Union[int, str]]:
    assert told is not None
    return {"clause": told.clause, "class": told.gravity, "task": told.task, "call": told.ordinal, "text": told.text}


def trouble_of(trouble: Optional[Trouble]) -> Dict[str, Union[int, str]]:
    assert trouble is not None
    return {"kind": trouble.kind.value, "instance": trouble.instance, "text": trouble.text}


def note_of(note: Note) -> Dict[str, str]:
    return {"name": NAME, "rule": note.rule, "call": note.call, "against": note.against, "other": note.other}


def schedule_of(played: Played, is_shown: bool) -> Dict[str, Any]:
    """A run, as a share tells it. Only the smallest ones of what was found are shown."""
    found = {"delays": [list(it) for it in played.planned.delays], "steps": played.steps, "history": played.digest.hex()}
    if played.told is not None:
        found["finding"] = told_of(played.told)
    if played.trouble is not None:
        found["trouble"] = trouble_of(played.trouble)
    if played.notes:
        found["notes"] = [note_of(it) for it in played.notes]
    return {**found, "shown": shown_of(played)} if is_shown else found


def heading(found: Found) -> Dict[str, int]:
    return {"delays": found.played.planned.total, "steps": found.played.steps, "runs": found.runs}


def document(explored: Explored) -> Dict[str, Any]:
    """What was explored, as docs/schema/explore-broker.json describes it."""
    return {
        "word": WORD, "delays": explored.delays, "runs": explored.runs, "histories": len(explored.histories), "whole": "bound" if explored.is_whole else "no",
        "findings": [{**heading(it), **told_of(it.played.told), **shown_of(it.played)} for it in explored.in_order(explored.findings)],
        "notes": [note_of(it) for it in explored.notes.values()],
        "troubles": [{**heading(it), **trouble_of(it.played.trouble), **shown_of(it.played)} for it in explored.in_order(explored.troubles)],
    }


def ending_of(explored: ExploredShare, is_interrupted: bool) -> str:
    if is_interrupted:
        return INTERRUPTED
    return BOUND if explored.is_whole else STOPPED if not explored.is_decided else LIMIT


def share_document(explored: ExploredShare, share: Share, of: str, limit: Optional[int], is_interrupted: bool) -> Dict[str, Any]:
    """The same with what joins it with other shares."""
    told = {"index": share.index, "count": share.count, "of": of, "limit": limit, "ended": ending_of(explored, is_interrupted)}
    return {**document(explored), "shard": told, "schedules": explored.schedules}


# ---- joining


def described(found: Dict[str, Any]) -> Described:
    told = found["shard"]
    return Described(Share(told["index"], told["count"]), f"{told['of']} {found['delays']} {told['limit']}", told["ended"] != INTERRUPTED)


def played_of(schedule: Dict[str, Any]) -> Played:
    """The run that a share tells."""
    shown = schedule.get("shown", {"requests": [], "output": ""})
    told, trouble = schedule.get("finding"), schedule.get("trouble")
    return Played(
        Planned(tuple(Delay(*it) for it in schedule["delays"])), steps=schedule["steps"], digest=bytes.fromhex(schedule["history"]),
        told=Told(told["clause"], told["class"], told["task"], told["call"], told["text"]) if told else None,
        trouble=Trouble(Kind(trouble["kind"]), trouble["instance"], trouble["text"]) if trouble else None,
        notes=tuple(Note(it["rule"], it["against"], it["call"], it["other"]) for it in schedule.get("notes", ())),
        session=[Asked(it.encode("latin-1"), b"") for it in shown["requests"]], shown=len(shown["requests"]), output=shown["output"].encode())


def all_runs(documents: List[Dict[str, Any]]) -> Dict[Tuple[Delay, ...], Played]:
    """The runs of all shares by their schedules. Those with few delays are in several shares. Raises Unlike."""
    found: Dict[Tuple[Delay, ...], Played] = {}
    for it in documents:
        for played in map(played_of, it["schedules"]):
            known = found.setdefault(played.planned.delays, played)
            if (known.digest, known.told and known.told.about, known.trouble) != (played.digest, played.told and played.told.about, played.trouble):
                raise Unlike(f"the broker isn't the same in all parts: a run with {played.planned.total} delays is another one in part {described(it).share}")
    return found


def joined(documents: List[Dict[str, Any]]) -> Explored:
    """The exploration that the shares make up: it ends where the whole would have. Raises Unlike."""
    explored, limit = Explored(documents[0]["delays"]), documents[0]["shard"]["limit"]
    for played in sorted(all_runs(documents).values(), key=lambda it: (it.planned.total, it.planned.order())):
        if explored.runs == limit or not explored.is_decided:
            explored.is_whole = False
            break
        explored.take(played)
    explored.is_whole = explored.is_whole and explored.is_decided and all(it["shard"]["ended"] == BOUND for it in documents)
    return explored
