"""What a page shows of an output: the scene of a report, with the workers that were replaced on the way; those of a pod's containers; or the outcomes of an exploration."""
from __future__ import annotations

import re
from typing import Any, Dict

from tools.commands import pods
from tools.commands.json_documents.explorations import exploration_of
from tools.commands.json_documents.report import EVENTS
from tools.commands.json_documents.values import ACTOR, result_word, verdict_words
from tools.commands.pages.judged import judged_of, marked
from tools.commands.pages.reports import STEPS, NotAReport, lines_of, read
from tools.commands.pages.scenes import scene_of
from tools.commands.pages.words import WORDS, is_error

TITLES = {"report": "A report", "handover": "A handover", "pod": "A pod", "exploration": "An exploration"}
TITLE = re.compile(r"handovers (\d{1,20})")
LEDGER = re.compile(r"ledger (\d{1,20}) (w\d{1,3}) (\{.*\})")


def judged_view(data: bytes, text: bytes) -> Dict[str, Any]:
    """The view of a report with what the judge says of its history. NotAReport and NotJudged say at which line one of the two is none."""
    report = read(data)
    judged, scene = judged_of(text, report), scene_of(report)
    return {"kind": "report", "scene": scene if judged is None else marked(scene, judged)}


def view_of(data: bytes) -> Dict[str, Any]:
    """The view of an output. NotAReport says at which line it is none."""
    if data.startswith(b"explored "):
        return exploration_view(data)
    if data.startswith(b"container 0\n"):
        return pod_view(data)
    if b"\nhandovers " in data:
        return handover_view(data)
    return {"kind": "report", "scene": scene_of(read(data))}


# ---- a handover


def handover_view(data):
    """The report of a handover. Each event behind which a worker was replaced says so."""
    report, title, behind = data.partition(b"\nhandovers ")
    found = read(report + b"\n")
    lines = lines_of((title + behind)[1:], len(data))
    first = len(found.lines) + 1
    counted = TITLE.fullmatch(lines[0])
    if counted is None or int(counted[1]) != len(lines) - 1:
        raise NotAReport(first, f"'handovers' and the number of the {len(lines) - 1} lines below should be here")
    scene = scene_of(found)
    for number, line in enumerate(lines[1:], first + 1):
        ledger = LEDGER.fullmatch(line)
        if ledger is None or int(ledger[1]) >= len(found.events) or found.events[int(ledger[1])].actor != ledger[2]:
            raise NotAReport(number, "a ledger of a worker should be here, with the place of the worker's last step")
        scene["notes"].append(["replaced", int(ledger[1])])
        scene["tags"].append([int(ledger[1]), "odd", f"worker {ledger[2][1:]} is replaced", None])
    return {"kind": "handover", "scene": {**scene, "lines": [*found.lines, *lines]}}


# ---- a pod


def pod_view(data):
    """The scenes of the containers of a pod, and the sums."""
    lines = lines_of(data, len(data))
    try:
        reports, last = pods.parts(data)
    except ValueError as fault:
        raise NotAReport(1, str(fault)) from None
    scenes, at = [], 1
    for report in reports:
        try:
            scenes.append(view_of(report)["scene"])
        except NotAReport as fault:
            raise NotAReport(at + fault.line, fault.why) from None
        at += report.count(b"\n") + 1
    sums = re.fullmatch(r"pod containers=(\d+) (.*)", last.decode("ascii").rstrip("\n"))
    if sums is None or int(sums[1]) != len(scenes):
        raise NotAReport(len(lines), f"the sums of {len(scenes)} containers should be here")
    return {"kind": "pod", "scenes": scenes, "sums": sums[2]}


# ---- an exploration


def exploration_view(data: bytes) -> Dict[str, Any]:
    """The outcomes of an exploration: the calls of each as lines, and the turns of its schedule."""
    found = exploration_of(data)
    # (older programs don't say which bounds they explored)
    bounds = {"workers": found.get("workers"), "delays": found.get("delays")}
    counts = {name: found[name] for name in ("histories", "events", "longest", "whole")}
    return {"kind": "exploration", **bounds, **counts, "outcomes": [outcome_view(it) for it in found["outcomes"]]}


def outcome_view(outcome: Dict[str, Any]) -> Dict[str, Any]:
    turns = outcome["schedule"]
    return {"number": outcome["number"], "histories": outcome["histories"], "calls": [call_view(it) for it in outcome["calls"]],
            "schedule": None if turns is None else [[ACTOR.write(it["actor"]), it["steps"]] for it in turns]}


def call_view(call: Dict[str, Any]) -> Dict[str, Any]:
    """A call: its task, its number, its name, what the filters said, its outcome, its audit, and what was done for it, in words."""
    audit = call["audit"] or {"rule": None, "verdict": "-", "reply": "-"}
    outcome = result_word(call["outcome"])
    return {"task": call["task"], "number": call["number"], "name": call["call"], "filters": verdict_words(call["verdict"]), "outcome": outcome,
            "bad": is_error(outcome) or outcome == "ended", "rule": audit["rule"] or "-", "verdict": audit["verdict"], "reply": audit["reply"], "did": [did_view(it) for it in call["did"]]}


def did_view(did):
    """What a session did: its words, whether it failed, and what is so of it at the end."""
    event = did["event"]
    fields = STEPS[event][1].fullmatch(EVENTS[event].write(did)).groups()
    return {"words": WORDS[event](*fields), "bad": fields[-1] != "ok", "afterwards": did["afterwards"] or ""}
