"""What of a report belongs together: the lanes of a picture, its calls and sessions, and what joins two lanes.

A scene says no more than the report's lines do. Which events are of one call is told by their actors and ids: a call is the newest that
its task entered, a session is what its worker does from a receive to its end. Verdicts, outcomes and answers are those of the report.
"""
from __future__ import annotations

import heapq
import re
from typing import TYPE_CHECKING, Any, Dict, List, Optional

from tools.commands.pages.copies import Copied
from tools.commands.pages.words import arguments, is_error, words_of

if TYPE_CHECKING:
    from tools.commands.pages.reports import Event, Report

# so many tasks have a column each; where there are more, a task takes the column of one that has ended
OWN_COLUMNS = 12
# so many of the newest pokes of a memory are looked through for those that have changed what is read
POKES = 64
OVERWRITTEN = "overwritten"
OUTCOMES = {"restarted": "made again", "ended": "never returned", "open": "came to nothing"}


class Lane:
    def __init__(self, name, kind, first):
        self.name, self.kind, self.first = name, kind, first
        self.last, self.ended, self.reaped, self.pid, self.column = first, None, None, None, None
        # the pokes of all tasks that share the lane's memory
        self.pokes = []

    def told(self) -> Any:
        return [self.name, self.kind, self.first, self.last, self.ended, self.reaped, self.pid, self.column]


class Scene:
    """Goes through the events once, and keeps what it has seen."""

    def __init__(self, report):
        self.report = report
        self.lanes, self.order = {}, []
        self.lane_of, self.call_of, self.arrows, self.notes, self.tags = [], [], [], [], []
        self.calls, self.sessions, self.brackets = [], [], []
        # what is told of a step otherwise than by its line alone; and steps of others that have brought something to a call
        self.said, self.causes, self.signals = {}, [], {}
        self.current, self.by_id, self.open_sessions, self.holders = {}, {}, {}, {}
        self.judged = {judged.place: judged for judged in report.audit}
        self.outcomes = {call.place: call for call in report.calls}
        for place, event in enumerate(report.events):
            self.take(place, event)
        self.complete(len(report.events) - 1)

    def lane(self, name: str, place: int) -> Lane:
        """The lane with this name, which has an event at this place."""
        if name not in self.lanes:
            kind = {"t": "task", "w": "worker"}.get(name[0], "listener")
            self.lanes[name] = Lane(name, kind, place)
        lane = self.lanes[name]
        lane.last = max(lane.last, place)
        return lane

    def take(self, place: int, event: Event) -> None:
        name = f"t{event.fields[0]}" if event.actor == "-" else event.actor
        lane = self.lane(name, place)
        self.lane_of.append(lane)
        step = getattr(self, event.word.replace("-", "_"), None)
        call = step(place, lane, *event.fields) if step else self.session_call(lane)
        self.call_of.append(-1 if call is None else call["number"])

    def session_call(self, lane: Lane) -> Optional[Dict[str, Any]]:
        session = self.open_sessions.get(lane.name)
        return session and session["call"]

    def note(self, kind: str, place: int) -> None:
        self.notes.append([kind, place])

    def tag(self, place: int, kind: str, text: str, rule: Optional[str] = None) -> None:
        self.tags.append([place, kind, text, rule])

    def arrow(self, kind: str, place: int, source: Any, target: Any, lost: bool = False) -> None:
        if target is not None and source is not target:
            self.arrows.append([kind, place, source, target, int(lost)])

    # ---- steps of tasks

    def spawn(self, place, lane, name, pid, kind, error):
        if error is None:
            child = self.lane(f"t{name}", place)
            child.pid = pid
            if kind == "share":
                child.pokes = lane.pokes
            before = self.holders.get(pid)
            if before is not None and before is not child:
                self.note("reused", place)
                self.tag(place, "odd", f"process {pid} was task {before.name[1:]}")
            self.holders[pid] = child
            self.arrow("spawn", place, lane, child)

    def call(self, place: int, lane: Any, name: str, numbers: str, verdict: str) -> Any:
        listed = self.outcomes[place]
        call = {"number": len(self.calls), "place": place, "lane": lane, "name": name, "pid": listed.pid, "outcome": listed.outcome, "verdict": verdict,
                "end": None, "arguments": arguments(name, numbers.split()), "sessions": []}
        self.calls.append(call)
        self.current[lane.name] = call
        if verdict.startswith("notify"):
            self.by_id[verdict[len("notify id="):]] = call
        elif verdict not in ("allow", "log"):
            self.over(lane, place)
        if verdict == "kill":
            lane.ended = place
        if listed.outcome in ("restarted", "open"):
            self.note(listed.outcome, place)
        self.tag(place, "bad" if is_error(listed.outcome) or listed.outcome == "ended" else "plain", OUTCOMES.get(listed.outcome) or f"{'failed with' if is_error(listed.outcome) else 'returned'} {listed.outcome}")
        return call

    def over(self, lane: Lane, place: int) -> Optional[Dict[str, Any]]:
        """The lane's call is over, if it is in one."""
        call = self.current.pop(lane.name, None)
        if call is not None:
            call["end"] = place
        return call

    def native(self, place: int, lane: Any, _: str) -> Any:
        return self.over(lane, place)

    def install(self, place: int, lane: Any, _: str) -> Any:
        return self.current.get(lane.name)

    def resume(self, place: int, lane: Any, back: str) -> Any:
        return self.current.get(lane.name) if back == "continue" else self.over(lane, place)

    def kill(self, place: int, lane: Lane, pid: str, number: str, result: str) -> None:
        receiver = self.holders.get(pid)
        self.arrow("kill", place, lane, receiver, result != "ok")
        if receiver is not None:
            self.signals[receiver.name, number] = place

    def deliver(self, place: int, lane: Any, number: str, effect: str) -> Any:
        if effect == "end":
            lane.ended = place
        call = None if effect == "run" else self.over(lane, place)
        self.cause(self.signals.pop((lane.name, number), None), call)
        return call

    def cause(self, place: int, call: Optional[Dict[str, Any]]) -> None:
        """Notes that a step has brought something to a call of another task."""
        if place is not None and call is not None and [place, call["number"]] not in self.causes[-POKES:]:
            self.causes.append([place, call["number"]])

    def wait(self, place: int, lane: Lane, child: str) -> None:
        if not is_error(child) and f"t{child}" in self.lanes:
            ended = self.lanes[f"t{child}"]
            ended.reaped, ended.last = place, max(ended.last, place)
            self.arrow("wait", place, ended, lane)

    def exit(self, place, lane):
        lane.ended = place
        return self.over(lane, place)

    def poke(self, place: int, lane: Lane, at: str, data: str) -> None:
        begin, size = int(at), len(data) // 2
        lane.pokes.append((place, lane, begin, size))
        for session in self.open_sessions.values():
            call = session["call"]
            if call is not None and call["lane"] is not lane and call["lane"].pokes is lane.pokes and session["copy"].has_read(begin, size):
                self.note_overwritten(place, session, "was read already")

    def note_overwritten(self, place: int, session: Dict[str, Any], when: str) -> None:
        """Notes that another task writes over a text of a call that waits."""
        if [OVERWRITTEN, place] not in self.notes[-POKES:]:
            self.note(OVERWRITTEN, place)
            self.tag(place, "odd", f"overwrites a text of task {session['call']['lane'].name[1:]}'s {session['call']['name']}, which {when}")

    def handler(self, place, lane, *_):
        return None

    skip = handler

    # ---- steps of workers

    def recv(self, place: int, lane: Any, notification: str, pid: str, error: Any) -> Any:
        if error is not None:
            return None
        self.finish(lane, place)
        judged, call = self.judged[place], self.by_id.get(notification)
        session = {"place": place, "lane": lane, "call": call, "end": None, "judged": judged, "copy": Copied(call), "first": None, "second": None, "good": False,
                   "decided": None, "sent": None, "other": None}
        self.open_sessions[lane.name] = session
        self.sessions.append(session)
        if call is not None:
            call["sessions"].append(len(self.sessions) - 1)
            self.arrow("recv", place, call["lane"], lane)
        return call

    def finish(self, lane: Lane, place: int) -> Optional[Dict[str, Any]]:
        """The lane's session is over, if there is one."""
        session = self.open_sessions.pop(lane.name, None)
        if session is None:
            return None
        session["end"] = place
        if session["first"] is not None:
            last = session["second"] if session["second"] is not None else place
            self.brackets.append([lane, session["first"], last, int(session["good"]), session["call"]])
        return session["call"]

    def let_go(self, place: int, lane: Any) -> Any:
        return self.finish(lane, place)

    def opening(self, place: int, lane: Any, pid: str, *_: str) -> Any:
        """Tells where the number is another task's than the call's."""
        session, holder = self.open_sessions.get(lane.name), self.holders.get(pid)
        if session is None or session["call"] is None:
            return None
        if holder is not None and holder is not session["call"]["lane"]:
            self.arrow("other", place, lane, holder)
            self.tag(place, "odd", f"process {pid} is task {holder.name[1:]} now")
            if session["other"] is None:
                self.note("other", place)
            session["other"] = holder
            self.cause(session["call"]["lane"].reaped, session["call"])
            self.cause(holder.first, session["call"])
        return session["call"]

    open_mem = open_base = opening

    def check(self, place, lane, _, result):
        session = self.open_sessions.get(lane.name)
        if session is None:
            return None
        session["decided"] = place
        if session["first"] is None:
            session["first"] = place if result == "ok" else None
        elif session["second"] is None:
            session["second"], session["good"] = place, result == "ok"
        return session["call"]

    def read(self, place: int, lane: Any, at: str, length: str, data: str) -> Any:
        session = self.open_sessions.get(lane.name)
        if session is None:
            return None
        self.said[place] = session["copy"].take(place, int(at), int(length), data)
        self.note_changes(session, int(at), int(length))
        return session["call"]

    def note_changes(self, session, at, length):
        """Notes which steps of other tasks have changed what is read for a call, while that waited."""
        call, other = session["call"], session["other"]
        for lane in filter(None, (call and call["lane"], other)):
            for place, writer, begin, size in lane.pokes[-POKES:]:
                if writer is not call["lane"] and place > call["place"] and begin < at + length and at < begin + size:
                    self.cause(place, call)
                    if lane is call["lane"]:
                        self.note_overwritten(place, session, "is read later")

    def answer(self, kind: str, place: int, lane: Lane, result: str) -> Optional[Dict[str, Any]]:
        session = self.open_sessions.get(lane.name)
        if result != "ok":
            self.tag(place, "bad", "lost" if result == "ENOENT" else "refused")
        if session is None or session["call"] is None:
            return None
        session["sent"] = place
        self.arrow(kind, place, lane, session["call"]["lane"], result != "ok")
        return session["call"]

    def send(self, place, lane, _id, _back, result):
        return self.answer("send", place, lane, result)

    def addfd_put(self, place: int, lane: Any, _id: str, _source: str, _target: str, _nosend: Any, result: str) -> Any:
        session = self.open_sessions.get(lane.name)
        path = session and session["copy"].path()
        if path is not None:
            self.said[place] = f"{words_of(self.report.events[place])}, as {path}"
        return self.answer("put", place, lane, result)

    # ---- the whole

    def complete(self, last: int) -> None:
        """At the end of the report each session that is left is over."""
        for lane in self.lanes.values():
            self.finish(lane, last)
        for session in self.sessions:
            self.tag_session(session)
            session["copy"].name_texts()
        self.set_columns(last)
        self.order = sorted(self.lanes.values(), key=lambda lane: ({"task": 0, "listener": 1, "worker": 2}[lane.kind], lane.column))

    def tag_session(self, session: Dict[str, Any]) -> None:
        """Writes verdict and rule behind the step that brought them: the last check, and without one the session's end."""
        judged, decided = session["judged"], session["decided"] or session["end"]
        if judged.verdict in ("gone", "fault", "spent", "deny"):
            self.note(judged.verdict, decided)
        if judged.reply == "lost":
            self.note("lost", session["sent"] or decided)
        kind = {"grant": "good", "inject": "good", "pass": "plain", "open": "plain"}.get(judged.verdict, "bad")
        rule = None if judged.rule == "-" else judged.rule
        self.tag(decided, kind, f"{judged.verdict}: {rule}" if rule else judged.verdict, rule)

    def set_columns(self, last):
        """Gives each lane a column: tasks on the left, the listener, and then the workers by their numbers."""
        tasks = [lane for lane in self.lanes.values() if lane.kind == "task"]
        shared, free, taken, columns = len(tasks) > OWN_COLUMNS, [], [], 0
        for lane in tasks:
            if lane.ended is None:
                lane.last = last
            while shared and taken and taken[0][0] < lane.first:
                heapq.heappush(free, heapq.heappop(taken)[1])
            if free:
                lane.column = heapq.heappop(free)
            else:
                lane.column, columns = columns, columns + 1
            heapq.heappush(taken, (lane.last, lane.column))
        rest = sorted((lane for lane in self.lanes.values() if lane.kind != "task"), key=lambda lane: (lane.kind, int(re.sub(r"\D", "", lane.name) or 0)))
        for column, lane in enumerate(rest, columns):
            lane.column, lane.first, lane.last = column, 0, last

    def told(self) -> Any:
        """The scene as lists and texts, for a page."""
        number = {lane.name: place for place, lane in enumerate(self.order)}
        calls = [[call["place"], number[call["lane"].name], call["name"], call["pid"], call["verdict"], call["outcome"], call["end"], call["arguments"], call["sessions"]]
                 for call in self.calls]
        sessions = [[session["place"], number[session["lane"].name], -1 if session["call"] is None else session["call"]["number"], session["end"],
                     session["judged"].id, session["judged"].rule, session["judged"].verdict, session["judged"].answer, session["judged"].reply, session["copy"].told]
                    for session in self.sessions]
        return {
            "lines": self.report.lines,
            "lanes": [lane.told() for lane in self.order],
            "lane": [number[lane.name] for lane in self.lane_of],
            "step": [event.word for event in self.report.events],
            "bad": [int(is_bad(event)) for event in self.report.events],
            "words": [self.said.get(place) or words_of(event) for place, event in enumerate(self.report.events)],
            "call": self.call_of,
            "calls": calls,
            "sessions": sessions,
            "brackets": [[number[lane.name], first, last, good, -1 if call is None else call["number"]] for lane, first, last, good, call in self.brackets],
            "arrows": [[kind, place, number[source.name], number[target.name], lost] for kind, place, source, target, lost in self.arrows],
            "causes": self.causes,
            "notes": self.notes,
            "tags": self.tags,
            "summary": self.report.summary,
        }


def is_bad(event: Event) -> bool:
    """Whether the event's own line says that it failed: its last field is an error, or a task dies."""
    if event.word == "deliver":
        return event.fields[1] == "end"
    last = event.fields[-1] if event.fields else None
    return event.word != "resume" and last is not None and bool(re.fullmatch(r"E[A-Z0-9]+", last)) or event.word == "call" and last == "kill"


def scene_of(report: Report) -> Dict[str, List[Any]]:
    return Scene(report).told()
