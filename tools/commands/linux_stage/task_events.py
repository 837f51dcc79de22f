"""The events of tasks, done by stand-ins and compared."""
from __future__ import annotations

import ctypes
import os
import signal
import time
from bisect import bisect_right
from typing import List, Optional

from tools.commands.linux_stage import known, machine
from tools.commands.linux_stage.machine import Stop, answer
from tools.commands.linux_stage.script_text import FIRST_FREE_PID
from tools.commands.linux_stage.stage import CLONE_FILES, CLONE_VM
from tools.commands.linux_stage.journal import Event
from tools.commands.linux_stage.stand_in import Handled, Order, Task
from tools.commands.linux_stage.worker_events import Request
from tools.commands.real_workloads.script_text import CALLS

MODES = {"default": 0, "restart": 1, "plain": 2}
EVERYBODY = 2**32 - 1  # -1 as kill(2) takes it
SECONDS_TO_END = 0.05
# all steps of a task but a native call and a skip
STEPS = ("spawn", "poke", "handler", "call", "install", "resume", "kill", "deliver", "wait", "exit")
TO_RETURN = "a signal was delivered at the return of a call, before its step"
BEHIND_ANSWER = "a task was killed behind its answer, before the step that tells it"
BETWEEN = "a signal came between the entry of a call and its native run"


class TaskEvents:
    def __init__(self, play):
        self.play, self.stage, self.tasks = play, play.stage, play.stage.tasks
        self.same, self.differs = play.same, play.differs

    def take(self, event: Event) -> None:
        task = self.tasks.get(event.actor[1:])
        if task is None:
            self.same("a task that wasn't made", "skip", event.what)
        elif task.is_dead():
            self.take_dead(task, event)
        else:
            getattr(self, f"do_{event.what}")(task, *event.fields)
        self.reap_orphans()

    def take_dead(self, task: Task, event: Event) -> None:
        if event.what == "native" and not task.ended:
            return  # the native call was done, and its task is gone: see do_resume
        if event.what == "deliver" and not task.ended:
            if event.fields[1] != "end":
                self.differs("deliver", "dead", f"signal {event.fields[0]}")
            self.note_end(task)
            return
        self.same("ended", "skip", event.what)

    def note_end(self, task: Task) -> None:
        task.ended = True
        if self.stage.is_init(task):
            self.compare_end_of_init()

    def compare_end_of_init(self) -> None:
        """With the first process of a namespace the kernel ends all others."""
        others = [task for task in self.tasks.values() if not task.ended and not task.is_dead()]
        for task in others:
            machine.run_first(task.pid)
        end = time.monotonic() + SECONDS_TO_END
        while not all(task.is_dead() for task in others) and time.monotonic() < end:
            pass
        if others:
            ended = all(task.is_dead() for task in others)
            self.same("the other tasks at the end of PID 1", "ended" if ended else "alive", "alive")

    def orphan(self, number: int, task: Task) -> Optional[Task]:
        """The ended task with that number that isn't a child of this one in the script, or None."""
        found = [other for name, other in self.tasks.items() if other.number == number and not other.reaped and name.rpartition(".")[0] != task.name]
        return found[-1] if found and self.stage.as_init else None

    def reap_orphans(self) -> None:
        """Ended tasks without a parent are reaped at once, but for those that are the children of the script's own PID 1."""
        if self.stage.as_init:
            return
        for name, task in list(self.tasks.items()):
            if task.ended and task.is_dead() and not task.reaped:
                parent = self.tasks.get(name.rpartition(".")[0])
                if parent is None or parent.is_dead():
                    self.reap(task)

    def reap(self, task: Task) -> None:
        for _ in range(1000):
            if os.waitpid(task.pid, os.WNOHANG | machine.ALL_CHILDREN)[0]:
                break
        task.reaped = True

    # ---- what is seen of a call

    def enter(self, task: Task, number: int, arguments: List[int]) -> str:
        """Enters a call of the script, and lets it run until it waits or returns."""
        task.call, task.saved = (number, arguments), None
        if task.restarts:
            task.restarts = False
            task.leave_handler()
        else:
            self.out_of_handler(task)
            task.order(Order.SCRIPT_CALL, number, *arguments)
        return task.settle()

    def out_of_handler(self, task: Task) -> None:
        """A handler that was compared is left before the next instruction."""
        if not task.is_in_handler():
            return
        latest = f"signal {task.handled(task.handlers - 1).signal}"
        if task.compared != task.handlers:
            self.differs("a signal is delivered", latest, "none")
        task.leave_handler()
        if task.settle() == "handler":
            if task.signalled_early:
                raise Stop(TO_RETURN)
            self.differs("a further signal is delivered", f"signal {task.handled(task.handlers - 1).signal}", "none")

    def outcome(self, task: Task, state: str) -> str:
        """What the call answered, as far as it can be seen."""
        if state == "idle":
            return answer(task.result())
        if state != "handler":
            return state
        handled = task.handled(task.handlers - 1)
        if handled.instruction == self.stage.code.script_call_after:
            return answer(handled.value - (2**64 if handled.value >= 2**63 else 0))
        return "restarts" if handled.instruction == self.stage.code.script_call_at else "handler elsewhere"

    # ---- what the journal tells later

    def is_signalled_before_native(self, task: Task) -> bool:
        native, kill = self.next_place(f"t{task.name}", "native"), self.next_place("kill", str(task.number))
        return kill is not None and (native is None or kill < native)

    def next_place(self, *key: str) -> Optional[int]:
        """The place of the next such event, or None."""
        places = self.play.places[key]
        at = bisect_right(places, self.play.event.place)
        return places[at] if at < len(places) else None

    def last_place(self, *key: str) -> int:
        """The place of the last such event up to this one, or -1."""
        places = self.play.places[key]
        at = bisect_right(places, self.play.event.place)
        return places[at - 1] if at else -1

    def ends_next(self, task: Task) -> bool:
        """Whether its next step but a native call is its end, by a signal that was sent in this call."""
        name = f"t{task.name}"
        coming = [place for place in (self.next_place(name, what) for what in STEPS) if place is not None]
        step = self.play.events[min(coming)] if coming else None
        if step is None or step.what != "deliver" or step.fields[1] != "end":
            return False
        return self.last_place("kill", str(task.number)) > self.last_place(name, "call")

    # ---- steps outside of calls

    def ordered(self, task: Task, order: Order, *arguments: int) -> str:
        self.out_of_handler(task)
        task.order(order, *arguments)
        return task.settle()

    def do_poke(self, task: Task, address: str, text: str) -> None:
        data = bytes.fromhex(text)
        task.put(data)
        self.same("poke", self.ordered(task, Order.STORE, int(address), len(data)), "idle")

    def do_handler(self, task: Task, number: str, mode: str) -> None:
        state = self.ordered(task, Order.HANDLE, int(number), MODES[mode])
        task.modes[int(number)] = mode
        self.same("handler", answer(task.result()) if state == "idle" else state, "0")

    def do_spawn(self, task: Task, name: str, came: str, kind: Optional[str] = None) -> None:
        child = self.stage.task(name)
        child.hold_in_handlers()
        shares = kind in (None, "share")
        self.ordered(task, Order.START, signal.SIGCHLD | (CLONE_VM | CLONE_FILES if shares else 0), child.slot)
        result = task.result()
        if result > 0:
            child.started(machine.child_with_number(result) if self.stage.as_init else result, result)
            self.tasks[name] = child
            child.settle()
        linux = f"pid={result}" if result > 0 else answer(result)
        self.same("spawn", linux, came)

    def do_kill(self, task: Task, stated: str, signal: str, came: str) -> None:
        pid, number = int(stated), int(signal)
        for other in self.tasks.values():
            if other.number == pid and not other.dead and other.is_in_handler() and other.compared != other.handlers:
                other.signalled_early = True
                self.play.doubt = self.play.doubt or TO_RETURN
        if pid == EVERYBODY and not self.stage.as_init:
            raise Stop("a signal to everybody would go to the stage's own processes")
        if not self.stage.as_init and 0 < pid < FIRST_FREE_PID and all(other.number != pid for other in self.tasks.values()):
            return  # the stage's own processes stand below the first
        self.same("kill", self.kill(task, pid, number), came, bool(self.orphan(pid, task)))

    def kill(self, task: Task, pid: int, number: int) -> str:
        """What the signal is answered. A task that signals itself would run at once, so that signal is sent from outside, unless it is one
        that PID 1 doesn't get. To a group no signal is sent; it is asked whether that could be done."""
        if pid == task.number and not (self.stage.is_init(task) and task.modes.get(number, "default") == "default"):
            self.out_of_handler(task)
            return machine.error_name(ctypes.get_errno()) if machine.libc.kill(task.pid, number) else "ok"
        state = self.ordered(task, Order.OWN_CALL, machine.KILL, pid, 0 if known.is_group(pid) else number)
        return state if state != "idle" else "ok" if task.result() == 0 else answer(task.result())

    def wait_for_child(self, task: Task) -> str:
        return self.ordered(task, Order.OWN_CALL, machine.WAIT4, -1, task.put(b""), machine.ALL_CHILDREN | os.WNOHANG, 0)

    def do_wait(self, task: Task, came: str) -> None:
        state = self.wait_for_child(task)
        result = task.result() if state == "idle" else -1
        child = self.tasks.get(came)
        told = state if state != "idle" else answer(result) if result else "no child has ended"
        self.same("wait", told, child.number if child else came, bool(self.orphan(result, task)))
        if child is not None:
            child.reaped = True

    def do_exit(self, task: Task) -> None:
        self.same("exit", self.ordered(task, Order.OWN_CALL, machine.EXIT_GROUP, 0), "dead")
        self.note_end(task)

    def do_skip(self, task: Task) -> None:
        if task.call and not task.restarts:
            before = task.handlers
            state = task.settle()
            self.same("skip", state if task.handlers == before else "a signal", "notify")
            return
        state = self.wait_for_child(task)
        if state == "idle" and any(child.number == task.result() and not child.ended for child in self.tasks.values()):
            raise Stop("a child died before the step that tells it")
        is_orphan = state == "idle" and bool(self.orphan(task.result(), task))
        self.same("skip of a wait", answer(task.result()) if state == "idle" else state, "0", is_orphan)

    # ---- calls

    def do_call(self, task: Task, name: str, *rest: str) -> None:
        number = CALLS[name] if name in CALLS else int(name)
        arguments, verdict = list(map(int, rest[:6])), " ".join(rest[6:])
        allowed = verdict in ("allow", "log")
        if allowed and not self.is_signalled_before_native(task):
            task.call, task.saved, task.call_is_late = (number, arguments), None, True
            return
        if allowed and name in ("close", "mknod", "openat", "mknodat", "setxattr"):
            self.play.doubt = self.play.doubt or BETWEEN
        state = self.enter(task, number, arguments)
        if allowed:
            task.saved = self.outcome(task, state)
        else:
            self.compare_verdict(task, verdict, number, arguments, state)

    def compare_verdict(self, task: Task, verdict: str, number: int, arguments: List[int], state: str) -> None:
        if verdict.startswith("notify"):
            task.notification = int(verdict.split("=")[1])
            self.play.entered[task.notification] = (number, arguments, task.number)
            self.same("verdict", state if state == "notify" else self.outcome(task, state), "notify")
            return
        if verdict == "kill":
            self.same("verdict", state, "dead")
            self.note_end(task)
            return
        error = 38 if verdict == "nosys" else int(verdict.split("=")[1])
        self.same("verdict", self.outcome(task, state), machine.error_name(error) if error else "0")
        task.call = None

    def do_native(self, task: Task, came: str) -> None:
        if task.return_is_late:
            task.return_is_late = False
            last = self.ends_next(task)
            task.saved = self.outcome(task, task.settle())
            if last:
                return  # the native call was done, and its task is gone
        if task.call_is_late:
            task.call_is_late = False
            task.saved = self.outcome(task, self.enter(task, *task.call))
        linux, task.saved = task.saved, None
        if linux == "dead" and task.call[0] not in known.OF_PROBES:
            raise Stop(BEHIND_ANSWER)
        self.compare_native(task, linux, came)
        task.call = None

    def compare_native(self, task: Task, linux: str, here: str) -> None:
        number, arguments = task.call
        if number == CALLS["sysinfo"] and linux == here == "0":
            self.write_figures(task, arguments[0])
        self.same(f"native call {number}", linux, here)

    def write_figures(self, task: Task, address: int) -> None:
        """The script's figures are written over the machine's."""
        with open(f"/proc/{task.pid}/mem", "r+b", buffering=0) as memory:
            memory.seek(address)
            memory.write(self.play.step.written)

    def do_resume(self, task: Task, back: str) -> None:
        # An answer that was taken wins over signals, so the task may be let run later: the native call belongs to the next step, and a task
        # that a signal ends can't be stopped between its return and its end.
        is_asked_for = self.is_asked_for(task)
        if back == "continue":
            task.return_is_late = not is_asked_for
            task.saved = self.outcome(task, task.settle()) if is_asked_for else None
            return
        if self.ends_next(task):
            if is_asked_for:
                self.same("end behind an answer", task.settle(), "dead")
            return
        came = self.outcome(task, "idle" if task.is_idle() else task.settle())
        if came == "dead":
            raise Stop(BEHIND_ANSWER)
        self.same("resume", came, machine.seen_by_caller(back))
        task.call = None

    def is_asked_for(self, task: Task) -> bool:
        """Whether a worker asks for the answered call before its task's next step, so that the task can't be left standing in it."""
        later = self.play.events[self.play.event.place + 1:]
        for event in later:
            if event.actor == f"t{task.name}" and event.what != "skip":
                return False
            if event.what in ("check", "send", "addfd-put") and event.fields[0] == str(task.notification):
                return True
            if event.what in ("open-mem", "open-base") and event.fields[0] == str(task.number):
                return False
        return False

    def request_for(self, task: Task) -> Optional[Request]:
        """The oldest request for a descriptor that waits for the task's call, or None."""
        return next((request for request in self.play.requests if request.id == task.notification and not request.is_installed), None)

    def do_install(self, task: Task, came: str) -> None:
        state = task.settle()
        request = self.request_for(task)
        if request is None or not request.hand.is_idle():
            self.differs("install", f"nothing is installed, {state}", came)
            return
        request.is_installed = True
        self.same("install", answer(request.hand.result()), came)

    # ---- signals

    def do_deliver(self, task: Task, number: str, effect: str) -> None:
        state = "handler"
        if task.compared == task.handlers:  # nothing is seen yet: it is let run
            task.leave_handler()
            state = task.settle()
        if effect == "end":
            self.compare_end(task, state)
        else:
            self.compare_handler(task, state, number, effect)

    def compare_end(self, task: Task, state: str) -> None:
        self.same("deliver", f"handler of {task.handled(task.compared).signal}" if state == "handler" else state, "dead")
        self.note_end(task)

    def compare_handler(self, task: Task, state: str, number: str, effect: str) -> None:
        if state != "handler" or task.compared == task.handlers:
            self.differs("deliver", self.outcome(task, state), f"signal {number}")
        handled = task.handled(task.compared)
        task.compared += 1
        if str(handled.signal) != number and task.signalled_early:
            raise Stop(TO_RETURN)
        self.same("signal", handled.signal, number)
        came = self.effect_of(task, handled)
        self.same("effect of the signal", came, effect)
        if came == "restart":
            task.restarts = True
        elif came == "eintr":
            task.call = None

    def effect_of(self, task: Task, handled: Handled) -> str:
        """What a handler did to the call: it found it interrupted, about to be entered again, or not at all."""
        if handled.instruction == self.stage.code.script_call_after and handled.value == 2**64 - 4 and task.call:
            return "eintr"
        # behind the first handler, a second one before the call is entered again just runs
        again = handled.instruction == self.stage.code.script_call_at and not task.restarts
        return "restart" if again else "run"
