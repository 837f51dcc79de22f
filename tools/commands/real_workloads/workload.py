"""Makes a script of a trace: its processes as programs, their calls in the order of the trace, and the paths that they found as the tree."""
from __future__ import annotations

from collections import Counter
from dataclasses import dataclass, field
from typing import Any, Dict, Optional, Tuple

from tools.commands.real_workloads import bpf, calls, facts, needs
from tools.commands.real_workloads.calls import CURRENT_DIRECTORY, HAS_BASE, PARTS, Made
from tools.commands.real_workloads.processes import MAKERS, Process, Processes, descendants
from tools.commands.real_workloads.schedule import Schedule
from tools.commands.real_workloads.script_lines import as_written, figures, shown, stores
from tools.commands.real_workloads.script_text import CALLS, MOST_BYTES, MOST_CALLS, MOST_DEPTH, MOST_INSTRUCTIONS, MOST_STEPS, MOST_TASKS, PAGE, SIGNALS
from tools.commands.real_workloads.strace_text import SIXTY_FOUR, Call, Text, Unreadable, field as field_of, number
from tools.commands.real_workloads.tasks import MOVES, PAGES_OF_A_TASK, Task, first_task
from tools.commands.real_workloads.tree import Tree, text_of

WAITS = {"wait4": 0, "waitid": 1, "waitpid": 0}
KILLS = {"kill": (0, 1), "tkill": (0, 1), "tgkill": (1, 2)}
COPIES = {"dup", "dup2", "dup3", "fcntl"}
COPYING = {0, 1030}  # what fcntl is asked for: F_DUPFD, F_DUPFD_CLOEXEC
OPENS = {"open", "openat2", "creat"}
# kin of what a script has, which it has no form of: each gets a line in its place
NO_FORM = {"umount", "umount2", "lsetxattr", "fsetxattr", "setxattrat", "fsopen", "fsconfig", "fsmount", "fspick", "move_mount", "open_tree",
           "mount_setattr", "chroot", "pivot_root", *OPENS}
WANTED = {*CALLS, *WAITS, *KILLS, *COPIES, *NO_FORM, *MAKERS, *MOVES, *facts.NAMES, "execve", "rt_sigaction", "close_range"}
GUARD = PAGES_OF_A_TASK * PAGE - 1
# what one item of the trace may come to at most: the limits are tested before each
ROOM, ROOM_OF_CALLS, ROOM_OF_STEPS, ROOM_OF_BYTES = 16, 2, 120, 2_000_000
IN_NAMESPACE = "a user namespace may do it"


@dataclass
class Options:
    calls: set
    filters: list  # of bpf.Filter, the oldest first
    processes: set = field(default_factory=set)  # numbers; none for all
    lines: tuple = (1, 2**63)
    most: int = MOST_CALLS


@dataclass
class InCall:
    """A call that a task is in."""

    found: object  # calls.Made
    verdict: str
    pieces: int
    where: tuple | None


class Workload:
    def __init__(self, trace, options):
        self.trace, self.options = trace, options
        self.processes = Processes(trace.items)
        every = self.processes.all
        self.kept = descendants(every, options.processes) if options.processes else set(every)
        self.roots = [it for it in every if it in self.kept and it.parent not in self.kept]
        self.tree, self.schedule, self.figures = Tree(), Schedule(), []
        self.tasks, self.all, self.in_call, self.names = {}, [], {}, Counter()
        self.written, self.left_out, self.remarks = Counter(), Counter(), Counter()
        # of each task the calls of its program: each with that of the trace, or None for one that was added; and those that no program has, each with the reason
        self.entered, self.omitted = {}, []
        self.instructions, self.calls, self.bytes, self.cut_at, self.cut_by = 0, 0, 0, None, ""
        self.make()

    # ---- tasks

    def make(self):
        if not self.roots:
            return
        if len(self.roots) > 1:
            self.begin_task(first_task("main", None))
        for item, process in zip(self.trace.items, self.processes.of_item):
            if process not in self.kept:
                self.remarks["lines of processes that weren't chosen"] += 1
            elif self.cut_at is None:
                self.take(item, process)
            else:
                self.behind_the_cut(item, process)

    def behind_the_cut(self, item, process):
        """Brings calls to their end that were begun, and counts the others."""
        task = self.tasks.get(process)
        if item.what == "end" and task in self.in_call and self.in_call[task][0] is item.of:
            self.leave(task)
        elif item.what in ("call", "begin") and item.of.name in self.options.calls:
            self.remarks["calls behind the place where it is cut"] += 1

    def take(self, item: Any, process: Any) -> None:
        if item.what != "end" and self.is_full():
            self.cut_at = item.line
            self.behind_the_cut(item, process)
            return
        task = self.tasks.get(process) or self.root_task(process)
        if item.what in ("call", "begin", "end"):
            self.take_call(item, task)
        elif item.what == "signal":
            self.deliver(task, item.of.number)
        else:
            self.end(task, item.of.signal if item.what == "ended" else 0)

    def is_full(self) -> bool:
        """Whether the next item might come to more than a script may have."""
        counts = [("instructions", self.instructions + ROOM, MOST_INSTRUCTIONS), ("calls", self.calls + ROOM_OF_CALLS, MOST_CALLS),
                  ("processes", len(self.all) + 1, MOST_TASKS), ("steps", self.schedule.steps + ROOM_OF_STEPS, MOST_STEPS),
                  ("bytes", self.bytes + ROOM_OF_BYTES, MOST_BYTES), ("calls that were asked for", self.calls + 1, self.options.most)]
        self.cut_by = next((f"{most} {name}" for name, count, most in counts if count > most), "")
        return self.cut_by != ""

    def begin_task(self, task: Task) -> Task:
        self.all.append(task)
        self.instructions += 1
        if task.process:
            self.tasks[task.process] = task
        return task

    def root_task(self, process: Process) -> Task:
        """The task of a process that the trace doesn't tell the beginning of."""
        if not self.all:
            return self.begin_task(first_task(self.program_name(process), process))
        return self.spawn(self.all[0], process)

    def program_name(self, process: Process) -> str:
        self.names[process.pid] += 1
        again = self.names[process.pid]
        return f"p{process.pid}" if again == 1 else f"p{process.pid}-{again}"

    def spawn(self, parent: Task, process: Process) -> Task:
        made = parent.child(self.program_name(process), process, process.is_thread and parent.process is not None)
        self.instruct(parent, f"{'thread' if process.is_thread and parent.process else 'spawn'} {made.program}")
        return self.begin_task(made)

    def instruct(self, task: Task, line: str, steps: int = 1) -> None:
        self.put(task, line)
        self.instructions += 1
        self.schedule.task(task, steps)

    def put(self, task: Task, *lines: str) -> None:
        task.lines += lines
        self.bytes += sum(map(len, lines)) + len(lines)

    # ---- calls

    def take_call(self, item: Any, task: Any) -> None:
        call = item.of
        if item.what != "end":
            self.begin_call(call, task, item.line)
        if item.what != "begin":
            self.end_call(call, task)

    def begin_call(self, call: Call, task: Task, line: int) -> None:
        if call.name in MAKERS:
            child = self.processes.children.get(id(call))
            if child in self.kept and task.depth < MOST_DEPTH:
                self.spawn(task, child)
            elif child in self.kept:
                self.remarks["processes that are too deep, and are started by the first task"] += 1
        elif call.name in KILLS:
            self.kill(call, task, line)
        elif call.name in self.options.calls and self.options.lines[0] <= line <= self.options.lines[1]:
            self.enter(call, task)
        elif call.name in CALLS:
            self.remarks["calls that weren't chosen"] += 1

    def end_call(self, call: Call, task: Task) -> None:
        if task in self.in_call and self.in_call[task][0] is call:
            # a call without an answer is one in which its process ends, which comes next
            if call.answer.value is not None:
                self.leave(task)
            return
        facts.learn(call, task.descriptors, self.tree)
        if call.name in WAITS:
            self.wait(call, task)
        elif call.name == "execve" and call.answer.is_good:
            task.descriptors.executed()
        elif call.name == "rt_sigaction":
            self.handler(call, task)
        elif call.name in MOVES and call.answer.is_good:
            task.move(call)
        elif call.name in COPIES | OPENS | {"openat", "close", "close_range"}:
            self.move_descriptors(call, task)
        if call.name in NO_FORM:
            self.leave_out(call, task, "a script has no such call")

    def leave_out(self, call: Call, task: Task, why: str) -> None:
        """Puts a line in the place of a call."""
        self.left_out[call.name, why] += 1
        self.omitted.append((call, why))
        self.put(task, f"# line {call.first}: {shown(call)}; left out: {why}")

    def enter(self, call, task):
        try:
            found = calls.made(call)
        except (Unreadable, ValueError, OverflowError) as fault:
            return self.leave_out(call, task, f"it can't be read: {fault}")
        why = self.why_not(call, found, task)
        if why == "":
            self.remarks["close of a descriptor that the script doesn't have"] += 1
        elif why:
            self.leave_out(call, task, why)
        else:
            self.write(call, found, task)
        return None

    def why_not(self, call: Call, found: Made, task: Task) -> Optional[str]:
        """Why the script doesn't have the call: None where it has it, nothing where no line stands in its place."""
        if call.mode != SIXTY_FOUR:
            return f"made in {call.mode} mode"
        if call.answer.error.startswith("ERESTART"):
            return "interrupted, and entered again"
        if found.name == "mount" and call.answer.is_good and calls.mount_of_namespace(found):
            return IN_NAMESPACE
        if found.name == "close" and call.answer.is_good and found.arguments[0] not in task.descriptors.numbers:
            return ""
        return None

    def write(self, call: Call, found: Made, task: Task) -> None:
        """Writes a call and what it reads."""
        self.remarks["texts that strace cut"] += found.is_cut
        path = needs.where(found, task.descriptors)
        self.tree.finds.begin(call.first, path, task.begins_elsewhere(found))
        self.open_directory(found, task)
        if found.name == "close" and call.answer.error == "EBADF":
            task.descriptors.forget(found.arguments[0])
        if found.name == "sysinfo" and call.answer.is_good and not self.figures:
            self.figures = figures(call.text)
        self.put(task, f"# line {call.first}: {shown(call)}")
        needs.note_left(found, task.descriptors, call.answer, self.tree)
        self.make_call(call, found, task, path)
        self.written[found.name] += 1
        needs.note(found, call.answer, path, self.tree)

    def open_directory(self, found, task):
        """Opens the directory whose descriptor the call names, where no call of the script did."""
        real, annotation = found.directory or (CURRENT_DIRECTORY, None)
        if real == CURRENT_DIRECTORY or real in task.descriptors.numbers or found.path is None or found.path.startswith(b"/"):
            return
        path = task.descriptors.place_of(real, annotation)
        if path is None:
            self.remarks["relative paths from a descriptor that the trace doesn't tell of"] += 1
            return
        added = calls.Made("openat", [CURRENT_DIRECTORY, Text(text_of(path), False), calls.DIRECTORY], PARTS["openat"])
        added.texts[1] = added.arguments[1]
        self.put(task, f"# added: the directory that descriptor {real} of the trace stands for")
        self.remarks["openat that were added for directories"] += 1
        self.make_call(None, added, task, path)
        self.leave(task)
        task.descriptors.opened(real, path, False, in_script=True)
        if path:
            self.tree.say(path, needs.THERE, needs.IS_DIRECTORY, by_script=True)

    def make_call(self, call: Call, found: Made, task: Task, path: Optional[Tuple[bytes, ...]]) -> None:
        """Writes the instructions of a call, and lets its task enter it."""
        addresses = {at: task.memory + place * PAGE for place, at in enumerate(found.texts)}
        pokes = [line for at in found.texts for line in stores(addresses[at], calls.stored(found, at), calls.unknown_rest(found, at))]
        arguments = [self.argument(found, at, addresses, task) for at in range(len(found.parts)) if at < len(found.arguments) or found.parts[at] == "figures"]
        verdict = bpf.verdict(self.options.filters, CALLS[found.name], (arguments + [0] * 6)[:6])
        if task.may_be_ahead and not pokes and verdict == "notify":
            pokes = [f'poke 0x{task.memory + GUARD:x} "\\0"']
        self.put(task, *pokes)
        self.instructions += len(pokes)
        self.instruct(task, " ".join(["call", found.name, *map(as_written, found.parts, arguments)]), len(pokes) + 1)
        self.calls += 1
        self.entered.setdefault(task, []).append((call, found))
        self.in_call[task] = (call, InCall(found, verdict, calls.pieces(found), path))
        if verdict == "notify":
            if not self.schedule.has_free_worker:
                self.work(*next((it, of[1]) for it, of in self.in_call.items() if it.name in self.schedule.serving))
            self.schedule.receive(task)
            task.may_be_ahead = False

    @staticmethod
    def argument(found: Made, at: int, addresses: Dict[int, int], task: Task) -> int:
        if at >= len(found.arguments):
            return task.memory
        part, value = found.parts[at], found.arguments[at]
        if at in addresses:
            return addresses[at]
        if part in ("descriptor", "directory"):
            return value if value == CURRENT_DIRECTORY and part == "directory" else task.descriptors.number(value)
        return value if part in ("number", "mode") else calls.unmapped(value)

    def leave(self, task: Task) -> None:
        """Lets the workers and the task do the rest of the call that it is in."""
        call, it = self.in_call.pop(task)
        if it.verdict == "notify":
            self.answer(task, it)
            task.may_be_ahead = True
        elif it.verdict in ("allow", "log"):
            self.schedule.task(task)
        elif it.verdict == "kill":
            self.ended(task)
        if call is not None and call.answer.is_good:
            real = it.found.arguments[0] if it.found.name == "close" else call.answer.value
            if it.found.name == "close":
                task.descriptors.closed(real)
            elif it.found.name == "openat":
                task.descriptors.opened(real, it.where, needs.closes_on_exec(it.found), in_script=True)

    def answer(self, task: Any, it: Any) -> None:
        """What a worker does behind its receive, and the task's steps behind that: it resumes, and runs natively where the call is passed."""
        if task.name in self.schedule.serving:
            self.work(task, it)
        self.schedule.task(task, 1 if it.found.name == "openat" else 2)

    def work(self, task: Any, it: Any) -> None:
        """The steps of a worker behind its receive, as many as a grant takes."""
        name = it.found.name
        self.schedule.serve(task, 5 + it.pieces + (name in HAS_BASE) + (name in HAS_BASE - {"openat"} or name == "sysinfo"))
        if name == "openat":
            # where the policy puts a descriptor: its installation, and what the worker does behind it
            self.schedule.task(task)
            self.schedule.serve(task, 3)
        self.schedule.let_go(task)

    def move_descriptors(self, call: Any, task: Any) -> None:
        """What a call that the script doesn't have does to the descriptors of the process."""
        table = task.descriptors
        try:
            arguments = call.arguments
            if call.name == "close" and call.answer.is_good:
                table.forget(number(arguments[0].split("<")[0]))
            elif call.name == "close_range" and call.answer.is_good and len(arguments) > 1:
                for real in [it for it in {*table.numbers, *table.places} if number(arguments[0]) <= it <= number(arguments[1])]:
                    table.forget(real)
            elif call.answer.is_good and call.name in OPENS | {"openat"}:
                at = facts.FINDERS.get(call.name) or facts.MAKERS[call.name]
                table.opened(call.answer.value, facts.path_of(call, arguments, *at, table), True, in_script=False)
            elif call.answer.is_good and (call.name != "fcntl" or number(arguments[1]) in COPYING):
                table.opened(call.answer.value, table.place_of(*facts.directory(arguments[0])), call.name == "fcntl", in_script=False)
        except (Unreadable, IndexError):
            pass

    # ---- signals and ends

    def wait(self, call: Any, task: Any) -> None:
        if call.answer.value is None or call.answer.error or call.name != "waitid" and call.answer.value <= 0:
            return
        pid = call.answer.pid
        if call.name == "waitid":
            found = field_of(call.text, "si_pid")
            pid = int(found.split()[0]) if found and found.split()[0].isdigit() else 0
        if not task.has_child(pid) or not task.unreaped:
            self.remarks["waits for a process that isn't a child in the script"] += pid > 0
            return
        task.unreaped.remove(min(task.unreaped))
        self.instruct(task, "wait")

    def handler(self, call: Call, task: Task) -> None:
        """Notes what a signal does from now on. It is written when one comes."""
        try:
            arguments = call.arguments
            action, flags = field_of(arguments[1], "sa_handler") or field_of(arguments[1], "sa_sigaction"), field_of(arguments[1], "sa_flags")
            if call.answer.is_good and action is not None:
                task.modes[number(arguments[0])] = "restart" if number(flags or "0") & 0x10000000 else "plain"
        except (Unreadable, IndexError):
            pass

    def kill(self, call: Any, task: Any, line: int) -> None:
        """Writes a signal, where the trace has the process that gets it, and that it came."""
        try:
            target, signal = (call.arguments[it] for it in KILLS[call.name])
            target, signal = facts.process_number(target), number(signal)
        except (Unreadable, IndexError):
            return
        other = self.tasks.get(self.processes_now(target, line))
        if not call.answer.is_good or signal == 0:
            return
        came = other and next(((at, it) for at, it in other.process.signals if at >= line and it == signal), None)
        if signal not in SIGNALS or other is None or came is None or not self.set_mode(other, signal, came[0] == other.process.ended_at):
            self.leave_out(call, task, "a script has no such signal" if signal not in SIGNALS else "the trace doesn't show that it came")
            return
        whom = "self" if other is task else "parent" if other is task.parent else None
        whom = whom or (f"child {task.place_of_child(other)}" if other.parent is task else f"pid {self.all.index(other) + 1}")
        self.instruct(task, f"kill {whom} {signal}")
        if came[0] != other.process.ended_at:
            other.pending.append(signal)

    def processes_now(self, pid: int, line: int) -> Any:
        """The process that has a number at a line."""
        return next((it for it in reversed(self.processes.all) if it.pid == pid and it.first_line <= line and (it.ended_at or line) >= line), None)

    def set_mode(self, task: Any, signal: int, is_fatal: bool) -> bool:
        """Writes what the signal does to the task that gets it, where it does something else there. False where it can't."""
        wanted = "default" if is_fatal else task.modes.get(signal, "restart")
        if signal == 9 or task.handlers.get(signal, "default") == wanted:
            return True
        if task in self.in_call:
            return False
        task.handlers[signal] = wanted
        self.instruct(task, f"handler {signal} {wanted}")
        return True

    def deliver(self, task: Task, signal: int) -> None:
        if signal in task.pending:
            task.pending.remove(signal)
            self.schedule.task(task)

    def end(self, task: Task, signal: int) -> None:
        """Ends a task, which a signal may have done."""
        if task in self.in_call and signal in SIGNALS and self.in_call[task][1].verdict == "notify":
            # the worker finds that the task has ended
            self.in_call.pop(task)
            self.schedule.task(task)
            self.schedule.serve(task, 2)
            self.schedule.let_go(task)
        else:
            if task in self.in_call:
                self.leave(task)
            self.schedule.task(task)
        self.ended(task)

    @staticmethod
    def ended(task: Any) -> None:
        if task.parent and not task.has_ended:
            task.parent.unreaped.append(task.parent.place_of_child(task))
        task.has_ended = True
