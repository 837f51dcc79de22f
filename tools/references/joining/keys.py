"""What two histories must have in common to be joined: a key of named fields, each of which can be left out to see whether it is needed."""
from __future__ import annotations

from typing import TYPE_CHECKING, Any, Callable, List, Tuple


if TYPE_CHECKING:
    from tools.references.joining.walked import Entry, Walked
    from tools.references.stepping.kernel import Task
    from tools.references.stepping.memory import Group
    from tools.references.stepping.scripts import Node
    from tools.references.stepping.trees import Tree


def living(kernel: Walked) -> List[Task]:
    return [task for task in kernel.tasks.values() if not task.has_ended]


def of_living(pick: Callable[..., Any]) -> Callable[..., Any]:
    return lambda kernel: tuple(None if task.has_ended else pick(task) for task in kernel.tasks.values())


def group_number(kernel: Walked, group: Group) -> int:
    """A group by the place of its first task among the tasks."""
    return next(at for at, task in enumerate(kernel.tasks.values()) if task.group is group)


def groups_in_use(kernel: Walked) -> List[Tuple[int, Group]]:
    """The groups that a living task or an open handle has."""
    wanted = [task.group for task in living(kernel)] + [worker.memory for worker in kernel.workers.values() if worker.memory is not None]
    return sorted({group_number(kernel, group): group for group in wanted}.items())


def entry_number(kernel: Walked, wanted: Entry) -> Tuple[str, int]:
    return next((actor, at) for actor, mine in kernel.lines.items() for at, entry in enumerate(mine) if entry is wanted)


def request_facts(request):
    return None if request is None else (request.asked, request.answer, request.call.is_listed)


def of_entries(pick: Callable[..., Any]) -> Callable[..., Any]:
    return lambda kernel: tuple((actor, tuple(map(pick, mine))) for actor, mine in sorted(kernel.lines.items()))


def of_open(pick: Callable[..., Any]) -> Callable[..., Any]:
    return lambda kernel: tuple((number, pick(kernel, number, session)) for number, session in sorted(kernel.sessions.items()))


def of_calls(pick: Callable[..., Any]) -> Callable[..., Any]:
    return lambda kernel: tuple(map(pick, kernel.calls))


def position(kernel, request):
    """Where a worker's request stands in the queue of its call."""
    return None if request is None or request not in request.call.queue else (request.call.id, request.call.queue.index(request))


def tree_key(tree: Tree) -> Tuple[Tuple[Node, ...], Tuple[Tuple[int, ...], ...]]:
    return tuple(tree.nodes), tuple(sorted(tree.mounted.items()))


FIELDS = {
    "turn": lambda k: k.last,
    # tasks
    "task names": lambda k: tuple(k.tasks),
    "task pids": lambda k: tuple(task.pid for task in k.tasks.values()),
    "task has ended": lambda k: tuple(task.has_ended for task in k.tasks.values()),
    "task was waited for": lambda k: tuple(task.was_waited_for for task in k.tasks.values()),
    "instruction": of_living(lambda task: task.at),
    "spawns": of_living(lambda task: task.started),
    "handlers": of_living(lambda task: tuple(sorted(task.handlers.items()))),
    "pending signals": of_living(lambda task: tuple(sorted(task.pending))),
    "owed native call": of_living(lambda task: task.entered if task.owes else None),
    "last pid": lambda k: k.last_pid,
    # calls
    "calls made": lambda k: k.entered_calls,
    "receives": lambda k: k.received,
    "call ids": of_calls(lambda call: call.id),
    "call tasks": of_calls(lambda call: call.task.name),
    "call arguments": of_calls(lambda call: (call.number, call.args)),
    "call is fetched": of_calls(lambda call: call.is_fetched),
    "call is settled": of_calls(lambda call: call.back is not None),
    "call's answer": of_calls(lambda call: call.back),
    "queues": of_calls(lambda call: tuple(request.asked for request in call.queue)),
    # groups
    "task groups": lambda k: tuple(None if task.has_ended else group_number(k, task.group) for task in k.tasks.values()),
    "memory": lambda k: tuple((number, tuple(sorted(group.pages.items()))) for number, group in groups_in_use(k)),
    "descriptors": lambda k: tuple((number, tuple(sorted(group.slots.items()))) for number, group in groups_in_use(k)),
    # the tree
    "nodes and mounts": lambda k: tree_key(k.tree),
    "attributes": lambda k: tuple(sorted(k.tree.attributes.items())),
    # workers
    "sessions in hand": of_open(lambda k, number, session: None),
    "steps of open sessions": of_open(lambda k, number, session: tuple(session.own)),
    "call of open session": of_open(lambda k, number, session: entry_number(k, session.entry)),
    "open memory": lambda k: tuple((n, None if w.memory is None else group_number(k, w.memory)) for n, w in sorted(k.workers.items()) if n in k.sessions),
    "open base": lambda k: tuple((n, w.base) for n, w in sorted(k.workers.items()) if n in k.sessions),
    "put request": lambda k: tuple((n, request_facts(w.request), position(k, w.request)) for n, w in sorted(k.workers.items()) if n in k.sessions),
    "times spent": lambda k: tuple(sorted(k.spent.items())),
    # what came of the calls
    "line: calls": of_entries(lambda entry: (entry.number, entry.verdict)),
    "line: outcome": of_entries(lambda entry: entry.outcome),
    "line: installed": of_entries(lambda entry: entry.installed),
    "line: audit": of_entries(lambda entry: entry.audit),
    "line: effect": of_entries(lambda entry: entry.effect and entry.effect.text),
    "line: node of effect": of_entries(lambda entry: entry.effect and entry.effect.node),
}


def key_of(kernel: Any, fields: Any) -> Any:
    return tuple(field(kernel) for field in fields)


def fields_without(*dropped: Any) -> Any:
    for name in dropped:
        if name not in FIELDS:
            raise KeyError(name)
    return [field for name, field in FIELDS.items() if name not in dropped]
