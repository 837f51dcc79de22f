"""What `look` tells of the simulated kernel (docs/reference/STEP.md, A look). It changes nothing."""
from __future__ import annotations

from typing import Any, Optional

from tools.references.stepping.facts import ERROR_NAMES, Fail, quoted
from tools.references.stepping.kernel import ESRCH, Kernel, Task
from tools.references.stepping.trees import EEXIST, ENOENT, Tree, Walk

NONE = "look none"


def living(kernel: Kernel, pid: int) -> Optional[Task]:
    """The task that has a PID and hasn't ended, or None."""
    task = kernel.holder(pid)
    return None if task is None or task.has_ended else task


def state_of(kernel: Kernel, task: Task) -> str:
    """How a task is, by the words of /proc/PID/status."""
    if task.has_ended:
        return "zombie"
    if kernel.step_of(task):
        return "running"
    return "disk-sleep" if kernel.container.killable and task.call is not None and task.call.is_fetched else "sleeping"


def look_at_pid(kernel: Kernel, pid: int) -> str:
    task = kernel.holder(pid)
    if task is None:
        return NONE
    parent = 0 if task.parent is None or task.parent.has_ended else task.parent.pid
    return f"look task {task.actor[1:]} ppid {parent} state {state_of(kernel, task)}"


def node_line(tree: Tree, at: int) -> str:
    node = tree.nodes[at]
    behind = f" {quoted(node.target)}" if node.kind == "link" else f" {node.device[0]}:{node.device[1]}" if node.kind in ("chr", "blk") else ""
    return f"look node {at} {node.kind}{behind}"


def look_at_descriptor(kernel: Kernel, pid: int, number: int) -> str:
    task = living(kernel, pid)
    slot = task.group.slots.get(number) if task else None
    if slot is None:
        return NONE
    if slot[0] == "node":
        return node_line(kernel.tree, slot[1])
    return "look console" if slot[0] == "console" else f"look file {slot[1]}"


def unfollowed(tree: Tree, path: bytes, base: int) -> Any:
    """The node to which a path leads whose last component isn't followed. Raises Walk."""
    try:
        place = tree.walk(path, base, creates=True)
    except Walk as error:
        if error.fail != Fail(EEXIST):
            raise
        # the path has no name at its end
        return tree.walk(path, base, creates=False)
    if place not in tree.entries:
        raise Walk(ENOENT)
    found = tree.entries[place]
    return found if tree.nodes[found].kind == "link" else tree.top(found)


def look_at_path(kernel: Any, pid: int, dirfd: int, path: bytes, how: str) -> str:
    task = living(kernel, pid)
    try:
        if task is None:
            raise Walk(ESRCH)
        base = kernel.directory(task.group, dirfd)
        return node_line(kernel.tree, kernel.tree.walk(path, base, creates=False) if how == "follow" else unfollowed(kernel.tree, path, base))
    except Walk as error:
        return f"look error {ERROR_NAMES[error.fail.number]}"


def look_at_listener(kernel: Kernel) -> str:
    received = [call.is_fetched for call in kernel.calls]
    waits = [call.is_waiting for call in kernel.calls]
    return f"look in={int(not all(received))} out={int(any(waits))}"


LOOKS = {"pid": look_at_pid, "fd": look_at_descriptor, "path": look_at_path, "listener": look_at_listener}


def look(kernel, at, *operands):
    """The line of what is looked at."""
    return LOOKS[at](kernel, *operands)
