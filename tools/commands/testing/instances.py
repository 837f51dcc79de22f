"""The tasks that a container comes to have: one for each time that one is started, with a program and a place in memory of its own."""
from dataclasses import dataclass, field
from typing import Optional

from tools.commands.messages.findings import advice, listed, meant

MOST = 500
# how many tasks may share one memory
MOST_SHARING = 32
SELF, PARENT = "self", "parent"


@dataclass(eq=False)
class Instance:
    """A task that is started: its name in a schedule, its program, who starts it, and which part of a memory its texts are in."""

    task: object
    place: str
    program: str
    parent: Optional["Instance"]
    memory: list
    area: int
    children: list = field(default_factory=list)  # each with the step that starts it

    def ancestors(self):
        at = self
        while at is not None:
            yield at
            at = at.parent


class Instances:
    """All tasks of a container, the first one first. Raises NotUnderstood where a line can't be followed."""

    def __init__(self, container):
        self.container, self.all, self.named = container, [], {}
        first = container.tasks[0]
        self.add(first, "0", None, [])
        for task in container.tasks:
            if task.name not in self.named:
                raise task.line.rest[0].fault(f"nobody starts {task.name}", f"the container starts {first.name}, its first task: add `spawn {task.name}` to a task that runs")
        for instance in self.all:
            for step in task_steps(instance, "kill"):
                self.target(instance, step)
            for step in task_steps(instance, "overwrite"):
                self.overwritten(instance, step)

    def add(self, task, place, parent, memory):
        """Adds a task, and all that it starts."""
        count = self.named[task.name] = self.named.get(task.name, 0) + 1
        instance = Instance(task, place, task.name if count == 1 else f"{task.name}.{count}", parent, memory, len(memory))
        memory.append(instance)
        self.all.append(instance)
        for number, step in enumerate(task.started(), 1):
            started = self.started(instance, step)
            instance.children.append((step, self.add(started, f"{place}.{number}", instance, memory if step.word == "thread" else [])))
        return instance

    def started(self, instance, step):
        """The task that a step starts."""
        word = step.operands[0]
        task = self.container.task(word.text)
        if task is None:
            raise word.fault(f"there is no task {word.text}", advice(meant(word.text, self.container.names), f"the tasks of this container are {listed(self.container.names)}"))
        if any(it.task is task for it in instance.ancestors()):
            raise word.fault(f"{word.text} would start itself again and again", "a task can't start one from which it comes")
        if len(self.all) >= MOST:
            raise word.fault(f"more than {MOST} tasks are started", "start fewer of them")
        if step.word == "thread" and len(instance.memory) >= MOST_SHARING:
            raise word.fault(f"more than {MOST_SHARING} tasks would share one memory", "start some of them with `spawn`")
        return task

    def target(self, instance, step):
        """Whom a `kill` of a task means, as a script names it."""
        word = step.operands[0]
        if word.text in (SELF, instance.task.name):
            return SELF
        if word.text == PARENT or instance.parent is not None and instance.parent.task.name == word.text:
            if instance.parent is None:
                raise word.fault(f"{instance.task.name} is the first task, and has no parent", "name one that it starts")
            return PARENT
        steps = instance.task.steps
        before = [number for number, (start, child) in enumerate(instance.children, 1) if child.task.name == word.text and steps.index(start) < steps.index(step)]
        if before:
            return f"child {before[-1]}"
        raise word.fault(f"{instance.task.name} hasn't started {word.text} before this line" if self.container.task(word.text) else f"there is no task {word.text}",
                         advice(meant(word.text, self.container.names) if not self.container.task(word.text) else "", "`kill` reaches a task that was started above, `parent` and `self`"))

    def overwritten(self, instance, step):
        """The task whose path a step overwrites."""
        word = step.operands[0]
        found = next((it for it in instance.memory if it.task.name == word.text and it is not instance), None)
        if found is None:
            raise word.fault(f"{instance.task.name} shares no memory with {word.text}" if self.container.task(word.text) else f"there is no task {word.text}",
                             "a task that `thread` starts shares the memory of the one that starts it")
        return found


def task_steps(instance, word):
    return [step for step in instance.task.steps if step.word == word]
