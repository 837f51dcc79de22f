"""The play of a script's schedule."""
from __future__ import annotations

from typing import TYPE_CHECKING, Any, Callable, List, Tuple, Union

from tools.references.stepping import scripts
from tools.references.stepping.requests import Asked
from tools.references.stepping.scripts import WorkerSteps
from tools.references.stepping.servers import Servers
from tools.references.stepping.sessions import Refused, Session

if TYPE_CHECKING:
    from tools.commands.linux_stage.scenes import WatchedKernel
    from tools.references.stepping.asking import Files
    from tools.references.stepping.kernel import Kernel
    from tools.references.stepping.rules import Rule

BAD_SCRIPT = 5


def play(rules: Any, container: Any) -> str:
    """The report of a script that is played by its schedule."""
    return played(Session(rules, container), rules, container).report()


def played(session: Session, rules: List[Rule], container: scripts.Container, hear: Callable[..., Any] = lambda: None) -> Session:
    """Plays the schedule of a script in a session; each step is heard of right behind it."""
    kernel, servers = session.kernel, Servers(rules, session.kernel)
    # where a worker asks for something, a step that can't be made leaves nothing
    skips = not any(isinstance(line, Asked) for line in container.schedule)
    for line in container.schedule:
        if isinstance(line, Asked):
            ask(session, line)
            hear()
        elif isinstance(line, WorkerSteps):
            let_step(kernel, f"w{line.number}", line.count, lambda number=line.number: servers.step(number), skips, hear)
        else:
            let_step(kernel, "t" + ".".join(map(str, line.name)), line.count, lambda name=line.name: step_task(kernel, name), skips, hear)
    kernel.close()
    return session


def ended_slowly(files: Files, script: bytes) -> Tuple[int, bytes, bytes]:
    """How a play of a script has to end under the policy of files: its status, its output, and its line on standard error."""
    try:
        container = scripts.read_script(script)
    except scripts.Refused as refused:
        return BAD_SCRIPT, b"", f"script: {refused}\n".encode()
    return 0, play(files.rules(), container).encode("latin-1"), b""


def ask(session: Session, asked: Asked) -> None:
    """Does what a worker asks for, if it can be done."""
    try:
        session.done(asked)
    except Refused:
        pass


def step_task(kernel: Any, name: Any) -> Any:
    """Makes a task's step; None where it can't step, or there is no such task."""
    return kernel.step(kernel.tasks[name]) if name in kernel.tasks else None


def let_step(kernel: Union[Kernel, WatchedKernel], actor: str, count: int, step: Callable[..., Any], skips: bool, hear: Callable[..., Any]) -> None:
    """Lets one step so often; a step that can't be made is a skip where there are some."""
    for _ in range(count):
        if step() is None and skips:
            kernel.note(actor, "skip")
        hear()
