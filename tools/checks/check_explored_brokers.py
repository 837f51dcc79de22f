"""Tries the brokers of tests/brokers in every order of steps with at most three delays: each mistake has to be found, as it stands here, and in the right ones nothing.

    tools/checks/check-explored-brokers [--jobs N] [PROGRAM]

All of them run in processes of this program, on the simulated kernel in Python; so do those of clauses.py, of which each breaks one clause of
the judge, and which are made of a right one; those of slips.py, with the clause that finds each; and those of styles.py, which are right.
The broker that they share makes its calls in the order of the simulator's own worker: it has to have as many histories as PROGRAM's
`explore` counts, and nothing may be found in it. Then the smallest run of each mistake is made once more as its user would make it, with
the broker as a process of its own behind a socket and PROGRAM beside the kernel in Python, and PROGRAM plays the script that is saved of
it, and judges it as the finding says; PROGRAM is the one that ./broker runs, if none is named. Then PROGRAM is changed, so that it answers
otherwise than the kernel or the judge in Python, which has to be told. Last come brokers that can't be explored, and agents: where cc is on
the PATH, brokers in C and Python that make their calls of Linux, with the library of tools/commands/make-shim, of which one needs
libseccomp's header; and one in Go.

Exit status: 0 where all passed, else 1. The last line is `explored-brokers: N passed, N failed`.
"""
from __future__ import annotations

import importlib.util
import multiprocessing
import os
import shutil
import signal
import socket
import subprocess
import sys
import tempfile
from pathlib import Path
from typing import Any, List, NamedTuple, Tuple

from tools.checks.outside import module_at
from tools.checks.tallies import Tally, ended_of
from tools.commands.command_line import ending
from tools.commands.command_line.arguments import ToolParser
from tools.commands.command_line.top import TOP
from tools.commands.exploring.bounds import Bounds
from tools.commands.exploring.exploration import explore
from tools.commands.exploring.instances import Door, InlineInstance, ProcessInstance
from tools.commands.exploring.runs import Files, Run, Setting
from tools.references.judging import clauses as judged
from tools.references.judging.by_program import judgement_fault
from tools.references.stepping.inputs import read_files

BROKERS, DEFINED = TOP / "tests/brokers", TOP / "tests/judged/defined"
Kernel = module_at(TOP / "examples/python/seccomp_step.py").Kernel
Broker = module_at(BROKERS / "common.py").Broker
clauses, slips, styles = (module_at(BROKERS / f"{name}.py") for name in ("clauses", "slips", "styles"))

EXPLORE = TOP / "tools/commands/explore-broker"
# how many seconds a process of a broker may take, and the tool behind an interrupt
DELAYS, STYLE_DELAYS, PATIENCE, MOST_SECONDS = 3, 2, 60, 10
WARNINGS = ["-std=c11", "-Wall", "-Wextra", "-Werror", "-O2"]
SCRIPTS = ("reused", "rewritten", "restarted", "followed", "repeated", "together", "polled", "unmapped", "existing", "opened")


class Finding(NamedTuple):
    """A clause that is broken, its class, the call that it is about, and with how many delays at least."""

    clause: str
    gravity: str
    task: str
    ordinal: int
    delays: int


WRONG = {
    ("no_second_check", "reused"): {Finding("unchecked", "order", "t0.2", 1, 0), Finding("unchecked", "order", "t0.1", 1, 1), Finding("stale-copy", "harm", "t0.1", 1, 2)},
    ("no_check", "reused"): {
        Finding("unchecked", "order", "t0.2", 1, 0), Finding("unchecked", "order", "t0.1", 1, 1), Finding("stale-copy", "harm", "t0.1", 1, 2), Finding("other-memory", "harm", "t0.1", 1, 3),
    },
    ("arguments_read_twice", "rewritten"): {Finding("ungranted", "harm", "t0", 1, 2)},
    ("read_again_after_the_check", "rewritten"): {Finding("unchecked", "harm", "t0", 1, 2)},
    ("liveness_by_pid", "reused"): {
        Finding("unchecked", "order", "t0.2", 1, 0), Finding("unchecked", "order", "t0.1", 1, 1), Finding("stale-copy", "harm", "t0.1", 1, 3), Finding("other-memory", "harm", "t0.1", 1, 3),
    },
    ("memory_kept_by_pid", "followed"): {Finding("other-memory", "order", "t0.2", 1, 0)},
    ("answers_by_position", "together"): {Finding("other-answer", "harm", "t0.2", 1, 2)},
    ("forgets_efault", "unmapped"): {Finding("unread", "order", "t0", 1, 0)},
    ("acts_again_after_a_failed_send", "restarted"): {Finding("again", "order", "t0.1", 1, 2)},
    ("hides_eexist", "existing"): {Finding("granted-not-done", "answer", "t0", 1, 0)},
    ("remembers_results_by_pid", "reused"): {Finding("granted-not-done", "answer", "t0.2", 1, 2)},
    ("waits_with_a_call_in_hand", "polled"): {Finding("unanswered", "answer", "t0.1", 1, 2)},
}
# what stands in its own text: by its PID, its registers and its path another task's call can't be told from the one that is entered anew
KNOWN = {("remembers_lost_answers", "repeated"): {Finding("granted-not-done", "answer", "t0.2", 1, 2)}}
RIGHT = {(name, script): KNOWN.get((name, script), set()) for name in ("one_large_read", "several_in_hand", "put_and_send_apart", "remembers_lost_answers") for script in SCRIPTS}


class Agent(NamedTuple):
    """A broker as it would run on Linux: where it is, with which script and further words it is explored, and what has to be told, which is the beginnings of lines."""

    source: str
    script: str
    status: int
    told: tuple
    # what it is built with, and what it is started with
    libraries: tuple = ()
    words: tuple = ()
    is_passed: bool = False
    # what the tool gets besides
    options: tuple = ()


CHECKS_ONCE = ("explored broker delays=2 runs=10 histories=10 findings=3 whole=bound", "broken 14 order unchecked", "broken 10 order unchecked", "broken 12 harm stale-copy")
LXD = ("explored broker delays=2 runs=12 histories=12 findings=2 whole=bound", "broken 12 order unchecked", "broken 8 order unchecked")
AGENTS = {
    "agent": Agent("agent.c", "reused", 0, ("explored broker delays=2 runs=18 histories=18 findings=0 whole=bound",)),
    "agent with the address sanitizer": Agent("agent.c", "reused", 0, ("explored broker delays=2 runs=18 histories=18 findings=0 whole=bound",), libraries=("-fsanitize=address",)),
    "agent_without_second_check": Agent("agent_without_second_check.c", "reused", 11, CHECKS_ONCE),
    "agent_libseccomp": Agent("agent_libseccomp.c", "followed", 11, ("broken 9 answer passed-otherwise",), libraries=("-lseccomp",)),
    "agent_asking_kill": Agent("agent_asking_kill.c", "reused", 12, ("not supported: instance 0: kill",)),
    "agent_mounting": Agent("agent_mounting.c", "reused", 12, ("not supported: instance 0: mount of a path that isn't below /proc/PID/root",)),
    "agent_threads": Agent("agent_threads.c", "together", 0, ("explored broker delays=2 runs=70 histories=70 findings=0 whole=bound",), libraries=("-pthread",)),
    "agent_threads_one_id": Agent("agent_threads_one_id.c", "together", 11, ("broken 16 answer uncaused", "broken 29 answer answered-already"), libraries=("-pthread",)),
    "agent_lxd": Agent("agent_lxd.c", "reused", 11, LXD),
    "agent_sandbox": Agent("agent_sandbox.c", "opened", 0, ("explored broker delays=2 runs=13 histories=13 findings=0 whole=bound",), words=("100", str(BROKERS / "policy.json")),
                           options=("--broker-fd", f"5={BROKERS / 'policy.json'}")),
    "agent_sandbox below a folder": Agent("agent_sandbox.c", "below", 0, ("explored broker delays=2 runs=8 histories=8 findings=0 whole=bound",), words=("100", str(BROKERS / "policy.json")),
                                          options=("--broker-fd", f"5={BROKERS / 'policy.json'}")),
    "listener_path": Agent("listener_path.py", "reused", 0, ("explored broker delays=2 runs=18 histories=18 findings=0 whole=bound",), is_passed=True),
    "listener_path without its second check": Agent("listener_path.py", "reused", 11, CHECKS_ONCE, words=("--no-second-check",), is_passed=True),
    "listener_path with epoll": Agent("listener_path.py", "reused", 0, ("explored broker delays=2 runs=71 histories=71 findings=0 whole=bound",), words=("--watch",), is_passed=True),
    "listener_path with a pool of threads": Agent("listener_path.py", "together", 0, ("explored broker delays=2 runs=70 histories=70 findings=0 whole=bound",), words=("--pool",), is_passed=True),
    "agent by the filter alone": Agent("agent.c", "reused", 0, ("explored broker delays=2 runs=18 histories=18 findings=0 whole=bound",), options=("--unguarded",)),
    "agent_lxd by the filter alone": Agent("agent_lxd.c", "reused", 11, LXD, options=("--unguarded",)),
    "go": Agent("go", "reused", 0, ("explored broker delays=2 runs=17 histories=17 findings=0 whole=bound",), is_passed=True),
    "go without its second check": Agent("go", "reused", 11, ("broken 13 order unchecked", "broken 9 order unchecked", "broken 11 harm stale-copy"), words=("-no-second-check",), is_passed=True),
}
# where an agent waits for its listener: each run has another path in its place
SOCKET, METADATA = "/run/seccomp-agent.sock", "of a container's configuration"
# the brokers that can't be explored to the end: their last words, the status, and what is told
ODD = {
    "hangs": (12, "hangs: instance 0: "), "dies": (11, "died: instance 0: it ended with status 3\n"), "differs": (12, "unlike: instance 0: "),
    "steps_tasks": (12, "not supported: instance 0: the broker asks for `t 0`"),
}


# ---- the brokers of this process


def path_of(name: str) -> Path:
    return next(path for part in ("wrong", "right", "odd") for path in [BROKERS / part / f"{name}.py"] if path.is_file())


def class_in(name):
    """The broker that a file has."""
    spec = importlib.util.spec_from_file_location(name, path_of(name))
    module = importlib.util.module_from_spec(spec)
    spec.loader.exec_module(module)
    return next(value for value in vars(module).values() if isinstance(value, type) and value.__module__ == name)


def files_of(script, folder=BROKERS):
    paths = (folder / "policy.json", folder / f"scripts/{script}.txt")
    return Files(*paths, *read_files(*paths))


def explored(key):
    """What is found of a broker under a script, and the smallest run of each."""
    name, script = key
    broker = class_in(name)
    found = explore(Setting(files_of(script), lambda: [InlineInstance(lambda channel: broker(Kernel(channel=channel)).run())]), DELAYS)
    findings = {
        Finding(it.played.told.clause, it.played.told.gravity, it.played.told.task, it.played.told.ordinal, it.played.planned.total): it.played for it in found.findings.values()
    }
    return key, findings, [str(it.played.trouble) for it in found.troubles.values()], found.runs


def found_of(broker, files, delays):
    """The clauses that a broker breaks within a bound, with their classes."""
    found = explore(Setting(files, lambda: [InlineInstance(lambda channel: broker(Kernel(channel=channel)).run())]), delays)
    return {(it.played.told.clause, it.played.told.gravity) for it in found.findings.values()}, [str(it.played.trouble) for it in found.troubles.values()]


def wrong_trial(shown, folder):
    """What is wrong with what is found of a broker that breaks one clause."""
    found, troubles = found_of(shown.broker, files_of(shown.script, folder), shown.delays)
    return f"{shown.clause} isn't found: {sorted(found)}, {troubles}" if troubles or (shown.clause, shown.gravity) not in found else None


def right_trial(broker, files, delays):
    """What is told of a broker of which nothing should be."""
    found, troubles = found_of(broker, files, delays)
    return f"there is told: {sorted(found)}, {troubles}" if found or troubles else None


def clause_trial(shown: Any) -> Tuple[str, Any]:
    """A broker of clauses.py, and the right one over the same script."""
    wrong = wrong_trial(shown, DEFINED) or right_trial(clauses.Right, files_of(shown.script, DEFINED), shown.delays)
    return f"{shown.broker.__name__} with {shown.script}", wrong


def slip_trial(slip):
    return f"{slip.broker.__name__} with {slip.script}", wrong_trial(slip, BROKERS)


def style_trial(broker: Any) -> Tuple[str, Any]:
    """A right broker in a style of its own, over each script."""
    wrong = (right_trial(broker, files_of(script), STYLE_DELAYS) for script in SCRIPTS)
    return broker.__name__, "; ".join(f"with {script}, {fault}" for script, fault in zip(SCRIPTS, wrong) if fault) or None


def difference(wanted, found, troubles):
    if troubles:
        return "; ".join(troubles)
    if wanted == set(found):
        return None
    return f"expected {sorted(wanted - set(found)) or 'nothing more'}, found {sorted(set(found) - wanted) or 'nothing more'}"


# ---- a broker as a process


def as_process(asked):
    """What differs where a run is made once more with the broker behind a socket, and with the program."""
    key, played, program = asked
    name, script = key
    with tempfile.TemporaryDirectory(prefix="explored-brokers-") as room:
        again = Run(Setting(files_of(script), lambda: [ProcessInstance([sys.executable, "-B", str(path_of(name))], Door(f"{room}/0"), Bounds(PATIENCE))], program), played.planned).play()
    if again.trouble is not None:
        return key, again.trouble.text
    if again.told != played.told:
        return key, f"as a process it is told {again.told}"
    if again.session != played.session:
        return key, "as a process it makes other calls"
    if report_of(program, again.script) != again.report:
        return key, "its script plays another report"
    return key, script_fault(program, files_of(script), again)


def script_fault(program, files, played):
    """What is wrong with the program's judgement of the script of a finding. (That a broker waits with a call in hand isn't in a script.)"""
    if played.told.clause == judged.UNANSWERED.name:
        return None
    with tempfile.TemporaryDirectory(prefix="explored-brokers-") as room:
        return judgement_fault(program, files, played.script.encode("latin-1"), played.told.text, room)


def report_of(program, script):
    """What the program prints where it plays a script under the policy of the brokers."""
    with tempfile.TemporaryDirectory(prefix="explored-brokers-") as room:
        Path(room, "script.txt").write_bytes(script.encode("latin-1"))
        played = subprocess.run([program, "play", BROKERS / "policy.json", f"{room}/script.txt"], stdin=subprocess.DEVNULL, stdout=subprocess.PIPE)
    return played.stdout.decode("latin-1")


def script_at(name):
    return BROKERS / f"scripts/{name}.txt"


def told_by_tool(script, delays, *words, policy=BROKERS / "policy.json"):
    """How the tool ends, with one run at once."""
    return ended_of([EXPLORE, policy, script, delays, "--jobs", "1", *words])


def python_broker(name):
    return "--", sys.executable, "-B", path_of(name)


def odd_trial(name):
    """What is wrong with what the tool tells of a broker that it can't explore."""
    status, told = ODD[name]
    ended = told_by_tool(script_at("reused"), "3", "--no-program", "--patience", "8", *python_broker(name))
    return f"an odd broker, {name}", ended.unless(ended.status == status and f"\n{told}" in ended.out)


def has_seccomp_header() -> bool:
    tried = subprocess.run(["cc", "-E", "-include", "seccomp.h", "-x", "c", "/dev/null"], stdin=subprocess.DEVNULL, capture_output=True)
    return tried.returncode == 0


def agents() -> List[str]:
    """The agents that can be built here."""
    left = {}
    if not shutil.which("cc"):
        left["cc isn't on the PATH"] = [name for name, agent in AGENTS.items() if agent.source != "go"]
    elif not has_seccomp_header():
        left["<seccomp.h> isn't there"] = [name for name, agent in AGENTS.items() if "-lseccomp" in agent.libraries]
    if not shutil.which("go"):
        left["go isn't on the PATH"] = [name for name, agent in AGENTS.items() if agent.source == "go"]
    for why, names in left.items():
        print(f"explored-brokers: {why}, so these aren't tried: {', '.join(names)}")
    return [name for name in AGENTS if not any(name in names for names in left.values())]


def command_of(agent, room):
    """Builds an agent: its command, and what is wrong with it, or None."""
    source = BROKERS / "agents" / agent.source
    if agent.source.endswith(".py"):
        return [sys.executable, "-B", source], None
    words = ["go", "build", "-o", f"{room}/agent", "."] if agent.source == "go" else ["cc", *WARNINGS, "-o", f"{room}/agent", source, *agent.libraries]
    built = subprocess.run(words, cwd=source if source.is_dir() else room, stdin=subprocess.DEVNULL, capture_output=True, text=True)
    return [f"{room}/agent"], built.stderr if built.returncode else None


def agent_trial(name):
    """What is wrong with what the tool tells of an agent."""
    agent = AGENTS[name]
    with tempfile.TemporaryDirectory(prefix="explored-brokers-") as room:
        command, wrong = command_of(agent, room)
        if wrong is not None:
            return name, wrong
        words = ["2", "--no-program", *agent.options]
        if agent.source != "go":
            made = subprocess.run([TOP / "tools/commands/make-shim", f"{room}/shim.so"], stdin=subprocess.DEVNULL, capture_output=True, text=True)
            if made.returncode:
                return name, made.stderr
            words += ["--shim", f"{room}/shim.so"]
        if agent.is_passed:
            words += ["--listener-path", SOCKET, "--listener-metadata", METADATA]
        command += [*agent.words, *([SOCKET] if agent.is_passed else [])]
        ended = told_by_tool(script_at(agent.script), *words, "--", *command)
    found = [line for line in ended.out.split("\n") if line.startswith(("broken ", "not supported: "))]
    wanted = [begun for begun in agent.told if not begun.startswith("explored ")]
    right = ended.status == agent.status and len(found) == len(wanted) and all(f"\n{begun}" in f"\n{ended.out}" for begun in agent.told)
    # (what an agent says is told with what was found of it)
    return name, ended.unless(right and (not agent.is_passed or agent.status == 0 or METADATA in ended.out))


def counted(asked):
    """What is wrong with the histories of the broker in the manual's order, whose number the program's `explore` tells for its own worker."""
    script, program = asked
    files, name = files_of(script), f"the histories with {script}"
    found = explore(Setting(files, lambda: [InlineInstance(lambda channel: Broker(Kernel(channel=channel)).run())]), DELAYS)
    told = subprocess.run([program, "explore", files.policy, files.script, "0", str(DELAYS)], stdin=subprocess.DEVNULL, capture_output=True, text=True).stdout.split("\n")[0]
    if found.findings or found.troubles:
        return name, "something is found in the broker in the manual's order"
    return name, None if f" histories={found.runs} " in told and len(found.histories) == found.runs else f"they are {found.runs}, and the program says {told}"


def two_instances(_):
    """Two processes of a right broker serve one container."""
    ended = told_by_tool(script_at("together"), "1", "--no-program", "--instances", "2", *python_broker("one_large_read"))
    return "two instances", ended.unless(ended.status == 0 and " findings=0 whole=bound\n" in ended.out)


def listening(_):
    """A path at which somebody listens already is refused, and one at which nobody does is told."""
    with tempfile.TemporaryDirectory(prefix="explored-brokers-") as room, socket.socket(socket.AF_UNIX) as served:
        served.bind(f"{room}/served")
        served.listen(1)
        refused, told = (told_by_tool(script_at("reused"), "0", "--no-program", "--patience", "2", "--listener-path", f"{room}/{name}", "--", "sleep", "30") for name in ("served", "none"))
    wrong = refused.unless(refused.status == 12 and refused.out == "" and "somebody listens at " in refused.err)
    return "paths for the listener", wrong or told.unless(told.status == 12 and "\nnot supported: instance 0: nobody waits for the listener at " in told.out)


def linted(_):
    """A script's schedule is told, which nobody goes by here, with the cure."""
    ended = told_by_tool(TOP / "examples/own-broker/script.txt", "0", "--no-program", *python_broker("one_large_read"), policy=TOP / "examples/own-broker/policy.json")
    return "a script with a schedule", ended.unless("schedule-not-used: `explore-broker` doesn't go by the schedule" in ended.err and "\nhelp: leave it out" in ended.err)


def noted(_):
    """A rule that passes a call which is denied if other bytes stand in its memory is told behind the findings, once, and leaves the status as it is."""
    ended = told_by_tool(script_at("followed"), "1", "--no-program", *python_broker("passes_nodes"), policy=BROKERS / "passes_nodes.json")
    heads = [line for line in ended.out.split("\n") if line.startswith(("explored ", "finding ", "note ", "trouble "))]
    wanted = ["explored broker delays=1 runs=3 histories=3 findings=0 whole=bound", 'note pass-by-memory by=default.mknod call=mknod "/null" denied=kept other=mknod "/kept/"']
    return "a note on the policy", ended.unless(ended.status == 0 and heads == wanted)


def interrupted(jobs):
    """An interrupt ends it at once, and the broker with it, however long a run may take."""
    with tempfile.TemporaryDirectory(prefix="explored-brokers-") as room:
        begun, name = Path(room, "begun"), f"an interrupt of {jobs} at once"
        os.mkfifo(begun)
        command = [EXPLORE, BROKERS / "policy.json", script_at("reused"), "0", "--no-program", "--jobs", jobs, "--patience", "600", "--", "sh", "-c", f"echo $$ > {begun}; exec sleep 600"]
        with subprocess.Popen(command, stdin=subprocess.DEVNULL, stdout=subprocess.DEVNULL, stderr=subprocess.DEVNULL) as tool:
            broker = begun.read_text().strip()
            tool.send_signal(signal.SIGINT)
            try:
                status = tool.wait(MOST_SECONDS)
            except subprocess.TimeoutExpired:
                tool.kill()
                return name, f"it hasn't ended after {MOST_SECONDS} seconds"
        return name, None if status == ending.INTERRUPTED and not Path("/proc", broker).exists() else f"it ends with status {status}, and its broker {broker} is there or not"


# what a program answers otherwise than it should, as sed has it, and what is then told
DIFFERING = {
    "kernels differ": ("s/ open-mem / opens /", "kernels differ: instance 0: `w 0 open-mem "),
    "judges differ": ("s/^mediated /mediates /", "judges differ: instance 0: `judge idle` is answered "),
}


def differing(asked):
    """A program beside the kernel and the judge in Python that answers otherwise than they do."""
    name, program = asked
    changed, wanted = DIFFERING[name]
    with tempfile.TemporaryDirectory(prefix="check-explored-brokers-") as room:
        other = Path(room) / "program"
        other.write_text(f"#!/bin/sh\n'{program}' \"$@\" | sed '{changed}'\n")
        other.chmod(0o755)
        ended = told_by_tool(script_at("together"), "0", "--program", other, *python_broker("one_large_read"))
    return name, ended.unless(ended.status == 12 and f"\n{wanted}" in ended.out and " findings=0 " in ended.out)


def call(task: Any) -> Tuple[str, Any]:
    """Calls a function in a process of the pool."""
    function, argument = task
    return function(argument)


def main():
    ending.as_in_foreground()
    parser = ToolParser()
    parser.add_argument("--jobs", type=int, default=os.cpu_count())
    program = (asked := parser.add_program().with_program()).program
    count, runs, smallest = Tally("explored-brokers"), 0, []
    expected = {**WRONG, **RIGHT}
    with multiprocessing.get_context("fork").Pool(asked.jobs) as pool:
        for key, found, troubles, number in pool.imap_unordered(explored, expected, 1):
            runs += number
            count.note(f"{key[0]} with {key[1]}", difference(expected[key], found, troubles))
            if key in WRONG and found:
                smallest.append((key, min(found.items())[1], program))
        others = [
            *((clause_trial, shown) for shown in clauses.CLAUSES), *((style_trial, broker) for broker in styles.STYLES), *((slip_trial, slip) for slip in slips.SLIPS),
            *((counted, (script, program)) for script in SCRIPTS), *((as_process, it) for it in smallest), *((odd_trial, name) for name in ODD),
            *((agent_trial, name) for name in agents()), *((differing, (name, program)) for name in DIFFERING), (two_instances, None), (listening, None), (linted, None), (noted, None),
            *((interrupted, jobs) for jobs in ("1", "2")),
        ]
        for name, wrong in pool.imap_unordered(call, others, 1):
            count.note(name if isinstance(name, str) else f"{name[0]} as a process", wrong)
    print(f"explored-brokers: {runs} runs with at most {DELAYS} delays")
    return count.ended()
