"""Tries the tools for real workloads on traces and profiles that are stored, and on what the machine has: strace, libseccomp, a kernel with filters.

    tools/checks/check-real-workloads [--long] [--program PATH]

The stored traces give the scripts that stand beside them in examples/, and the answers of a play those of answers.txt there. The traces of
tools/commands/real_workloads/traces, and stored ones that are cut at many places or begin late, give a script that the program plays, or
one line. Each difference from the trace has a name. Of the reports of all stored traces each outcome is changed into others, one at a time,
and none of these has a name. Where libseccomp's module is there, the profiles of examples/profile and Debian's own, if it is installed, are
made into filters, and calls under them get the verdicts that the running kernel gives; this, filters of a running process and recordings
with strace need root. What can't be tried here is told in the last line. --long adds a trace of 100,000 lines and the first thousand calls
of debootstrap.

Exit status: 0 where all is as it should be; 1 where something isn't.
"""
from __future__ import annotations

import json
import os
import shutil
import subprocess
import sys
import tempfile
import time
from concurrent.futures import ThreadPoolExecutor
from pathlib import Path
from typing import Any, List

from tools.commands.command_line.arguments import ToolParser
from tools.commands.real_workloads import changed_outcomes, program

TOOLS, EXAMPLES = f"{program.TOP}/tools/commands", f"{program.TOP}/examples"
STORED = {"traced-mknod": [], "traced-tar": [], "traced-shell": [], "profile": ["--filters", f"{EXAMPLES}/profile/filters.txt"]}
TRACES = {"profile": f"{EXAMPLES}/traced-tar/trace.txt"}
POLICY = f"{EXAMPLES}/traced-shell/policy.json"
ALL_CALLS = ["close", "getpid", "sysinfo", "mknod", "mount", "setxattr", "openat", "mknodat"]
# whatever a policy says, each call is to be come to
POLICIES = {
    "passes": {},
    "denies": {"rules": [{"name": "none", "call": ALL_CALLS, "then": {"deny": "EPERM"}}]},
    "injects": {"rules": [{"name": "put", "call": "openat", "then": {"inject": 5}}, {"name": "all", "call": ["mknod", "mknodat"], "then": "grant"}]},
    "injects out of range": {"rules": [{"name": "put", "call": "openat", "then": {"inject": 5, "at": 2000}}]},
}
DEBIANS_PYTHON, DEBIANS_PROFILE = "/usr/bin/python3", "/usr/share/containers/seccomp.json"
CUTS = 8
JOBS = 4
SECONDS = 600
RECORDED = {
    "mknod": "mknod null c 1 3; mknod sda b 8 0; mkfifo pipe",
    "tar": "mkdir dev; mknod dev/null c 1 3; mknod dev/sda b 8 0; tar -cf all.tar dev; rm -r dev; tar -xf all.tar",
    "shell": "trap 'echo ready' USR1; (mknod null c 1 3; exit 3) & (mkfifo pipe; kill -USR1 $$) & wait; wait; : > file",
}
# the parent of a filter's process says when it has the filter
WITH_FILTER = """
import ctypes, sys, time
from tools.commands.real_workloads import bpf, kernel_verdicts
kernel_verdicts.libc.prctl(38, 1, 0, 0, 0)
for it in bpf.read_blocks(open(sys.argv[1]).read()):
    kernel_verdicts.install(it.instructions, 0)
print("ready", flush=True)
time.sleep(60)
"""


class Check:
    def __init__(self, asked, room):
        self.asked, self.room = asked, room
        self.passed, self.wrong, self.untried = [], 0, []
        self.reports = []  # scripts of traces and reports of their plays, which are tried further

    def fault(self, text: str) -> None:
        self.wrong += 1
        print(f"check-real-workloads: {text}", flush=True)

    def tool(self, name: str, *words: str, python: str = sys.executable) -> subprocess.CompletedProcess[Any]:
        command = [python, f"{program.TOP}/broker", "--as", f"{TOOLS}/{name}", *words]
        try:
            return subprocess.run(command, stdin=subprocess.DEVNULL, capture_output=True, text=True, timeout=SECONDS, check=False)
        except subprocess.TimeoutExpired:
            return subprocess.CompletedProcess(command, -1, "", f"it took more than {SECONDS} s\n")

    def is_the_same(self, what: str, made: str, stored: str) -> None:
        if made != Path(stored).read_text(encoding="latin-1"):
            self.fault(f"{what}: {stored} is another")

    def stored(self):
        """The scripts and answers that stand beside stored traces."""
        for name, words in STORED.items():
            folder = f"{EXAMPLES}/{name}"
            trace = TRACES.get(name, f"{folder}/trace.txt")
            self.is_the_same(f"the script of {name}", self.tool("script-of-strace", *words, trace).stdout, f"{folder}/script.txt")
            answers = self.tool("compare-with-trace", f"{folder}/script.txt", f"{folder}/report.txt")
            self.is_the_same(f"the answers of {name}", answers.stdout, f"{folder}/answers.txt")
            if answers.returncode:
                self.fault(f"{name}: a difference has no name: {answers.stderr}")
        self.passed.append(f"{len(STORED)} stored scripts")

    def changed(self) -> None:
        """Outcomes of reports that are changed, one at a time: the trace explains none of them."""
        folders = [f"{EXAMPLES}/{name}" for name in STORED]
        pairs = [(f"{folder}/script.txt", f"{folder}/report.txt") for folder in folders] + self.reports
        count = 0
        for script, report in pairs:
            tried, excused = changed_outcomes.tried(*(Path(it).read_text(encoding="latin-1") for it in (script, report)))
            count += tried
            for it in excused:
                self.fault(f"{script}, line {it.line} of the trace: {it.call} answered {it.traced}, in the play {it.play}; changed to {it.changed} it is excused: {it.name}")
        self.passed.append(f"{count:,} changed outcomes of {len(pairs)} reports without an excuse")

    def policies(self) -> None:
        """A script of which each call is notified comes to each of its calls, whatever the policy says."""
        policy = f"{self.room}/policy.json"
        for name, rules in POLICIES.items():
            Path(policy).write_text(json.dumps(rules), encoding="ascii")
            if not self.playable(f"a policy that {name}", f"{EXAMPLES}/traced-shell/trace.txt", "--notify", ",".join(ALL_CALLS), policy=policy):
                self.fault(f"a policy that {name} isn't played")
        self.passed.append(f"{len(POLICIES)} policies that come to each call")

    def playable(self, name: str, trace: str, *words: str, policy: str = POLICY, keep: bool = False) -> bool:
        """Whether a trace gives a script that is played, comes to each call, and whose differences have names; or one line."""
        folder = tempfile.mkdtemp(dir=self.room)
        script, report = f"{folder}/script.txt", f"{folder}/report.txt"
        made = self.tool("script-of-strace", *words, "-o", script, trace)
        if made.returncode:
            if made.returncode != 1 or made.stderr.count("\n") != 1 or not made.stderr.startswith("script-of-strace: "):
                self.fault(f"{name}: {made.stderr[-300:]}")
            return False
        with open(report, "wb") as file:
            played = subprocess.run([self.asked.program, "play", policy, script], stdin=subprocess.DEVNULL, stdout=file, stderr=subprocess.PIPE, timeout=SECONDS, check=False)
        if played.returncode:
            self.fault(f"{name}: the program refuses the script: {played.stderr.decode()}")
            return False
        compared = self.tool("compare-with-trace", "--differences", script, report)
        if compared.returncode:
            self.fault(f"{name}: a difference has no name: {compared.stdout[-600:]}{compared.stderr}")
        if keep:
            self.reports.append((script, report))
        if "  not-entered\n" in compared.stdout:
            self.fault(f"{name}: a call isn't come to: {compared.stdout[-600:]}")
        return True

    def odd(self) -> None:
        """Traces that are odd, cut, or begin late."""
        odd = sorted(Path(f"{TOOLS}/real_workloads/traces").iterdir())
        raw = Path(f"{EXAMPLES}/traced-shell/trace.txt").read_bytes()
        parts = [raw[:len(raw) * at // CUTS] for at in range(CUTS)] + [raw[len(raw) * at // CUTS:] for at in range(1, CUTS)] + [b"\0\xff" * 1000, b"root:x:0:0::/:/bin/sh\n"]
        for at, part in enumerate(parts):
            Path(f"{self.room}/part-{at}.txt").write_bytes(part)
        with ThreadPoolExecutor(JOBS) as pool:
            for trace, is_played in zip(odd, pool.map(lambda it: self.playable(it.name, str(it), keep=True), odd)):
                if not is_played:
                    self.fault(f"{trace.name} gives no script")
            list(pool.map(lambda at: self.playable(f"part {at} of a trace", f"{self.room}/part-{at}.txt"), range(len(parts))))
        self.passed.append(f"{len(odd)} odd traces and {len(parts)} that are cut or none")

    def python_with_libseccomp(self):
        for python in dict.fromkeys((sys.executable, DEBIANS_PYTHON)):
            if os.access(python, os.X_OK) and subprocess.run([python, "-c", "import seccomp"], capture_output=True, check=False).returncode == 0:
                return python
        return None

    def profiles(self):
        """Profiles as filters, and calls under them against the kernel."""
        python = self.python_with_libseccomp()
        if python is None:
            self.untried.append("profiles (no python3-seccomp)")
            return
        made = []
        for name, words in ((f"{EXAMPLES}/profile/profile.json", []), (f"{EXAMPLES}/profile/strict.json", []), (DEBIANS_PROFILE, ["--notify", "mknod,mknodat,mount,setxattr"])):
            if not os.path.exists(name):
                self.untried.append("Debian's profile (no golang-github-containers-common)")
                continue
            made.append(f"{self.room}/{Path(name).stem}.filters")
            found = self.tool("filter-of-profile", *words, "-o", made[-1], name, python=python)
            if found.returncode:
                self.fault(f"{name}: {found.stderr}")
        self.verdicts([*made, f"{EXAMPLES}/profile/filters.txt"])

    def verdicts(self, files):
        if os.geteuid() != 0:
            self.untried.append("the kernel's verdicts (not root)")
            return
        found = self.tool("check-filters", "--program", self.asked.program, *files)
        if "takes no filter" in found.stderr:
            self.untried.append("the kernel's verdicts (it takes no filter here)")
            return
        if found.returncode:
            self.fault(found.stdout + found.stderr)
        self.passed.append(f"200 verdicts of each of {len(files)} filters, as the kernel's")

    def process(self):
        """The filter of a process that runs."""
        filters = f"{EXAMPLES}/profile/filters.txt"
        if os.geteuid() != 0:
            self.untried.append("filters of a process (not root)")
            return
        with subprocess.Popen([sys.executable, "-B", "-c", WITH_FILTER, filters], cwd=program.TOP, stdout=subprocess.PIPE) as child:
            stands = child.stdout.readline() != b""
            found = self.tool("filter-of-process", str(child.pid))
            child.kill()
        if not stands:
            self.untried.append("filters of a process (the kernel takes none here)")
        elif "doesn't give" in found.stderr or "can't be traced" in found.stderr:
            self.untried.append(f"filters of a process ({found.stderr.strip().split(': ', 1)[1]})")
        elif without_remarks(found.stdout) != without_remarks(Path(filters).read_text(encoding="ascii")):
            self.fault(f"the filters of a process: {found.stderr}{found.stdout[:200]}")
        else:
            self.passed.append("the filter of a process")

    @staticmethod
    def can_record():
        found = shutil.which("strace") and os.geteuid() == 0
        return found and subprocess.run(["strace", "-o", os.devnull, "true"], capture_output=True, check=False).returncode == 0

    def recorded(self) -> None:
        """What is recorded here."""
        if not self.can_record():
            self.untried.append("recordings (no strace, not root, or no right to trace)")
            return
        for name, command in RECORDED.items():
            folder = tempfile.mkdtemp(dir=self.room)
            self.record(name, ["sh", "-c", f"cd {folder}; {command}"], f"{self.room}/{name}.txt")
        self.passed.append(f"{len(RECORDED)} recordings")

    def record(self, name: str, command: List[str], trace: str, *words: Any, seconds: int = SECONDS) -> None:
        recorder = subprocess.Popen([f"{TOOLS}/record", "-o", trace, "--", *command], stdin=subprocess.DEVNULL, stdout=subprocess.DEVNULL, stderr=subprocess.DEVNULL)
        try:
            recorder.wait(seconds)
        except subprocess.TimeoutExpired:
            recorder.terminate()
            recorder.wait()
        if not self.playable(f"the recording of {name}", trace, *words):
            self.fault(f"the recording of {name} gives no script")

    def long(self) -> None:
        """100,000 lines, and the first thousand calls of debootstrap."""
        trace = f"{self.room}/long.txt"
        with open(trace, "w", encoding="ascii") as file:
            for at in range(50_000):
                file.write(f'100  openat(-100, "\\x2f\\x66{at % 5000}", 0x80000) = 3\n100  close(3) = 0\n')
        begun = time.monotonic()
        self.playable("a trace of 100,000 lines", trace)
        self.passed.append(f"100,000 lines in {time.monotonic() - begun:.0f} s")
        if shutil.which("debootstrap") is None or not self.can_record():
            self.untried.append("debootstrap")
            return
        self.record("debootstrap", ["debootstrap", "--variant=minbase", "stable", f"{self.room}/root"], f"{self.room}/debootstrap.txt", "--most", "1000", seconds=20)
        self.passed.append("the first thousand calls of debootstrap")


def without_remarks(text: str) -> List[str]:
    return [line for line in text.splitlines() if not line.startswith("#")]


def main():
    parser = ToolParser()
    parser.add_argument("--long", action="store_true", help="what takes longer, too")
    parser.add_argument("--program", type=os.path.abspath, default=program.BUILT, metavar="PATH")
    asked = parser.parse_args()
    program.needed(asked.program, "tools/checks/check-real-workloads")
    with tempfile.TemporaryDirectory(prefix="real-workloads-") as room:
        check = Check(asked, room)
        for part in (check.stored, check.odd, check.changed, check.policies, check.profiles, check.process, check.recorded, *([check.long] if asked.long else [])):
            part()
    untried = f"; not tried: {', '.join(check.untried)}" if check.untried else ""
    print(f"check-real-workloads: {', '.join(check.passed)}: {check.wrong} faults{untried}")
    return check.wrong > 0
