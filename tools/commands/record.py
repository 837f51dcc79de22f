"""Records what a command, or a process that runs, asks of the kernel. `./broker help record` has its words."""
from __future__ import annotations

import shutil
import subprocess
import sys
from argparse import Namespace
from pathlib import Path
from typing import List

from tools.commands.command_line.arguments import Parser

MOVING = ("read", "write", "pread64", "pwrite64", "readv", "writev", "preadv", "pwritev", "preadv2", "pwritev2", "sendto", "recvfrom", "sendmsg",
          "recvmsg", "sendmmsg", "recvmmsg", "splice", "vmsplice", "process_vm_readv", "process_vm_writev")
# numbers as numbers, texts in base 16 and whole, the paths of descriptors, host's PIDs, and the lines that say that the mode changes
WORDS = ["strace", "-f", "-X", "raw", "-xx", "-s", "4096", "-y", "--pidns-translation", "--quiet=attach", "-e", f"trace=!{','.join(MOVING)}"]


def words() -> Namespace:
    parser = Parser("record")
    parser.add_argument("-o", dest="trace", metavar="TRACE", default="strace.txt", help="the file to write")
    parser.add_argument("--attach", type=int, metavar="PID", help="a process that runs")
    parser.add_argument("command", nargs="*", metavar="COMMAND")
    asked = parser.parse_args()
    if (asked.attach is None) != bool(asked.command):
        parser.error("one of COMMAND and --attach PID is needed")
    return asked


def main() -> int:
    asked = words()
    if shutil.which("strace") is None:
        sys.exit("record: strace isn't there; Debian's package strace has it")
    if asked.attach is not None:
        return trace_running(asked)
    return subprocess.run([*WORDS, "-o", asked.trace, "--", *asked.command], check=False).returncode


def with_descendants(pid: int) -> List[int]:
    """A process and all that it has started, which still run."""
    found = [pid]
    for each in found:
        for children in Path(f"/proc/{each}/task").glob("*/children"):
            found += map(int, children.read_text().split())
    return found


def trace_running(asked: Namespace) -> int:
    """Traces until the processes end or the user interrupts, which is a good end."""
    if not Path(f"/proc/{asked.attach}").exists():
        sys.exit(f"record: there is no process {asked.attach}")
    strace = subprocess.Popen([*WORDS, "-o", asked.trace, *(word for pid in with_descendants(asked.attach) for word in ("-p", str(pid)))])
    try:
        return strace.wait()
    except KeyboardInterrupt:
        strace.wait()
        return 0
