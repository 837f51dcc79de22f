"""Calls the C library on many random inputs within one process, twice on each, and reports each answer at fault.

    tools/checks/fuzz-many [COUNT [SEED [JOBS]]]

COUNT inputs (1,000,000) of the seed SEED (1) are tried in JOBS processes at once (1). The inputs of a process follow those of the one
before it. tools/checks/c-library/fuzz-calls.c says what is tried. Exit status: 0 if nothing is at fault, else 1.
"""
import hashlib
import subprocess
import tempfile

from tools.commands.command_line.arguments import ToolParser
from tools.commands.command_line.top import TOP

LARGEST = 39 * 512
COMPILE = ["cc", "-std=gnu11", "-O2", "-Wall", "-Wextra", "-Idist/include", "tools/checks/c-library/fuzz-calls.c", "dist/lib/libseccomp_broker.a", "-pthread"]


def good(name):
    """The files with this name below examples/ and cases/, one of those with the same bytes, in the order of their paths."""
    paths = sorted(path for folder in ("examples", "cases") for path in (TOP / folder).rglob(name) if path.stat().st_size <= LARGEST)
    return {hashlib.sha256(path.read_bytes()).digest(): str(path.relative_to(TOP)) for path in reversed(paths)}.values()


def main():
    parser = ToolParser()
    for name, number in (("count", 1_000_000), ("seed", 1), ("jobs", 1)):
        parser.add_argument(name, metavar=name.upper(), nargs="?", type=int, default=number)
    asked = parser.parse_args()
    share = -(-asked.count // asked.jobs)
    with tempfile.TemporaryDirectory(prefix="fuzz-many-") as room:
        for words in (["tools/commands/make-c-library"], [*COMPILE, "-o", f"{room}/fuzz-calls"]):
            if subprocess.run(words, cwd=TOP).returncode:
                return 1
        files = [*good("policy.json"), "--", *good("script.txt")]
        running = [subprocess.Popen([f"{room}/fuzz-calls", str(asked.seed), str(job * share), str(share), *files], cwd=TOP) for job in range(asked.jobs)]
        return any([it.wait() for it in running])
