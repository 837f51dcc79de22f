"""Makes the library for C programs, and runs the examples in C, Python and Go with it, as far as cc, python3 and go are on the PATH.

    tools/checks/check-c-library

Exit status: 0 if all that can run passed, else 1.
"""
import shutil
import subprocess

from tools.commands.command_line import arguments, place

EXAMPLES = (("python3", "the example in Python", "examples/python", ["python3", "-B", "-m", "unittest", "-q"]), ("go", "the example in Go", "examples/go", ["go", "test", "."]))


def has(command, what):
    """Whether a command is there. If it isn't, this says what isn't run."""
    if shutil.which(command):
        return True
    print(f"check-c-library: {command} isn't on the PATH, so {what} isn't run", flush=True)
    return False


def passes(words, folder="."):
    return subprocess.run(words, cwd=f"{place.HOME}/{folder}", stdin=subprocess.DEVNULL).returncode == 0


def main():
    arguments.none()
    if not has("cc", "the library for C programs"):
        return 0
    if not passes(["tools/commands/make-c-library"]) or not passes(["make", "-s", "-C", "examples/c", "test"]):
        return 1
    return not all([passes(words, folder) for command, what, folder, words in EXAMPLES if has(command, what)])
