"""Filters of seccomp profiles, as `filter-of-profile` makes them by libseccomp."""
import importlib.util
import os
import subprocess
import sys
from functools import lru_cache

from tools.commands.command_line import place
from tools.commands.messages import profiles as explained
from tools.commands.messages.findings import Text, message
from tools.commands.real_workloads import profiles
from tools.commands.testing.lines import NotUnderstood

TOOL = (f"{place.HOME}/broker", "filter-of-profile")
# Debian's package python3-seccomp is for Debian's own Python
DEBIANS_PYTHON = "/usr/bin/python3"
OF_THE_TOOL = "filter-of-profile: "
REFUSED = "no filter can be made of this profile"


@lru_cache(maxsize=None)
def python_with_libseccomp():
    """A Python that has libseccomp's module; None where none has."""
    if importlib.util.find_spec("seccomp"):
        return sys.executable
    has_module = os.access(DEBIANS_PYTHON, os.X_OK) and subprocess.run([DEBIANS_PYTHON, "-c", "import seccomp"], stdin=subprocess.DEVNULL, stderr=subprocess.DEVNULL).returncode == 0
    return DEBIANS_PYTHON if has_module else None


def refused(word, lines):
    """The exception for a profile, with the lines that say what is wrong with it."""
    fault = word.fault(REFUSED, "")
    return NotUnderstood(fault.found, tuple(lines))


def words_of(asked):
    """The words of `filter-of-profile` that ask for this."""
    found = ["--kernel", ".".join(map(str, asked.kernel))]
    if asked.capabilities:
        found += ["--capabilities", ",".join(sorted(asked.capabilities))]
    if asked.notify:
        found += ["--notify", ",".join(asked.notify)]
    return tuple(found)


@lru_cache(maxsize=None)
def made(python, words, path, _data):
    """How the tool ended: its status, the lines of the filter, and what it said. (`_data` is what the file has, so that a change of it is seen.)"""
    ended = subprocess.run([python, *TOOL, *words, path], stdin=subprocess.DEVNULL, stdout=subprocess.PIPE, stderr=subprocess.PIPE)
    return ended.returncode, ended.stdout.decode().splitlines(), ended.stderr.decode("utf-8", "replace").splitlines()


def lines_of(path, data, filters):
    """The lines of the filter of a profile, which has these bytes, for a script, and what the tool warns of. `filters` is the line that names it."""
    options = filters.options
    asked = profiles.Asked(options.get("capabilities", set()), [], options.get("kernel", profiles.running_kernel()), options.get("notify", []))
    text = Text(data)
    wrong = explained.findings(text, asked)
    if wrong:
        raise refused(filters.file, (line for it in wrong for line in message(it, path, text)))
    python = python_with_libseccomp()
    if python is None:
        raise filters.file.fault("no filter can be made of a profile here: libseccomp's module for Python isn't there",
                                 "install Debian's package `python3-seccomp`; or make the filter on another machine by `filter-of-profile -o FILE`, and name that file")
    status, lines, said = made(python, words_of(asked), path, data)
    if status:
        raise refused(filters.file, said)
    return lines, [it for it in said if not it.startswith(OF_THE_TOOL)]
