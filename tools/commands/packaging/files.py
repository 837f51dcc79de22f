"""The files that are installed, below a prefix: of the command, of the C library, and of its headers."""
from __future__ import annotations

import json
import os
import re
import subprocess
import tempfile
from typing import Any, Dict, List, Set, Tuple

from tools.commands.command_line import table
from tools.commands.packaging import completions, manual, made as making
from tools.commands.packaging.made import TOP, Made, NotMade
from tools.commands.packaging.tree import File, Link, below, folders_of, read, text, zipped

HOME, SHARE = "lib/seccomp-broker", "share/seccomp-broker"
SONAME = "libseccomp_broker.so.1"
# modules of the command itself
OF_COMMAND = {*(f"commands/{it}" for it in ("command_line", "messages", "real_workloads", "pages", "explored.py", "container_tree.py")),
              *(f"{it}__init__.py" for it in ("", "commands/", "references/"))}
# modules of the tools that only their tests use, or only a checkout
OF_TESTS = {"browser.py", "served.py", "made_reports.py", "checkout.py", "trial.py", "optimising.py"}
# a link of a document with its label and the path that it leads to
LINK = re.compile(r"\[((?:[^\[\]]|\[[^\]]*\])*)\]\(([^()\s#:]+)(?:#[^()\s]*)?\)")
# the lines by which the examples find the library in a checkout, and those by which they find an installed one
INSTALLED = {
    "c/Makefile": [("# tools/commands/make-c-library makes ../../dist. These two lines are all that linking takes.", "# These two lines are all that linking takes."),
                   ("-I../../dist/include", "$(shell pkg-config --cflags seccomp_broker)"), ("LDLIBS = ../../dist/lib/libseccomp_broker.a", "LDLIBS = $(shell pkg-config --libs seccomp_broker)"),
                   ("policy_test: policy_test.c $(LDLIBS) ../../dist/include/seccomp_broker.h", "policy_test: policy_test.c")],
    "go/broker.go": [("by the C library that tools/commands/make-c-library makes", "by the C library"), ("#cgo CFLAGS: -I${SRCDIR}/../../dist/include\n", "#cgo pkg-config: seccomp_broker\n"),
                     ("#cgo LDFLAGS: ${SRCDIR}/../../dist/lib/libseccomp_broker.a\n", "")],
}
OF_MODULE = [("by the C library that tools/commands/make-c-library makes", "by the C library, whose archive is in lib/"), ("/../../dist/include", "/include"), ("/../../dist/lib/", "/lib/")]
PKG_CONFIG = """prefix={prefix}
includedir=${{prefix}}/include
libdir=${{prefix}}/{libdir}

Name: seccomp_broker
Description: A simulator of a broker for seccomp user notifications
Version: {version}
Cflags: -I${{includedir}}
Libs: -L${{libdir}} -lseccomp_broker
"""


def replaced(content: str, pairs: List[Tuple[str, str]], name: str) -> str:
    for old, new in pairs:
        if old not in content:
            raise NotMade(f"{name} hasn't the text {old!r} any more")
        content = content.replace(old, new)
    return content


def stripped(path: str) -> File:
    """A library without the names that nothing outside it can use."""
    with tempfile.NamedTemporaryFile() as room:
        subprocess.run(["strip", "--strip-unneeded", "-o", room.name, path], check=True)
        with open(room.name, "rb") as file:
            return File(file.read())


def files_below(folder: str) -> Dict[str, File]:
    """The files of a folder that stand in the repository, by their names in it."""
    found = {}
    for at, folders, names in os.walk(f"{TOP}/{folder}"):
        folders[:] = [name for name in folders if name not in ("__pycache__", "out", "target")]
        for name in names:
            found[os.path.relpath(f"{at}/{name}", f"{TOP}/{folder}")] = read(f"{at}/{name}")
    return found


def examples() -> Dict[str, File]:
    found = files_below("examples")
    for built in ("c/policy_test", "c/step_broker_test"):
        found.pop(built, None)
    for name, pairs in INSTALLED.items():
        found[name] = File(replaced(found[name].data.decode(), pairs, name).encode())
    return found


def brokers_and_cases() -> Dict[str, File]:
    """Brokers that make a mistake each, judged sessions, and the cases that can be played as they are: those that the guides name."""
    cases = {os.path.relpath(at, TOP): set(names) for at, _, names in os.walk(f"{TOP}/cases")}
    played = [folder for folder, names in cases.items() if {"policy.json", "script.txt"} <= names and "make" not in names]
    found = {f"{folder}/{name}": entry for folder in ("tests/brokers", "tests/judged", *played) for name, entry in files_below(folder).items()}
    return {name: entry for name, entry in found.items() if not name.endswith(".md")}


def shared() -> Dict[str, File]:
    """What the command's users read, copy and play, below share/seccomp-broker."""
    return {**below(examples(), "examples"), **calls_of_step(), **brokers_and_cases()}


def calls_of_step() -> Dict[str, File]:
    """The header and the source that a broker of one's own in C takes, and that of the library for one as it is; they stand beside the examples as they do in a checkout."""
    of_shim = (f"lib/shim/{name}" for name in sorted(os.listdir(f"{TOP}/lib/shim")))
    return {name: read(f"{TOP}/{name}") for name in ("include/seccomp_step.h", "lib/seccomp_step.c", *of_shim)}


def files_of(module: str) -> List[str]:
    """The files of a module of the tools, which is a file or a folder."""
    if os.path.isfile(f"{TOP}/tools/{module}"):
        return [module]
    names = sorted(os.listdir(f"{TOP}/tools/{module}"))
    return [f"{module}/{name}" for name in names if os.path.isfile(f"{TOP}/tools/{module}/{name}") and name not in OF_TESTS]


def tools(python: str) -> Dict[str, File]:
    """The command's files: those of the tools in the table, with their modules."""
    entries = [it for it in table.read()["words"] if it["kind"] == "tool"]
    found = {"broker": read(f"{TOP}/broker")}
    for module in sorted({*OF_COMMAND, *(f"{table.module_name(it)[len('tools.'):].replace('.', '/')}.py" for it in entries), *(name for it in entries for name in it["modules"])}):
        for name in files_of(module):
            found[f"tools/{name}"] = read(f"{TOP}/tools/{name}")._replace(mode=0o644)
    first = b"#!/usr/bin/env python3\n"
    return {name: entry._replace(data=entry.data.replace(first, b"#!%s\n" % python.encode(), 1)) if entry.data.startswith(first) else entry
            for name, entry in found.items()}


def documents() -> Dict[str, File]:
    """README and docs/ without the pages for developers."""
    found = {"README.md": read(f"{TOP}/README.md"), **below(files_below("docs"), "docs")}
    found = {name: entry for name, entry in found.items() if not name.startswith("docs/inside/")}
    there, elsewhere = ({*names, *folders_of(names)} for names in (found, shared()))
    return {name: text(page_of(there, elsewhere, name, entry.data.decode())) if name.endswith(".md") else entry for name, entry in found.items()}


def page_of(there: Set[str], elsewhere: Set[str], name: str, page: str) -> str:
    return LINK.sub(lambda link: linked(there, elsewhere, name, link), page)


def linked(there: Set[str], elsewhere: Set[str], name: str, link: re.Match[str]) -> str:
    """What is left of a link of the page of that name: all of it if it leads to another page, else its label, with the path if that is below share/seccomp-broker."""
    path = os.path.normpath(os.path.join(os.path.dirname(name), link[2]))
    return link[0] if path in there else f"{link[1]} (`{path}`)" if path in elsewhere and path not in link[1] else link[1]


def command(made: Made, python: str = "/usr/bin/env python3") -> Dict[str, Any]:
    """The command with its tools, pages, examples, man pages and completions."""
    home: Dict[str, Any] = {**tools(python), "seccomp_broker": read(made.program)._replace(mode=0o755), **{name: Link(f"../../share/seccomp-broker/{name}") for name in ("examples", "include", "lib")},
                            "about.json": text(json.dumps(making.about(made), indent=1) + "\n")}
    share = {**shared(), "proof.txt": text(making.proof_text(made))}
    found: Dict[str, Any] = {"bin/seccomp-broker": Link("../lib/seccomp-broker/broker"), **below(home, HOME), **below(share, SHARE)}
    for name, page in manual.pages(made.name, made.time).items():
        found[f"share/man/man{name[-1]}/{name}.gz"] = File(zipped(page.encode()))
    for path, content in completions.files().items():
        found[f"share/{path}"] = text(content)
    return found


def shared_library(made: Made, libdir: str) -> Dict[str, Any]:
    """What a program needs that is linked with the library."""
    return {f"{libdir}/{SONAME}": stripped(f"{made.library}/lib/{SONAME}")}


def development(made: Made, libdir: str, prefix: str) -> Dict[str, Any]:
    """What is needed to link with the library."""
    found: Dict[str, Any] = {"include/seccomp_broker.h": read(f"{TOP}/include/seccomp_broker.h"), f"{libdir}/libseccomp_broker.a": read(f"{made.library}/lib/libseccomp_broker.a"),
                             f"{libdir}/libseccomp_broker.so": Link(SONAME), f"{libdir}/pkgconfig/seccomp_broker.pc": text(PKG_CONFIG.format(prefix=prefix, libdir=libdir, version=made.version))}
    for name, page in manual.pages(made.name, made.time, "library").items():
        found[f"share/man/man{name[-1]}/{name}.gz"] = File(zipped(page.encode()))
    return found


def tarball(made: making.Made) -> Dict[str, Any]:
    """One folder that runs from wherever it is unpacked."""
    found = {**command(made), **below(documents(), "share/doc/seccomp-broker")}
    if made.library:
        found.update({**shared_library(made, "lib"), **development(made, "lib", "${pcfiledir}/../..")})
    return below(found, f"seccomp-broker-{made.name}-x86_64-linux")


def go_module(made: Made) -> Dict[str, File]:
    """The Go module with the archive, and its packages for a broker of one's own: a `replace` line names its folder."""
    found = {name: read(f"{TOP}/examples/go/{name}") for name in ("broker.go", "go.mod", "policy_test.go", "step/step.go", "stepbroker/broker.go")}
    found["broker.go"] = text(replaced(found["broker.go"].data.decode(), OF_MODULE, "examples/go/broker.go"))
    found.update({"include/seccomp_broker.h": read(f"{TOP}/include/seccomp_broker.h"), "lib/libseccomp_broker.a": read(f"{made.library}/lib/libseccomp_broker.a"),
                  "proof.txt": text(making.proof_text(made))})
    return below(found, f"seccompbroker-{made.name}")
