"""The Debian packages, by Debian's own tools: the program's, the library's, and that of the library's headers."""
from __future__ import annotations

import hashlib
import os
import re
import shutil
import subprocess
import tempfile
import time as clock
from typing import Any, Dict, List

from tools.commands.packaging import files
from tools.commands.packaging.made import Made, NotMade
from tools.commands.packaging.tree import File, Link, below, text, write, zipped

LIBDIR = "lib/x86_64-linux-gnu"
COPYRIGHT = """seccomp_broker, a simulator of a broker for seccomp user notifications

Copyright {year} the owner of seccomp_broker

No licence was given yet: until the owner states one, all rights are reserved.
"""
CHANGES = """{package} ({version}) unstable; urgency=medium

  * {what}
    {commit}

 -- {maintainer}  {date}
"""
DESCRIPTION = """ Linux hands a system call that a filter notifies to a supervisor
 (seccomp_unotify(2)), which reads the arguments from the caller's memory,
 asks its policy, and acts. This plays such a broker and the kernel around
 it: of a policy in LXD's keys and a script of what a container's tasks do it
 prints every step, what each call returned, and an audit.
 .
"""
KINDS = {
    "seccomp-broker": ("simulator of a broker for seccomp user notifications", " This package has the command, its tools, examples and manual."),
    "libseccomp-broker1": ("simulator of a seccomp broker as a library", " This package has the shared library."),
    "libseccomp-broker-dev": ("simulator of a seccomp broker as a library, to link with",
                              " This package has the header, the static library and what pkg-config reads."),
}
SECTIONS = {"seccomp-broker": "devel", "libseccomp-broker1": "libs", "libseccomp-broker-dev": "libdevel"}
# what lintian finds and is so on purpose, each with its reason
OVERRIDES = {
    "unstripped-binary-or-object": "the file is the one that was tried, byte for byte, so that its checksum is that of proof.txt",
    "unstripped-static-library": "the archive's members are those that were built of what was proved, byte for byte",
}


def has_symbols(path: str) -> bool:
    """Whether strip would take something from a file."""
    listed = subprocess.run(["readelf", "-S", "--wide", path], stdout=subprocess.PIPE, stderr=subprocess.DEVNULL, universal_newlines=True)
    return ".symtab" in listed.stdout


def shared_libraries(paths: List[str], own: Any) -> List[str]:
    """What the programs need of other packages, as dpkg-shlibdeps finds it; the C library where that isn't there."""
    if not paths or shutil.which("dpkg-shlibdeps") is None:
        return ["libc6"]
    with tempfile.TemporaryDirectory(prefix="package-") as room:
        os.mkdir(f"{room}/debian")
        with open(f"{room}/debian/control", "w") as file:
            file.write("Source: seccomp-broker\nMaintainer: nobody\n\nPackage: seccomp-broker\nArchitecture: any\n")
        ended = subprocess.run(["dpkg-shlibdeps", "-O", "--ignore-missing-info", *(f"-e{os.path.abspath(path)}" for path in paths)], cwd=room,
                               stdout=subprocess.PIPE, stderr=subprocess.PIPE, universal_newlines=True)
    if ended.returncode != 0:
        raise NotMade(f"dpkg-shlibdeps: {ended.stderr.strip()}")
    found = re.sub(r"^shlibs:Depends=", "", ended.stdout.strip()).split(", ")
    return [it for it in found if it and it != own]


def symbols(made: Made, path: str) -> str:
    """The library's symbols file, as dpkg-gensymbols writes it: each symbol with the first version that has it."""
    listed = subprocess.run(["readelf", "--dyn-syms", "--wide", path], stdout=subprocess.PIPE, check=True, universal_newlines=True).stdout
    names = sorted({it for it in re.findall(r"\bGLOBAL\s+DEFAULT\s+\d+\s+(\w+)", listed)})
    return "".join([f"{files.SONAME} libseccomp-broker1 #MINVER#\n", *(f" {name}@Base {since(made)}\n" for name in names)])


def since(made: Made) -> str:
    """The least version of the library that has today's symbols: also a trial build of the same number."""
    return f"{made.version}~"


def control(made: Made, package: str, depends: List[str], size: int, **more: str) -> str:
    summary, last = KINDS[package]
    fields = {"Package": package, "Source": None if package == "seccomp-broker" else "seccomp-broker", "Version": made.debian, "Architecture": "amd64",
              "Multi-Arch": "same" if package.startswith("lib") else None, "Maintainer": made.maintainer, "Installed-Size": str(size), "Section": SECTIONS[package],
              "Priority": "optional", "Depends": ", ".join(depends), **more, "Description": f"{summary}\n{DESCRIPTION}{last}"}
    return "".join(f"{name.replace('_', '-')}: {value}\n" for name, value in fields.items() if value)


def standing_documents(made: Made, package: str) -> Dict[str, File]:
    """The files that each package has below /usr/share/doc."""
    date = clock.strftime("%a, %d %b %Y %H:%M:%S +0000", clock.gmtime(made.time))
    what = "Proved and built of commit" if made.is_proved else "A trial build, which isn't proved, of commit"
    changes = CHANGES.format(package="seccomp-broker", version=made.debian, what=what, commit=made.commit, maintainer=made.maintainer, date=date)
    # a version with a revision has Debian's own list of changes
    name = "changelog.gz" if made.is_proved else "changelog.Debian.gz"
    return below({"copyright": text(COPYRIGHT.format(year=clock.gmtime(made.time).tm_year)), name: File(zipped(changes.encode()))}, f"share/doc/{package}")


def size_of(tree: Dict[str, Any]) -> int:
    """Kibibytes, as Debian Policy counts them: files by their size rounded up, all else as one."""
    return sum(1 if isinstance(it, Link) else -(-len(it.data) // 1024) for it in tree.values()) + 1


def sums(tree: Dict[str, Any]) -> str:
    return "".join(f"{hashlib.md5(it.data).hexdigest()}  {name}\n" for name, it in sorted(tree.items()) if isinstance(it, File))


def build(made: Any, package: str, tree: Any, depends: Any, folder: str, extra: Any = None, tags: Any = (), **more: str) -> str:
    """Makes one package of files below /usr."""
    tree = {**tree, **standing_documents(made, package)}
    if tags:
        lines = "".join(f"# {OVERRIDES[tag]}\n{package}: {tag}\n" for tag in tags)
        tree[f"share/lintian/overrides/{package}"] = text(lines)
    tree = below(tree, "usr")
    control_files = {"control": text(control(made, package, depends, size_of(tree), **more)), "md5sums": text(sums(tree)), **(extra or {})}
    name = f"{package}_{made.debian}_amd64.deb"
    with tempfile.TemporaryDirectory(prefix="package-") as room:
        os.chmod(room, 0o755)
        write({**tree, **below(control_files, "DEBIAN")}, f"{room}/root", made.time)
        ended = subprocess.run(["dpkg-deb", "--root-owner-group", "-Zxz", "--threads-max=1", "--build", f"{room}/root", f"{folder}/{name}"],
                               env={**os.environ, "SOURCE_DATE_EPOCH": str(made.time)}, stdout=subprocess.DEVNULL, stderr=subprocess.PIPE, universal_newlines=True)
    if ended.returncode != 0:
        raise NotMade(f"dpkg-deb: {ended.stderr.strip()}")
    return name


def packages(made: Made, folder: str) -> List[str]:
    """Makes the packages in a folder, and gives their names."""
    documents = below(files.documents(), "share/doc/seccomp-broker")
    tree = {**files.command(made, "/usr/bin/python3"), **documents, "share/doc/seccomp-broker/examples": Link("../../seccomp-broker/examples"),
            "share/doc/seccomp-broker/proof.txt": Link("../../seccomp-broker/proof.txt")}
    tags = ["unstripped-binary-or-object"] if has_symbols(made.program) else []
    names = [build(made, "seccomp-broker", tree, ["python3 (>= 3.8)", *shared_libraries([made.program], None)], folder, tags=tags,
                   Suggests="gcc, libseccomp-broker-dev, python3-seccomp, strace")]
    if not made.library:
        return names
    path = f"{made.library}/lib/{files.SONAME}"
    extra = {"symbols": text(symbols(made, path)), "shlibs": text(f"libseccomp_broker 1 libseccomp-broker1 (>= {since(made)})\n"),
             "triggers": text("activate-noawait ldconfig\n")}
    names.append(build(made, "libseccomp-broker1", files.shared_library(made, LIBDIR), shared_libraries([path], None), folder, extra=extra))
    names.append(build(made, "libseccomp-broker-dev", files.development(made, LIBDIR, "/usr"), [f"libseccomp-broker1 (= {made.debian})"], folder,
                       tags=["unstripped-static-library"] if has_symbols(f"{made.library}/lib/libseccomp_broker.a") else []))
    return names
