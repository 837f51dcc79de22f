"""The trial build of a checkout, which the toolchain makes with checks and without proofs. It is kept in the user's cache.

The folder is `trial-CHECKSUM` in $XDG_CACHE_HOME/seccomp_broker, or in ~/.cache/seccomp_broker. The checksum is that of the sources that are
compiled, of crates.txt, and of where the toolchain's command is and when it was changed. The four builds that were used last are kept.

A build is made twice of the same code. The first program, `checked`, has the address sanitizer and no optimisation, as the toolchain tries programs.
The second one, `optimised`, is compiled of the module that the first one was made of (optimising.py). It is made meanwhile, and used from then on.
"""
from __future__ import annotations

import contextlib
import errno
import fcntl
import glob
import hashlib
import os
import shutil
import signal
import struct
import subprocess
import sys
import time
from typing import Callable, Iterator, List, Optional

from tools.commands.command_line import children, optimising, place
from tools.commands.command_line.optimising import MODULE, OPTIMISED

CHECKED = "checked"
# more than the files of a build have
ROOM = 96 << 20
KEPT = 4
ENDING = (signal.SIGINT, signal.SIGTERM, signal.SIGHUP)


class NotMade(Exception):
    """No trial build can be made; the text says why."""


class NotKept(Exception):
    """A trial build can't be kept; the text says why."""


def say(text: str) -> None:
    print(f"broker: {text}", file=sys.stderr, flush=True)


# ---- where it is kept


def cache() -> str:
    """The folder of the user's builds."""
    home, named = os.environ.get("HOME", ""), os.environ.get("XDG_CACHE_HOME", "")
    if not os.path.isabs(named) and not home:
        raise NotKept("the trial build can't be kept: neither HOME nor XDG_CACHE_HOME names a folder")
    return f"{named if os.path.isabs(named) else f'{home}/.cache'}/seccomp_broker"


def compiled() -> List[str]:
    """The folders with the sources of the crates that the program stands on."""
    below = {}
    with open(f"{place.HOME}/crates.txt", encoding="utf-8") as lines:
        for line in lines:
            head, _, names = line.partition("#")[0].partition(":")
            if head.split():
                below[head.split()[0]] = names.split()
    found, todo = set(), ["seccomp_broker"]
    while todo:
        name = todo.pop()
        if name in below and name not in found:
            found.add(name)
            todo += below[name]
    return [f"crates/{name}/src" for name in found]


def sources() -> List[str]:
    """The files that are compiled, and crates.txt, from the top of the checkout on."""
    found = ["crates.txt"]
    for folder in compiled():
        for at, _, names in os.walk(f"{place.HOME}/{folder}"):
            found += [os.path.relpath(f"{at}/{name}", place.HOME) for name in names]
    return sorted(found)


def folder() -> str:
    """The folder of the build of the sources as they are now, whether or not it is there."""
    checksum, command = hashlib.sha256(), shutil.which("rt")
    if command:
        about = os.stat(command)
        checksum.update(f"{command} {about.st_ino} {about.st_size} {about.st_ctime_ns}\n".encode())
    for name in sources():
        with open(f"{place.HOME}/{name}", "rb") as file:
            checksum.update(f"{hashlib.sha256(file.read()).hexdigest()}  {name}\n".encode())
    return f"{cache()}/trial-{checksum.hexdigest()}"


def is_whole(file: str) -> bool:
    """Whether a file is a program that wasn't cut: its table of sections, which is the last thing in it, is there."""
    try:
        with open(file, "rb") as program:
            head = program.read(64)
            size = os.fstat(program.fileno()).st_size
    except OSError:
        return False
    if len(head) < 64 or head[:5] != b"\x7fELF\x02":
        return False
    (at,), (length, count) = struct.unpack_from("<Q", head, 40), struct.unpack_from("<HH", head, 58)
    return 0 < at and at + length * count <= size


def usable(build: str) -> Optional[str]:
    """The program of a build that is to be run; None where none is there. If one is damaged, that is told, and the build is removed."""
    for file in (f"{build}/{OPTIMISED}", f"{build}/{CHECKED}"):
        if os.access(file, os.X_OK) and os.stat(file).st_uid == os.geteuid():
            if is_whole(file):
                return file
            say(f"{file} is damaged; the build is made again")
            shutil.rmtree(build, ignore_errors=True)
    return None


# ---- how it is made


@contextlib.contextmanager
def locked(where: str) -> Iterator[None]:
    """Keeps other calls from building in the folder."""
    with open(f"{where}/lock", "a") as lock:
        try:
            fcntl.flock(lock, fcntl.LOCK_EX | fcntl.LOCK_NB)
        except BlockingIOError:
            say("another call is making a trial build; waiting for it")
            fcntl.flock(lock, fcntl.LOCK_EX)
        yield


@contextlib.contextmanager
def ended_by_signals() -> Iterator[None]:
    """Has signals end this process by an exception, so that what it has started ends before it."""
    before = {number: signal.signal(number, lambda got, _: sys.exit(128 + got)) for number in ENDING}
    try:
        yield
    finally:
        for number, handler in before.items():
            signal.signal(number, handler)


def keep_module(room: str) -> None:
    """Gives the module a second name, since the toolchain removes its own once it has compiled that. The last one that comes is the program's."""
    kept, linked = f"{room}/{MODULE}", f"{room}/linked-module"
    for path in glob.glob(f"{glob.escape(room)}/*/**/{MODULE}", recursive=True):
        with contextlib.suppress(OSError):
            if not (os.path.exists(kept) and os.path.samefile(path, kept)):
                os.link(path, linked)
                os.rename(linked, kept)


def opened_for_writing(pipe: str, run: subprocess.Popen[bytes], meanwhile: Callable[[], None]) -> Optional[int]:
    """The pipe's end for writing, once somebody reads at the other one; None where the run ends before. `meanwhile` is called again and again until then."""
    while run.poll() is None:
        meanwhile()
        try:
            return os.open(pipe, os.O_WRONLY | os.O_NONBLOCK)
        except OSError as error:
            if error.errno != errno.ENXIO:
                raise
            time.sleep(0.05)
    return None


@contextlib.contextmanager
def waiting_program(room: str) -> Iterator[str]:
    """The file of a trial build whose program waits for its policy. The toolchain removes it as soon as that has ended."""
    pipe, end = f"{room}/policy", None
    os.mkfifo(pipe)
    with open(f"{room}/said", "w+b") as said:
        try:
            run = subprocess.Popen(["rt", "try", "--", "play", pipe, pipe], cwd=f"{place.HOME}/crates/seccomp_broker", env={**os.environ, "TMPDIR": room},
                                   stdin=subprocess.DEVNULL, stdout=subprocess.DEVNULL, stderr=said, preexec_fn=children.end_with_parent)
        except FileNotFoundError:
            raise NotMade("the toolchain's command rt isn't on the PATH") from None
        say("making a trial build, which takes one to two minutes")
        try:
            end = opened_for_writing(pipe, run, lambda: keep_module(room))
            if end is None:
                said.seek(0)
                raise NotMade("no trial build can be made; rt try in crates/seccomp_broker says:\n" + said.read().decode(errors="replace").rstrip())
            found = glob.glob(f"{glob.escape(room)}/**/program", recursive=True)
            if len(found) != 1:
                raise NotKept("the toolchain's file of the trial build isn't found")
            yield found[0]
        finally:
            if end is not None:
                os.close(end)
            run.terminate()
            run.wait()


def runs(program: str) -> bool:
    """Whether a file is a program that answers the usage line where it has no words."""
    return subprocess.run([program], stdin=subprocess.DEVNULL, stdout=subprocess.DEVNULL, stderr=subprocess.DEVNULL).returncode == 1


def make(build: str, room: str) -> None:
    """Makes a build in a room of its own, and keeps it once it is whole and runs."""
    if os.statvfs(room).f_flag & os.ST_NOEXEC:
        raise OSError(errno.EACCES, "no program may run there")
    if os.statvfs(room).f_bavail * os.statvfs(room).f_frsize < ROOM:
        raise OSError(errno.ENOSPC, os.strerror(errno.ENOSPC))
    made = f"{room}/made"
    os.mkdir(made)
    with waiting_program(room) as file:
        shutil.copyfile(file, f"{made}/{CHECKED}")
    if os.path.exists(f"{room}/{MODULE}"):
        os.rename(f"{room}/{MODULE}", f"{made}/{MODULE}")
    os.chmod(f"{made}/{CHECKED}", 0o700)
    if not runs(f"{made}/{CHECKED}"):
        raise NotKept("the copy of the toolchain's file doesn't run")
    if folder() != build:
        raise NotMade("a source changed while the trial build was made; call again")
    shutil.rmtree(build, ignore_errors=True)
    os.rename(made, build)


def remove_old(where: str) -> None:
    """Removes all builds but those that were used last, and what killed builds have left."""
    for path in glob.glob(f"{glob.escape(where)}/room-*"):
        shutil.rmtree(path, ignore_errors=True)
    for path in sorted(glob.glob(f"{glob.escape(where)}/trial-*"), key=os.path.getmtime, reverse=True)[KEPT:]:
        shutil.rmtree(path) if os.path.isdir(path) else os.remove(path)


def keep(build: str) -> None:
    """Makes the build, where no other call makes it meanwhile."""
    # (the calls behind the first one don't need it)
    import tempfile
    where = os.path.dirname(build)
    try:
        os.makedirs(where, mode=0o700, exist_ok=True)
        with ended_by_signals(), locked(where):
            if usable(build) is None:
                remove_old(where)
                with tempfile.TemporaryDirectory(prefix="room-", dir=where) as room:
                    make(build, room)
    except OSError as error:
        raise NotKept(f"the trial build can't be kept in {where}: {error.strerror}") from None


def program() -> str:
    """The path of the program. It is made in one to two minutes where none of these sources is kept. Standard error says which it is."""
    build = folder()
    file = usable(build)
    if file is None:
        keep(build)
        file = f"{build}/{CHECKED}"
    # (the time tells which builds were used last)
    with contextlib.suppress(OSError):
        os.utime(build)
    if optimising.begin(build):
        say("an optimised build is made meanwhile, and used once it is ready")
    elif optimising.is_news(build):
        say("an optimised build is ready, and is used from now on")
    say(f"this build isn't proved{' nor optimised' if file.endswith(CHECKED) else ''}; ./broker --prove proves and builds the program")
    return file
