"""Makes the packages of the program that ./broker runs, and tries them as their users have them: tools/checks/check-package

Each that is made twice has to have the same bytes. Then lintian, mandoc and shellcheck look at them; the tarball is tried in a folder with a
space in its name by a user without rights, the wheel in an environment of its own, the Go module by a module that replaces it, and the Debian
packages in a fresh minimal root, from which they are removed again. What the machine lacks isn't tried, and that is told. The root is made once, of the mirror
that apt knows, and kept in ~/.cache/seccomp_broker.

Exit status: 0 where nothing failed, else 1. The last line is `package: N passed, N failed`, with what wasn't tried.
"""
from __future__ import annotations

import filecmp
import glob
import gzip
import json
import os
import re
import shutil
import subprocess
import sys
import tempfile
import time
from typing import Any, Callable, Dict, Iterator, Optional

from tools.commands.command_line import arguments, place, table
from tools.commands.command_line.top import TOP
from tools.commands.packaging import minimal_root
from tools.commands.packaging.trials import NOBODY, Ended, Trials, plain_environment, python

MOST_BYTES = 3_000_000
MOST_SECONDS = 10
PATH = "/usr/local/sbin:/usr/local/bin:/usr/sbin:/usr/bin:/sbin:/bin"
FIRST = "examples/first"
CALL = 'mknod "/null" chr 1:3'
# each ends with the one word that may stand for 'a' in place of a number of delays
IN_BASH = """. "$1" && complete -p seccomp-broker
COMP_WORDS=(seccomp-broker explore a b 1 a) COMP_CWORD=5
_seccomp_broker 2>/dev/null
echo "${COMPREPLY[*]}"
"""
# (zsh offers words in a terminal alone, so it only says that it has read the file whole)
IN_ZSH = """fpath=("$1" $fpath)
autoload -Uz compinit && compinit -D -u && [ "$_comps[seccomp-broker]" = _seccomp-broker ] && autoload +X _seccomp-broker && echo all
"""
COMPILE = "eval cc -std=c11 -Wall -Wextra -Werror -o '\"$2/policy_test\"' '\"$1/c/policy_test.c\"' \"$(pkg-config --cflags --libs seccomp_broker)\" && \"$2/policy_test\""


def text_of(path: str) -> str:
    with open(path, encoding="utf-8") as file:
        return file.read()


def made(trials, room):
    """The packages in a folder, after they were made twice."""
    for name in ("once", "again"):
        ended = Ended([f"{TOP}/tools/commands/package", f"{room}/{name}"])
        if not trials.check("tools/commands/package", ended.status == 0, ended):
            return None
    print(ended.said, end="", file=sys.stderr)
    for name in sorted(os.listdir(f"{room}/once")):
        trials.check(f"{name} has the same bytes twice", filecmp.cmp(f"{room}/once/{name}", f"{room}/again/{name}", shallow=False))
    for path in glob.glob(f"{room}/once/*"):
        size = os.path.getsize(path)
        print(f"package: {os.path.basename(path)}: {size} bytes", flush=True)
        # (a trial build has checks in it that take several megabytes)
        trials.check(f"{path} has less than {MOST_BYTES} bytes", size < MOST_BYTES or "unproved" in path, size)
    return f"{room}/once"


def one(folder: str, pattern: str) -> Optional[str]:
    return next(iter(sorted(glob.glob(f"{folder}/{pattern}"))), None)


def looked_through(trials: Trials, folder: str) -> None:
    """What Debian's and others' tools say of the packages, the man pages and the scripts."""
    packages = sorted(glob.glob(f"{folder}/*.deb"))
    if packages and trials.has("lintian", "lintian"):
        ended = Ended(["lintian", "--allow-root", *packages])
        # (what else it says changes from one of its versions to the next)
        print("".join(f"package: lintian: {line}\n" for line in re.findall(r"^W:.*", ended.out, re.M)), end="")
        trials.check("lintian finds no error", not re.search(r"^E:", ended.out, re.M) and (ended.status == 0 or ended.out), ended)
    if trials.has("shellcheck", "shellcheck"):
        ended = Ended(["shellcheck", *shell_scripts()])
        trials.check("shellcheck of all shell scripts", ended.status == 0, ended)


def shell_scripts() -> Iterator[str]:
    """The repository's scripts for sh and bash, by their first lines."""
    for folder in (".ci", "bench", "cases", "examples", "tools"):
        for at, _, names in os.walk(f"{TOP}/{folder}"):
            for path in (f"{at}/{name}" for name in names):
                with open(path, "rb") as file:
                    if re.match(rb"#!.*[/ ](ba)?sh\b", file.readline(64)):
                        yield path


# a tag or a text of a list that isn't there, and a head without its text
EMPTY_PAIR = re.compile(r"^\.TP\n(?:\\&)?\n|^\.TP\n.*\n(?:\\&\n|\.)|^\w[\w ]*: *\n\.(?:br|RE)\n", re.M)


def pages_looked_through(trials, prefix):
    """The man pages below a prefix, by mandoc and man."""
    pages = sorted(glob.glob(f"{glob.escape(prefix)}/share/man/man*/*.gz"))
    with tempfile.TemporaryDirectory() as room:
        for page in pages:
            with gzip.open(page) as file, open(f"{room}/{os.path.basename(page)[:-3]}", "wb") as plain:
                plain.write(file.read())
        for page in sorted(glob.glob(f"{room}/*")):
            with open(page, encoding="utf-8") as file:
                found = EMPTY_PAIR.search(file.read())
            trials.check(f"{os.path.basename(page)} has no empty pair", found is None, found)
        if trials.has("mandoc -T lint", "mandoc"):
            ended = Ended(["mandoc", "-T", "lint", *sorted(glob.glob(f"{room}/*"))])
            trials.check("mandoc has nothing to say", ended.status == 0 and not ended.out, ended)
        if trials.has("man", "man"):
            for page in sorted(glob.glob(f"{room}/*")):
                ended = Ended(["man", "--warnings", "-l", page], environment={**os.environ, "MAN_KEEP_FORMATTING": "", "MANWIDTH": "100"})
                trials.check(f"man shows {os.path.basename(page)} without a warning", ended.status == 0 and not ended.said and len(ended.out) > 500, ended)


def completions_tried(trials, prefix):
    """Each shell that is there reads its completion and has words to offer."""
    share = f"{prefix}/share"
    tries = {
        "bash": ["bash", "-c", IN_BASH, "bash", f"{share}/bash-completion/completions/seccomp-broker"],
        "zsh": ["zsh", "-fc", IN_ZSH, "zsh", f"{share}/zsh/vendor-completions"],
        "fish": ["fish", "-c", 'source $argv[1]; complete -C "seccomp-broker explore a b 1 a"', f"{share}/fish/vendor_completions.d/seccomp-broker.fish"],
    }
    for shell, words in tries.items():
        if trials.has(f"the completion of {shell}", shell):
            ended = Ended(words, environment=plain_environment(PATH, HOME="/tmp"))
            trials.check(f"the completion of {shell}", ended.status == 0 and ended.out.rstrip().endswith("all"), ended)


def snapshot(folder):
    """Every file and folder below a folder."""
    return {os.path.relpath(f"{at}/{name}", folder) for at, folders, names in os.walk(folder) for name in [*folders, *names]}


def command_tried(trials: Trials, run: Callable[..., Any], share: str, name: str) -> None:
    """The command does what it is for. `run` runs it with words, and `share` is where the files are that come with it."""
    policy, script = f"{share}/{FIRST}/policy.json", f"{share}/{FIRST}/script.txt"
    report = run("play", policy, script)
    trials.check(f"{name}: the first report", report.status == 0 and report.out == text_of(f"{TOP}/{FIRST}/report.txt"), report)
    explored = run("explore", policy, script, "0", "1")
    trials.check(f"{name}: explore", explored.status == 0 and explored.out.startswith("explored workers=0 delays=1 histories="), explored)
    asked = run("step", policy, script, data=b"able\n")
    trials.check(f"{name}: step", asked.status == 0 and asked.out == "able 0\n", asked)
    explained = run("explain", policy, "/dev/stdin", data=CALL.encode())
    trials.check(f"{name}: explain", explained.status == 0 and explained.out.startswith(f"1 {CALL} rule=lxd.mknod.1:3 verdict=grant\n"), explained)
    document = run("json", "play", policy, script)
    trials.check(f"{name}: json", document.status == 0 and json.loads(document.out)["summary"]["events"] == 15, document)
    picture = run("picture", data=report.out.encode())
    trials.check(f"{name}: picture", picture.status == 0 and "</html>" in picture.out, picture)
    refused = run("picture", data=b"no report\n")
    trials.check(f"{name}: picture refuses a text that is no report", refused.status == 1 and refused.said.startswith("picture: "), refused)
    refused = run("play", policy, policy)
    trials.check(f"{name}: a status of the program", refused.status == 5 and "script: line 1: " in refused.said, refused)
    listed = run("help")
    trials.check(f"{name}: help lists the words", listed.status == 0 and all(f"\n  {it} " in listed.out for it in table.names(table.read())), listed)
    for word in table.names(table.read()):
        page = run("help", word)
        trials.check(f"{name}: help {word}", page.status == 0 and "{" not in page.out and "./broker" not in page.out, page)
    unknown = run("plya", policy, script)
    trials.check(f"{name}: an unknown word names the nearest one", unknown.status == 1 and "'play'" in unknown.said, unknown)
    version = run("--version")
    known = version.out.splitlines()
    wanted = [f"seccomp-broker {stated_version()}", f"proved: {stated_proof()}"]
    trials.check(f"{name}: --version", version.status == 0 and known[:2] == wanted and "\ncommit: " in version.out, version)


def stated_proof() -> str:
    """Whether what is packaged is proved, as --version says it."""
    return "yes" if place.said_by(f"{TOP}/tools/commands/program") == f"{TOP}/crates/seccomp_broker/out/seccomp_broker" else "no: this is a trial build"


def stated_version() -> str:
    return text_of(f"{TOP}/VERSION").strip() + ("" if stated_proof() == "yes" else "-unproved")


def bytecode_tried(trials, top, environment, user, room):
    """The bytecode of the tools is kept in its user's cache, and used; not in a folder that others can write."""
    own, others = f"{room}/cache of its user", f"{room}/cache of all"
    for folder, mode in ((own, 0o700), (others, 0o777)):
        os.mkdir(folder)
        os.chmod(folder, mode)
        if user is not None:
            os.chown(folder, user, user)
    words = [f"{top}/bin/seccomp-broker", "test", "--show", f"{top}/share/seccomp-broker/examples/tests/container.test"]
    ended = [Ended(words, environment={**environment, "XDG_CACHE_HOME": folder}, user=user) for folder in (own, own, others)]
    trials.check("the tarball: a tool with its bytecode kept", all(it.status == 0 and it.out == ended[0].out for it in ended), ended[0])
    kept = [it for it in snapshot(own) if it.endswith(".pyc")]
    trials.check("the tarball: the bytecode of its tools alone is kept", kept and all("/lib/seccomp-broker/tools/" in it for it in kept), sorted(kept)[:5])
    trials.check("the tarball: no bytecode is kept where others can write", not any(it.endswith(".pyc") for it in snapshot(others)))


def playground_tried(trials, words, environment, user, name):
    """The playground beside the command finds the program and the examples."""
    with subprocess.Popen([*words, "playground", "--port", "0"], env=environment, user=user, stdout=subprocess.PIPE, stderr=subprocess.DEVNULL, universal_newlines=True) as server:
        line = server.stdout.readline()
        server.terminate()
    kind = "the proved program" if stated_proof() == "yes" else "a trial build"
    trials.check(f"{name}: playground", line.startswith("playground: http://127.0.0.1:") and kind in line, line)


def users_path() -> str:
    """The system's path, and Python's folder where that isn't on it."""
    return PATH if shutil.which("python3", path=PATH) else f"{os.path.dirname(sys.executable)}:{PATH}"


def tarball_tried(trials, folder, room):
    """The tarball, in a folder with a space in its name, by a user without rights."""
    archive = one(folder, "seccomp-broker-*.tar.gz")
    place_of = f"{room}/a folder"
    os.mkdir(place_of)
    subprocess.run(["tar", "-C", place_of, "-xf", archive], check=True)
    top = one(glob.escape(place_of), "*")
    path, user = users_path(), NOBODY if os.geteuid() == 0 else None
    environment = plain_environment(path)
    if user is not None and Ended(["python3", f"{top}/bin/seccomp-broker", "help"], environment=environment, user=user).status != 0:
        trials.not_tried("a user without rights", f"it can't use Python or {room}")
        user = None
    before = snapshot(top)

    def run(*words: str, data: Optional[bytes] = None) -> Ended:
        return Ended([f"{top}/bin/seccomp-broker", *words], folder="/", environment=environment, user=user, data=data)

    command_tried(trials, run, f"{top}/share/seccomp-broker", "the tarball")
    if sys.version_info >= (3, 9):
        playground_tried(trials, [f"{top}/bin/seccomp-broker"], environment, user, "the tarball")
    bytecode_tried(trials, top, environment, user, room)
    ended = Ended([f"{top}/share/seccomp-broker/examples/ci/test-policies", f"{top}/share/seccomp-broker/{FIRST}"], environment=plain_environment(f"{top}/bin:{path}"), user=user)
    trials.check("the tarball: a job that compares reports", ended.status == 0 and ended.out.startswith("passed: "), ended)
    ended = run("test", f"{top}/share/seccomp-broker/examples/tests/container.test")
    trials.check("the tarball: a job that tests policies", ended.status == 0 and ended.out.endswith(" passed, 0 failed\n"), ended)
    own_broker_tried(trials, top, room)
    trials.check("the tarball: proof.txt", stated_version() in text_of(f"{top}/share/seccomp-broker/proof.txt"))
    trials.check("the tarball: nothing is written beside it", snapshot(top) == before, snapshot(top) ^ before)
    pages_looked_through(trials, top)
    completions_tried(trials, top)
    if os.path.isdir(f"{top}/lib/pkgconfig"):
        c_program_tried(trials, top, room)
    return top


def own_broker_tried(trials, top, room):
    """The brokers of the examples in C and Python over the tarball's program, in a copy of what stands with them."""
    copy = f"{room}/own"
    shutil.copytree(f"{top}/share/seccomp-broker", copy)
    environment = plain_environment(f"{top}/bin:{users_path()}")
    if trials.has("a broker in C over the tarball", "cc", "make"):
        ended = Ended(["make", "-s", "test-step"], folder=f"{copy}/examples/c", environment=environment)
        trials.check("a broker in C over the tarball", ended.status == 0, ended)
        as_it_is_tried(trials, room, environment)
    ended = Ended(["python3", "-B", "-m", "unittest", "-q", "step_broker_test"], folder=f"{copy}/examples/python", environment=environment)
    trials.check("a broker in Python over the tarball", ended.status == 0 and "OK" in ended.said, ended)


def as_it_is_tried(trials: Trials, room: str, environment: Dict[str, str]) -> None:
    """A broker as it is, which is explored with the library that the tarball's command makes."""
    made = Ended(["seccomp-broker", "make-shim", f"{room}/shim.so"], environment=environment)
    built = Ended(["cc", "-o", f"{room}/agent", f"{TOP}/tests/brokers/agents/agent.c"], environment=environment)
    trials.check("the tarball: make-shim", made.status == built.status == 0 and made.out == f"{room}/shim.so\n", f"{made}{built}")
    words = [f"{TOP}/tests/brokers/policy.json", f"{TOP}/tests/brokers/scripts/reused.txt", "0", "--no-program", "--jobs", "1", "--shim", f"{room}/shim.so", "--", f"{room}/agent"]
    explored = Ended(["seccomp-broker", "explore-broker", *words], environment=environment)
    trials.check("the tarball: a broker as it is", explored.status == 0, explored)


def c_program_tried(trials, top, room):
    if trials.has("a C program over the tarball", "cc", "pkg-config"):
        environment = plain_environment(f"{top}/bin:{users_path()}", PKG_CONFIG_PATH=f"{top}/lib/pkgconfig", LD_LIBRARY_PATH=f"{top}/lib")
        ended = Ended(["sh", "-c", COMPILE, "sh", f"{top}/share/seccomp-broker/examples", room], environment=environment)
        trials.check("a C program over the tarball, by pkg-config", ended.status == 0, ended)


def wheel_tried(trials, folder, room, top):
    """The wheel in an environment of its own, by the tests of the example."""
    wheel = one(folder, "*.whl")
    if wheel is None:
        return trials.not_tried("the wheel", "the library's archive isn't there")
    ended = Ended([python(), "-m", "venv", f"{room}/environment"])
    if ended.status != 0:
        return trials.not_tried("the wheel", "Python's module venv doesn't work here")
    ended = Ended([f"{room}/environment/bin/pip", "install", "--no-index", "--no-deps", "--quiet", "--disable-pip-version-check", wheel])
    trials.check("pip installs the wheel", ended.status == 0, ended)
    os.mkdir(f"{room}/tests")
    shutil.copy(f"{TOP}/examples/python/test_policy.py", f"{room}/tests")
    ended = Ended([f"{room}/environment/bin/python", "-B", "-m", "unittest", "-q"], folder=f"{room}/tests", environment=plain_environment(f"{top}/bin:{users_path()}"))
    trials.check("a test in Python by the wheel", ended.status == 0 and "OK" in ended.said, ended)
    asks = f"from seccomp_step import Kernel; print(*Kernel('{top}/share/seccomp-broker/{FIRST}/policy.json', '{top}/share/seccomp-broker/{FIRST}/script.txt').able())"
    ended = Ended([f"{room}/environment/bin/python", "-B", "-c", asks], environment=plain_environment(f"{top}/bin:{users_path()}"))
    trials.check("a broker in Python by the wheel", ended.status == 0 and ended.out == "0\n", ended)
    ended = Ended([f"{room}/environment/bin/pip", "uninstall", "--yes", "--quiet", "--disable-pip-version-check", "seccomp-broker"])
    trials.check("the wheel is removed whole", ended.status == 0 and not glob.glob(f"{room}/environment/lib/python3*/site-packages/seccomp_broker*"), ended)
    return None


def go_tried(trials, folder, room, top):
    """The Go module, by a module that replaces it."""
    archive = one(folder, "seccompbroker-*.tar.gz")
    if archive is None:
        return trials.not_tried("the Go module", "the library's archive isn't there")
    if not trials.has("the Go module", "go", "cc"):
        return None
    subprocess.run(["tar", "-C", room, "-xf", archive], check=True)
    module = one(room, "seccompbroker-*")
    os.mkdir(f"{room}/user")
    with open(f"{room}/user/go.mod", "w") as file:
        file.write(f"module user\n\ngo 1.19\n\nrequire seccompbroker v0.0.0\n\nreplace seccompbroker => {module}\n")
    test = text_of(f"{module}/policy_test.go").replace("package seccompbroker", "package user", 1)
    with open(f"{room}/user/policy_test.go", "w") as file:
        file.write(re.sub(r"^import \(\n", 'import (\n\t. "seccompbroker"\n', test, count=1, flags=re.M))
    path = f"{top}/bin:{os.path.dirname(shutil.which('go'))}:{users_path()}"
    cache = os.environ.get("GOCACHE", f"{os.path.expanduser('~')}/.cache/go-build")
    environment = plain_environment(path, HOME=room, GOPROXY="off", GOFLAGS="-modcacherw", GOCACHE=cache)
    for name, where, verb in (("the Go module's packages", module, "build"), ("the Go module's own test", module, "test"), ("a test in Go that replaces the module", f"{room}/user", "test")):
        ended = Ended(["go", verb, "./..."], folder=where, environment=environment)
        trials.check(name, ended.status == 0, ended)
    return None


IN_ROOT = r"""set -e
cd /tmp/tried
begun=$(date +%s%N)
dpkg -i ./*.deb >/dev/null
seccomp-broker play /usr/share/seccomp-broker/examples/first/policy.json /usr/share/seccomp-broker/examples/first/script.txt >report.txt 2>/dev/null
echo "milliseconds=$((($(date +%s%N) - begun) / 1000000))"
cmp report.txt /usr/share/seccomp-broker/examples/first/report.txt
seccomp-broker explore /usr/share/seccomp-broker/examples/first/policy.json /usr/share/seccomp-broker/examples/first/script.txt 0 1 2>/dev/null | grep -q '^explored workers=0 delays=1 histories='
seccomp-broker picture report.txt -o picture.html
grep -q '</html>' picture.html
seccomp-broker test /usr/share/seccomp-broker/examples/tests/container.test 2>/dev/null | tail -n 1 | grep -q ' passed, 0 failed$'
seccomp-broker help >/dev/null
seccomp-broker --version
echo able | seccomp-broker step /usr/share/seccomp-broker/examples/first/policy.json /usr/share/seccomp-broker/examples/first/script.txt 2>/dev/null | grep -qx 'able 0'
for page in 1:seccomp-broker 5:seccomp-broker-policy 5:seccomp-broker-script 5:seccomp-broker-report 5:seccomp-broker-outputs 5:seccomp-broker-step 5:seccomp-broker-test 3:seccomp_step; do
  man "${page%%:*}" "${page#*:}" >shown.txt 2>said.txt
  test -s shown.txt
  test ! -s said.txt
done
bash -c '. /usr/share/bash-completion/completions/seccomp-broker && complete -p seccomp-broker' >/dev/null
/usr/share/seccomp-broker/examples/ci/test-policies /usr/share/seccomp-broker/examples/first /usr/share/seccomp-broker/examples/denied 2>/dev/null | grep -c '^passed: ' | grep -qx 2
if [ -e /usr/include/seccomp_broker.h ]; then
  cp -r /usr/share/seccomp-broker/examples/c program
  make -s -C program test >/dev/null
  (cd /usr/share/seccomp-broker/examples/python && python3 -B -m unittest -q 2>/dev/null)
  man 3 seccomp_broker >/dev/null
  echo library=yes
fi
dpkg -P $(dpkg-query -W -f '${Package} ' '*seccomp-broker*') >/dev/null 2>/tmp/tried/said
echo removed=yes
"""
# what changes by any package that is installed and removed
ALWAYS = ("var/lib/dpkg", "var/log", "var/cache", "tmp", "etc/ld.so.cache", "root")


def into(root):
    """The words before a command that runs in the root: with /proc in it, where this may mount there, in a namespace that ends with it."""
    may_mount = Ended(["unshare", "--mount", "mount", "--bind", "/proc", f"{root}/proc"]).status == 0 if shutil.which("unshare") else False
    return ["unshare", "--mount", "sh", "-c", 'mount --bind /proc "$1/proc" && exec chroot "$@"', "sh", root] if may_mount else ["chroot", root]


def root_tried(trials, folder):
    """The Debian packages in a fresh minimal root, in which nothing is left of them in the end."""
    packages = glob.glob(f"{folder}/*.deb")
    if not packages:
        return trials.not_tried("the fresh minimal root", "dpkg-deb isn't there, which makes the packages")
    with tempfile.TemporaryDirectory(prefix="check-package-root-") as root:
        os.chmod(root, 0o755)
        try:
            begun = time.monotonic()
            suite = minimal_root.unpacked(root)
            usable = Ended([*into(root), "sh", "-c", "echo >/dev/null && python3 -c pass"], environment=plain_environment(PATH))
            if usable.status != 0:
                raise minimal_root.NotReached(f"nothing runs in it: {usable.said.strip()}")
        except (minimal_root.NotReached, subprocess.CalledProcessError) as fault:
            return trials.not_tried("the fresh minimal root", fault)
        print(f"package: a minimal root of {suite} was there after {time.monotonic() - begun:.0f} s", flush=True)
        before = {it for it in snapshot(root) if not it.startswith(ALWAYS)}
        os.mkdir(f"{root}/tmp/tried")
        for package in packages:
            shutil.copy(package, f"{root}/tmp/tried")
        ended = Ended([*into(root), "sh", "-c", IN_ROOT], environment=plain_environment(PATH, HOME="/root", MANWIDTH="100", DEBIAN_FRONTEND="noninteractive"))
        what = "the fresh minimal root: install, first report, explore, picture, man, completion, C program, removal"
        trials.check(what, ended.status == 0 and "removed=yes" in ended.out, ended)
        told = dict(re.findall(r"^(\w+)=(\w+)$", ended.out, re.M))
        seconds = int(told.get("milliseconds", 0)) / 1000
        print(f"package: from the packages to the first report in the root: {seconds:.1f} s")
        trials.check(f"the first report within {MOST_SECONDS} seconds", 0 < seconds < MOST_SECONDS, seconds)
        after = {it for it in snapshot(root) if not it.startswith(ALWAYS)}
        trials.check("the fresh minimal root: removal leaves nothing", after == before, sorted(after ^ before)[:20])
        # (what is kept for a user is that user's, as the cache of any program is)
        left = [it for it in snapshot(f"{root}/root/.cache") if not it.startswith("seccomp_broker")] if os.path.isdir(f"{root}/root/.cache") else []
        trials.check("the fresh minimal root: a user's cache has one folder of it", not left, left[:20])
    return None


def checkout_tried(trials, top, room):
    """A checkout without the toolchain runs the installed program of its own sources, and says so; not one of others."""
    if shutil.which("rt", path="/usr/bin:/bin"):
        return trials.not_tried("a checkout without the toolchain", "the toolchain is in /usr/bin")
    copy = f"{room}/checkout"
    shutil.copytree(TOP, copy, symlinks=True, ignore=shutil.ignore_patterns("out", ".git", "dist", "packages", "cases", "bench"))
    environment = plain_environment(f"{top}/bin:/usr/bin:/bin", XDG_CACHE_HOME=f"{room}/cache")
    words = [f"{copy}/broker", "play", f"{copy}/{FIRST}/policy.json", f"{copy}/{FIRST}/script.txt"]
    ended = Ended(words, environment=environment)
    trials.check("a checkout without the toolchain runs the installed program", ended.status == 0 and "is of these sources, and is used" in ended.said, ended)
    with open(f"{copy}/crates.txt", "a") as file:
        file.write("# changed\n")
    ended = Ended(words, environment=environment)
    trials.check("a checkout without the toolchain doesn't run a program of other sources", ended.status == 1 and "is of other sources" in ended.said, ended)
    return None


def main() -> int:
    arguments.none()
    trials = Trials()
    with tempfile.TemporaryDirectory(prefix="check-package-") as room:
        os.chmod(room, 0o755)
        folder = made(trials, room)
        if folder is None:
            return trials.told()
        looked_through(trials, folder)
        top = tarball_tried(trials, folder, room)
        wheel_tried(trials, folder, room, top)
        go_tried(trials, folder, room, top)
        checkout_tried(trials, top, room)
        root_tried(trials, folder)
    return trials.told()
