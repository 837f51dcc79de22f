"""A script for each field of the key that the text needs, as small as was found, and the fields that others tell."""
import json
from typing import Dict, List

# these are told by the fields that are left: the key without all of them gives the same text
TOLD = (
    "task has ended", "spawns", "handlers", "owed native call", "last pid", "calls made", "call ids", "call arguments", "call is fetched", "call is settled", "queues", "task groups",
    "sessions in hand", "open memory", "put request", "times spent", "line: calls", "line: installed",
)

NO_RULE: Dict[str, List[dict]] = {"rules": []}
GRANT_ALL = {"rules": [{"name": "g", "call": ["mknod", "mknodat", "setxattr", "mount"], "then": "grant"}]}
GRANT_ONE = {"version": 2, "rules": [{"name": "one", "call": "mknod", "then": "grant", "times": 1}]}
DENY_B = {"rules": [{"name": "no-b", "call": "mknod", "when": {"path": "/b"}, "then": {"deny": "EPERM"}}, {"name": "g", "call": "mknod", "then": "grant"}]}
DENY_BOTH = {"rules": [{"name": "b", "call": "mknod", "when": {"path": "/b"}, "then": {"deny": "EPERM"}}, {"name": "a", "call": "mknod", "then": {"deny": "EPERM"}}]}

# of each field a policy, settings, programs by their names, and the bound
SHOWN = {
    "turn": (GRANT_ONE, "notify mknod", {"a": "call mknod 0x10000 0o020666 259", "main": 'poke 0x10000 "/a"; spawn a; spawn a'}, 3),
    "task names": (NO_RULE, "", {"leaf": "call getpid", "a": "spawn leaf", "main": "spawn a; spawn leaf; kill pid 3 9"}, None),
    "task pids": (NO_RULE, "pidmax 3", {"a": "exit", "d": "call getpid", "main": 'spawn a; spawn a; wait; spawn d; wait; poke 0x10000 "a"; kill pid 2 9'}, None),
    "task was waited for": (NO_RULE, "pidmax 3", {"a": "exit", "d": "call getpid", "main": 'spawn a; spawn a; wait; poke 0x10000 "a"; spawn d; kill pid 2 9'}, None),
    "instruction": (NO_RULE, "notify getpid", {"a": "handler 10 plain; call getpid", "main": "spawn a; kill child 1 10; kill child 1 10"}, None),
    "pending signals": (NO_RULE, "", {"a": "handler 10 restart; call getpid", "main": "spawn a; kill child 1 10; kill child 1 10"}, None),
    "receives": (NO_RULE, "notify getpid", {"a": "handler 10 plain; call getpid", "main": "spawn a; kill child 1 10; kill child 1 10"}, None),
    "call tasks": (GRANT_ONE, "notify mknod", {"a": "call mknod 0x10000 0o020666 259", "main": 'poke 0x10000 "/a"; spawn a; spawn a; poke 0x10000 "a"'}, None),
    "call's answer": (
        GRANT_ALL, "notify setxattr", {"a": "call setxattr 0x1ffff 0x1f000 0 0 0", "main": r'fill 0x1f000 256 97; poke 0x1ffff "a"; thread a; poke 0x1ffff "\0"; poke 0x1ffff "a"'}, None),
    "memory": (
        NO_RULE, "", {"a": 'call mknod 0x10000 0o100644 0; poke 0x10000 "/a"; call mknod 0x10000 0o100644 0', "main": 'poke 0x10000 "/a"; thread a; poke 0x10001 "b"; poke 0x10001 "a"'}, None),
    "descriptors": (
        GRANT_ALL, 'dir "/d"\nnotify mount', {
            "a": "call openat -100 0x10000 0; call mknodat 3 0x10010 0o100644 0; call mknod 0x10020 0o100644 0",
            "main": 'poke 0x10000 "/d"; poke 0x10010 "x"; poke 0x10020 "/d/x"; poke 0x10030 "t"; thread a; call mount 0 0x10000 0x10030 0 0'}, None),
    "attributes": (
        NO_RULE, 'reg "/f"', {
            "a": "call setxattr 0x10000 0x10010 0x10020 0 0; call setxattr 0x10000 0x10010 0x10020 0 1",
            "main": 'poke 0x10000 "/f"; poke 0x10010 "user.a"; thread a; poke 0x10015 "b"; poke 0x10015 "a"'}, None),
    "steps of open sessions": (DENY_B, "notify mknod", {"a": "call mknod 0x10000 0o020666 0", "main": 'poke 0x10000 "/a"; thread a; poke 0x10001 "b"; poke 0x10001 "a"'}, None),
    "open base": (
        GRANT_ALL, 'dir "/d"\nnotify mknodat mknod', {
            "a": "call mknodat 3 0x10010 0o020666 0; call mknod 0x10020 0o020666 0",
            "main": r'poke 0x10000 "/d"; poke 0x10010 "x"; poke 0x10020 "/d/x"; call openat -100 0x10000 0; call openat -100 0x10030 0; thread a; call close 3; poke 0x10000 "/\0"; call openat -100 0x10000 0'}, None),
    "line: outcome": (NO_RULE, "", {"a": "call mknod 0x10000 0o100644 0", "main": 'poke 0x10000 "/a"; spawn a; call mknod 0x10000 0o100644 0'}, None),
    "line: audit": (DENY_BOTH, "notify mknod", {"a": "call mknod 0x10000 0o020666 0", "main": 'poke 0x10000 "/a"; thread a; poke 0x10001 "b"; poke 0x10001 "a"'}, None),
    "line: effect": (GRANT_ALL, "notify mknod", {"a": "call mknod 0x10000 0o020666 0", "main": 'poke 0x10000 "/a"; thread a; thread a; poke 0x10001 "b"'}, None),
    "line: node of effect": (GRANT_ALL, 'dir "/d"\nnotify mount', {"a": "call mount 0 0x10000 0x10000 0 0", "main": 'poke 0x10000 "/d"; spawn a; call mount 0 0x10000 0x10000 0 0'}, None),
}
SHOWN["nodes and mounts"] = SHOWN["memory"]


def shown(field):
    """The policy, the script and the bound that show that a field is needed."""
    policy, settings, programs, bound = SHOWN[field]
    lines = [settings] + [line for name, body in programs.items() for line in (f"prog {name}", *body.split("; "), "end")]
    return json.dumps(policy).encode(), ("\n".join(lines) + "\n").encode(), bound
