"""What the names of differences between a trace and a play stand for."""
from __future__ import annotations

import json
import os

KNOWN = f"{os.path.dirname(os.path.dirname(os.path.realpath(__file__)))}/linux_stage/differences.json"

# what each name stands for. Names without a text are those of known differences from Linux.
CLASSES = {
    "filter": "A filter of the script ends or fails the call. The traced program had none, or another.",
    "denied": "The policy denies the call.",
    "injected": "The policy puts a descriptor of the broker.",
    "granted": "The policy grants a call that the traced program had no right to make, or that Linux refused.",
    "no-rights": "The traced program had rights. In the play a call that isn't granted runs without any.",
    "openat-only-walks": "In the play openat walks its path and takes a number. It heeds no flag but close-on-exec, makes no file, and asks no device, FIFO or socket.",
    "after-another": "It follows from an earlier call with another answer: a file that it made or opened is missing here, or there.",
    "behind-a-mount": "The path leads into a mount that the play made. A trace doesn't tell the files of the mounted file system.",
    "made-meanwhile": "The trace shows the path both there and missing, since a call that a script doesn't have made or removed it. In the play it is there from the start, or isn't there at all.",
    "renamed": "The path was renamed meanwhile. In the play it has one name from the start.",
    "bind-mount": "The trace covers the path by a bind mount, which a script doesn't have.",
    "mounted-meanwhile": "The trace covers the path by a mount that a script leaves out, since a user namespace may make it.",
    "unmounted": "The trace unmounts what covers the path. In the play nothing is unmounted.",
    "links": "The path leads through a link. In the play it leads to the place that its names give.",
    "begins-elsewhere": "The path begins at a working directory or a root of its own. In the play it begins at the container's root.",
    "text-not-told": "strace printed an address in place of a text that Linux read. In the play nothing is mapped there.",
    "no-room": "The path has no room in the script's tree.",
    "no-free-descriptor": "The traced process had no number left for a descriptor. In the play it has.",
    "ended-meanwhile": "The traced process ended in the call, so nobody saw an answer.",
    "not-entered": "The task never reaches the call: an earlier one ended it or still waits, or the schedule ends before.",
    "owners-and-modes": "", "whiteout-device": "", "native-mount": "", "mount-without-type": "", "mount-data": "", "setxattr-order": "",
    "attribute-names": "", "attribute-size": "", "attribute-values": "", "attribute-without-rights": "", "dirfd-not-a-directory": "",
    "openat-full-table": "", "mknod-kind-first": "", "trailing-slash": "", "mount-options": "", "mount-source": "", "mount-flags": "",
}


def text_of_class(name: str) -> str:
    """What a name stands for. Known differences from Linux are told where their list is."""
    if CLASSES.get(name):
        return CLASSES[name]
    if os.path.exists(KNOWN):
        with open(KNOWN, encoding="utf-8") as file:
            found = next((it for it in json.load(file) if it["name"] == name), None)
        if found:
            return f"{found['what']}. On Linux: {found['linux']} Here: {found['here']}"
    return "A known difference from Linux." if name in CLASSES else "It has no name yet."
