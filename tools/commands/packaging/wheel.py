"""The Python wheel: the module with the shared library in it, and the module for a broker of one's own, which asks the program."""
from __future__ import annotations

import base64
import hashlib
import io
import time as clock
import zipfile
from typing import Any, Dict

from tools.commands.packaging.files import SONAME, stripped
from tools.commands.packaging.made import TOP, Made, proof_text
from tools.commands.packaging.tree import File, read, text

# the library is of x86-64 Linux, and any Python loads it by ctypes
TAG = "py3-none-linux_x86_64"
METADATA = """Metadata-Version: 2.1
Name: seccomp-broker
Version: {version}
Summary: A simulator of a broker for seccomp user notifications, for tests of policies
Requires-Python: >=3.8
Platform: linux_x86_64
Description-Content-Type: text/plain

play(policy, script) plays a script under a policy and gives its report, hand_over() also the ledgers of workers that are replaced,
check() what is found of a report, and explore() what can come of a script. The module seccomp_step lets a broker of one's own serve a
script's container; it asks the program, which is seccomp-broker on the PATH, or what the variable SECCOMP_BROKER names. The documents of
seccomp-broker say what policies and scripts are.
"""
WHEEL = "Wheel-Version: 1.0\nGenerator: seccomp-broker\nRoot-Is-Purelib: false\nTag: {tag}\n"


def name(made: Made) -> str:
    return f"seccomp_broker-{made.wheel}-{TAG}.whl"


def files(made: Made) -> Dict[str, Any]:
    info = f"seccomp_broker-{made.wheel}.dist-info"
    found = {"seccomp_broker/__init__.py": read(f"{TOP}/examples/python/seccomp_broker.py"),
             "seccomp_broker/libseccomp_broker.so": stripped(f"{made.library}/lib/{SONAME}"), "seccomp_broker/proof.txt": text(proof_text(made)),
             "seccomp_step.py": read(f"{TOP}/examples/python/seccomp_step.py"),
             f"{info}/METADATA": text(METADATA.format(version=made.wheel)), f"{info}/WHEEL": text(WHEEL.format(tag=TAG)),
             f"{info}/top_level.txt": text("seccomp_broker\nseccomp_step\n")}
    digests = {path: base64.urlsafe_b64encode(hashlib.sha256(entry.data).digest()).decode().rstrip("=") for path, entry in found.items()}
    record = "".join(f"{path},sha256={digest},{len(found[path].data)}\n" for path, digest in digests.items())
    return {**found, f"{info}/RECORD": text(f"{record}{info}/RECORD,,\n")}


def data(made: Made) -> bytes:
    """The bytes of the wheel."""
    # (a zip archive has no time before 1980)
    date = clock.gmtime(max(made.time, 315_532_800))[:6]
    whole = io.BytesIO()
    with zipfile.ZipFile(whole, "w", zipfile.ZIP_DEFLATED, compresslevel=9) as archive:
        for path, entry in files(made).items():
            told = zipfile.ZipInfo(path, date)
            told.compress_type, told.external_attr, told.create_system = zipfile.ZIP_DEFLATED, (0o100000 | 0o644) << 16, 3
            archive.writestr(told, entry.data)
    return File(whole.getvalue()).data
