"""Starts a playground for a check, and ends it."""
import re
import subprocess
from contextlib import contextmanager

from tools.commands.command_line.top import TOP


@contextmanager
def playground(program):
    """The port of a playground that runs this program, or the one of ./broker."""
    words = [f"{TOP}/tools/commands/playground", "--port", "0", *(["--program", program] if program else [])]
    server = subprocess.Popen(words, stdin=subprocess.DEVNULL, stdout=subprocess.PIPE, stderr=subprocess.DEVNULL, text=True)
    try:
        told = re.match(r"playground: http://127\.0\.0\.1:(\d+)/", server.stdout.readline())
        if told is None:
            raise OSError("tools/commands/playground didn't start")
        yield int(told[1])
    finally:
        server.terminate()
        server.wait()
