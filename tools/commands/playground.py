"""Serves a page on which policies and scripts are tried. `./broker help playground` has its words."""
from __future__ import annotations

import errno
import os
import socket
import sys
import tempfile
from argparse import Namespace
from typing import Dict, List

from tools.commands.command_line.arguments import Parser
from tools.commands.command_line.top import TOP
from tools.commands.pages.runs import Program
from tools.commands.pages.server import Server
from tools.commands.watched import watched


BROKER = f"{TOP}/broker"
HOST, LEAST_PORT, GREATEST_PORT = "127.0.0.1", 1024, 65535
SLOW = "several hundred times slower than the proved program"


def arguments() -> Namespace:
    parser = Parser("playground")
    parser.add_argument("--port", type=int, default=8430, help="the port of 127.0.0.1 (%(default)s)")
    parser.add_argument("--program", default=BROKER, help="the program that is run")
    asked = parser.parse_args()
    if not 0 <= asked.port <= GREATEST_PORT:
        parser.error(f"--port is 0 to {GREATEST_PORT}")
    asked.program = os.path.abspath(asked.program)
    return asked


def text_of(path: str) -> str:
    with open(path, encoding="utf-8") as file:
        return file.read()


def examples() -> Dict[str, List[str]]:
    """Policy and script of each example, by its name."""
    folder = f"{TOP}/examples"
    names = sorted(name for name in os.listdir(folder) if os.path.isfile(f"{folder}/{name}/script.txt"))
    return {name: [text_of(f"{folder}/{name}/policy.json"), text_of(f"{folder}/{name}/script.txt")] for name in names}


def look_at_port(port: int) -> None:
    """Raises an OSError where the port can't be had, before a trial build is made for nothing."""
    with socket.socket() as tried:
        # (as the server does it: a port that was in use a moment ago can be had)
        tried.setsockopt(socket.SOL_SOCKET, socket.SO_REUSEADDR, 1)
        tried.bind((HOST, port))


def why_not(port: int, fault: OSError) -> str:
    """Why the page can't be served, and what to do where the port is the reason."""
    if fault.errno == errno.EADDRINUSE:
        other = port + 1 if port < GREATEST_PORT else port - 1
        return (f"port {port} of {HOST} is taken, perhaps by another playground: see http://{HOST}:{port}/\n"
                f"help: end the program that has it, or take another port: `--port {other}`, or `--port 0` for any one that is free")
    if fault.errno == errno.EACCES and 0 < port < LEAST_PORT:
        return f"port {port} is for root alone\nhelp: take one from {LEAST_PORT} on, as `--port 8430`"
    return str(fault)


def serve(asked: Namespace, room: str) -> int:
    """Serves until it is interrupted; what is run for a page has its files in this folder. Returns the status."""
    tempfile.tempdir = room
    try:
        look_at_port(asked.port)
        print("playground: asking the program what it can do; where a trial build has to be made first, that takes one to two minutes", file=sys.stderr)
        server = Server(asked.port, Program(asked.program, BROKER), examples())
    except OSError as fault:
        print(f"playground: {why_not(asked.port, fault)}", file=sys.stderr)
        return 1
    slow = f", {SLOW}" if server.program.is_slow else ""
    print(f"playground: http://{HOST}:{server.server_port}/ runs {server.program.kind}{slow}", flush=True)
    try:
        server.serve_forever()
    except KeyboardInterrupt:
        pass
    return 0


def main() -> None:
    asked = arguments()
    watched(lambda room: serve(asked, room), "playground-")
