"""A process that stands in for a task or a worker: its mailbox, what it is seen to do, and the steps that it is let take."""
from __future__ import annotations

import ctypes
import os
import select
import struct
import subprocess
import time
from enum import IntEnum
from typing import NamedTuple, Optional

from tools.commands.linux_stage import machine
from tools.commands.linux_stage.machine import Stop

SOURCE = f"{os.path.dirname(os.path.realpath(__file__))}/stand_in.c"
FLAGS = ("-O1 -static -nostdlib -ffreestanding -fno-stack-protector -fcf-protection=none -fno-pie -no-pie -mno-sse "
         "-Wl,-Ttext-segment=0x60000000 -Wl,--build-id=none -z noexecstack -Wall -Wextra").split()
MAILBOX, SLOTS, FIRST_WORKER = 0x40000, 312, 280
MAILBOXES = 0x200000000000
# within a mailbox
RESULT, ARGUMENTS, LOG, ADDRESSES, TEXTS = 24, 32, 96, 1632, 4096
# where longer texts go, one behind the other
SECOND_TEXT, THIRD_TEXT = 12288, 20480
RUNS = "0"  # what the kernel says of a process that waits in none of its functions


class Order(IntEnum):
    SCRIPT_CALL = 1
    OWN_CALL = 2
    STORE = 3
    START = 4
    HANDLE = 5


class Handled(NamedTuple):
    """What a handler found: the signal, the next instruction, and the value of the call that was interrupted."""

    signal: int
    instruction: int
    value: int


class Addresses(NamedTuple):
    own_call_after: int
    script_call_at: int
    script_call_after: int


def build(room: str) -> str:
    """Compiles the program of the stand-ins into the folder."""
    program = f"{room}/stand_in"
    subprocess.run(["cc", *FLAGS, "-o", program, SOURCE], check=True)
    return program


class StandIn:
    def __init__(self, boxes, address, slot, name):
        """`boxes` is the memory of all mailboxes, which stands at `address` in this process."""
        self.boxes, self.address, self.slot, self.name = boxes, address, slot, name
        self.at = slot * MAILBOX
        self.words = (ctypes.c_uint32 * 6).from_buffer(boxes, self.at)
        self.pid = self.number = None
        self.dead = False

    # ---- the mailbox: orders, done, order, handled, released, hold

    def order(self, order: Order, *arguments: int) -> None:
        padded = [argument & (2**64 - 1) for argument in [*arguments, *[0] * 8][:8]]
        struct.pack_into("<8Q", self.boxes, self.at + ARGUMENTS, *padded)
        self.words[2] = order
        self.words[0] += 1
        self.wake(0)

    def wake(self, word: int) -> None:
        machine.libc.syscall(machine.FUTEX, ctypes.c_void_p(self.address + self.at + word), 1, 1000, None, None, 0)

    def result(self) -> int:
        return struct.unpack_from("<q", self.boxes, self.at + RESULT)[0]

    def put(self, data: bytes, at: int = TEXTS) -> int:
        """Puts bytes into the mailbox, and gives their address in the stand-in."""
        self.boxes[self.at + at:self.at + at + len(data)] = data
        return MAILBOXES + self.at + at

    def get(self, length: int, at: int = TEXTS) -> bytes:
        return bytes(self.boxes[self.at + at:self.at + at + length])

    def addresses(self) -> Addresses:
        return Addresses(*struct.unpack_from("<3Q", self.boxes, self.at + ADDRESSES))

    def hold_in_handlers(self) -> None:
        self.words[5] = 1

    @property
    def handlers(self) -> int:
        """How many handlers it has entered."""
        return self.words[3]

    def handled(self, number: int) -> Handled:
        signal, _, instruction, value = struct.unpack_from("<IIQQ", self.boxes, self.at + LOG + (number & 63) * 24)
        return Handled(signal, instruction, value)

    # ---- what it is seen to do

    def started(self, pid: int, number: Optional[int] = None) -> None:
        """`pid` is this process's number for it, and `number` its own."""
        self.pid, self.number = pid, pid if number is None else number
        self.poll = select.poll()
        self.poll.register(os.pidfd_open(pid), select.POLLIN)

    def is_dead(self) -> bool:
        if not self.dead and self.poll.poll(0):
            self.dead = True
        return self.dead

    def is_idle(self) -> bool:
        return self.words[1] == self.words[0]

    def is_in_handler(self) -> bool:
        return bool(self.words[5]) and self.words[3] != self.words[4]

    def waits_in(self) -> str:
        """The function of the kernel in which it waits."""
        try:
            with open(f"/proc/{self.pid}/wchan") as file:
                return file.read()
        except OSError:
            return "gone"

    def state(self) -> Optional[str]:
        """Where it stands, or None while it runs."""
        if self.is_dead():
            return "dead"
        if self.is_in_handler():
            return "handler"
        if self.is_idle():
            return "idle"
        place = self.waits_in()
        if ("zap_pid_ns" in place or "do_wait" in place) and machine.is_exiting(self.pid):
            return "dead"  # the first process of a namespace, which waits until the others have ended
        return "notify" if "seccomp" in place or "recv_wait" in place else None

    # ---- its steps

    def settle(self, seconds: float = 0.05) -> str:
        """Lets it run until it waits: for an order, in a handler, in a notification, or for ever."""
        machine.run_first(self.pid)
        end = time.monotonic() + seconds
        state = self.state()
        while state is None and time.monotonic() <= end:
            state = self.state()
        if not self.dead and self.slot < FIRST_WORKER:
            machine.stand_still(self.pid)
        if state is None and self.waits_in() == RUNS:
            raise Stop(f"{self.name} ran for {seconds} s: the machine is too busy")
        return state or f"busy in {self.waits_in()}"

    def leave_handler(self) -> None:
        if self.is_in_handler():
            self.words[4] = self.words[3]
            self.wake(16)

    def own_call(self, number: int, *arguments: int) -> int:
        """Makes a call that the script doesn't have, past its filters."""
        self.order(Order.OWN_CALL, number, *arguments)
        state = self.settle()
        if state != "idle":
            raise Stop(f"call {number} of {self.name} for itself: {state}")
        return self.result()


class Task(StandIn):
    """Stands in for a task of the script."""

    def __init__(self, boxes, address, slot, name):
        super().__init__(boxes, address, slot, name)
        self.call = None  # the number and arguments of the call in which it is
        self.notification = None  # the id of it, as the journal says it
        self.saved = None  # an answer that was seen before the event that tells it
        self.modes = {}  # what it does at each signal for which it has said so
        self.compared = 0  # how many of its handlers were compared
        self.restarts = False  # its handler returns into the call, which is entered again
        self.call_is_late = False  # the call was allowed, and is made at the event of its answer
        self.return_is_late = False  # the call was continued, and returns at the event of its native answer
        self.signalled_early = False  # a signal was sent while the handler of another waited to be compared
        self.ended = False  # the journal has told its end
        self.reaped = False


class Worker(StandIn):
    """Stands in for a worker of the broker, and for the process that has the broker's descriptors."""

    def __init__(self, boxes, address, number):
        super().__init__(boxes, address, FIRST_WORKER + number, f"w{number}")
        self.seat = number
        self.memory = self.base = None  # its descriptors of the caller's memory and of a directory
        self.caller = None  # the PID of the notification
        self.notification = None  # its id, as the journal says it
        self.request = None  # for a descriptor, which isn't taken
