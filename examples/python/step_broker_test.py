"""Tests of the small broker and of seccomp_step on the simulated kernel: python3 -m unittest step_broker_test, in this folder.

SECCOMP_BROKER names the program, if it isn't seccomp-broker on the PATH.
"""
import contextlib
import errno
import itertools
import os
import select
import subprocess
import tempfile
import unittest
from pathlib import Path

from seccomp_step import ADDFD_SEND, Kernel
from step_broker import CallerGone, serve

FOLDER = Path(__file__).resolve().parent.parent / "own-broker"


class OfBroker(unittest.TestCase):
    """Each test steps the container's tasks itself, so each order comes as it is wanted."""

    def setUp(self):
        self.kernel = Kernel(FOLDER / "policy.json", FOLDER / "script.txt")
        self.addCleanup(self.kernel.close)
        self.kernel.step("0")
        list(self.kernel.steps("0.1"))
        self.seat = self.kernel.seat(0)
        self.notif = self.seat.recv()

    def test_device_is_made(self):
        serve(self.seat, self.notif)
        self.assertEqual(self.kernel.step("0.1"), "13 t0.1 resume 0")
        self.assertIn(' act mknod "/dev/null" chr 1:3 ok\n', self.kernel.report())
        self.assertIn(" mknod rule=lxd.mknod.1:3 verdict=grant answer=0 reply=sent\n", self.kernel.report())

    def test_caller_dies(self):
        """The caller is killed after its notification was received, and the next task gets its PID."""
        self.assertIn("kill 301 9 ok", self.kernel.step("0"))
        self.assertIn("deliver 9 end", self.kernel.step("0.1"))
        self.assertIn("wait 0.1", self.kernel.step("0"))
        self.assertIn("spawn 0.2 pid=301", self.kernel.step("0"))
        self.kernel.step("0.2")
        self.assertRaises(CallerGone, serve, self.seat, self.notif)
        report = self.kernel.report()
        self.assertIn(" open-mem 301 ok\n", report)
        self.assertNotIn(" act ", report)
        self.assertIn(" mknod rule=- verdict=gone answer=- reply=none\n", report)

    def test_caller_dies_before_the_answer(self):
        """The same after the second check: the node is made, and the answer comes too late, as the report says."""
        checks = 0

        def kill_behind_the_second(identifier, valid=self.seat.id_valid):
            nonlocal checks
            checks += 1
            found = valid(identifier)
            if checks == 2:
                self.kernel.step("0")
                self.kernel.step("0.1")
            return found

        self.seat.id_valid = kill_behind_the_second
        self.assertRaises(CallerGone, serve, self.seat, self.notif)
        self.assertIn(" mknod rule=lxd.mknod.1:3 verdict=grant answer=0 reply=lost\n", self.kernel.report())

    def test_ends_well(self):
        self.assertEqual(self.kernel.close(), 0)


class Replayed(Kernel):
    """The kernel of a script that was kept: before each call of the broker the tasks step that stand before such a line there."""

    def __init__(self, policy, script):
        self.lines = iter(Path(script).read_text("latin-1").partition("\nschedule\n")[2].split("\n"))
        super().__init__(policy, script)

    def ask(self, request):
        if request[:2] == b"w ":
            for line in itertools.takewhile(lambda line: line[:2] == "t ", self.lines):
                with contextlib.suppress(BlockingIOError):
                    super().ask(line)
        return super().ask(request)


class OfKeptRaces(unittest.TestCase):
    def test_caller_dies_during_the_copy(self):
        """The tasks step where they did when a broker made a node for a caller that was gone; this one finds that."""
        with Replayed(FOLDER / "policy.json", FOLDER / "race.txt") as kernel:
            seat = kernel.seat(0)
            self.assertRaises(CallerGone, serve, seat, seat.recv())
            self.assertNotIn(" act ", kernel.report())


class OfCalls(unittest.TestCase):
    def setUp(self):
        self.kernel = Kernel(FOLDER / "policy.json", FOLDER / "calls.txt")
        self.addCleanup(self.kernel.close)
        self.seat = self.kernel.seat(3)

    def assert_fails(self, number, call, *arguments, **named):
        with self.assertRaises(OSError) as raised:
            call(*arguments, **named)
        self.assertEqual(raised.exception.errno, number, str(raised.exception))

    def test_refused_files(self):
        self.assert_fails(errno.EINVAL, Kernel, "no-such-policy", FOLDER / "calls.txt")
        self.assert_fails(errno.ENOENT, Kernel, FOLDER / "policy.json", FOLDER / "calls.txt", program="./no-such-program")

    def test_before_a_call(self):
        self.assertEqual(self.kernel.able(), ["0"])
        self.assertFalse(self.kernel.is_notified())
        self.assertRaises(BlockingIOError, self.seat.recv)
        self.assertEqual(list(self.seat.notifications()), [])
        self.assertRaises(ProcessLookupError, self.kernel.step, "0.1")
        self.assertRaises(ProcessLookupError, self.kernel.step, "first")
        self.assertRaises(ProcessLookupError, self.seat.open_mem, 99)
        self.assert_fails(errno.EBADF, self.seat.open_dir, 1, 77)
        self.assert_fails(errno.EFAULT, self.seat.pread, 16, 0x10000)
        self.assert_fails(errno.EBADF, self.seat.write_sysinfo, 0x10000, bytes(112))
        self.assert_fails(errno.ENOMSG, self.seat.addfd_result)
        self.assert_fails(errno.ECHRNG, self.kernel.seat(16).let_go)
        self.assert_fails(errno.EPROTO, self.seat.mknodat, "/dev/x", -1)

    def test_answers(self):
        list(self.kernel.steps("0"))
        self.assertTrue(self.kernel.is_notified())
        self.assert_fails(errno.EINPROGRESS, self.seat.send, 1)
        notif = self.seat.recv()
        self.assertEqual((notif.id, notif.pid, notif.nr, notif.args[:3]), (1, 1, 257, (2**64 - 100, 0x10000, 0)))
        self.assertTrue(self.seat.id_valid(1))
        self.assert_fails(errno.EINVAL, self.seat.send, 1, flags=2)
        self.assert_fails(errno.EINVAL, self.seat.send, 1, error=-1)
        self.seat.send(1, error=errno.EDQUOT)
        self.assertFalse(self.seat.id_valid(1))
        self.assertEqual(self.kernel.step("0"), "8 t0 resume EDQUOT")
        self.assertRaises(FileNotFoundError, self.seat.send, 1)

    def test_descriptors(self):
        list(self.kernel.steps("0"))
        notif = self.seat.recv()
        self.assert_fails(errno.EBADF, self.seat.addfd, notif.id, 6)
        self.assert_fails(errno.EINVAL, self.seat.addfd, notif.id, 5, newfd=7)
        self.seat.addfd(notif.id, 5, flags=0)
        self.assert_fails(errno.EALREADY, self.seat.addfd, notif.id, 5)
        self.assert_fails(errno.EBUSY, self.kernel.seat(4).addfd, notif.id, 5, ADDFD_SEND)
        self.assertRaises(BlockingIOError, self.seat.addfd_result)
        self.kernel.step("0")
        self.assertEqual(self.seat.addfd_result(), 3)

    def test_looks(self):
        list(self.kernel.steps("0"))
        self.assertEqual(self.kernel.look_pid(1), ("0", 0, "sleeping"))
        self.assertRaises(ProcessLookupError, self.kernel.look_pid, 2)
        self.assertEqual(self.kernel.look_listener(), select.POLLIN)
        notif = self.seat.recv()
        self.assertEqual(self.kernel.look_listener(), select.POLLOUT)
        self.seat.addfd(notif.id, 5, flags=0)
        self.kernel.step("0")
        self.assertEqual([self.kernel.look_fd(1, number) for number in (0, 3, 4)], ["console", 5, None])
        self.seat.mknodat('/look "', 0o020666, 259)
        self.assertEqual(self.kernel.look_path(1, 'look "', follows=False)[1:], ("chr", (1, 3), None))
        self.assert_fails(errno.EBADF, self.kernel.look_path, 1, "look", dirfd=4)
        self.assertRaises(FileNotFoundError, self.kernel.look_path, 1, "")
        self.assertRaises(ProcessLookupError, self.kernel.look_path, 2, "/")

    def test_memory_and_effects(self):
        list(self.kernel.steps("0"))
        self.seat.open_mem(1)
        self.seat.open_mem(1)
        self.assertEqual(self.seat.pread(8, 0x10000), b"/log\0\0\0\0")
        self.assertEqual(len(self.seat.pread(10_000, 0x10000)), 4096)
        self.assertEqual(len(self.seat.pread(64, 0x1FFF0)), 16)
        self.assertEqual(self.seat.pread(0, 0x10000), b"")
        self.seat.write_sysinfo(0x1F000, bytes(range(112)))
        self.assertEqual(self.seat.pread(112, 0x1F000), bytes(range(112)))
        self.seat.mknodat('/dev/a "b\\\n', 0o010666)
        self.assertEqual(self.kernel.answer, '11 w3 act mknod "/dev/a \\"b\\\\\\x0a" fifo ok')
        self.assertRaises(FileExistsError, self.seat.mknodat, "/log", 0o010666)
        self.seat.mount("/dev/sda1", "/mnt", "ext4", 1, "x", via="fuse2fs", shift=True)
        self.assertEqual(self.kernel.answer, '13 w3 act mount "/dev/sda1" "/mnt" "ext4" flags=1 data="x" via=fuse2fs shift=1 ok')
        self.seat.setxattr("/log", "user.a", b"\0\xff")
        self.assert_fails(errno.ENODATA, self.seat.setxattr, "/log", "user.b", "", 2)
        self.assert_fails(errno.EMSGSIZE, self.seat.setxattr, "/log", "user.b", bytes(40_000))

    def test_judge(self):
        """What is found of the broker, by what has happened so far."""
        list(self.kernel.steps("0"))
        self.seat.recv()
        self.assertEqual(self.kernel.judge(), "mediated events=4 calls=1 effects=0 answers=0")
        self.assertEqual(self.kernel.judge(is_idle=True), "broken 3 answer unanswered")
        self.seat.mknodat("/dev/a", 0o010600)
        self.assertEqual(self.kernel.judge(), "broken 4 harm other-request")
        self.kernel.close_listener()
        self.assertEqual(self.kernel.judge(is_idle=True), "broken 4 harm other-request")

    def test_script(self):
        """The script of a session has its steps and its requests, and plays to its report."""
        list(self.kernel.steps("0"))
        notif = self.seat.recv()
        self.seat.mknodat('/dev/a "b', 0o010600)
        self.seat.send(notif.id, error=errno.EPERM)
        script = self.kernel.script()
        wanted = b'schedule\nt 0\nt 0\nw 3 recv\nw 3 act mknod "/dev/a \\"b" 4480 0\nw 3 send 1 0 -1 0\nend\n'
        self.assertEqual(script, (FOLDER / "calls.txt").read_bytes() + wanted)
        self.kernel.close_listener()
        self.assertEqual(self.kernel.script(), script)
        with tempfile.TemporaryDirectory() as room:
            Path(room, "script.txt").write_bytes(script)
            words = [os.environ.get("SECCOMP_BROKER") or "seccomp-broker", "play", FOLDER / "policy.json", f"{room}/script.txt"]
            played = subprocess.run(words, stdin=subprocess.DEVNULL, stdout=subprocess.PIPE, check=True)
        self.assertEqual(played.stdout.decode("latin-1"), self.kernel.report())

    def test_script_that_is_too_long(self):
        """Behind the lines of a script that is as long as one may be no schedule fits."""
        program = b"prog main\nend\n"
        with tempfile.TemporaryDirectory() as room:
            longest = Path(room, "script.txt")
            longest.write_bytes(b"#" * (8_388_608 - len(program) - 1) + b"\n" + program)
            with Kernel(FOLDER / "policy.json", longest) as kernel:
                self.assert_fails(errno.EFBIG, kernel.script)

    def test_the_listener_is_closed(self):
        self.kernel.close_listener()
        self.assert_fails(errno.ESHUTDOWN, self.kernel.step, "0")
        self.assertTrue(self.kernel.report().startswith("journal 2\n"))
        self.assertEqual(self.kernel.close(), 0)
        self.assert_fails(errno.ESHUTDOWN, self.kernel.able)


if __name__ == "__main__":
    unittest.main()
