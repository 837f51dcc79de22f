"""Tests of a container's policy: python3 -m unittest, in this folder."""
import json
import unittest

from seccomp_broker import Refused, check, explore, hand_over, judge, play, report_of

KEYS = "security.syscalls.intercept."
SCRIPT = r"""
dir "/dev"
dir "/mnt"
notify mknod mount

prog init
poke 0x10000 "/dev/null\0"
poke 0x10100 "/dev/sda1\0"
poke 0x10200 "/mnt\0"
poke 0x10300 "xfs\0"
call mknod 0x10000 0o020666 259
call mount 0x10100 0x10200 0x10300 0 0
end

schedule
t 0 5
w 0 9
t 0 3
w 0 11
t 0 3
end
"""

# another broker's worker, which makes the node before it has asked whether the call still waits
HASTY = r"""schedule
t 0 5
w 0 recv
w 0 open-mem 1
w 0 open-base 1 -100
w 0 read 0x10000 10
w 0 act mknod "/dev/null" 0o020666 259
end
"""


def policy(*rules, **keys):
    return json.dumps({"config": {KEYS + key: value for key, value in keys.items()}, "rules": list(rules)})


class Boot(unittest.TestCase):
    def test_a_device_that_lxd_allows_is_made(self):
        report = play(policy(mknod="true"), SCRIPT)
        self.assertIn("rule=lxd.mknod.1:3 verdict=grant answer=0 reply=sent", report.audits[0])
        self.assertIn('act mknod "/dev/null" chr 1:3 ok', " / ".join(report.journal))

    def test_a_mount_that_no_rule_fits_is_left_to_the_kernel(self):
        report = play(policy(mount="true"), SCRIPT)
        self.assertTrue(report.calls[1].endswith("mount EPERM"))
        self.assertEqual(report.summary["passed"], 2)

    def test_a_rule_of_ones_own_denies_it(self):
        rule = {"name": "no-xfs", "call": "mount", "when": {"fstype": "xfs"}, "then": {"deny": "ENODEV"}}
        report = play(policy(rule, mount="true"), SCRIPT)
        self.assertIn("rule=no-xfs verdict=deny answer=ENODEV", report.audits[1])

    def test_a_key_with_a_typing_error_is_named(self):
        with self.assertRaises(Refused) as refused:
            play(policy(mknodd="true"), SCRIPT)
        self.assertEqual(refused.exception.status, 4)
        self.assertEqual(refused.exception.line, f'policy: unknown key at config."{KEYS}mknodd"\n')

    def test_a_report_that_is_longer_than_the_buffer_is_whole(self):
        self.assertEqual(play(policy(), SCRIPT, size=1), play(policy(), SCRIPT))

    def test_a_report_is_checked_and_its_calls_are_traced(self):
        report = report_of(policy(mknod="true"), SCRIPT)
        found = check(policy(mknod="true"), SCRIPT, report)
        self.assertTrue(found.finished)
        self.assertEqual(f"journal {found.events}", report.splitlines()[0])
        self.assertTrue(found.trail[0].endswith(" rule=lxd.mknod.1:3"))

    def test_a_broker_that_restarts_after_the_effect_does_it_once(self):
        report, ledgers = hand_over(policy(mknod="true"), SCRIPT, 7)
        self.assertEqual(report, report_of(policy(mknod="true"), SCRIPT))
        self.assertEqual(report.count(" act mknod "), 1)
        place, ledger = ledgers[0]
        self.assertIn(f'{place} w0 act mknod "/dev/null" chr 1:3 ok', report.splitlines())
        self.assertEqual(ledger["count"], 6)

    def test_no_order_of_steps_makes_the_node_twice_or_refuses_it(self):
        outcomes, whole = explore(policy(mknod="true"), SCRIPT)
        self.assertEqual(whole, "yes")
        for lines, _, _ in outcomes:
            self.assertEqual(len([line for line in lines if line.startswith(" did mknod ")]), 1)

    def test_whoever_its_workers_are_a_broker_is_judged(self):
        self.assertTrue(judge(policy(mknod="true"), SCRIPT).startswith("mediated events="))
        found = judge(policy(mknod="true"), SCRIPT.partition("schedule")[0] + HASTY)
        self.assertTrue(found.startswith("broken 10 order unchecked\n"), found)

    def test_a_report_of_another_policy_is_none(self):
        with self.assertRaises(Refused) as refused:
            check(policy(), SCRIPT, report_of(policy(mknod="true"), SCRIPT))
        self.assertEqual(refused.exception.status, 9)
        self.assertRegex(refused.exception.line, r"^report: line \d+\n$")


if __name__ == "__main__":
    unittest.main()
