"""Makes reports of any size, and one with markup in its texts, for checks of the pages."""

# what a worker does for a call, and what its audit says, by the five rows of the generated input of docs/inside/BYTES.md
ROWS = (
    ("mknod", "65536 8630 259 0 0 0", 'act mknod "{path}" chr 1:3 ok', "0", "lxd.mknod.1:3", "grant"),
    ("mknod", "65536 8630 257 0 0 0", None, "EPERM", "no-mem", "deny"),
    ("mknod", "65536 4534 0 0 0 0", None, "continue", "default.mknod", "pass"),
    ("sysinfo", "69632 0 0 0 0 0", "plant 69632 ok", "0", "lxd.sysinfo", "grant"),
    ("mknod", "65536 8630 259 0 0 0", None, None, "-", "gone"),
)
COUNTED = {"grant": "granted", "deny": "denied", "pass": "passed", "gone": "gone"}


class Made:
    def __init__(self):
        self.journal, self.calls, self.audit = ["0 - spawn 0 pid=1 new"], [], []
        self.counts = dict.fromkeys(("granted", "denied", "passed", "injected", "faults", "gone", "lost"), 0)

    def say(self, text):
        self.journal.append(f"{len(self.journal)} {text}")

    def call(self, number):
        """One task that makes one call, and what comes of it."""
        name, row = f"0.{number + 1}", ROWS[number % len(ROWS)]
        call, arguments, effect, back, rule, verdict = row
        task, path, entered = f"t{name}", f"/a{number}", len(self.journal) + 2
        self.say(f"t0 spawn {name} pid=2 copy")
        self.say(f"{task} poke 65536 {path.encode().hex()}00")
        self.say(f"{task} call {call} {arguments} notify id={number + 1}")
        self.say(f"w0 recv id={number + 1} pid=2")
        if back is None:
            for text in ("t0 kill 2 9 ok", f"{task} deliver 9 end", f"t0 wait {name}", "w0 open-mem 2 ESRCH", "w0 let-go"):
                self.say(text)
        else:
            self.served(number + 1, task, path, row)
            self.say(f"{task} exit")
            self.say(f"t0 wait {name}")
        outcome = {None: "ended", "continue": "0"}.get(back, back)
        self.calls.append(f"{entered} {task} pid=2 {call} {outcome}")
        self.audit.append(f"{entered + 1} w0 id={number + 1} {call} rule={rule} verdict={verdict} answer={back or '-'} reply={'sent' if back else 'none'}")
        self.counts[COUNTED[verdict]] += 1

    def served(self, notification, task, path, row):
        call, _, effect, back, _, _ = row
        self.say("w0 open-mem 2 ok")
        if call == "mknod":
            self.say("w0 open-base 2 -100 ok")
        self.say(f"w0 check {notification} ok")
        if call == "mknod":
            self.say(f"w0 read 65536 256 {path.encode().hex()}")
        self.say(f"w0 check {notification} ok")
        if effect:
            self.say(f"w0 {effect.format(path=path)}")
        self.say(f"w0 send {notification} {back} ok")
        self.say("w0 let-go")
        self.say(f"{task} resume {back}")
        if back == "continue":
            self.say(f"{task} native 0")

    def text(self):
        answered = len(self.calls) - self.counts["gone"]
        counts = {"events": len(self.journal), "calls": len(self.calls), "notified": len(self.calls), "answered": answered, **self.counts}
        parts = [f"journal {len(self.journal)}", *self.journal, f"calls {len(self.calls)}", *self.calls, f"audit {len(self.audit)}", *self.audit]
        return "\n".join([*parts, "summary " + " ".join(f"{name}={count}" for name, count in counts.items()), ""])


def report_of(calls):
    """A report of so many calls, as `stress 0 CALLS` plays them."""
    made = Made()
    for number in range(calls):
        made.call(number)
    made.say("t0 exit")
    made.say("listener close")
    return made.text()


def with_markup(name, rule):
    """The report of one call, in which these are the names of what is made and of the rule that decides."""
    quoted = name.replace('"', '\\"')
    return report_of(1).replace('act mknod "/a0"', f'act mknod "/{quoted}"').replace("rule=lxd.mknod.1:3", f"rule={rule}")
