"""Sends hostile requests to the playground, and tells each that isn't refused as it should be: tools/checks/check-playground [--program PATH]

The requests come from other hosts and origins, with methods, paths, lengths and bodies that no page sends, and a hundred at once. A
request is at fault where its status is another than the one that is due, or where an answer lacks the headers that keep other pages
out. After each group a good request has to be answered. Limits of time and number are tried on a program that takes long.

Calls of the stored reports are explained, and have to have the reports' rules; examples are stepped through to their end, and have to have the journals of plays.
Policies are compared and looked at, and refused ones are told at their places.

It needs no browser. Exit status: 0 where all is as it should be, else 1.
"""
from __future__ import annotations

import contextlib
import json
import os
import socket
import tempfile
import time
from concurrent.futures import ThreadPoolExecutor
from typing import Any, Dict, Iterator, List, Tuple

from tools.commands.command_line.arguments import ToolParser
from tools.commands.command_line.top import TOP
from tools.commands.pages.runs import LIMITS
from tools.commands.pages.served import playground
from tools.commands.pages.server import AT_ONCE, HEADERS


POLICY = '{"config": {"security.syscalls.intercept.mknod": "true"}}'
SCRIPT = 'notify mknod\nprog main\npoke 0x10000 "/null\\0"\ncall mknod 0x10000 0o020666 259\nend\nschedule\nt 0 2\nw 0 9\nt 0 2\nend\n'
# a policy that puts a descriptor into the caller, whose worker waits until it was taken
PUTS = ('{"rules": [{"name": "log", "call": "openat", "when": {"path": "/log"}, "then": {"inject": 5}}]}',
        'broker 5\nnotify openat\nprog main\npoke 0x10000 "/log\\0"\ncall openat -100 0x10000 0 0\nend\nschedule\nend\n')
GOOD = {"policy": POLICY, "script": SCRIPT}
AT_ONE_TIME, IDLE = 100, 300
# verdicts that a rule has given, how many calls of a report are explained, and how many of all at least
DECIDED, MOST_TRAILS, LEAST_EXPLAINED, MOST_TURNS = ("grant", "deny", "pass", "inject", "spent"), 6, 20, 120
# findings that say themselves what would be right
REFUSALS = ("not-json:", "unknown-key:", "bad-value:", "too-many-rules:")
EXPLORED = {**GOOD, "workers": 0, "delays": "1", "seconds": 30}
# a program that says what it takes, and then takes long, as do two that it starts
SLOW = """#!/bin/sh
if [ "$#" -lt 3 ]; then
  echo 'usage: play POLICY SCRIPT | explore POLICY SCRIPT WORKERS DELAYS' >&2
  exit 1
fi
echo "$$" >>"{seen}"
sleep "$(cat script)" &
sleep "$(cat script)"
"""


def text_of(path: str) -> str:
    with open(path, encoding="utf-8") as file:
        return file.read()


def reports() -> Iterator[Tuple[str, str]]:
    """The policies of the examples with the reports that are stored beside them."""
    for name in sorted(os.listdir(f"{TOP}/examples")):
        if os.path.isfile(f"{TOP}/examples/{name}/report.txt"):
            yield text_of(f"{TOP}/examples/{name}/policy.json"), text_of(f"{TOP}/examples/{name}/report.txt")


class Asker:
    """Sends bytes to a port, and gives the status and the whole answer."""

    def __init__(self, port: int) -> None:
        self.port, self.own = port, f"127.0.0.1:{port}"

    def raw(self, data: bytes, shut: bool = False) -> Any:
        with socket.create_connection(("127.0.0.1", self.port), timeout=30) as line:
            try:
                line.sendall(data)
                if shut:
                    line.shutdown(socket.SHUT_WR)
            except OSError:
                # it may hang up before all is sent, and has answered then
                pass
            answer = b""
            try:
                while piece := line.recv(65536):
                    answer += piece
            except OSError:
                pass
        words = answer.split(b" ", 2)
        return (int(words[1]) if len(words) > 2 and words[0].startswith(b"HTTP/") else None), answer

    def request(self, method: str, path: str, headers: Any = (), body: bytes = b"") -> bytes:
        lines = [f"{method} {path} HTTP/1.1".encode("latin-1"), *(f"{name}: {value}".encode("latin-1") for name, value in headers)]
        return b"\r\n".join(lines) + b"\r\n\r\n" + body

    def headers(self, **changed):
        """The headers of a good request of the page, with some changed, or left out where they are None."""
        usual = {"Host": self.own, "Origin": f"http://{self.own}", "Content-Type": "application/json"}
        return [(name, value) for name, value in {**usual, **{name.replace("_", "-"): value for name, value in changed.items()}}.items() if value is not None]

    def post(self, path, asked, **changed):
        body = asked if isinstance(asked, bytes) else json.dumps(asked).encode()
        return self.request("POST", path, self.headers(**{"Content_Length": len(body), **changed}), body)


def hosts(asker: Asker) -> Iterator[Tuple[str, int, bytes]]:
    port = asker.port
    wrong = ["evil.example", f"evil.example:{port}", "127.0.0.1", "localhost", "127.0.0.1:1", f"localhost.evil.example:{port}", f"[::1]:{port}", f"0.0.0.0:{port}", f"127.0.0.2:{port}", f"LOCALHOST:{port}",
             f"127.0.0.1:{port}@evil.example", "", None]
    for host in wrong:
        headers = [("Host", host)] if host is not None else []
        yield f"GET / for the host {host}", 421, asker.request("GET", "/", headers)
        yield f"POST /play for the host {host}", 421, asker.post("/play", GOOD, Host=host, Origin=f"http://{host}")
    yield "two hosts", 421, asker.request("GET", "/", [("Host", asker.own), ("Host", "evil.example")])
    yield "HTTP/0.9", 421, b"GET /\r\n\r\n"


def origins(asker: Asker) -> Iterator[Tuple[str, int, bytes]]:
    port = asker.port
    for origin in [None, "null", "", "http://evil.example", f"https://127.0.0.1:{port}", "http://127.0.0.1", f"http://127.0.0.1:{port}.evil.example", f"http://localhost:{port}", f"http://127.0.0.1:{port}/", "file://"]:
        yield f"POST /play from {origin}", 403, asker.post("/play", GOOD, Origin=origin)
    yield "two origins", 403, asker.request("POST", "/play", [*asker.headers(Content_Length=2), ("Origin", "http://evil.example")], b"{}")
    for origin in ["null", "http://evil.example"]:
        yield f"GET /about from {origin}", 403, asker.request("GET", "/about", [("Host", asker.own), ("Origin", origin)])
    for site in ["cross-site", "same-site"]:
        yield f"GET /about that is {site}", 403, asker.request("GET", "/about", [("Host", asker.own), ("Sec-Fetch-Site", site), ("Sec-Fetch-Mode", "no-cors"), ("Sec-Fetch-Dest", "script")])
        yield f"POST /play that is {site}", 403, asker.post("/play", GOOD, Sec_Fetch_Site=site)
    yield "the page in another one's frame", 403, asker.request("GET", "/", [("Host", asker.own), ("Sec-Fetch-Site", "cross-site"), ("Sec-Fetch-Mode", "navigate"), ("Sec-Fetch-Dest", "iframe")])


def methods_and_paths(asker: Asker) -> Iterator[Tuple[str, int, bytes]]:
    own = [("Host", asker.own)]
    for method in ["HEAD", "PUT", "DELETE", "OPTIONS", "PATCH", "TRACE", "CONNECT", "get", "FOO"]:
        yield f"{method} /", 501, asker.request(method, "/", own)
    paths = ["/../../etc/passwd", "/%2e%2e/%2e%2e/etc/passwd", "//etc/passwd", "/page.css/../server.py", "/tools/commands/playground", "/examples/first/policy.json", "/play", "/about?x=1",
             "/page.js%00", "/\\..\\..", "http://evil.example/", "*", "/etc/passwd",
             "/picture", "/index.html", "/%00"]
    for path in paths:
        yield f"GET {path}", 404, asker.request("GET", path, own)
    for path in ["/", "/about", "/stress", "/audit-check/../play", "/sh", "/play/", "/Play", "/run?workers=1", "/fetch"]:
        yield f"POST {path}", 404, asker.post(path, GOOD)
    yield "a long path", 414, asker.request("GET", "/" + "a" * 70_000, own)
    yield "no path", 400, b"GET\r\n\r\n"
    yield "four words", 400, b"GET / x HTTP/1.1\r\nHost: " + asker.own.encode() + b"\r\n\r\n"
    yield "another version", 505, b"GET / HTTP/9.9\r\n\r\n"
    yield "a version that is none", 400, b"GET / HTTP/x\r\n\r\n"
    yield "zero bytes", 400, b"\0\0\0\0\r\n\r\n"


def headers(asker: Asker) -> Iterator[Tuple[str, int, bytes]]:
    own = [("Host", asker.own)]
    yield "200 headers", 431, asker.request("GET", "/", [*own, *((f"X-{number}", "x") for number in range(200))])
    yield "a long header", 431, asker.request("GET", "/", [*own, ("X", "x" * 70_000)])


def lengths(asker):
    yield "no length", 411, asker.post("/play", GOOD, Content_Length=None)
    yield "pieces", 411, asker.request("POST", "/play", asker.headers(Transfer_Encoding="chunked"), b"5\r\nhello\r\n0\r\n\r\n")
    yield "pieces and a length", 411, asker.request("POST", "/play", asker.headers(Transfer_Encoding="chunked", Content_Length=4), b"{}  ")
    for length in ["-1", "+2", "2.0", "0x2", "two", "", "²", "1 2", "1e9"]:
        yield f"the length {length}", 411, asker.post("/play", b"{}", Content_Length=length)
    yield "two lengths", 411, asker.request("POST", "/play", [*asker.headers(Content_Length=2), ("Content-Length", "3")], b"{}")
    for length in [200_000_000, 10**11, "9" * 30, "9" * 5000]:
        yield f"the length {str(length)[:30]}", 413, asker.post("/play", b"{}", Content_Length=length)
    yield "30 MB that are sent", 413, asker.post("/play", b"x" * 30_000_000)
    yield "a body that is cut", 400, asker.post("/play", b'{"policy":', Content_Length=500)


def bodies(asker):
    for kind in ["text/plain", "application/x-www-form-urlencoded", "multipart/form-data; boundary=x", "text/json", "", None]:
        yield f"the kind {kind}", 415, asker.post("/play", GOOD, Content_Type=kind)
    whole = json.dumps(GOOD)
    wrong = [b"", b"null", b"[]", b'"x"', b"1", b"{", b"{}", b"\xff\xfe", b"[" * 100_000, b'{"policy":' * 20_000, b"1" * 10_000, whole[:-1].encode(), whole.replace("policy", "Policy").encode(), b"NaN"]
    for body in wrong:
        yield f"the body {body[:24]!r}", 400, asker.post("/play", body)
    for asked in [{**GOOD, "report": ""}, {**GOOD, "file": "/etc/passwd"}, {"policy": POLICY}, {**GOOD, "policy": None}, {**GOOD, "policy": ["x"]}, {**GOOD, "script": 7}, {**GOOD, "script": "\ud800"}]:
        yield f"the request {str(asked)[-40:]}", 400, asker.post("/play", asked)
    for workers in [-1, 17, 1.5, True, "2", None, 10**30]:
        yield f"{workers!r} workers", 400, asker.post("/run", {**GOOD, "workers": workers, "cpus": 1})
    for delays in ["9", "-1", "ALL", "", " 1", "--help", 1, None, ["1"]]:
        yield f"{delays!r} delays", 400, asker.post("/explore", {**EXPLORED, "delays": delays})
    for name, values in {"workers": (-1, 16, "0", True), "seconds": (-1, 601, 1.5, True, "2", None)}.items():
        for value in values:
            yield f"an exploration with {value!r} {name}", 400, asker.post("/explore", {**EXPLORED, name: value})
    yield "an exploration without its delays", 400, asker.post("/explore", {**GOOD, "workers": 0, "seconds": 1})
    for form, wrong in (("step", {**GOOD, "report": ""}), ("step", {"policy": POLICY}), ("step", {**GOOD, "script": None}), ("explain", GOOD), ("explain", {"policy": POLICY, "trail": 1}), ("explain", {"trail": ""})):
        yield f"the request {form} {str(wrong)[-40:]}", 400, asker.post(f"/{form}", wrong)
    for form, wrong in (("compare", GOOD), ("compare", {"old": POLICY}), ("compare", {"old": POLICY, "new": 1}), ("lint", GOOD), ("lint", {"policy": None}), ("lint", {}), ("lint-script", GOOD), ("lint-script", {})):
        yield f"the request {form} {str(wrong)[-40:]}", 400, asker.post(f"/{form}", wrong)
    yield "an old policy that is too long", 413, asker.post("/compare", {"old": " " * (LIMITS["old"] + 1), "new": POLICY})
    yield "a trail that is too long", 413, asker.post("/explain", {"policy": POLICY, "trail": "x" * (LIMITS["trail"] + 1)})
    yield "a policy that is too long", 413, asker.post("/play", {**GOOD, "policy": " " * (LIMITS["policy"] + 1)})
    yield "a script that is too long", 413, asker.post("/play", {**GOOD, "script": "#" * (LIMITS["script"] + 1)})
    yield "a report that is too long", 413, asker.post("/picture", {"report": "x" * (LIMITS["report"] + 1)})


GROUPS = (hosts, origins, methods_and_paths, headers, lengths, bodies)


def answer_fault(name, status, answer, due):
    """What is wrong with an answer."""
    if status != due:
        return f"{name}: status {status}, and {due} is due"
    missing = [header for header, value in HEADERS.items() if f"\r\n{header}: {value}\r\n".encode() not in answer]
    return f"{name}: the answer lacks {missing}" if missing else None


def still_serves(asker, after):
    """What is wrong with a good request."""
    status, answer = asker.raw(asker.post("/play", GOOD))
    told = json.loads(answer.partition(b"\r\n\r\n")[2] or b"{}")
    return None if status == 200 and told.get("status") == 0 and len(told["view"]["scene"]["lane"]) == 15 else f"after {after}: a good request has status {status}: {answer[-300:]!r}"


def messages_of(answer: bytes) -> List[Dict[str, Any]]:
    """The messages of an exploration, in the answer that they came in."""
    return [json.loads(line) for line in answer.partition(b"\r\n\r\n")[2].splitlines()]


def serves_beside_idle_ones(asker):
    """What is wrong with the page while more connections than there may be say nothing."""
    with contextlib.ExitStack() as stack:
        for _ in range(IDLE):
            stack.enter_context(socket.create_connection(("127.0.0.1", asker.port), timeout=30))
        status, _ = asker.raw(asker.request("GET", "/", [("Host", asker.own)]))
        return f"beside {IDLE} idle connections the page has status {status}" if status != 200 else still_serves(asker, f"{IDLE} idle connections")


def explores(asker):
    """What is wrong with an exploration that ends."""
    status, answer = asker.raw(asker.post("/explore", EXPLORED))
    fault = answer_fault("an exploration", status, answer, 200)
    last = messages_of(answer)[-1] if status == 200 else {}
    view = last.get("known", {}).get("view", {})
    rules = {call["rule"] for outcome in view.get("outcomes", []) for call in outcome["calls"]}
    good = last.get("over") == "ended" and view.get("whole") == "bound" and "lxd.mknod.1:3" in rules
    return fault or (None if good else f"an exploration: {last}")


def asked(asker: Asker, path: str, body: Dict[str, str]) -> Dict[str, Any]:
    """What the page is told of a good request."""
    status, answer = asker.raw(asker.post(path, body))
    return json.loads(answer.partition(b"\r\n\r\n")[2]) if status == 200 else {"status": f"{status} of HTTP"}


def trails_of(scene: Dict[str, List[Any]]) -> Iterator[Tuple[str, str]]:
    """The lines of each decided session that a page sends, and the rule that the report names."""
    for place, lane, number, end, _, rule, verdict, *_ in scene["sessions"]:
        if verdict in DECIDED and number >= 0:
            events = [at for at in range(place, end + 1) if (scene["lane"][at], scene["call"][at]) == (lane, number)]
            yield rule, "".join(f"{scene['lines'][at + 1]}\n" for at in (scene["calls"][number][0], *events))


def explains(asker: Asker) -> Iterator[Any]:
    """What is wrong with what is explained: each decided call of the examples has the rule that the report names."""
    count = 0
    for policy, report in reports():
        scene = asked(asker, "/picture", {"report": report})["view"]["scene"]
        for rule, trail in list(trails_of(scene))[:MOST_TRAILS]:
            told, count = asked(asker, "/explain", {"policy": policy, "trail": trail}), count + 1
            if told.get("explained", {}).get("rule") != rule:
                yield f"the report has rule {rule}, and what is explained is {told}: {trail}"
    if count < LEAST_EXPLAINED:
        yield f"only {count} calls were explained"
    for trail in ("", "x", "0 - spawn 0 pid=1 new\n", "3 t0 call mknod 65536 8630 259 0 0 0 notify id=1\n4 w0 recv id=2 pid=1\n", "3 t0 call mknod 65536 8630 259 0 0 0 notify id=1\n4 w0 recv id=1 pid=1\n", "\n" * 1000):
        told = asked(asker, "/explain", {"policy": POLICY, "trail": trail})
        if told["status"] is not None or not told["line"]:
            yield f"the trail {trail[:60]!r}: {told}"


def notes_of_scenes(asker: Asker) -> Iterator[Any]:
    """What is wrong with what is worth a look in reports: where a text is overwritten, and nothing where none is."""
    for name, wanted in (("rewritten-path", [9]), ("reused-pid", []), ("first", [])):
        scene = asked(asker, "/picture", {"report": text_of(f"{TOP}/examples/{name}/report.txt")})["view"]["scene"]
        found = [place for kind, place in scene["notes"] if kind == "overwritten"]
        if found != wanted:
            yield f"{name}: texts are overwritten at {found}"


def with_schedule(script, turns):
    head = script[:script.index("\nschedule") + 1] if "\nschedule" in script else script
    return "\n".join([head, "schedule", *(f"{actor[0]} {actor[1:]} 1" for actor in turns), "end", ""])


def steps(asker):
    """What is wrong with steps: whoever is able steps, up to the end, and the report is then that of a play of this order but for the listener's close."""
    cases = [(name, choose, *(text_of(f"{TOP}/examples/{name}/{file}") for file in ("policy.json", "script.txt"))) for name, choose in (("limited-grant", 0), ("reused-pid", -1), ("restarted-call", 0))]
    for name, choose, policy, script in [*cases, ("a descriptor that is put in", 0, *PUTS), ("a descriptor, and its worker first", -1, *PUTS)]:
        turns, able = [], None
        while able != [] and len(turns) < MOST_TURNS:
            told = asked(asker, "/step", {"policy": policy, "script": with_schedule(script, turns)})
            if told["status"] != 0 or told["skipped"] or len(told["view"]["scene"]["lane"]) != len(turns) + 1:
                yield f"{name}, step {len(turns)}: {str(told)[:300]}"
                break
            able = told["able"]
            turns += [able[choose]] if able else []
        if able:
            yield f"{name}: it isn't over after {len(turns)} steps: {able}"
        played = asked(asker, "/play", {"policy": policy, "script": with_schedule(script, turns)})
        if [line for line in played["view"]["scene"]["lines"] if "listener close" not in line][1:len(turns)] != told["view"]["scene"]["lines"][1:len(turns)]:
            yield f"{name}: the steps have another journal than a play of their order"
    told = asked(asker, "/step", {"policy": POLICY, "script": with_schedule(SCRIPT, ["w0"])})
    if not told.get("skipped"):
        yield f"a worker that has nothing to do: {str(told)[:200]}"
    told = asked(asker, "/step", {"policy": POLICY, "script": "prog\n"})
    if told["status"] != 5 or told["marked"] != ["script", 1]:
        yield f"steps of a script that is refused: {told}"


def notes_fault(asker: Any, form: str, text: Any, wanted: Any) -> Iterator[Any]:
    """What is wrong with what is noted of a text: the names of the findings with their lines, and each with its cure."""
    told = asked(asker, f"/{form}", text)
    found = told.get("findings", [])
    if [(it["words"].partition(":")[0], it["line"]) for it in found] != wanted or not all(it["cure"] or it["words"].startswith(REFUSALS) for it in found):
        yield f"the text {str(text)[:60]}: {told}"


def of_policies(asker: Asker) -> Iterator[Any]:
    """What is wrong with what is said of policies."""
    careless = text_of(f"{TOP}/examples/policies/careless.json")
    equal, narrower, other = (asked(asker, "/compare", {"old": POLICY, "new": new}) for new in (POLICY, "{}", text_of(f"{TOP}/examples/policies/backups.json")))
    if (equal["status"], equal["comparison"]["outcome"]) != (0, "equal"):
        yield f"a policy and itself: {equal}"
    ways = {it["way"] for it in narrower["comparison"]["changes"]}
    if narrower["status"] != 11 or ways != {"narrower"} or len(narrower["comparison"]["changes"]) != 16:
        yield f"a policy and none: {str(narrower)[:300]}"
    if {"rule": "one-pipe", "answer": "grant, times=1"} not in [it["new"] for it in other["comparison"]["changes"]]:
        yield f"two policies: {str(other)[:300]}"
    for old, new, line, marked in (("{", POLICY, "policy: not JSON", None), (POLICY, '{"x":1}', 'new policy: unknown key at "x"', ["policy", 1, 1, 4])):
        told = asked(asker, "/compare", {"old": old, "new": new})
        if (told["status"], told["line"], told["marked"]) != (4, line, marked):
            yield f"{old} and {new}: {told}"
    for policy, wanted in ((POLICY, [("not-as-lxd", 1)]), ("{}", []), (careless, [("shadowed", 5), ("never", 6), ("needless", 7)]), ('{\n "x" 1}\n', [("not-json", 2)])):
        yield from notes_fault(asker, "lint", {"policy": policy}, wanted)
    for script, wanted in ((SCRIPT, []), (SCRIPT.replace("0o", "0"), [("leading-zero", 4)]), (SCRIPT.replace("t 0 2", "t 0.7 2", 1), [("task-never-comes", 7)]), ("notify mknod\nprogg\n", [("unknown-word", 2)])):
        yield from notes_fault(asker, "lint-script", {"script": script}, wanted)


def said_as_text(asker: Asker) -> Iterator[Any]:
    """What a policy and a report with markup come to: their names come back as JSON, never as a page."""
    for name, path, asked, wanted in [
        ("a rule named <script>", "/play", {**GOOD, "policy": '{"rules":[{"name":"<script>alert(1)</script>","call":"mknod","then":"pass"}]}'}, ["policy", 1, 11, 17]),
        ("a key named <script>", "/play", {**GOOD, "policy": '{"<script>":1}'}, ["policy", 1, 1, 11]),
        ("a new key named <script>", "/compare", {"old": POLICY, "new": '{"<script>":1}'}, ["policy", 1, 1, 11]),
        ("a script with markup", "/play", {**GOOD, "script": "\n<script>\n"}, ["script", 2]),
        ("a report with markup", "/picture", {"report": "journal 1\n<script>alert(1)</script>\n"}, ["report", 2]),
    ]:
        status, answer = asker.raw(asker.post(path, asked))
        head, _, body = answer.partition(b"\r\n\r\n")
        good = status == 200 and b"Content-Type: application/json" in head and json.loads(body)["marked"] == wanted
        yield None if good else f"{name}: status {status}, {body[:200]!r}"


def hostile(program):
    """The number of requests, and what is wrong."""
    with playground(program) as port:
        asker, faults, count = Asker(port), [], 0
        for group in GROUPS:
            for name, due, data in group(asker):
                count += 1
                faults.append(answer_fault(name, *asker.raw(data, shut="cut" in name), due))
            faults.append(still_serves(asker, group.__name__))
        faults += [*said_as_text(asker), explores(asker), *explains(asker), *notes_of_scenes(asker), *steps(asker), *of_policies(asker)]
        data = asker.post("/play", GOOD, Origin="http://evil.example")
        with ThreadPoolExecutor(AT_ONE_TIME) as pool:
            answers = list(pool.map(lambda _: asker.raw(data), range(AT_ONE_TIME)))
        faults += [answer_fault("one of a hundred at once", *answer, 403) for answer in answers]
        faults.append(still_serves(asker, "a hundred at once"))
        faults.append(serves_beside_idle_ones(asker))
    return count + len(answers), [fault for fault in faults if fault]


def still_run(seen: str) -> List[Any]:
    """The processes of a file that haven't ended."""
    with open(seen, encoding="utf-8") as file:
        return [pid for pid in file.read().split() if os.path.exists(f"/proc/{pid}")]


def explorations_end(asker: Asker, seen: str) -> Iterator[Any]:
    """What is wrong with explorations that take long: one ends at its limit, and one where the page hangs up."""
    begun = time.monotonic()
    status, answer = asker.raw(asker.post("/explore", {**EXPLORED, "script": "25", "delays": "all", "seconds": 1}))
    took, found = time.monotonic() - begun, messages_of(answer) if status == 200 else [{}]
    if found[-1].get("over") != "limit" or len(found) < 2 or not 1 <= took < 5 or still_run(seen):
        yield f"an exploration with a limit: status {status} after {took:.1f} s, {found[-1]}, {still_run(seen)} still run"
    with socket.create_connection(("127.0.0.1", asker.port), timeout=30) as line:
        line.sendall(asker.post("/explore", {**EXPLORED, "script": "25", "delays": "all", "seconds": 25}))
        line.recv(1024)
    until = time.monotonic() + 5
    while still_run(seen) and time.monotonic() < until:
        time.sleep(0.1)
    if still_run(seen):
        yield f"an exploration whose page hangs up goes on: {still_run(seen)}"


def limits() -> Iterator[Any]:
    """What is wrong with the limits of time and number, tried on a program that takes long."""
    with tempfile.TemporaryDirectory() as room:
        path, seen = f"{room}/slow", f"{room}/seen"
        with open(path, "w", encoding="utf-8") as file:
            file.write(SLOW.format(seen=seen))
        os.chmod(path, 0o755)
        with playground(path) as port, ThreadPoolExecutor(AT_ONE_TIME) as pool:
            asker = Asker(port)
            statuses = sorted(status or 0 for status, _ in pool.map(lambda _: asker.raw(asker.post("/play", {**GOOD, "script": "3"})), range(AT_ONE_TIME)))
            with open(seen, encoding="utf-8") as file:
                ran = len(file.readlines())
            if ran != AT_ONCE or statuses != [200] * AT_ONCE + [503] * (AT_ONE_TIME - AT_ONCE):
                yield f"{ran} ran at once, and the statuses are {statuses}"
            status, answer = asker.raw(asker.post("/picture", {"report": "\n" * 1_000_000}))
            if status != 200 or b"1,000,000 lines" not in answer:
                yield f"a report of a million lines: status {status}, {answer[-200:]!r}"
            silent = [pool.submit(asker.raw, asker.post("/play", b'{"policy":', Content_Length=500)) for _ in range(AT_ONCE - 1)]
            begun = time.monotonic()
            status, answer = asker.raw(asker.post("/play", {**GOOD, "script": "25"}))
            took = time.monotonic() - begun
            if status != 200 or b"ended after 10 seconds" not in answer or not 9 < took < 15:
                yield f"a run that takes long: status {status} after {took:.0f} s, {answer[-200:]!r}"
            yield from explorations_end(asker, seen)
            statuses = [body.result()[0] for body in silent]
            if statuses != [408] * len(silent):
                yield f"bodies that don't come: the statuses {statuses}"
            if asker.raw(asker.post("/play", {**GOOD, "script": "0"}))[0] != 200:
                yield "after that a good request isn't answered"


def main():
    parser = ToolParser()
    parser.add_argument("--program", type=os.path.abspath, help="the program that the playground runs, in place of ./broker")
    asked = parser.parse_args()
    begun = time.monotonic()
    count, faults = hostile(asked.program)
    faults += limits()
    for fault in faults:
        print(f"check-playground: {fault}")
    print(f"check-playground: {count} hostile requests, in {time.monotonic() - begun:.0f} s with the tries of limits; {len(faults)} at fault")
    return len(faults) > 0
