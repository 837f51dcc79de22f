"""The playground's server: one page, which only itself may use.

Each request names this server as its host, and one that asks for a run comes from its own page. What stands in a request is never a
path: there is a table of the few that are answered.
"""
from __future__ import annotations

import json
import socket
import threading
import time
import traceback
from http.server import BaseHTTPRequestHandler, ThreadingHTTPServer
from typing import Any, Callable, Dict, Optional, Tuple

from tools.commands.pages.comparisons import LINT_SCRIPT, OF_POLICIES, of_policies, of_script
from tools.commands.pages.decisions import EXPLAIN, explained
from tools.commands.pages.documents import PICTURE_SCRIPTS, PICTURE_STYLES, filled, joined, part, picture_page
from tools.commands.pages.explorations import EXPLORE, MOST_SECONDS, USUAL_SECONDS, explored as explored_orders
from tools.commands.pages.reports import NotAReport
from tools.commands.pages.runs import FORMS, LIMITS, SECONDS, Form, Late, told_of
from tools.commands.pages.steps import STEP, stepped
from tools.commands.pages.views import TITLES, view_of

AT_ONCE = 4
CONNECTIONS = 256
# how long a connection may last, and a wait for more of a request
LONGEST, WAIT = 60, 10
# how long it may take until a connection that is hung up has left its place
LEAVING = 2
# a play has no more than 200,000 steps, each of which has a line, and some calls two more
MOST_LINES = 400_000
HEADERS = {
    "Content-Security-Policy": "default-src 'none'; script-src 'self'; style-src 'self'; connect-src 'self'; img-src data:; base-uri 'none'; form-action 'none'; frame-ancestors 'none'",
    "X-Content-Type-Options": "nosniff",
    "X-Frame-Options": "DENY",
    "Referrer-Policy": "no-referrer",
    "Cross-Origin-Opener-Policy": "same-origin",
    "Cross-Origin-Resource-Policy": "same-origin",
    "Cache-Control": "no-store",
}
JSON, JSON_LINES = "application/json", "application/x-ndjson"
# the numbers that a request has beside those that become words of the program
OF_THE_PAGE = {EXPLORE: {"seconds": MOST_SECONDS}}


class Refused(Exception):
    def __init__(self, status: int, text: str) -> None:
        super().__init__(text)
        self.status = status


def greatest_body(texts: Tuple[str, str]) -> int:
    """So much a body with these texts may have: JSON writes most bytes of a text as one or two."""
    return 2 * sum(LIMITS[name] for name in texts) + 1024


def asked_of(body, form, more):
    """The texts of a request as bytes, and its words and numbers, each within its limits: those of a form, and `more` numbers."""
    try:
        asked = json.loads(body)
    except (ValueError, RecursionError):
        raise Refused(400, "the body is no JSON") from None
    if not isinstance(asked, dict) or set(asked) != {*form.texts, *form.numbers, *form.choices, *more}:
        raise Refused(400, "the body has other keys")
    found = {name: bytes_of(name, asked[name]) for name in form.texts}
    for name, most in {**form.numbers, **more}.items():
        if type(asked[name]) is not int or not 0 <= asked[name] <= most:
            raise Refused(400, f"{name} isn't a number from 0 to {most}")
    for name, known in form.choices.items():
        if type(asked[name]) is not str or asked[name] not in known:
            raise Refused(400, f"{name} is none of {', '.join(known)}")
    return found, {name: asked[name] for name in (*form.numbers, *form.choices, *more)}


def bytes_of(name: str, text: Any) -> bytes:
    if not isinstance(text, str):
        raise Refused(400, f"{name} is no text")
    try:
        data = text.encode()
    except UnicodeEncodeError:
        raise Refused(400, f"{name} is no text") from None
    if len(data) > LIMITS[name]:
        raise Refused(413, f"{name} has more than {LIMITS[name]} bytes")
    return data


def hang_up(connection: socket.socket) -> None:
    try:
        connection.shutdown(socket.SHUT_RDWR)
    except OSError:
        pass


class Handler(BaseHTTPRequestHandler):
    server_version, sys_version = "playground", ""
    timeout = WAIT
    # also what isn't HTTP is answered with a status
    default_request_version = "HTTP/1.0"

    def setup(self) -> None:
        super().setup()
        self.last = None
        self.lasts(LONGEST)

    def lasts(self, seconds):
        """Lets the connection last so long from now on."""
        if self.last is not None:
            self.last.cancel()
        self.last = threading.Timer(seconds, self.hang_up)
        self.last.daemon = True
        self.last.start()

    def finish(self):
        self.last.cancel()
        try:
            super().finish()
        except OSError:
            pass

    def hang_up(self) -> None:
        hang_up(self.connection)

    def parse_request(self):
        """Reads a request's head. The connection is no longer one that waits for its request."""
        is_read = super().parse_request()
        self.server.waiting.pop(self.request, None)
        return is_read

    def do_GET(self) -> None:
        self.answered(self.page)

    def do_POST(self) -> None:
        self.answered(self.asked)

    def answered(self, action: Callable[..., Any]) -> None:
        """Answers with what the action gives, or tells why it is refused. An action that has answered already gives nothing."""
        try:
            self.look_at_host()
            answer = action()
            if answer is not None:
                self.say(200, *answer)
        except Refused as fault:
            self.say_why(fault.status, str(fault))
        except OSError:
            # the other end has gone
            self.close_connection = True
        except Exception:
            traceback.print_exc()
            self.say_why(500, "the server made a mistake")

    # ---- who may ask

    def look_at_host(self):
        if self.headers.get_all("Host") not in [[host] for host in self.server.hosts]:
            raise Refused(421, "this server has another name")
        origins = self.headers.get_all("Origin", [])
        if origins not in ([], [f"http://{self.headers['Host']}"]) or self.command == "POST" and not origins:
            raise Refused(403, "only this server's own page may ask")
        opened = self.command == "GET" and self.headers.get("Sec-Fetch-Mode") == "navigate" and self.headers.get("Sec-Fetch-Dest") == "document"
        if self.headers.get("Sec-Fetch-Site", "none") not in ("same-origin", "none") and not opened:
            raise Refused(403, "only this server's own page may ask")

    # ---- what is answered

    def page(self):
        if self.path not in self.server.pages:
            raise Refused(404, "there is nothing here")
        return self.server.pages[self.path]

    def asked(self):
        forms = {"/picture": Form(("report",)), "/page": Form(("report",)), **{f"/{form}": FORMS[form] for form in self.server.program.forms}}
        if self.path not in forms:
            raise Refused(404, "there is nothing here")
        name, form = self.path[1:], forms[self.path]
        length = self.length(greatest_body(form.texts))
        # (before the body is read, so that there are no more bodies than turns)
        if not self.server.turns.acquire(blocking=False):
            raise Refused(503, f"{AT_ONCE} are at work already; try again")
        try:
            found, words = asked_of(self.body(length), form, OF_THE_PAGE.get(name, {}))
            if name == EXPLORE:
                return self.explored(found, **words)
            told = self.ran(name, found, words) if name in FORMS else self.drawn(name, found["report"])
            return JSON, json.dumps(told).encode()
        finally:
            self.server.turns.release()

    def length(self, most):
        """How long the body says it is."""
        if self.headers.get_content_type() != JSON:
            raise Refused(415, "the body is no JSON")
        length = self.headers.get_all("Content-Length", [])
        if len(length) != 1 or "Transfer-Encoding" in self.headers or not (length[0].isascii() and length[0].isdigit()):
            raise Refused(411, "the body has no length")
        if len(length[0]) > 12 or int(length[0]) > most:
            raise Refused(413, f"the body has more than {most} bytes")
        return int(length[0])

    def body(self, length):
        """The body, which has to come in a few seconds."""
        body, until = bytearray(), time.monotonic() + WAIT
        while len(body) < length:
            try:
                piece = self.rfile.read1(min(65536, length - len(body)))
            except OSError:
                piece = None
            if piece is None or time.monotonic() > until:
                raise Refused(408, "the body didn't come in time")
            if not piece:
                raise Refused(400, "the body is shorter than it says")
            body += piece
        return bytes(body)

    def ran(self, form, texts, words):
        try:
            if form == STEP:
                return stepped(self.server.program, texts, lambda output: self.drawn("picture", output))
            if form == EXPLAIN:
                return explained(self.server.program, texts)
            if form == LINT_SCRIPT:
                return of_script(self.server.program, texts)
            if form in OF_POLICIES:
                return of_policies(self.server.program, form, texts)
            return self.printed(form, texts, list(words.values()))
        except Late:
            slow = " The program is a trial build, which is slow." if self.server.program.is_slow else ""
            return {"status": None, "line": f"The run was ended after {SECONDS} seconds.{slow}", "marked": None}

    def printed(self, form, texts, words):
        ended = self.server.program.run(form, texts, words)
        told = told_of(self.server.program, ended)
        if ended.status == 0 and form == "audit-check":
            told["output"] = ended.output.decode("latin-1")
        elif ended.status == 0:
            told.update(self.drawn("picture", ended.output))
        return told

    def explored(self, texts, workers, delays, seconds):
        """Sends the messages of an exploration, a line each. Where the other end hangs up, it is ended."""
        self.lasts(seconds + LONGEST)
        messages = explored_orders(self.server.program, texts, workers, delays, seconds)
        try:
            self.head(200, {"Content-Type": JSON_LINES})
            for message in messages:
                self.wfile.write(json.dumps(message).encode() + b"\n")
        finally:
            messages.close()

    def drawn(self, name, output):
        """What a page shows of an output, or the page of it."""
        lines = output.count(b"\n")
        if lines > MOST_LINES:
            return {"status": None, "line": f"The report has {lines:,} lines, and this page draws no more than {MOST_LINES:,}. The tool `picture` draws it.", "marked": None}
        try:
            view = view_of(output)
        except NotAReport as fault:
            return {"status": None, "line": f"This is no report: {fault}", "marked": ["report", fault.line]}
        return {"status": 0, "line": "", "marked": None, **({"view": view} if name == "picture" else {"page": picture_page(view, TITLES[view["kind"]])})}

    # ---- how

    def head(self, status: int, headers: Dict[str, str]) -> None:
        self.send_response(status)
        for name, value in {**HEADERS, **headers, "Connection": "close"}.items():
            self.send_header(name, value)
        self.end_headers()
        self.close_connection = True

    def say(self, status, kind, body):
        self.head(status, {"Content-Type": kind, "Content-Length": str(len(body))})
        if self.command != "HEAD":
            self.wfile.write(body)

    def say_why(self, status: int, text: str) -> None:
        self.say(status, JSON, json.dumps({"error": text}).encode())
        self.linger()

    def send_error(self, code: Any, message: Optional[str] = None, explain: Optional[str] = None) -> None:
        """What the server's own reading of a request refuses, in the same form."""
        try:
            self.say_why(int(code), message or "this is no request")
        except OSError:
            self.close_connection = True

    def linger(self) -> None:
        """Takes what still comes for a moment, so that the answer isn't lost with the connection."""
        try:
            self.wfile.flush()
            self.connection.shutdown(socket.SHUT_WR)
            self.connection.settimeout(1)
            for _ in range(2048):
                if not self.connection.recv(65536):
                    break
        except OSError:
            pass

    def log_message(self, form: str, *values: str) -> None:
        pass


class Server(ThreadingHTTPServer):
    daemon_threads = True
    request_queue_size = 128

    def __init__(self, port, program, examples):
        super().__init__(("127.0.0.1", port), Handler)
        self.program = program
        self.hosts = [f"{name}:{self.server_port}" for name in ("127.0.0.1", "localhost")]
        self.turns = threading.BoundedSemaphore(AT_ONCE)
        self.connections = threading.BoundedSemaphore(CONNECTIONS)
        # the connections whose request hasn't come, the oldest first
        self.waiting = {}
        seconds = {"usual": USUAL_SECONDS, "most": MOST_SECONDS}
        about = {**program.about(), "forms": program.forms, "limits": LIMITS, "delays": FORMS[EXPLORE].choices["delays"], "seconds": seconds, "examples": examples}
        self.pages = {
            "/": ("text/html; charset=utf-8", filled(part("playground.html"), {"PARTS": part("parts.html")}).encode()),
            "/page.css": ("text/css; charset=utf-8", joined((*PICTURE_STYLES, "playground.css")).encode()),
            "/page.js": ("text/javascript; charset=utf-8", joined((*PICTURE_SCRIPTS, "editor.js", "explanation.js", "stepping.js", "comparison.js", "playground.js")).encode()),
            "/about": (JSON, json.dumps(about).encode()),
        }

    def process_request(self, request: Any, address: Any) -> None:
        if not self.connections.acquire(blocking=False) and not self.has_made_room():
            self.shutdown_request(request)
            return
        self.waiting[request] = None
        super().process_request(request, address)

    def has_made_room(self) -> bool:
        """Hangs up the connection that has waited longest for its request, in favour of a new one; whether there was one."""
        oldest = next(iter(list(self.waiting)), None)
        if oldest is None:
            return False
        self.waiting.pop(oldest, None)
        hang_up(oldest)
        return self.connections.acquire(timeout=LEAVING)

    def process_request_thread(self, request: Any, address: Any) -> None:
        try:
            super().process_request_thread(request, address)
        finally:
            self.waiting.pop(request, None)
            self.connections.release()

    def handle_error(self, request, address):
        """A connection that breaks is no news."""
