"""The server of the page to try grammars: its doors, and what it hands to `playground_answers`."""

import json
import os
from http.server import BaseHTTPRequestHandler, ThreadingHTTPServer

from playground_answers import examples

PAGE = os.path.join(os.path.dirname(os.path.abspath(__file__)), "page")
FILES = {
    "/": ("page.html", "text/html; charset=utf-8"),
    "/page.css": ("page.css", "text/css; charset=utf-8"),
    "/page.js": ("page.js", "text/javascript; charset=utf-8"),
    "/picture.js": ("picture.js", "text/javascript; charset=utf-8"),
    "/editor.js": ("editor.js", "text/javascript; charset=utf-8"),
}
LIMIT = 2 << 20  # bytes of a request
POLICY = ("default-src 'none'; script-src 'self'; style-src 'self'; connect-src 'self'; img-src data:; base-uri 'none'; "
          "form-action 'none'; frame-ancestors 'none'")
KINDS = ("answer", "tree", "core", "facts")


class Refused(Exception):
    """A request that isn't answered: the status says why."""

    def __init__(self, status, why):
        super().__init__(why)
        self.status = status


class Handler(BaseHTTPRequestHandler):
    server_version, sys_version, protocol_version = "playground", "", "HTTP/1.1"
    timeout = 60

    def do_GET(self):
        self.guarded(self.get)

    def do_POST(self):
        self.guarded(self.post)

    def guarded(self, answer):
        """Answers where the request comes from a page of this server."""
        try:
            self.check_origin()
            self.send(200, *answer())
        except Refused as refused:
            self.close_connection = True
            self.send(refused.status, json.dumps({"refused": str(refused)}).encode(), "application/json")
        except (BrokenPipeError, ConnectionResetError):
            self.close_connection = True

    def check_origin(self):
        """Other names for this machine may be another page's trick to get at it."""
        hosts = [f"{name}:{self.server.server_port}" for name in ("127.0.0.1", "localhost")]
        if self.headers.get("Host") not in hosts:
            raise Refused(403, "another host")
        origin = self.headers.get("Origin")
        if origin is not None and origin not in [f"http://{host}" for host in hosts]:
            raise Refused(403, "another origin")

    def get(self):
        path = self.path.partition("?")[0]
        if path == "/start.json":
            server = self.server
            said = {"facts": server.has_facts, "examples": examples(), "budget": server.answers.budget}
            return json.dumps(said).encode(), "application/json"
        if path not in FILES:
            raise Refused(404, "no such page")
        name, kind = FILES[path]
        with open(os.path.join(PAGE, name), "rb") as file:
            return file.read(), kind

    def post(self):
        if self.path != "/answer":
            raise Refused(404, "no such page")
        if self.headers.get("Content-Type", "").partition(";")[0].strip() != "application/json":
            raise Refused(415, "no JSON")
        length = self.headers.get("Content-Length", "")
        if not length.isascii() or not length.isdigit():
            raise Refused(411, "no length")
        if int(length) > LIMIT:
            raise Refused(413, f"more than {LIMIT} bytes")
        return json.dumps(self.server.answers.answer(read_request(self.rfile.read(int(length))))).encode(), "application/json"

    def send(self, status, body, kind):
        self.send_response(status)
        for name, value in {"Content-Type": kind, "Content-Length": str(len(body)), "Content-Security-Policy": POLICY,
                            "X-Content-Type-Options": "nosniff", "Referrer-Policy": "no-referrer",
                            "Cross-Origin-Resource-Policy": "same-origin", "Cache-Control": "no-store"}.items():
            self.send_header(name, value)
        self.end_headers()
        self.wfile.write(body)

    def log_message(self, *_words):
        pass


def read_request(body):
    """The request of a body, whose parts have the kinds that they should have."""
    try:
        request = json.loads(body)
    except (ValueError, RecursionError):
        raise Refused(400, "no JSON") from None
    if not isinstance(request, dict):
        raise Refused(400, "no request")
    kinds = {"page": str, "number": int, "kind": str, "grammar": str, "input": str, "view": dict}
    if not all(isinstance(request.get(name), kind) for name, kind in kinds.items()) or request["kind"] not in KINDS:
        raise Refused(400, "no request")
    after, depth = request.get("after"), request.get("depth")
    if not (after is None or isinstance(after, str) and after[:1] not in ("-", "")) or not (depth is None or isinstance(depth, int)):
        raise Refused(400, "no request")
    return request


class Server(ThreadingHTTPServer):
    daemon_threads = True

    def __init__(self, port, answers):
        super().__init__(("127.0.0.1", port), Handler)
        self.answers, self.has_facts = answers, answers.has_facts()
