"""Servers in place of an office, for tests: each answers in its own way. One keeps the requests that reach it, for tests of the front."""
import http.server
import json
import threading
import time
from collections.abc import Mapping
from typing import NamedTuple

from office_kit.common import HOST

# The query of the front about a key, and for /health.
NO_NOTICES = "/notices?after=" + "z" * 32
LEDGER = b"LEDGER\n" + b"1000\t1000\t1000\t0\t0\t0\n" * 100
WRONG = b'{"name":"BadKey","refusal":6}'
# An answer: its status, its body, and further fields of its head.
Told = tuple[int, bytes, Mapping[str, str]]


class Request(NamedTuple):
    method: str
    path: str
    head: dict[str, str]
    body: bytes


class Handler(http.server.BaseHTTPRequestHandler):
    server: "StandIn"

    def do_GET(self) -> None:
        body = self.rfile.read(int(self.headers.get("Content-Length", 0)))
        status, told, fields = self.server.answer(Request(self.command, self.path, dict(self.headers.items()), body))
        known = {"Date": self.date_time_string(), "Content-Type": "application/json", "Content-Length": str(len(told)), "Connection": "close"}
        head = "".join(f"{name}: {value}\r\n" for name, value in {**known, **fields}.items())
        # (In one go, as the office does.)
        self.wfile.write(f"HTTP/1.1 {status} {self.responses[status][0]}\r\n{head}\r\n".encode() + told)

    do_HEAD = do_OPTIONS = do_POST = do_GET


class StandIn(http.server.HTTPServer):
    """A server at a port of its own, which takes requests one after another until the end of its `with`. Its answers are JSON, unless their fields say
    something else. (Its thread ends with it, even if a test fails. If it didn't, it would poll the number of its closed socket. That takes a processor. Each
    later socket of that number would stay open for half a second after it is closed.)"""

    def __init__(self) -> None:
        super().__init__((HOST, 0), Handler)
        self.socket.listen(128)
        self.port, self.address = self.server_port, f"http://{HOST}:{self.server_port}"
        threading.Thread(target=self.serve_forever, args=(0.05,), daemon=True).start()

    def answer(self, request: Request) -> Told:
        raise NotImplementedError

    def server_close(self) -> None:
        self.shutdown()
        super().server_close()


class Office(StandIn):
    """It keeps the requests, and the front's questions about a key apart. It answers a wrong key with 401, and all else with 200. While `held` is cleared it
    answers nobody; before each answer it waits."""

    def __init__(self) -> None:
        self.came: list[Request] = []
        self.keys: list[Request] = []
        self.held, self.pause = threading.Event(), 0.0
        self.held.set()
        super().__init__()

    def answer(self, request: Request) -> Told:
        self.held.wait()
        time.sleep(self.pause)
        (self.keys if request.path == NO_NOTICES and "Office-Key" in request.head else self.came).append(request)
        if request.head.get("Office-Key", "").startswith("wrong"):
            return 401, WRONG, {"WWW-Authenticate": 'Office realm="office"'}
        if request.path == "/ledger":
            return 200, LEDGER, {"Content-Type": "text/plain; charset=utf-8"}
        return 200, json.dumps({"text": "x" * 2000}).encode(), {}

    def server_close(self) -> None:
        self.held.set()
        super().server_close()
