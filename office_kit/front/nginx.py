"""The front of deploy/front.conf and deploy/nginx/ over an office, for tests. Only ports, addresses and folders are adapted, and nginx runs in a folder as the
user of the test."""
import contextlib
import http.client
import json
import os
import ssl
import subprocess
import tomllib
from collections.abc import Iterable, Mapping
from pathlib import Path
from string import Template
from typing import Any, NamedTuple

from office_kit.common import FIELDS, HOST, ROOT, Caller, free_port, need, until, wait_for
from office_kit.front.clerks import Change, Signing, adapted, certify

# An address of this machine from which, by the adapted file, no clerk asks.
OUTSIDE = "127.0.0.2"
FILES = tomllib.loads(Path(__file__).with_suffix(".toml").read_text(encoding="utf-8"))
PATIENCE = 60
# For tests that ask for the ledger right after a command: nginx keeps it for a second, and doesn't show it while it asks again.
LEDGER_OF_NOW = [("proxy_cache_valid 200 404 409 60s;", 1, "proxy_cache_valid 200 404 409 1s;"), ("    proxy_cache_background_update on;\n", 1, "")]


class Answer(NamedTuple):
    status: int
    head: http.client.HTTPMessage
    body: bytes


class Front:
    """nginx over the office at a port, with a certificate that it signed itself; it ends after its `with`. More of its file may be changed. Clerks may sign in
    by name; otherwise they come with the office's key."""

    def __init__(self, folder: str, office: int, more: Iterable[Change] = (), signing: Signing | None = None) -> None:
        self.folder, self.office, self.port, self.plain_port, self.ways = folder, office, free_port(), free_port(), free_port()
        self.signing = signing
        self.certificate = f"{folder}/certificate.pem"
        certify(f"{folder}/certificate", "/CN=office", None, "-addext", f"subjectAltName=IP:{HOST}")
        self.context = ssl.create_default_context(cafile=self.certificate)
        ways = signing.put(folder) if signing else []
        places = " ".join(f"{kind}_temp_path {folder}/{kind};" for kind in ("client_body", "proxy", "fastcgi", "uwsgi", "scgi"))
        names = {**vars(self), "host": HOST, "root": ROOT, "places": places, "user": "user root;" if os.geteuid() == 0 else ""}
        Path(folder, "nginx.conf").write_text(Template(FILES["main"]).substitute(names))
        changes = [(old, count, Template(new).substitute(names)) for old, count, new in FILES["changes"]]
        Path(folder, "nginx").mkdir(exist_ok=True)
        for name, text in adapted(more, ways, changes).items():
            Path(folder, name).write_text(text, encoding="utf-8")
        self.words = [need("nginx", "nginx"), "-p", folder, "-e", f"{folder}/errors.log", "-c", f"{folder}/nginx.conf"]
        self.process = subprocess.Popen(self.words, stdin=subprocess.DEVNULL)

    def __enter__(self) -> "Front":
        wait_for(self.process, self.port)
        return self

    def __exit__(self, *_: object) -> None:
        # On a signal to end, nginx ends its workers; after a kill they would remain.
        self.process.terminate()
        self.process.wait()

    def address(self, rest: str = "") -> str:
        return f"https://{HOST}:{self.port}/{rest}"

    def connection(self, source: str = HOST, name: str = "") -> http.client.HTTPSConnection:
        """A connection by TLS. That of a clerk, by name, has the clerk's certificate if the front asks for one."""
        context = self.context
        if name and self.signing and self.signing.way == "certificate":
            context = ssl.create_default_context(cafile=self.certificate)
            context.load_cert_chain(f"{self.folder}/{name}.pem", f"{self.folder}/{name}.key")
        return http.client.HTTPSConnection(HOST, self.port, context=context, source_address=(source, 0), timeout=PATIENCE)

    def ask(self, method: str, target: str, body: bytes = b"", caller: Caller | None = None, source: str = HOST, name: str = "", **fields: str) -> Answer:
        """The answer to a request by TLS. A caller is a name and a key; further fields are named with `_` for `-`. A clerk may sign in, by name."""
        signed = self.signing.fields(name) if self.signing else {}
        with contextlib.closing(self.connection(source, name)) as connection:
            return exchange(connection, method, target, body, caller, signed | {field.replace("_", "-"): value for field, value in fields.items()})

    def logged(self, name: str) -> str:
        return Path(self.folder, name).read_text(encoding="utf-8", errors="surrogateescape")

    def logged_commands(self, least: int) -> list[dict[str, Any]]:
        """The lines of the clerks' log, as soon as there are so many."""
        until(lambda: self.logged("clerks.log").count("\n") >= least)
        return [json.loads(line) for line in self.logged("clerks.log").split("\n")[:-1]]


def exchange(connection: http.client.HTTPConnection, method: str, target: str, body: bytes = b"", caller: Caller | None = None,
             more: Mapping[str, str] | None = None) -> Answer:
    """The answer to a request on a connection, which may stay open."""
    connection.request(method, target, body, fields_of(caller) | dict(more or {}))
    answer = connection.getresponse()
    return Answer(answer.status, answer.headers, answer.read())


def fields_of(caller: Caller | None) -> dict[str, str]:
    return {name.decode(): value.decode("latin-1") for name, value in zip(FIELDS, caller or ())}
