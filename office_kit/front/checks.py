"""The questions of tests/desks/test_portal.py to the front alone: its own answers, the requests that it lets through, and the clients that it makes wait."""
import contextlib
import json
import re
import time
import tomllib
from pathlib import Path

from office_kit.common import CLERK, ROOT, busy, exchange, request, unread, until
from office_kit.desks.page_office import SECURITY
from office_kit.desks.scene import Scene
from office_kit.front.nginx import OUTSIDE, PATIENCE, Answer, fields_of
from office_kit.store.life import key_of

# The answers that the front must give.
DUE = tomllib.loads(Path(__file__).with_suffix(".toml").read_text(encoding="utf-8"))
PLACES = {"notice": "N1", "lot": "L1", "line": "1100", "batch": "B1", "tenderer": "T1", "receipt": "1", "award": "1", "contract": "1", "security": "1"}
MOST = 65_536


def is_own(answer: Answer, status: int) -> bool:
    """Whether this is an answer of the front itself, in JSON."""
    return answer.status == status and answer.head["Content-Type"] == "application/json" and list(json.loads(answer.body)) == ["front"]


def placed(path: str) -> str:
    """A path of a document with identifiers in the place of each name in braces."""
    return re.sub(r"\{(\w+)\}", lambda name: PLACES[str(name[1])], path)


def routes() -> list[tuple[str, str, str]]:
    """The rows of the table of docs/API.md: a method, a path, and the callers that may ask it."""
    rows = re.findall(r"^\| \[`(GET|POST) (/[^`]*)`\]\([^)]*\) \| ([^|]*) \|", Path(ROOT, "docs", "API.md").read_text(encoding="utf-8"), re.M)
    assert len(rows) == 32
    return [(method, placed(path), who) for method, path, who in rows]


def headers(scene: Scene) -> None:
    """Each answer has the front's headers, no version and no cookie, and its own type. It says whether it may be kept."""
    for path, (media, keeping, policy) in DUE["kinds"].items():
        head = scene.front.ask("GET", path).head
        due = {**DUE["headers"], "Set-Cookie": None, "Content-Type": media, "Cache-Control": keeping, "Cross-Origin-Resource-Policy": policy}
        assert {name: head[name] for name in due} == due, path


def sizes(scene: Scene) -> None:
    """A body of 65,536 bytes passes, and is taken by the office; one more doesn't, nor does a body in chunks, a long head or a long path. No body is written to
    a disk."""
    body = json.dumps({"name": "Epsilon", "address": "5 Row", "key": "0" * 64}).encode()
    assert scene.front.ask("POST", "/tenderers/T5", body.ljust(MOST), CLERK).status == 200
    assert is_own(scene.front.ask("POST", "/tenderers/T6", body.ljust(MOST + 1), CLERK), 413)
    with contextlib.closing(scene.front.connection()) as connection:
        connection.request("POST", "/tenderers/T6", iter([body]), fields_of(CLERK), encode_chunked=True)
        response = connection.getresponse()
        assert response.status == 501 and "front" in json.loads(response.read()), "a body in chunks"
    assert "temporary file" not in scene.front.logged("errors.log")
    assert scene.front.ask("GET", "/ledger", caller=(b"T1", b"x" * 9000)).status == 400
    assert scene.front.ask("GET", "/lines/" + "x" * 9000).status == 414
    assert is_own(scene.front.ask("PUT", "/"), 405), "another method"


def odd_paths(scene: Scene) -> None:
    """A path that is written in another way than the office's gets only the front's own answer, and so does a path that is no route."""
    for path in DUE["paths"]["odd"] + DUE["paths"]["nowhere"]:
        assert is_own(scene.front.ask("GET", path, caller=CLERK), 404), path


def networks(scene: Scene) -> None:
    """From elsewhere the clerk's routes are refused, with the right key too, and all others reach the office."""
    for method, path, who in routes():
        answer = scene.front.ask(method, path, source=OUTSIDE, caller=CLERK if who == "clerk" else None)
        assert is_own(answer, 403) if who == "clerk" else b'"front"' not in answer.body, (method, path)
        if who == "clerk":
            wrong = (b"clerk", b"wrong")
            answer = scene.front.ask(method, path, caller=wrong)
            told, _ = exchange(scene.front.office, request(method.encode(), path.encode(), b"", wrong), PATIENCE)
            assert answer.status == 401 and told.endswith(b"\r\n\r\n" + answer.body) and answer.head["WWW-Authenticate"], (method, path)


def slow_clients(scene: Scene) -> None:
    """If a client sends half a head or half a body, and then nothing, it waits alone."""
    half_body = b"POST /tenderers/T7 HTTP/1.1\r\nHost: office\r\nContent-Length: 1000\r\n\r\n" + b" " * 500
    with contextlib.ExitStack() as clients:
        for sent in [half_body] * 4 + [b"GET /ledger HTTP/1.1\r\nHost: of"] * 2:
            client = clients.enter_context(contextlib.closing(scene.front.connection()))
            client.connect()
            client.sock.sendall(sent)
        # (nginx has read what each of them sent.)
        assert until(lambda: not any(unread(scene.front.port)))
        begun, before = time.monotonic(), busy()
        # A path that wasn't asked before, so the office must answer it.
        assert json.loads(scene.front.ask("GET", "/lines/unknown").body).get("name") == "NoSuch" and time.monotonic() - begun < 3 * max(before, busy())


def names_and_keys(scene: Scene) -> None:
    """On public routes the office doesn't learn the caller's name, so a wrong key doesn't matter there. No log has a key or a security."""
    # (The last one wasn't asked before, so the front has no answer of it.)
    statuses = {"/ledger": 200, "/lines/1100": 200, "/notices/N1/record": 200, "/notices/N1/releases": 200, "/notices/N1/minutes": 409, "/notices": 200,
                "/notices/N1/terms": 200, "/notices/N1/evaluation": 409, "/lines/unseen": 404}
    for path, wanted in statuses.items():
        assert scene.front.ask("GET", path, caller=(b"T1", b"wrong")).status == wanted, path
    for secret in (SECURITY, key_of("T1"), "Office-Key"):
        assert secret not in scene.front.logged("access.log") + scene.front.logged("errors.log")


CHECKS = [headers, sizes, odd_paths, networks, slow_clients, names_and_keys]
