"""Clerks who sign in at the front by name (deploy/clerks.conf, deploy/nginx/clerks*.conf), by password and by certificate, with nginx and a server in place of
the office.

Each check also runs over files in which a fault was planted (test_clerks.toml): there it must fail.

At last an office is made through the front, from the budget to the last payment, by clerks with four roles. (Forged logs, and commands that were given past
the front, are planted in tests/audit/test_audit.py.)
"""
import contextlib
import json
import os
import re
import subprocess
import time
import tomllib
from pathlib import Path

import pytest

from office_kit import client
from office_kit.client import Answer
from office_kit.common import HOST, ROOT, until
from office_kit.front.checks import is_own, placed, routes
from office_kit.front.clerks import WAYS, Signing, basic
from office_kit.front.nginx import OUTSIDE, Front, exchange
from office_kit.front.office import Office
from office_kit.store.life import AuditedLife
from office_kit.store.planted_lines import NAMES as NAMED

pytestmark = [pytest.mark.needs("nginx", "openssl", "curl", "htpasswd"), pytest.mark.nginx]
PLANTS = tomllib.loads(Path(__file__).with_suffix(".toml").read_text(encoding="utf-8"))
SMALLER = PLANTS.pop("smaller")
ROLES = {"anna": "notices", "bert": "budget", "cora": "evaluation", "dora": "contracts", "emil": "all", "fred": "notices contracts"}
# A name with a password and a certificate, and without a role.
NOBODY = "gerd"
AS_CLERK = {"Office_Caller": "clerk"}
# Routes that both the clerk and others ask, and those of tenderers alone.
SHARED = [("GET", path) for path in ("/ledger", "/lines/1100", "/notices/N1/evaluation", "/securities/1", "/contracts/1", "/contracts/1/security")]
TENDERERS = [("POST", "/notices/N1/lots/L1/tenders"), ("POST", "/tenders/1/modify"), ("POST", "/tenders/1/withdraw"), ("GET", "/tenders/1"),
             ("GET", "/notices/N1/tenders"), ("GET", "/securities/1"), ("GET", "/contracts/1"), ("GET", "/contracts/1/security")]
COMMAND, REGISTER = ("POST", "/budget/B1"), ("GET", "/notices/N1/register")
# Ways to write the name of the clerk that the office reads as the clerk's.
SPELLINGS = ["clerk", " clerk", "clerk ", "\tclerk", "clerk\t", " \tclerk\t "]
# Bodies of all kinds of bytes: of JSON, none, of no text, and the longest.
BODIES = [b'{"title":"a \\"b\\" \\u00e9 \xc3\xa9"}\n', b"", bytes(range(256)), b"\xff\xfe\x00\r\n\\", b"x" * 65_536, bytes(range(256)) * 256]


def seen(office):
    """The requests that reached the office since the last time, each with the name and the key that came with it."""
    came = [(f"{it.method} {it.path}", it.head.get("Office-Caller"), it.head.get("Office-Key")) for it in office.came]
    office.came.clear()
    return came


def keys_seen(office):
    return [key for _, _, key in seen(office) if key]


def roles(front, office):
    """Each role gives exactly its commands, which docs/INSTALL.md lists, and all queries. The office sees an allowed request, and no other one."""
    rows = re.findall(r"(?m)^\| `(budget|notices|evaluation|contracts)` \| ([^|]*) \|", Path(ROOT, "docs", "INSTALL.md").read_text(encoding="utf-8"))
    commands = {placed(command): role for role, listed in rows for command in re.findall(r"`(POST [^`]*)`", listed)}
    assert sorted(commands) == sorted(f"POST {path}" for method, path, callers in routes() if method == "POST" and callers == "clerk")
    queries = [f"GET {path}" for method, path, callers in routes() if method == "GET" and callers.startswith("clerk")]
    queries += ["GET /ledger", "GET /lines/1100", "GET /notices/N1/evaluation"]
    # (Each address may sign in only so often.)
    for number, name in enumerate([*ROLES, NOBODY], 1):
        own = ROLES.get(name, "").split()
        allowed = {route: role in own or "all" in own for route, role in commands.items()} | {route: bool(own) for route in queries}
        for route, may in allowed.items():
            method, path = route.split(" ")
            answer = front.ask(method, path, b"{}" if method == "POST" else b"", name=name, source=f"127.0.1.{number}", **AS_CLERK)
            assert answer.status == 200 if may else is_own(answer, 403), (name, route)
            assert seen(office) == ([(route, "clerk", "abc")] if may else []), (name, route)


def keys(front, office):
    """Only the front has the office's key. The office sees it for a clerk who has signed in and comes as the clerk, whatever key the client sends. Without
    signing in no key that a client sends as the clerk reaches the office. A tenderer's own key does, also from the clerks' networks."""
    for key in ("abc", "another", ""):
        for method, path in (COMMAND, REGISTER, *SHARED):
            front.ask(method, path, b"", (b"clerk", key.encode()), name="emil")
            assert seen(office) == [(f"{method} {path}", "clerk", "abc")], key
    for spelling in SPELLINGS:
        for source in (HOST, OUTSIDE):
            for method, path in [COMMAND, REGISTER, *SHARED, *TENDERERS]:
                front.ask(method, path, b"x" if method == "POST" else b"", source=source, Office_Caller=spelling, Office_Key="abc")
                assert not keys_seen(office), (method, path, spelling, source)
    for method, path in TENDERERS:
        for source in (HOST, OUTSIDE):
            front.ask(method, path, b"x" if method == "POST" else b"", (b"T1", b"own"), source)
            assert seen(office) == [(f"{method} {path}", "T1", "own")], source
    for fields in ({}, {"Office_Key": "abc"}, {"Office_Caller": "T1", "Office_Key": "own"}, {"Office_Caller": "Clerk"}):
        for method, path in (COMMAND, REGISTER, ("POST", "/notices/N1/open")):
            front.ask(method, path, b"", name="emil", **fields)
            assert not keys_seen(office), (method, path, fields)
    front.ask("GET", "/tenders/1", b"", (b"T1", b"own"), name="emil")
    assert seen(office) == [("GET /tenders/1", "T1", "own")], "a clerk who is a tenderer, too"


def strangers(front, office):
    """Nobody signs in with a wrong password, with a certificate of another authority, by another name in it, or from outside the clerks' networks. Public
    queries are answered as before."""
    by_password = front.signing.way == "password"
    for number, (name, fields) in enumerate(wrong_passwords(front.signing) if by_password else wrong_certificates(front.signing)):
        for method, path in (COMMAND, REGISTER, ("GET", "/ledger"), ("GET", "/contracts/1"), ("GET", "/front/who")):
            answer = front.ask(method, path, name=name, source=f"127.0.1.{100 + number}", **AS_CLERK, **fields)
            isnt_read = answer.status == 400 and b"certificate error" in answer.body
            assert is_own(answer, 401 if by_password else 403) or isnt_read, (name, fields, path)
            assert bool(answer.head["WWW-Authenticate"]) == by_password, (name, fields, path)
            assert not seen(office), (name, fields, path)
    for method, path in (COMMAND, REGISTER, ("GET", "/front/who"), ("GET", "/clerk/")):
        assert is_own(front.ask(method, path, name="emil", source=OUTSIDE, **AS_CLERK), 403) and not seen(office), path
    for method, path in SHARED:
        front.ask(method, path, name="emil", source=OUTSIDE, **AS_CLERK)
        assert not keys_seen(office), path
    for path in ("/ledger", "/notices", "/notices/N1/terms", "/notices/N1/evaluation"):
        for source, fields in ((HOST, {}), (OUTSIDE, AS_CLERK)):
            assert front.ask("GET", path, source=source, **fields).status == 200 and not keys_seen(office), path


def wrong_passwords(signing):
    """Fields that sign nobody in."""
    wrong = [basic(name, signing.passwords[own]) for name, own in (("emil", "bert"), ("Emil", "emil"), ("", "emil"), ("ines", "emil"))]
    wrong += ["Basic", "Basic !", "Basic Og==", "Basic ZW1pbA==", "Bearer abc"]
    return [("", {}), *(("", {"Authorization": text}) for text in wrong)]


def wrong_certificates(signing):
    """Names of certificates that sign nobody in."""
    signing.certify("others", None)
    subjects = {"twice": "/O=x,CN=emil/CN=gerd", "upper": "/CN=EMIL", "inner": "/CN=gerd/O=CN=emil", "last": "/CN=emil/OU=x", "longer": "/CN=emil x"}
    for name, subject in {**subjects, "emil-of-others": "/CN=emil"}.items():
        signing.certify(name, "clerks" if name in subjects else "others", subject)
    return [("", {}), ("", {"Authorization": basic("emil", "x")}), ("emil-of-others", {}), *((name, {}) for name in subjects)]


def removed(front, office):
    """A clerk who was taken out of the list of names may do nothing, with the right password or certificate."""
    def ask(name):
        return front.ask(*COMMAND, name=name, **AS_CLERK)
    names = Path(front.folder, "clerks.conf")
    names.write_text(names.read_text(encoding="utf-8").replace('    emil "all";\n', ""), encoding="utf-8")
    assert ask("emil").status == 200
    subprocess.run([*front.words, "-s", "reload"], check=True)
    assert until(lambda: is_own(ask("emil"), 403), 10)
    assert ask("bert").status == 200


def who(front, office):
    """/front/who says the name and the roles of a clerk who has signed in, and nothing to others."""
    for name, own in ROLES.items():
        answer = front.ask("GET", "/front/who", name=name)
        assert answer.status == 200 and json.loads(answer.body) == {"name": name, "roles": own}
        told = [answer.head[field] for field in ("Content-Type", "Cache-Control", "Access-Control-Allow-Origin")]
        assert told == ["application/json", "no-store", None]
    assert is_own(front.ask("GET", "/front/who", name=NOBODY), 403)
    assert front.ask("GET", "/clerk/").status == (401 if front.signing.way == "password" else 200)
    assert [front.ask("GET", path, name="anna").status for path in ("/clerk/", "/clerk/desk.js")] == [200, 200]
    assert not seen(office)


def lines(front, office):
    """Each command of a clerk is one line of the log, refused or not, with every byte of its body. Queries, tenderers' commands and wrong passwords have no
    line."""
    due = commands_of_fred(front)
    for number, body in enumerate(BODIES):
        front.ask("POST", f"/budget/B{number}", body, name="bert", **AS_CLERK)
        assert office.came[-1].body == body
        due.append(("bert", "budget", f"POST /budget/B{number}", 200, body))
    front.ask("POST", "/notices/N1", b"{}", name="bert", **AS_CLERK)
    due.append(("bert", "budget", "POST /notices/N1", 403, b""))
    # Without lines: queries, wrong passwords, requests without a name, tenderers' commands, and a body that is too long.
    others = [(*REGISTER, {"name": "fred", **AS_CLERK}), ("GET", "/front/who", {"name": "fred"}), ("POST", "/budget/B9", AS_CLERK),
              ("POST", "/tenders/1/modify", {"caller": (b"T1", b"own")})]
    if front.signing.way == "password":
        others.append(("POST", "/budget/B9", {"name": "ines", **AS_CLERK}))
    for method, path, fields in others:
        front.ask(method, path, b"", **fields)
    front.ask("POST", "/budget/B9", b"x" * 65_537, name="bert", **AS_CLERK)
    office.server_close()
    front.ask("POST", "/budget/B9", b"lost", name="bert", **AS_CLERK)
    due.append(("bert", "budget", "POST /budget/B9", 502, b"lost"))
    told = front.logged_commands(len(due))
    # (Each of two workers of nginx writes its lines.)
    read = sorted((it["name"], it["roles"], it["route"], it["status"], it["body"].encode("utf-8", "surrogateescape")) for it in told)
    is_same = read == sorted(due)
    assert is_same, [line[:4] for line in read]
    assert "temporary file" not in front.logged("errors.log"), "a body is written to a disk"
    for it in told:
        assert list(it) == ["moment", "seconds", "name", "roles", "address", "route", "status", "body"]
        away = time.time() - time.mktime(time.strptime(it["moment"][:19], "%Y-%m-%dT%H:%M:%S"))
        assert -2 < away < 60 and 0 <= it["seconds"] < 30 and it["address"] == HOST


def commands_of_fred(front):
    """Gives commands in different ways. The lines that they must have."""
    asked = [("/notices/N1", b"{}"), ("/contracts/1/pay", b'{"how":"regular"}'), ("/contracts/1/end", b'{"how":"regular"}')]
    with contextlib.closing(front.connection(name="fred")) as connection:
        for path, body in asked:
            exchange(connection, "POST", path, body, None, {"Office-Caller": "clerk", **front.signing.fields("fred")})
    # By HTTP/2 a body may come without its length. Clerks sign in as INSTALL.md and CLERK-API.md say.
    further = [("/contracts/2/end", b'{"how":"default"}', ["--data-binary", "@-"]), ("/contracts/3/end", b"z" * 65_536, ["-X", "POST", "-T", "-"])]
    signed = ["-u", f"fred:{front.signing.passwords['fred']}"] if front.signing.way == "password" else [
        "--cert", f"{front.folder}/fred.pem", "--key", f"{front.folder}/fred.key"]
    for path, body, how in further:
        words = ["curl", "-sS", "--http2", "-w", " %{http_version} %{http_code}", "--cacert", front.certificate, *signed, "-H", "Office-Caller: clerk", *how]
        run = subprocess.run([*words, front.address(path[1:])], input=body, capture_output=True)
        assert run.stdout.endswith(b" 2 200"), run.stderr
    return [("fred", "notices contracts", f"POST {path}", 200, body) for path, body, *_ in asked + further]


def secrets(front, office):
    """Neither the office's key nor a password is in a log or in a response."""
    asked = [("GET", "/front/who"), COMMAND, ("POST", "/notices/N1"), REGISTER, ("GET", "/ledger"), ("GET", "/contracts/1"), ("GET", "/clerk/"),
             ("GET", "/nothing"), ("TRACE", "/budget/B1"), ("POST", "/budget/B%201")]
    answers = [front.ask(method, path, b"" if method == "GET" else b"{}", name=name, **AS_CLERK)
               for name in ("emil", NOBODY, "bert", "") for method, path in asked]
    office.server_close()
    answers.append(front.ask(*COMMAND, b"{}", name="emil", **AS_CLERK))
    front.logged_commands(1)
    texts = {name: front.logged(name) for name in ("access.log", "counts.log", "errors.log", "clerks.log")}
    texts["a response"] = "".join(f"{dict(it.head)} {it.body.decode('latin-1')}" for it in answers)
    for secret in (front.signing.key, *front.signing.passwords.values(), "Office-Key", "Authorization: "):
        assert [name for name, text in texts.items() if secret in text] == [], secret


def too_often(front, office):
    """An address that guesses passwords must wait. (Here the limit is smaller: 30 at once, and one a second.)"""
    begun = time.monotonic()
    with contextlib.closing(front.connection()) as connection:
        guesses = [{"Office-Caller": "clerk", "Authorization": basic("emil", f"guess {number}")} for number in range(100)]
        statuses = [exchange(connection, *COMMAND, b"", None, fields).status for fields in guesses]
    assert 30 <= statuses.count(401) <= 32 + time.monotonic() - begun and set(statuses) <= {401, 429}
    assert front.ask("GET", "/front/who", name="emil", source="127.0.1.9").status == 200


def by_key(front, office):
    """As long as nobody signs in, each clerk sends the key, /front/who doesn't exist, and no log of the clerks is written."""
    for key in (b"abc", b"another"):
        for method, path in (COMMAND, REGISTER, ("GET", "/ledger"), ("GET", "/contracts/1")):
            front.ask(method, path, b"", (b"clerk", key), Authorization=basic("emil", "x"))
            assert seen(office) == [(f"{method} {path}", "clerk", key.decode())]
    assert is_own(front.ask("GET", "/front/who"), 404)
    assert front.ask("GET", "/clerk/").status == 200
    assert not os.path.exists(f"{front.folder}/clerks.log")


# Each check, with its ways of signing in. (Without one the names are read, and nobody can sign in.)
CHECKS = {roles: WAYS, keys: WAYS, strangers: WAYS, removed: WAYS, who: WAYS, lines: WAYS, secrets: WAYS, too_often: ["password"], by_key: [None]}


def run(one, way, folder, *faults):
    """Runs a check over a front and a server of its own."""
    folder.mkdir()
    changes = [*SMALLER.get(one.__name__, []), *faults]
    with Office() as office, Front(str(folder), office.port, changes, Signing(way, ROLES, [NOBODY])) as front, contextlib.suppress(BrokenPipeError):
        one(front, office)


@pytest.mark.parametrize("one, way", [pytest.param(one, way, id=f"{one.__name__}-{way}") for one, ways in CHECKS.items() for way in ways])
def test_front(tmp_path, one, way):
    run(one, way, tmp_path / "front")


@pytest.mark.parametrize("one, fault", [pytest.param(one, fault, id=f"{one.__name__}-{number}")
                                        for one in CHECKS for number, fault in enumerate(PLANTS[one.__name__])])
def test_planted_fault(tmp_path, one, fault):
    """The check fails, in one of its ways of signing in."""
    for way in CHECKS[one]:
        try:
            run(one, way, tmp_path / str(way), fault)
        except (AssertionError, ValueError):
            return
    pytest.fail("it isn't found")


# ---- An office that is made through such a front.

class ByName(client.Front):
    """An office by its front. Each of the clerk's commands is given by a clerk whose role allows it; queries by one of them."""

    def __init__(self, front):
        super().__init__(front.address().rstrip("/"), front.context)
        self.front = front

    def ask(self, method, target, body, caller):
        if not caller or caller[0] != b"clerk":
            return super().ask(method, target, body, caller)
        name = next(name for name, _, routes in NAMED if re.fullmatch(routes, target))
        answer = self.front.ask(method, target, body, name=name, **AS_CLERK)
        return Answer(answer.status, dict(answer.head.items()), answer.body)


@pytest.mark.parametrize("way", WAYS)
def test_audit(office, tmp_path, way):
    """Of 55 accepted and two refused commands each has a line, and `tools/audit --front-log` finds nothing in the office."""
    with Front(str(tmp_path), office.port, (), Signing(way, {name: roles for name, roles, _ in NAMED})) as front:
        life = AuditedLife(ByName(front))
        life.before_the_deadline()
        life.after_the_deadline()
        assert front.ask("POST", "/notices/N6/cancel", b"{}", name="dora", **AS_CLERK).status == 403
        assert front.ask(*COMMAND, client.budget("1,add,1,x").encode(), name="bert", **AS_CLERK).status == 409
        assert len(front.logged_commands(57)) == 57
    run = subprocess.run([os.path.join(ROOT, "tools", "audit"), office.path, "--front-log", f"{front.folder}/clerks.log"], capture_output=True, text=True)
    assert run.returncode == 0, run.stdout + run.stderr
