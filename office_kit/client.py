"""The client of everything that asks an office: a method for each of its sixteen commands and sixteen queries, over a choice of transports.

    Client(Port(port))              a connection for each request, over the loopback
    Client(Front(base, context))    an HTTP server in front of the office, with or without TLS; after a 429 it waits as long as that says and asks again
    Client(Blocks(moment))          blocks of `procure desk`: each method returns the block, `sent` keeps all, and `answers` runs them as one input
    Client(Requests())              asks nothing: each method returns the bytes of its request

Over a connection a method returns the office's `Answer`, whose members are read as `answer["receipt"]`. An answer with another status than 200 ends the script,
unless the transport was made with `strict=False`. `lot`, `notice`, `tender` and `text_of` make the parts of requests.
"""
import contextlib
import hashlib
import http.client
import json
import math
import os
import ssl
import subprocess
import time
import urllib.parse
from collections.abc import Callable, Mapping
from dataclasses import dataclass
from functools import partialmethod
from typing import Any, Generic, Protocol, TypeVar

from office_kit import common
from office_kit.common import CLERK, CONFIG, HOST, Caller, fail, parts_of

# The type of a method's result, which depends on the transport.
Told = TypeVar("Told")
Given = TypeVar("Given", covariant=True)
Body = str | bytes | Mapping[str, Any]
# Seconds, for the first answer of a server that just begins, and for requests that a front makes wait.
PATIENCE = 60
# How often a front is asked again.
TRIES = 60
# Seconds to the deadlines for which tests wait: AHEAD adds to them if the machine or the program is slow.
AHEAD = int(os.environ.get("AHEAD", "4"))
HEAD = "line,kind,amount,title\n"


def text_of(second: float) -> str:
    """A second as the office writes it."""
    return time.strftime("%Y-%m-%dT%H:%M:%SZ", time.gmtime(second))


def ahead(begun: float, times: int) -> int:
    """The second of a deadline before which so many times the work since `begun`, of `time.monotonic`, is done; on a busy machine it is further ahead."""
    return int(time.time()) + max(AHEAD, math.ceil(times * (time.monotonic() - begun)))


def wait_until(second: float) -> None:
    time.sleep(max(0.0, second - time.time()))


def lot(name: str = "L1", line: str = "1000", estimate: int = 600, security: int = 0, *items: tuple[str, int], title: str = "North") -> dict[str, Any]:
    """A lot of a publication. Its items are texts and quantities, I1 and so on; without one it is some paving."""
    listed = [{"id": f"I{number}", "title": text, "quantity": quantity} for number, (text, quantity) in enumerate(items or [("Paving", 3)], 1)]
    return {"id": name, "title": title, "line": line, "estimate": estimate, "security": security, "items": listed}


def notice(deadline: str, *lots: Mapping[str, Any], title: str = "Road repair", standstill: int = 0, **terms: Any) -> dict[str, Any]:
    """The body of a publication: the price decides, unless a criterion is among the other terms."""
    head = {"title": title, "deadline": deadline, "validity_days": 90, "standstill_days": standstill}
    return {**head, "criteria": "price", **terms, "lots": list(lots)}


def tender(*rows: tuple[int, int], wrong: int = 0) -> str:
    """A tender of these quantities and unit prices, for the items I1 and so on, with a sum that is too small by so much."""
    lines = [f"I{number},{quantity},{unit},{quantity * unit}\n" for number, (quantity, unit) in enumerate(rows, 1)]
    total = sum(quantity * unit for quantity, unit in rows) - wrong
    return "item,quantity,unit,total\n" + "".join(lines) + f"TOTAL,,,{total}\n"


def budget(*rows: str) -> str:
    return HEAD + "".join(row + "\n" for row in rows)


def data_of(body: Body) -> bytes:
    """A body as it is sent: bytes and texts as they are, anything else as compact JSON."""
    if isinstance(body, bytes):
        return body
    return (body if isinstance(body, str) else json.dumps(body, separators=(",", ":"))).encode()


@dataclass
class Answer:
    """A response: its status, the fields of its head, its body, and the seconds that it took."""

    status: int
    fields: Mapping[str, str]
    body: bytes
    seconds: float = 0.0

    def value(self) -> Any:
        return json.loads(self.body)

    def __getitem__(self, member: str) -> Any:
        return self.value()[member]


def answer_of(response: bytes, seconds: float = 0.0) -> Answer:
    """A response as it came over a connection that is closed then."""
    head, end, body = response.partition(b"\r\n\r\n")
    first, *lines = head.decode("latin-1").split("\r\n")
    if not end or not first.startswith("HTTP/1.1 "):
        fail(f"no response: {response[:100]!r}")
    return Answer(int(first.split(" ")[1]), dict(line.split(": ", 1) for line in lines), body, seconds)


class Transport(Protocol[Given]):
    """Carries requests."""

    def send(self, method: str, target: str, body: bytes, caller: Caller | None) -> Given:
        """The result of a request. A caller is a name and a key; without one the public asks."""


class Requests:
    def send(self, method: str, target: str, body: bytes, caller: Caller | None) -> bytes:
        return common.request(method.encode(), target.encode(), body, caller) if method == "POST" or caller else common.look(target.encode())


class Blocks(Requests):
    def __init__(self, moment: str) -> None:
        self.moment = moment
        self.sent: list[bytes] = []

    def send(self, method: str, target: str, body: bytes, caller: Caller | None) -> bytes:
        self.sent.append(common.block(self.moment.encode(), super().send(method, target, body, caller)))
        return self.sent[-1]

    def answers(self, program: str, settings: str = CONFIG) -> list[Answer]:
        """The program's answers to everything that was kept, in order."""
        ran = subprocess.run([program, "desk", settings], input=b"".join(self.sent), capture_output=True)
        told = parts_of(ran.stdout)
        if ran.returncode or len(told) != len(self.sent):
            fail(f"{program} desk ended with {ran.returncode}, {len(told)} of {len(self.sent)} answered: {ran.stderr.decode(errors='replace')}")
        return [answer_of(response) for response in told]


class Asking:
    strict: bool

    def send(self, method: str, target: str, body: bytes, caller: Caller | None) -> Answer:
        answer = self.exchange(method, target, body, caller)
        if self.strict and answer.status != 200:
            fail(f"{method} {target}: {answer.status} {answer.body[:300].decode(errors='replace')}")
        return answer

    def exchange(self, method: str, target: str, body: bytes, caller: Caller | None) -> Answer:
        raise NotImplementedError


@dataclass
class Port(Asking):
    port: int
    patience: float = PATIENCE
    strict: bool = True

    def exchange(self, method: str, target: str, body: bytes, caller: Caller | None) -> Answer:
        return answer_of(*common.exchange(self.port, Requests().send(method, target, body, caller), self.patience))


@dataclass
class Front(Asking):
    """An office with a front, at an address without a path; a context for TLS if its certificate is self-signed."""

    base: str
    context: ssl.SSLContext | None = None
    strict: bool = True

    def connection(self) -> http.client.HTTPConnection:
        base = urllib.parse.urlsplit(self.base)
        if base.scheme == "https":
            return http.client.HTTPSConnection(base.hostname or HOST, base.port, timeout=PATIENCE, context=self.context)
        return http.client.HTTPConnection(base.hostname or HOST, base.port, timeout=PATIENCE)

    def exchange(self, method: str, target: str, body: bytes, caller: Caller | None) -> Answer:
        """The answer; after a 429 the next one, when the time of its Retry-After is over, or a second."""
        for _ in range(TRIES):
            answer = self.ask(method, target, body, caller)
            if answer.status != 429:
                return answer
            time.sleep(float(answer.fields.get("Retry-After", "1")))
        fail(f"{method} {target}: 429, {TRIES} times")

    def ask(self, method: str, target: str, body: bytes, caller: Caller | None) -> Answer:
        begun = time.perf_counter()
        with contextlib.closing(self.connection()) as connection:
            who = {name.decode(): value.decode() for name, value in zip(common.FIELDS, caller or ())}
            connection.request(method, target, body or None, who)
            response = connection.getresponse()
            return Answer(response.status, dict(response.headers), response.read(), time.perf_counter() - begun)


class Client(Generic[Told]):
    """Asks an office. A tenderer's key is made of the name, or is `hello`. Each number may be given as a number, or as the name that it has in the requests."""

    def __init__(self, transport: Transport[Told], key_of: Callable[[str], str] = lambda _: "hello") -> None:
        self.transport, self.key_of = transport, key_of

    def caller_of(self, who: str) -> Caller:
        return CLERK if who == "clerk" else (who.encode(), self.key_of(who).encode())

    def command(self, who: str, target: str, body: Body = "") -> Told:
        return self.transport.send("POST", target, data_of(body), self.caller_of(who))

    def query(self, who: str | None, target: str) -> Told:
        return self.transport.send("GET", target, b"", self.caller_of(who) if who else None)

    def ask(self, target: str, who: str | None, *names: object) -> Told:
        """A query with these names in its path, or numbers."""
        return self.query(who, target.format(*names))

    def clerk(self, target: str, body: Body = "") -> Told:
        return self.command("clerk", target, body)

    def order(self, target: str, who: str, name: object, body: Body = "") -> Told:
        """A command with this name in its path, or number."""
        return self.command(who, target.format(name), body)

    # The clerk's commands.

    import_budget = partialmethod(order, "/budget/{}", "clerk")
    publish = partialmethod(order, "/notices/{}", "clerk")
    open = partialmethod(order, "/notices/{}/open", "clerk")
    fail = partialmethod(order, "/awards/{}/fail", "clerk")

    def register(self, name: str, firm: str = "Alpha", address: str = "High Street 1") -> Told:
        return self.clerk(f"/tenderers/{name}", {"name": firm, "address": address, "key": hashlib.sha256(self.key_of(name).encode()).hexdigest()})

    def amend_notice(self, name: str, deadline: str, rationale: str = "More time") -> Told:
        return self.clerk(f"/notices/{name}/amend", {"deadline": deadline, "rationale": rationale})

    def cancel(self, name: str, rationale: str = "No need") -> Told:
        return self.clerk(f"/notices/{name}/cancel", {"rationale": rationale})

    def examine(self, receipt: int, responsive: bool = True, **quality: int) -> Told:
        return self.clerk(f"/tenders/{receipt}/examine", {"responsive": responsive, **quality})

    def award(self, name: str, lot_name: str = "L1") -> Told:
        return self.clerk(f"/notices/{name}/lots/{lot_name}/award")

    def sign(self, award: int, security: str | None = None, amount: int = 0) -> Told:
        return self.clerk(f"/awards/{award}/sign", {"security": security, "amount": amount} if security else "")

    def amend_contract(self, contract: int, entry: str, kind: str, amount: int, rationale: str = "Kerbs") -> Told:
        return self.clerk(f"/contracts/{contract}/amend", {"id": entry, "kind": kind, "amount": amount, "rationale": rationale})

    def pay(self, contract: int, entry: str, amount: int) -> Told:
        return self.clerk(f"/contracts/{contract}/pay", {"id": entry, "amount": amount})

    def end(self, contract: int, how: str = "regular") -> Told:
        return self.clerk(f"/contracts/{contract}/end", {"how": how})

    # The tenderers' commands.

    modify = partialmethod(order, "/tenders/{}/modify")
    withdraw = partialmethod(order, "/tenders/{}/withdraw")

    def present(self, who: str, name: str, lot_name: str, body: str | bytes, security: str | None = None, amount: int = 0) -> Told:
        query = f"?security={security}&amount={amount}" if security else ""
        return self.command(who, f"/notices/{name}/lots/{lot_name}/tenders{query}", body)

    # The queries: of anybody, of the clerk, and of a named caller.

    line = partialmethod(ask, "/lines/{}", None)
    ledger = partialmethod(ask, "/ledger", None)
    releases = partialmethod(ask, "/notices/{}/releases", None)
    record = partialmethod(ask, "/notices/{}/record", None)
    minutes = partialmethod(ask, "/notices/{}/minutes", None)
    terms = partialmethod(ask, "/notices/{}/terms", None)
    tender_register = partialmethod(ask, "/notices/{}/register", "clerk")
    securities = partialmethod(ask, "/notices/{}/securities", "clerk")
    tender = partialmethod(ask, "/tenders/{}")
    security = partialmethod(ask, "/securities/{}")
    performance_security = partialmethod(ask, "/contracts/{}/security")
    own_tenders = partialmethod(ask, "/notices/{}/tenders")
    contract_seen = partialmethod(ask, "/contracts/{}")

    def evaluation(self, name: str, who: str | None = None) -> Told:
        return self.query(who, f"/notices/{name}/evaluation")

    def notices(self, after: str | None = None) -> Told:
        return self.query(None, f"/notices?after={after}" if after else "/notices")

    def tenderers(self, after: str | None = None) -> Told:
        return self.query("clerk", f"/tenderers?after={after}" if after else "/tenderers")


# The names of the methods that are commands.
COMMANDS = ("import_budget", "register", "publish", "amend_notice", "cancel", "open", "examine", "award", "fail", "sign", "amend_contract", "pay", "end",
            "present", "modify", "withdraw")
