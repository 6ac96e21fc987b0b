"""The log that a front would write of an office's life, for tests/audit/test_audit.py, with the faults that are planted in it.

Each has the rule and the row by which `tools/audit` must find it. (tests/front/test_clerks.py has a real front write such a log.)
"""
import json
import re
import time
from typing import Any

from office_kit.audit.office import Json
from office_kit.client import Answer, Port
from office_kit.common import HOST, Caller

# The clerks by their names, with their roles and the routes of their commands.
NAMES = (("anna", "notices", "/(tenderers/[^/]+|notices/[^/]+(/amend|/cancel)?)"), ("bert", "budget", "/budget/.*"),
         ("dora", "contracts", ".*/(sign|amend|pay|end)"), ("cora", "evaluation", ".*"))


class Logged(Port):
    """An office at a port whose clerk's commands are written down, as the front does it."""

    def __init__(self, port: int) -> None:
        super().__init__(port)
        self.lines: list[Json] = []

    def exchange(self, method: str, target: str, body: bytes, caller: Caller | None) -> Answer:
        begun = time.time()
        answer = super().exchange(method, target, body, caller)
        if method == "POST" and caller and caller[0] == b"clerk":
            self.note(target, answer.status, body, time.time() - begun)
        return answer

    def note(self, target: str, status: int, body: bytes = b"", seconds: float = 0.0, name: str = "") -> None:
        # (`gmtime()` alone reads a coarse clock, which may be some milliseconds before the office's.)
        moment = time.gmtime(time.time())
        own, roles = next((known, roles) for known, roles, routes in NAMES if name in ("", known) and (name or re.fullmatch(routes, target)))
        self.lines.append({"moment": time.strftime("%Y-%m-%dT%H:%M:%S+00:00", moment), "seconds": round(seconds, 3), "name": own, "roles": roles,
                           "address": HOST, "route": f"POST {target}", "status": status, "body": body.decode("utf-8", "surrogateescape")})


def text_of(lines: list[Json]) -> bytes:
    """The file of a log. nginx writes bytes that are no text as they are."""
    return "".join(json.dumps(line, ensure_ascii=False, separators=(",", ":")) + "\n" for line in lines).encode("utf-8", "surrogateescape")


def at(lines: list[Json], route: str) -> int:
    return max(place for place, line in enumerate(lines) if line["route"] == f"POST {route}")


def gone(lines: list[Json], route: str) -> None:
    del lines[at(lines, route)]


def put(lines: list[Json], route: str, member: str, value: object) -> None:
    """Changes a member of the last line of a route to a value, or by a function of its present value."""
    line = lines[at(lines, route)]
    line[member] = value(line[member]) if callable(value) else value


def cut(lines: list[Json], route: str) -> None:
    del lines[at(lines, route)]["roles"]


def added(lines: list[Json], route: str) -> None:
    """Adds the last line of a route a second time, as accepted."""
    lines.append({**lines[at(lines, route)], "status": 200})


def swapped(lines: list[Json]) -> None:
    lines[0], lines[-1] = lines[-1], lines[0]


AWARD, WRONG, PAY = "/notices/N7/lots/L1/award", "/notices/N6/cancel", "/contracts/{running}/pay"
OTHER = '{"id": "P1", "amount": 99}'
GONE, MANY, BODIES = "commands_have_a_line", "lines_have_a_command", "bodies_say_what_was_done"
# Faults of the log: the rule, the row that it must name, and the change with its arguments. A row `front ROUTE` is the place of the route's last line.
# planted_faults.py says which names are in braces.
FAULTS_OF_LINES: list[tuple[Any, ...]] = [
    # A line is gone: of a command with a release, of one without, of an examination, of a registration.
    (GONE, "releases N7/3", gone, AWARD),
    (GONE, "batches B1", gone, "/budget/B1"),
    (GONE, "envelopes {cheap}", gone, "/tenders/{cheap}/examine"),
    (GONE, "tenderers T3", gone, "/tenderers/T3"),
    (GONE, "releases N1/2", gone, "/notices/N1/amend"),
    # An accepted line is shown as refused, or with another moment (an hour earlier), route or payment.
    (GONE, "releases N7/3", put, AWARD, "status", 403),
    (GONE, "releases N7/3", put, AWARD, "moment", lambda it: it.replace("+00:00", "+01:00")),
    (GONE, "releases N7/3", put, AWARD, "route", "POST /notices/N7/lots/L2/award"),
    (GONE, "releases N2/5", put, PAY, "body", OTHER.replace("P1", "P2")),
    # A line too many: of a command that was refused to somebody, the same line again, and one of no command.
    (MANY, f"front {WRONG}", put, WRONG, "status", 200),
    (MANY, f"front {PAY}", added, PAY),
    (MANY, f"front {WRONG}", added, WRONG),
    # The name is lost, or the bodies are others.
    ("commands_have_a_name", "releases N2/5", put, PAY, "name", ""),
    (BODIES, "releases N2/5", put, PAY, "body", OTHER),
    (BODIES, "batches B1", put, "/budget/B1", "body", lambda it: it + "9,add,1,x\n"),
    (BODIES, "tenderers T5", put, "/tenderers/T5", "body", lambda it: it.replace("Firm T5", "Firm T6")),
    (BODIES, "envelopes {dear}", put, "/tenders/{dear}/examine", "body", '{"responsive":false}'),
    (BODIES, "releases N3/2", put, "/notices/N3/cancel", "body", '{"rationale":"Other"}'),
    (BODIES, "releases N5/1", put, "/notices/N5", "body", "{}"),
    ("front_lines_come_in_order", "front /budget/B1", swapped),
    ("front_lines_can_be_read", "front /contracts/{contract}/end", cut, "/contracts/{contract}/end"),
]
