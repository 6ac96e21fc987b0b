"""Walks through all commands of an office that is served, by the clock: sends the requests of walk.txt. Used by tests/api/test_answers.py.

The notices have their deadline SECONDS ahead; everything before it must be sent by then.
"""
import json
import re
import time
from collections.abc import Iterator
from pathlib import Path
from string import Template
from typing import Any

from office_kit.api.office import Asker
from office_kit.client import AHEAD, HEAD, Client, Port, lot, notice, text_of, wait_until

SECONDS = AHEAD + 2
HEADS = {"import": HEAD, "present": "item,quantity,unit,total\n"}
# A range, and further numbers or ranges after commas.
RANGES = re.compile(r"\d+\.\.\d+(?:,\d+(?:\.\.\d+)?)*")
PAVING = lot("L1", "2000", 600, 50)
# Texts that are too long for the rows: parts of bodies at their bounds and above.
LONG = {
    "most_rows": " / ".join(["1000,add,1,Roads"] * 500),
    "most_bytes": "a" * 32768,
    "many_items": json.dumps([{"id": f"I{number}", "title": "Paving", "quantity": 1} for number in range(51)]),
    "many_lots": json.dumps([{**PAVING, "id": f"L{number}", "estimate": 1} for number in range(21)]),
}


def rows_of(section: str, names: dict[str, str]) -> Iterator[list[str]]:
    """The columns of each row of a section."""
    text = Path(__file__).with_suffix(".txt").read_text(encoding="utf-8").partition(f"\n== {section}\n")[2].partition("\n\n")[0]
    for line in re.findall(r"^[^#].*", text, re.M):
        found = RANGES.search(line)
        parts = [part.partition("..") for part in found[0].split(",")] if found else []
        for number in [it for first, _, last in parts for it in range(int(first), int(last or first) + 1)] or [0]:
            columns = re.split("  +", RANGES.sub(str(number), line))
            yield [Template(column).substitute(names) for column in columns]


def body_of(asker: Asker, operation: str, text: str) -> Any:
    """The body that a row has in its last column."""
    if text.startswith("="):
        example, _, members = text[1:].partition(" ")
        value = asker.document.operations[operation].body["examples"][example]["value"]
        return {**value, **json.loads(members)} if members else value
    if text.startswith(("{", '"')):
        return json.loads(text)
    return HEADS[operation] + "".join(row + "\n" for row in text.split(" / "))


def play(asker: Asker, section: str, **names: str) -> None:
    """Sends the requests of a section, and compares the answers."""
    for who, operation, place, told, *rest in rows_of(section, {**LONG, **names}):
        path, mark, query = place.partition("?")
        body = body_of(asker, operation, rest[0]) if rest else b""
        like = told[1:] if told.startswith("=") else None
        state = told[4:] if told.startswith("200 ") else None
        want = "200" if like or state else told
        answer = asker.ask(operation, who, *path.replace("-", "").split(), want=want, body=body, query=mark + query, like=like)
        asker.check(not state or answer["state"] == state, f"{operation} {place} by {who}: the state is {answer}, and not {state}")


def begin(asker: Asker) -> None:
    play(asker, "money and tenderers")


def walk(asker: Asker) -> None:
    now = int(time.time())
    deadline = text_of(now + SECONDS)
    terms = {name: member for name, member in notice(deadline).items() if name != "lots"}
    moments = {"near": text_of(now + SECONDS // 2), "deadline": deadline, "past": text_of(now - 1)}
    play(asker, "before the deadline", notice=json.dumps(terms)[1:-1], paving=json.dumps(PAVING)[1:-1], **moments)
    early = [one["security"] for one in Client(Port(asker.port)).securities("N1")["securities"] if one["tenderer"]]
    asker.check(not early, f"while tenders are received the securities {early} name their tenderers")
    asker.check(time.time() < now + SECONDS, f"this machine took more than {SECONDS} seconds up to the deadline of the notices")
    wait_until(now + SECONDS + 1)
    play(asker, "after the deadline")
