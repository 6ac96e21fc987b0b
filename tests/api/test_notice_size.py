"""The largest notices of the table in docs/CLERK-API.md fit into the program's body of 65,536 bytes, and none with a byte more."""
import json
import re
import subprocess
from pathlib import Path

import pytest

from office_kit.client import Blocks, Client, answer_of, budget, data_of, lot, notice
from office_kit.common import CONFIG, ROOT, parts_of

MOST_BYTES, MOST_TITLE = 65536, 200
BEFORE, DEADLINE = "2026-01-05T09:00:00Z", "2026-03-01T12:00:00Z"
# The rows of the document's table: lots, items, bytes of each title.
(TABLE,) = re.findall(r"^\| Lots \| Items of each \|.*\n\|[-| ]+\|\n((?:\|.*\n)+)", Path(ROOT, "docs", "CLERK-API.md").read_text(encoding="utf-8"), re.M)
ROWS = [tuple(map(int, re.findall(r"\d+", line))) for line in TABLE.splitlines()]


def body_of(lots, items, title):
    """A notice of so many lots, of so many items each, with titles of so many bytes."""
    listed = [{"id": f"I{number:02}", "title": "x" * title, "quantity": 100} for number in range(1, items + 1)]
    return data_of(notice(DEADLINE, *({**lot(f"L{number:02}"), "items": listed} for number in range(1, lots + 1)), standstill=10))


def fits(lots, items, title):
    return title <= MOST_TITLE and len(body_of(lots, items, title)) <= MOST_BYTES


@pytest.mark.parametrize("change", [-1, 0, 1])
@pytest.mark.parametrize("lots, items, title", ROWS)
def test_row(lots, items, title, change):
    """It has the most bytes that fit. A row with a figure changed by one is found."""
    told = title + change
    assert (fits(lots, items, told) and not fits(lots, items, told + 1)) == (change == 0)


def published(program, body):
    """The program's answers to a notice and to a query for its terms. (After a notice that is too long its run ends, with status 1.)"""
    client = Client(Blocks(BEFORE))
    client.import_budget("B1", budget("1000,add,1000000,Roads"))
    client.publish("N1", body)
    client.terms("N1")
    run = subprocess.run([program, "desk", CONFIG], input=b"".join(client.transport.sent), capture_output=True)
    return [answer_of(response) for response in parts_of(run.stdout)[1:]]


FULL = body_of(*ROWS[0]).ljust(MOST_BYTES)


@pytest.mark.parametrize("body", [FULL, body_of(1, 1, MOST_TITLE)], ids=["full", "small"])
def test_fits(program, body):
    """The terms have all lots and items."""
    answer, terms = published(program, body)
    assert answer.status == 200 and b'"release":1' in answer.body
    assert [it["items"] for it in terms["lots"]] == [it["items"] for it in json.loads(body)["lots"]]


@pytest.mark.parametrize("body", [FULL + b" ", *[body_of(lots, items, title + 1) for lots, items, title in ROWS if title < MOST_TITLE]], ids=len)
def test_is_too_long(program, body):
    (answer,) = published(program, body)
    assert answer.status == 413 and b"TooLong" in answer.body
