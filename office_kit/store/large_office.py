"""Files of large offices: one with very many budget lines, and one with very many contracts. Tests have them from build/large/, where each is made once.

- lines: the program makes it, by imports of 500 rows each.
- contracts: the program makes an office with some lines and one notice, whose contract has two payments. Then contracts.sql copies its rows under other names
  and numbers, and corrects the sums of the lines. The copies have no releases and no sealed bytes. When the program opens the file it checks each row.
"""
import os
import time
from collections.abc import Callable
from pathlib import Path

from office_kit.client import AHEAD, Answer, Client, budget, lot, notice, tender, text_of, wait_until
from office_kit.common import PROGRAM, ROOT
from office_kit.measures import in_file, rows_of

# Rows of an import, at most.
IMPORT = 500
FIRST_LINE = 100_000
AMOUNT, PAID = 3000, 100
COPIES = Path(__file__).with_name("contracts.sql")


def file_of(kind: str, many: int) -> str:
    """The file of a large office. It is made if it doesn't exist."""
    place = os.path.join(ROOT, "build", "large", f"{kind}-{many}.db")
    if not os.path.exists(place):
        os.makedirs(os.path.dirname(place), exist_ok=True)
        part = f"{place}.{os.getpid()}"
        KINDS[kind](PROGRAM, part, many)
        os.rename(part, place)
    return place


def line_of(number: int) -> str:
    return str(FIRST_LINE + number)


def make_lines(program: str, file: str, many: int) -> None:
    with in_file(program, file) as office:
        import_lines(office.client, many)


def import_lines(client: Client[Answer], many: int) -> None:
    for first in range(0, many, IMPORT):
        names = map(line_of, range(first, min(first + IMPORT, many)))
        client.import_budget(f"B{first}", budget(*(f"{name},add,1000000000,Line {name}" for name in names)))


def make_contracts(program: str, file: str, many: int, lines: int = IMPORT, **others: int) -> None:
    """So many contracts after the first one, on so many lines. Other notices have so many lots of the first line, each with one tender that is examined, and
    which no award has decided yet. It waits for the deadline."""
    notices = {"N0": 1, **others}
    every = [(name, f"L{number}") for name, count in notices.items() for number in range(1, count + 1)]
    with in_file(program, file) as office:
        client = office.client
        import_lines(client, lines)
        client.register("T0")
        deadline = int(time.time()) + AHEAD
        for name in notices:
            client.publish(name, notice(text_of(deadline), *(lot(it, line_of(0), 2 * AMOUNT) for of, it in every if of == name)))
        for name, lot_name in every:
            client.present("T0", name, lot_name, tender((3, AMOUNT // 3)))
        wait_until(deadline + 1.05)
        for name in notices:
            client.open(name)
        for receipt in range(1, len(every) + 1):
            client.examine(receipt)
        client.award("N0")
        client.sign(1)
        for entry in ("P1", "P2"):
            client.pay(1, entry, PAID)
    with rows_of(file) as base:
        for statement in COPIES.read_text(encoding="utf-8").split(";\n")[:-1] if many else ():
            base.execute(statement, {"many": many, "lines": lines, "receipts": 1 + sum(others.values()), "amount": AMOUNT})


# How the files are made.
KINDS: dict[str, Callable[..., None]] = {"lines": make_lines, "contracts": make_contracts}
