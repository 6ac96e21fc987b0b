"""The plays of tests/store/test_faults.py: commands, each with its moment, that an office accepts one after another, and not twice if that would do harm."""
from typing import NamedTuple

from office_kit.client import Client, Requests, lot, notice
from office_kit.common import STRIDE, import_of
from office_kit.store.life import offer


class Step(NamedTuple):
    """A command: the second of its moment, and its request."""

    second: int
    text: bytes

    @property
    def name(self) -> str:
        return self.text.split(b" HTTP/", 1)[0].decode()


class Play(NamedTuple):
    """The steps of a play, and the queries that show its results."""

    name: str
    steps: list[Step]
    looks: list[bytes]


# 2026-01-05T09:00:00Z, and from one command to the next.
BEGUN, STEP = 1_767_603_600, 60
# 2026-03-01T12:00:00Z
DEADLINE = 1_772_366_400
LINES, BATCHES, ROWS, TITLE = 2_500, 90, 250, b"Roads and bridges ".ljust(200, b".")


def life() -> Play:
    """Two procurements with every kind of command. Before the deadline a tender is modified, one is withdrawn, and a notice is cancelled. After it a tender is
    late, and an award fails."""
    office = Client(Requests())
    before = [
        import_of(b"B1", [b"1000,add,100000,Roads", b"2000,add,5000,Schools"]),
        office.register("T1"),
        office.register("T2"),
        office.publish("N1", notice("2026-02-28T12:00:00Z", lot("L1", "1000", 600, 50), performance=40)),
        office.present("T1", "N1", "L1", offer(150), "G1", 50),
        office.present("T2", "N1", "L1", offer(140), "G1", 50),
        office.amend_notice("N1", "2026-03-01T12:00:00Z"),
        office.modify("T1", 1, offer(100)),
        office.withdraw("T2", 2),
        office.present("T2", "N1", "L1", offer(120), "G1", 50),
        import_of(b"B2", [b"2000,cut,1000,Schools", b"3000,add,700,Parks"]),
        office.publish("N2", notice("2026-02-28T12:00:00Z", lot("L1", "2000"), performance=0)),
        office.present("T1", "N2", "L1", offer(10)),
        office.cancel("N2"),
    ]
    later = [
        office.present("T1", "N1", "L1", offer(1), "G1", 50),
        office.open("N1"), office.examine(3), office.examine(4),
        office.award("N1"), office.fail(1), office.award("N1"), office.sign(2, "P1", 40),
        office.amend_contract(2, "A1", "raise", 60), office.pay(2, "P1", 300), office.pay(2, "P2", 50), office.end(2),
    ]
    steps = [Step(BEGUN + STEP * at, text) for at, text in enumerate(before)] + [Step(DEADLINE + STEP * at, text) for at, text in enumerate(later, 1)]
    looks = [office.ledger()] + [look(name) for name in ("N1", "N2") for look in (office.record, office.releases, office.minutes)]
    return Play("life", steps, [*looks, office.tender_register("N1"), office.performance_security("clerk", 2)])


def turn(number: int) -> int:
    """The line that a row names: first each in its turn, and then, within each file, lines that are far apart in the table."""
    files = LINES // ROWS
    return number if number < LINES else number % ROWS * files + number // ROWS % files


def imports() -> Play:
    """Files of many long rows, which write most pages of the table each: enough for the log to be moved into the file several times."""
    rows = [b"%d,add,%d,%s" % (100_000 + turn(number) * STRIDE % LINES, number + 1, TITLE) for number in range(BATCHES * ROWS)]
    steps = [Step(BEGUN + STEP * at, import_of(b"B%d" % at, rows[at * ROWS:(at + 1) * ROWS])) for at in range(BATCHES)]
    return Play("imports", steps, [Client(Requests()).ledger()])


PLAYS = {"life": life, "imports": imports}
