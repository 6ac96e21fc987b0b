"""Makes the office that tests/audit/test_audit.py audits: procurements with every possible end, made by a program that serves.

It takes five seconds, mostly waiting for a deadline.
"""
import re
import time
from collections.abc import Mapping
from typing import Any

from office_kit.client import AHEAD, Answer, Asking, Client, ahead, budget, lot, notice, tender, text_of, wait_until
from office_kit.common import fail

# The items of each lot.
QUANTITIES = (3, 10)
ITEMS = [(f"Part I{number}", quantity) for number, quantity in enumerate(QUANTITIES, 1)]


def part(name: str, line: str, estimate: int, security: int) -> dict[str, Any]:
    return lot(name, line, estimate, security, *ITEMS, title=f"Lot {name}")


def offer(*units: int, wrong: int = 0) -> str:
    """A tender of these unit prices, with a sum that is too small by so much."""
    return tender(*zip(QUANTITIES, units), wrong=wrong)


def key_of(name: str) -> str:
    return f"key of {name}"


class Life(Client[Answer]):
    """Requests each of which must be accepted; `receipt` has the receipts by the names that they are given here, `kept` the answers by receipt."""

    def __init__(self, transport: Asking) -> None:
        super().__init__(transport, key_of)
        self.receipt: dict[str, int] = {}
        self.kept: dict[int, Answer] = {}
        self.deadline = int(time.time()) + AHEAD

    def enrol_in_time(self, *names: str) -> None:
        """Registers these, and puts the deadline so far ahead that a program with its checks in, or a busy machine, answers some fifty requests before it."""
        begun = time.monotonic()
        for name in names:
            self.register(name, f"Firm {name}", f"{name} Street")
        self.deadline = ahead(begun, 25)

    def announce(self, name: str, deadline: float, *lots: Mapping[str, Any], **terms: Any) -> None:
        self.publish(name, notice(text_of(deadline), *lots, title=f"Notice {name} <b>Straße</b>", **terms))

    def submit(self, named: str, who: str, name: str, lot_name: str, body: str, amount: int = 0) -> None:
        """Presents a tender, with a security of its name if an amount is given."""
        self.keep(named, self.present(who, name, lot_name, body, named if amount else None, amount))

    def keep(self, named: str, answer: Answer) -> None:
        self.receipt[named] = answer["receipt"]
        self.kept[answer["receipt"]] = answer

    def take_back(self, who: str, named: str) -> None:
        self.withdraw(who, self.receipt[named])

    def judge(self, named: str, responsive: bool = True, **quality: int) -> None:
        self.examine(self.receipt[named], responsive, **quality)

    def award_of(self, name: str, lot_name: str) -> int:
        return int(self.award(name, lot_name)["award"])

    def contract_of(self, award: int, security: int = 0) -> int:
        """Signs an award, with a security of its own name if an amount is given."""
        return int(self.sign(award, f"P{award}" if security else None, security)["contract"])

    def names(self) -> dict[str, object]:
        """The values that scripts name in braces: the numbers that the office gave."""
        return {**vars(self), **self.receipt}

    def filled(self, text: str) -> str:
        """A text with the office's value in the place of each name in braces."""
        names = self.names()
        return re.sub(r"\{(\w+)\}", lambda found: str(names[found[1]]), text)

    def wait(self) -> None:
        if time.time() >= self.deadline:
            fail("the deadline came before all tenders were in: the machine is too busy")
        wait_until(self.deadline + 1.05)


class AuditedLife(Life):
    """The office that tests/audit/test_audit.py audits."""

    running = active = broken = failed = contract = 0

    def names(self) -> dict[str, object]:
        moments = {name: text_of(self.deadline + later) for name, later in (("moved", 90_000), ("further", 180_000), ("start", 20_000_000))}
        without = "\n".join(f"DELETE FROM {table} WHERE notice = 'N7';" for table in ("releases", "compiled", "lots", "notices_2"))
        return {**super().names(), "active": self.active, "in_time": self.deadline - 1, "without_N7": without, **moments}

    def before_the_deadline(self) -> None:
        """The budget, the tenderers, eight notices and their tenders. N3 is cancelled, N5 continues to receive, and tenders for N8 may be withdrawn late."""
        self.import_budget("B1", budget("1000,add,100000,Roads", "2000,add,100000,Schools", "2000,cut,5000,Schools", "3000,add,0007,Parks"))
        self.enrol_in_time("T1", "T2", "T3", "T4", "T5")
        self.announce_all()
        self.submit("dear", "T1", "N1", "L1", offer(90, 30, wrong=20), 50)
        self.submit("first", "T2", "N1", "L1", offer(100, 30), 60)
        self.submit("taken", "T3", "N1", "L1", offer(80, 20), 50)
        self.submit("quoted", "T4", "N1", "L1", '"' + offer(1, 1), 50)
        self.submit("nothing", "T1", "N1", "L2", "I offer nothing")
        self.keep("cheap", self.modify("T2", self.receipt["first"], offer(80, 30)))
        self.take_back("T3", "taken")
        self.submit("other", "T3", "N1", "L1", offer(80), 55)
        for named, who, price in (("low", "T1", 20), ("high", "T2", 25), ("unfit", "T3", 10)):
            self.submit(named, who, "N2", "L1", offer(0, price))
        self.submit("vain", "T1", "N3", "L1", offer(1, 1), 10)
        self.submit("back", "T2", "N3", "L1", offer(1, 1), 10)
        self.take_back("T2", "back")
        self.cancel("N3")
        self.submit("ended", "T1", "N4", "L1", offer(10, 10), 10)
        self.submit("kept", "T2", "N4", "L2", offer(20, 20))
        self.submit("sealed", "T1", "N5", "L1", offer(10, 10), 20)
        self.amend_notice("N5", text_of(self.deadline + 90000))
        self.submit("active", "T1", "N6", "L1", offer(1, 1))
        self.submit("open", "T2", "N6", "L2", offer(1, 2), 10)
        self.submit("regretted", "T1", "N8", "L1", offer(1, 1), 10)
        self.submit("steady", "T2", "N8", "L1", offer(1, 2), 10)

    def announce_all(self) -> None:
        self.announce("N1", self.deadline - 1, part("L1", "1000", 600, 50), part("L2", "2000", 300, 0), performance=30)
        self.amend_notice("N1", text_of(self.deadline))
        self.announce("N2", self.deadline, part("L1", "2000", 240, 0), criteria="points", price_weight=60, performance=15)
        self.announce("N3", self.deadline, part("L1", "1000", 700, 10))
        self.announce("N4", self.deadline, part("L1", "1000", 800, 10), part("L2", "2000", 400, 0))
        self.announce("N5", self.deadline + 86400, part("L1", "1000", 900, 10))
        self.announce("N6", self.deadline, part("L1", "2000", 100, 0), part("L2", "2000", 200, 10))
        self.announce("N7", self.deadline, part("L1", "1000", 100, 0))
        self.announce("N8", self.deadline, part("L1", "1000", 100, 10), late_withdrawal="forfeits", performance=5)

    def after_the_deadline(self) -> None:
        self.wait()
        self.submit("late", "T5", "N1", "L1", offer(1, 1), 50)
        for name in ("N1", "N2", "N4", "N6", "N7", "N8"):
            self.open(name)
        self.submit("later", "T5", "N1", "L1", offer(1, 1))
        self.first_notice()
        for named, quality in (("low", 10), ("high", 40)):
            self.judge(named, quality=quality)
        self.judge("unfit", responsive=False)
        self.running = self.contract_of(self.award_of("N2", "L1"), 15)
        self.pay(self.running, "P1", 100)
        for named in ("ended", "kept", "active", "open"):
            self.judge(named)
        self.award("N4", "L1")
        self.contract_of(self.award_of("N4", "L2"))
        self.cancel("N4")
        self.active = self.award_of("N6", "L1")
        self.award("N7", "L1")
        self.take_back("T1", "regretted")
        self.judge("steady")
        self.broken = self.contract_of(self.award_of("N8", "L1"), 5)
        self.end(self.broken, "default")

    def first_notice(self) -> None:
        """N1: its winner fails to sign, the next one signs; the contract is raised, cut, paid and ended. Nobody wins its other lot."""
        self.judge("dear")
        self.judge("cheap")
        self.failed = self.award_of("N1", "L1")
        self.fail(self.failed)
        self.contract = self.contract_of(self.award_of("N1", "L1"), 40)
        for entry, kind, amount in (("A1", "raise", 60), ("A2", "cut", 20)):
            self.amend_contract(self.contract, entry, kind, amount)
        for entry, amount in (("P1", 400), ("P2", 150)):
            self.pay(self.contract, entry, amount)
        self.end(self.contract)
        self.award("N1", "L2")
