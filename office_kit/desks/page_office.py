"""The office of tests/desks/test_portal.py: six notices (page_office.toml), with texts that no page may treat as markup. N1 is paid and ended, N2 awarded, N3
open, N4 cancelled before its opening, N5 after an award by points. Of N6 one lot is undecided and one is partly paid. It takes five seconds, mostly waiting.
"""
import os
import subprocess
import time
import tomllib
from pathlib import Path

from office_kit.client import ahead, budget, lot, notice, tender, text_of, wait_until
from office_kit.common import HOST, ROOT, fail
from office_kit.front.nginx import Front
from office_kit.store.life import Life

OFFICE = tomllib.loads(Path(__file__).with_name("page_office.toml").read_text(encoding="utf-8"))
# A title that is a script.
SCRIPT = str(OFFICE["notices"][1]["title"])
# A text that must be in no log of the front.
SECURITY = "GUARANTEE-77"


def mirror(office: str, folder: str, *options: str, **environment: str) -> None:
    ran = subprocess.run([f"{ROOT}/tools/mirror", office, folder, *options], env={**os.environ, **environment}, capture_output=True, text=True)
    assert ran.returncode == 0, ran.stderr


def mirror_beside(front: Front, *options: str) -> None:
    """The mirror beside an office, as its timer runs it."""
    mirror(f"http://{HOST}:{front.office}", f"{front.folder}/mirror/data", "--base", front.address().rstrip("/"), *options)


class Procurements(Life):
    """Requests through the front, each of which must be accepted."""

    def before_the_deadline(self) -> None:
        """The budget, the tenderers, all notices and tenders; one is cancelled, and one stays open for a day."""
        begun = time.monotonic()
        titles = [title.replace('"', '""') for title in OFFICE["lines"]]
        self.import_budget("B1", budget(*(f'{1000 + 100 * number},add,{12_000_000 // number},"{title}"' for number, title in enumerate(titles, 1))))
        for name, (firm, address) in OFFICE["tenderers"].items():
            self.register(name, firm, address)
        self.deadline = ahead(begun, 20)
        for it in OFFICE["notices"]:
            lots = [lot(name, line, estimate, security, *items, title=title) for name, line, estimate, security, title, *items in it["lots"]]
            self.publish(it["name"], notice(text_of(self.deadline + it.get("later", 0)), *lots, title=it["title"], **it.get("terms", {})))
            if "amended" in it:
                self.amend_notice(it["name"], text_of(self.deadline), it["amended"])
        for it in OFFICE["tenders"]:
            name, lot_name = it["lot"]
            body = it.get("text") or tender(*it["prices"], wrong=it.get("wrong", 0))
            receipt = self.present(it["who"], name, lot_name, body, SECURITY if "security" in it else None, it.get("security", 0))
            if receipt["state"] != "sealed":
                fail("the deadline came before all tenders were in: the machine is too busy")
        self.cancel("N4", "The library <i>got</i> them as a gift")

    def after_the_deadline(self) -> None:
        wait_until(self.deadline + 1.05)
        for name in ("N1", "N2", "N5", "N6"):
            self.open(name)
        for receipt, it in enumerate(OFFICE["tenders"], 1):
            if "examine" in it:
                self.examine(receipt, **it["examine"])
        north = self.award("N1", "L1")["award"]
        self.award("N1", "L2")
        # A contract is raised, cut, paid twice, and ended with something left.
        contract = self.sign(north)["contract"]
        self.amend_contract(contract, "A1", "raise", 12_000, "Kerbs at the <b>bus stop</b>")
        self.amend_contract(contract, "A2", "cut", 2_000, "Less paving")
        self.pay(contract, "P1", 300_000)
        self.pay(contract, "P2", 150_000)
        self.end(contract)
        self.fail(self.award("N2", "L1")["award"])
        self.award("N2", "L1")
        self.award("N5", "L1")
        self.cancel("N5", "The ground is wet")
        poles = self.award("N6", "L2")["award"]
        self.pay(self.sign(poles)["contract"], "P1", 5_000)
