"""The trials of tests/store/test_broken.py. They have the office that it makes, each command, and each row that the command's own row refers to. They also have
each row that would belong to a row that the command makes. broken_trials.sql has the other rows and sums that a rule needs.

`crates/tender_core/specs/Rules` and `crates/award_core/specs/Rules` say which rows a rule reads, `office_publications` which rows a publication reads.
"""
from collections.abc import Callable, Iterator
from typing import Any, NamedTuple

from office_kit.client import budget, notice, text_of
from office_kit.docs.drawn_tables import references, tables
from office_kit.store.files import scripts_of
from office_kit.store.life import Life, offer, part

# A trial in which the command may be accepted. It doesn't use the missing rows. Or a list that it reads is shorter by a row that no other row refers to. Or a
# sum is too large, which `tools/audit` finds. In a trial of `ANEW` nothing is lost: the program makes a merge that isn't kept from all releases.
MAY, ANEW, DAY = "may be accepted", "is made anew", 86_400
LOTS = [part("L1", "1000", 600, 50), part("L2", "2000", 300, 0)]


class BrokenLife(Life):
    """An office with a notice in each state. R receives tenders; F's deadline is past, and E's tenders are opened: both let tenders be withdrawn late. A's lots
    wait for their award, L2 without a tender that can have it; W's lot has one; C's has a contract, which was raised and paid."""

    awarded = contract = 0

    def live(self) -> None:
        self.import_budget("B1", budget("1000,add,100000,Roads", "2000,add,100000,Schools"))
        self.enrol_in_time("T1", "T2", "T3")
        self.announce("R", self.deadline + 30 * DAY, *LOTS)
        self.announce("F", self.deadline, LOTS[0], late_withdrawal="forfeits")
        self.announce("E", self.deadline, LOTS[0], late_withdrawal="forfeits")
        self.announce("A", self.deadline, LOTS[0], part("L2", "2000", 300, 70))
        self.announce("W", self.deadline, LOTS[0], performance=30)
        self.announce("C", self.deadline, LOTS[0], performance=15)
        for name in ("R", "F", "E", "A", "W", "C"):
            self.submit(f"{name}1", "T1", name, "L1", offer(10, 10), 50)
            self.submit(f"{name}2", "T2", name, "L1", offer(20, 20), 60)
        self.submit("R3", "T1", "R", "L2", offer(10, 10))
        self.submit("A3", "T1", "A", "L2", offer(10, 10), 70)
        self.wait()
        for name in ("E", "A", "W", "C"):
            self.open(name)
        for named in ("A1", "A2", "W1", "W2", "C1", "C2"):
            self.judge(named)
        self.judge("A3", responsive=False)
        self.awarded = self.award_of("W", "L1")
        self.contract = self.contract_of(self.award_of("C", "L1"), 15)
        self.amend_contract(self.contract, "A1", "raise", 60)
        self.pay(self.contract, "P1", 40)


# The commands: the client's method, and its arguments, made of the life.
COMMANDS: dict[str, tuple[str, Callable[[BrokenLife], tuple[Any, ...]]]] = {
    "import": ("import_budget", lambda of: ("B2", budget("1000,cut,500,Roads"))),
    "import, adding": ("import_budget", lambda of: ("B2", budget("1000,add,1,Roads"))),
    "import, a new line": ("import_budget", lambda of: ("B2", budget("3000,add,1,Parks"))),
    "register": ("register", lambda of: ("T9",)),
    "publish": ("publish", lambda of: ("N", notice(text_of(of.deadline + 30 * DAY), *LOTS, title="Notice N"))),
    "amend_notice": ("amend_notice", lambda of: ("R", text_of(of.deadline + 31 * DAY))),
    "cancel": ("cancel", lambda of: ("R",)),
    "cancel, awarded": ("cancel", lambda of: ("W",)),
    "open": ("open", lambda of: ("F",)),
    "present": ("present", lambda of: ("T3", "R", "L1", offer(9, 9), "S9", 50)),
    "modify": ("modify", lambda of: ("T1", of.receipt["R1"], offer(8, 8))),
    "withdraw": ("withdraw", lambda of: ("T1", of.receipt["R1"])),
    "withdraw, late": ("withdraw", lambda of: ("T1", of.receipt["F1"])),
    "withdraw, opened": ("withdraw", lambda of: ("T1", of.receipt["E1"])),
    "examine": ("examine", lambda of: (of.receipt["E1"],)),
    "award": ("award", lambda of: ("A", "L1")),
    "award, to nobody": ("award", lambda of: ("A", "L2")),
    "fail": ("fail", lambda of: (of.awarded,)),
    "sign": ("sign", lambda of: (of.awarded, "P9", 30)),
    "raise": ("amend_contract", lambda of: (of.contract, "A9", "raise", 40)),
    "cut": ("amend_contract", lambda of: (of.contract, "A9", "cut", 40)),
    "pay": ("pay", lambda of: (of.contract, "P9", 50)),
    "end": ("end", lambda of: (of.contract,)),
}
# For each of these commands, the budget lines whose money it moves, by SQL.
OF_AWARD = "SELECT line FROM lots JOIN awards USING (notice, lot) WHERE award = {awarded}"
OF_CONTRACT = "SELECT line FROM lots JOIN contracts USING (notice, lot) WHERE contract = {contract}"
MOVES = {
    "import": "'1000'", "import, adding": "'1000'", "import, a new line": "'3000'", "publish": "'1000', '2000'",
    "cancel": "SELECT line FROM lots WHERE notice = 'R'", "cancel, awarded": "SELECT line FROM lots WHERE notice = 'W'",
    "award": "SELECT line FROM lots WHERE notice = 'A' AND lot = 'L1'", "award, to nobody": "SELECT line FROM lots WHERE notice = 'A' AND lot = 'L2'",
    "fail": OF_AWARD, "sign": OF_AWARD, "raise": OF_CONTRACT, "cut": OF_CONTRACT, "pay": OF_CONTRACT, "end": OF_CONTRACT,
}


# Which rows refer to which: a table, its columns, and the table whose key they are (crates/office_machine/specs/Parents.antt). A seal and a security have the
# number of a receipt; a contract, its entries and its performance security that of an award (specs/References.antt there).
TABLES = {table.record: table for table in tables()}
KEYS = {table.name: ", ".join(table.key) for table in TABLES.values()}
REFERENCES = [(TABLES[record].name, ", ".join(columns), TABLES[other].name) for record, columns, other in references()]
REFERENCES += [("seals", "receipt", "envelopes"), ("securities", "security", "envelopes"),
               *((child, "contract", "awards") for child in ("contracts", "entries", "performance"))]
# A command's own row, and the tables of which it needs the row that its own row leads to. It may be accepted without a row of another table.
TENDER, AWARDED, SIGNED = "notices_2 lots tenderers securities", "notices_2 lots lines envelopes securities", "notices_2 lots lines"
NEEDS = {
    "amend_notice": ("notices_2", "notice = 'R'", ""), "present": ("lots", "notice = 'R' AND lot = 'L1'", "notices_2"),
    "open": ("seals", "receipt = {F1}", "notices_2 lots"),
    "modify": ("envelopes", "receipt = {R1}", TENDER), "withdraw": ("envelopes", "receipt = {R1}", TENDER),
    "withdraw, late": ("envelopes", "receipt = {F1}", TENDER), "withdraw, opened": ("envelopes", "receipt = {E1}", TENDER),
    "examine": ("envelopes", "receipt = {E1}", "notices_2 lots"),
    "award": ("lots", "notice = 'A' AND lot = 'L1'", "notices_2 lines"), "award, to nobody": ("lots", "notice = 'A' AND lot = 'L2'", "notices_2 lines"),
    "fail": ("awards", "award = {awarded}", AWARDED), "sign": ("awards", "award = {awarded}", AWARDED), "raise": ("contracts", "contract = {contract}", SIGNED),
    "cut": ("contracts", "contract = {contract}", SIGNED), "pay": ("contracts", "contract = {contract}", SIGNED + " tenderers"),
    "end": ("contracts", "contract = {contract}", SIGNED),
}
# The reports of a missing row, besides `Unavailable`: the command's own row, its caller, and a few that its rule names earlier.
THINGS = {"notices_2": "NoSuch notice", "lots": "NoSuch lot", "envelopes": "NoSuch tender", "awards": "NoSuch award", "contracts": "NoSuch contract"}
REPORTED = {**{(command, "tenderers"): "BadKey" for command in ("modify", "withdraw", "withdraw, late", "withdraw, opened")},
            **{(command, "notices_2"): "NoSuch notice" for command in ("present", "award", "award, to nobody")}, ("open", "notices_2"): "NoSuch notice",
            ("raise", "lots"): "InsufficientFunds", ("raise", "lines"): "InsufficientFunds", ("withdraw, opened", "notices_2"): "NotSealed"}
# The rows that a command makes, and the tables whose rows no key and no index finds from them.
NEXT = {table: f"(SELECT {table.replace('envelopes', 'receipts')} + 1 FROM office)" for table in ("envelopes", "awards")}
MAKES = {"import, a new line": ("lines", "'3000'", ""), "register": ("tenderers", "'T9'", "envelopes securities contracts"),
         "publish": ("notices_2", "'N'", ""),
         "present": ("envelopes", NEXT["envelopes"], "awards"), "modify": ("envelopes", NEXT["envelopes"], "awards"), "award": ("awards", NEXT["awards"], ""),
         "sign": ("contracts", "{awarded}", "")}


class Trial(NamedTuple):
    """A command over a broken office: its name, the command, the script that breaks the office, and the refusal that it may have besides `Unavailable`."""

    name: str
    command: str
    change: str
    says: str = ""


# The commands that publish a release, and its notice. Two of them are also tried over notices of which only some releases are missing.
PUBLISHING = {"amend_notice": "R", "cancel": "R", "open": "F", "award": "A", "fail": "W", "sign": "W", "raise": "C", "pay": "C", "end": "C"}


def missing_rows() -> Iterator[Trial]:
    for command, (own, where, needed) in NEEDS.items():
        found = {own: where}
        while more := {parent: f"({KEYS[parent]}) IN (SELECT {columns} FROM {child} WHERE {found[child]})"
                       for child, columns, parent in REFERENCES if child in found and parent not in found}:
            found.update(more)
        for table, rows in found.items():
            if own in THINGS or table != own:
                says = REPORTED.get((command, table), THINGS[own] if table == own else "" if table in needed.split() else MAY)
                yield Trial(f"{command}, no row in {table}", command, f"DELETE FROM {table} WHERE {rows};", says)


def taken_keys() -> Iterator[Trial]:
    """Each command that makes a row, over each row that would belong to it."""
    for command, (made, key, unseen) in MAKES.items():
        for child, column, parent in REFERENCES:
            if parent == made and "," not in column:
                change = f"UPDATE {child} SET {column} = {key} WHERE rowid = (SELECT max(rowid) FROM {child});"
                yield Trial(f"{command}, a row in {child} is there", command, change, MAY if child in unseen.split() else "")
        if made in ("envelopes", "awards", "contracts"):
            yield Trial(f"{command}, its number is taken", command, f"UPDATE {made} SET {KEYS[made]} = {key} WHERE rowid = (SELECT max(rowid) FROM {made});")


def trials() -> Iterator[Trial]:
    yield from missing_rows()
    yield from taken_keys()
    for (head,), script in scripts_of("broken_trials.sql"):
        group, what, *says = head.split(": ")
        for command in PUBLISHING if group == "each publication" else group.split(" and "):
            yield Trial(f"{command}, {what}", command, script.replace("{notice}", PUBLISHING.get(command, "")), *says)
