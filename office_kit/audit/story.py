"""Reads the releases of a notice in order, for `tools/audit`: how each lot, award and contract develops, and which facts contradict earlier ones.

It needs only the releases, so it serves for those in a file and for those that anybody is answered.
"""
import re
from collections.abc import Callable

from office_kit.audit.office import Found, Json, rule

# The status of a tender is the first of these that one of its lots has, or else unsuccessful.
RANKS = ("active", "complete", "cancelled")


class Misfit(Exception):
    """A release says something that can't follow the releases before it."""


def want(holds: bool, what: str) -> None:
    """Checks that something holds for a release."""
    if not holds:
        raise Misfit(what)


def amount_in(value: Json) -> int:
    return int(value["value"]["amount"])


class Story:
    """Everything that the releases of a notice have said so far. `misfits` has those that don't fit, by number, with the reason; half of one may count."""

    def __init__(self, notice: str, releases: list[Json]) -> None:
        self.notice, self.title, self.published, self.deadline = notice, "", "", ""
        self.opened: str | None = None
        self.criteria: str | None = None
        self.lots: dict[str, Json] = {}
        self.tenderers: dict[str, tuple[str, str]] = {}
        self.awards: dict[str, Json] = {}
        self.contracts: dict[str, Json] = {}
        self.misfits: list[tuple[int, str]] = []
        for seq, release in enumerate(releases, 1):
            try:
                self.take(seq, release)
            except Misfit as why:
                self.misfits.append((seq, str(why)))
            except (KeyError, TypeError, IndexError, AttributeError, ValueError) as why:
                self.misfits.append((seq, f"can't be read: {why!r}"))

    def take(self, seq: int, release: Json) -> None:
        """Adds what a release says, by its tags."""
        for tag in release["tag"]:
            if tag in TELLERS:
                TELLERS[tag](self, seq, release)
        status = release.get("tender", {}).get("status")
        want(status in (None, self.status()), f"its status is {status}, and by its lots it is {self.status()}")
        ended = [lot for lot, told in self.lots.items() if told["status"] in ("cancelled", "unsuccessful") and self.active_award(lot) is not None]
        want(not ended, f"leaves the awards of lots {ended}, which have ended")

    # ---- The notice.

    def publication(self, seq: int, release: Json) -> None:
        tender, period = release["tender"], release["tender"]["tenderPeriod"]
        want(seq == 1, "is published again")
        self.title, self.criteria = tender["title"], tender["awardCriteria"]
        self.published, self.deadline = period["startDate"], period["endDate"]
        for lot in tender["lots"]:
            self.lots[lot["id"]] = {"title": lot["title"], "status": lot["status"], "reserved": amount_in(lot), "awards": []}
        total = sum(lot["reserved"] for lot in self.lots.values())
        planned = release["planning"]["budget"]["amount"]["amount"]
        want(amount_in(tender) == total == planned, f"its lots come to {total}, its value to {amount_in(tender)}, and its budget to {planned}")
        want(self.published == release["date"] < self.deadline, "isn't published at its date, before its deadline")

    def amendment(self, seq: int, release: Json) -> None:
        before, after, told = self.deadline, release["tender"]["tenderPeriod"]["endDate"], release["tender"]["amendments"]
        self.deadline = after
        want(self.opened is None and release["date"] < before <= after, f"moves the deadline from {before} to {after} at {release['date']}")
        self.is_amended(seq, release, told, f"Deadline moved from {before} to {after}")

    def opening(self, seq: int, release: Json) -> None:
        tender, parties = release["tender"], release.get("parties", [])
        may_be = self.opened is None and release["date"] >= self.deadline and self.status() == "active"
        want(may_be, f"is opened at {release['date']}, and its deadline is {self.deadline}, or it is opened or cancelled")
        self.opened = release["date"]
        self.tenderers = {party["id"]: (party["name"], party["address"]["streetAddress"]) for party in parties}
        named = [tenderer["id"] for tenderer in tender.get("tenderers", [])]
        want(tender["numberOfTenderers"] == len(named) and named == sorted(self.tenderers) == [party["id"] for party in parties],
             f"says that {tender['numberOfTenderers']} took part, and names {named} and {sorted(self.tenderers)}")

    def update(self, seq: int, release: Json) -> None:
        if "numberOfTenderers" in release["tender"]:
            self.opening(seq, release)
        else:
            self.end_lots(release, "unsuccessful")

    def cancellation(self, seq: int, release: Json) -> None:
        self.end_lots(release, "cancelled")
        want(self.status() != "active", "cancels some of its active lots")
        self.is_amended(seq, release, release["tender"]["amendments"], "Cancelled")

    def end_lots(self, release: Json, status: str) -> None:
        for told in release["tender"]["lots"]:
            lot = self.lots[told["id"]]
            want(lot["status"] == "active" and told["status"] == status, f"lot {told['id']} is {lot['status']}, and becomes {told['status']}")
            may_be = status == "cancelled" or self.opened is not None and self.active_award(told["id"]) is None
            want(may_be, f"lot {told['id']} has no winner, and isn't opened or is awarded")
            lot["status"] = status

    def is_amended(self, seq: int, release: Json, told: list[Json], description: str) -> None:
        """Checks that the one amendment of a release has its number and date."""
        want([(it["id"], it["date"], it["description"]) for it in told] == [(f"{seq:04}", release["date"], description)],
             f"its amendment should be {seq:04}, {release['date']}, {description}")

    # ---- Awards.

    def active_award(self, lot: str) -> str | None:
        return next((award for award in self.lots[lot]["awards"] if self.awards[award]["status"] == "active"), None)

    def award(self, seq: int, release: Json) -> None:
        for told in release["awards"]:
            number, price, tenderer, (lot,) = told["id"], amount_in(told), told["suppliers"][0]["id"], told["relatedLots"]
            before = [self.awards[it] for it in self.lots[lot]["awards"]]
            may_be = self.opened is not None and self.lots[lot]["status"] == "active" and self.active_award(lot) is None
            self.awards[number] = {"lot": lot, "price": price, "tenderer": tenderer, "status": told["status"], "date": told["date"]}
            self.lots[lot].update(reserved=price, awards=self.lots[lot]["awards"] + [number])
            want(told["date"] == release["date"] and told["status"] == "active", f"award {number} is of {told['date']}, {told['status']}")
            want(may_be, f"award {number} is of lot {lot}, which isn't opened, has ended, or is awarded")
            want(tenderer in self.tenderers, f"award {number} goes to {tenderer}, who didn't take part")
            want(tenderer not in [it["tenderer"] for it in before], f"award {number} goes to {tenderer}, who failed to sign before")
            is_cheaper = self.criteria == "priceOnly" and any(it["price"] > price for it in before)
            want(not is_cheaper, f"award {number} is cheaper than one before, and the price alone decides")

    def end_awards(self, seq: int, release: Json) -> None:
        for told in release["awards"]:
            award = self.awards[told["id"]]
            whole = "tenderCancellation" in release["tag"]
            want(award["status"] == "active" and told["status"] == "cancelled", f"award {told['id']} is {award['status']}, and becomes {told['status']}")
            award["status"] = "cancelled"
            lot = self.lots[award["lot"]]
            want((lot["status"] == "cancelled") == whole, f"award {told['id']} ends, and its lot is {lot['status']}")

    # ---- Contracts.

    def signing(self, seq: int, release: Json) -> None:
        for told in release["contracts"]:
            award = self.awards[told["awardID"]]
            lot = self.lots[award["lot"]]
            self.contracts[told["id"]] = {"value": amount_in(told), "paid": 0, "runs": True, "entries": set(), "tenderer": award["tenderer"]}
            may_be = award["status"] == "active" and lot["status"] == "active" and told["awardID"] == told["id"]
            lot["status"] = "complete"
            ended = [(it["id"], it["status"]) for it in release["tender"]["lots"]]
            want(may_be, f"contract {told['id']} has no active award")
            want(amount_in(told) == award["price"], f"contract {told['id']} has the value {amount_in(told)}, and its award {award['price']}")
            want(told["dateSigned"] == release["date"], f"contract {told['id']} is signed at {told['dateSigned']}")
            want(ended == [(award["lot"], "complete")], f"contract {told['id']} of lot {award['lot']} completes {ended}")

    def running(self, told: Json, entry: str) -> Json:
        """The contract, which must run, with an entry of a new identifier."""
        contract: Json = self.contracts[told["id"]]
        want(contract["runs"] and told["awardID"] == told["id"], f"contract {told['id']} had already ended")
        want(entry not in contract["entries"], f"contract {told['id']} already has an entry {entry}")
        contract["entries"].add(entry)
        return contract

    def change(self, seq: int, release: Json) -> None:
        for told in release["contracts"]:
            (entry,) = told["amendments"]
            contract, by = self.running(told, entry["id"]), re.fullmatch(r"(?:Raised|(Cut)) by ([0-9]+)", entry["description"])
            before, after = contract["value"], amount_in(told)
            contract["value"] = after
            may_be = by is not None and after - before == (-int(by[2]) if by[1] else int(by[2]))
            want(may_be, f"contract {told['id']} goes from {before} to {after}: {entry['description']}")
            want(entry["date"] == release["date"], f"entry {entry['id']} is of {entry['date']}")
            want(after >= contract["paid"], f"contract {told['id']} is cut to {after}, but {contract['paid']} is paid")

    def payment(self, seq: int, release: Json) -> None:
        for told in release["contracts"]:
            for paid in told["implementation"]["transactions"]:
                contract, way = self.running(told, paid["id"]), (paid["payer"]["id"], paid["payee"]["id"])
                contract["paid"] += amount_in(paid)
                want(contract["paid"] <= contract["value"], f"contract {told['id']} has the value {contract['value']}, and {contract['paid']} is paid")
                want(way == (release["buyer"]["id"], contract["tenderer"]), f"payment {paid['id']} goes from {way[0]} to {way[1]}")
                want(paid["date"] == release["date"], f"payment {paid['id']} is of {paid['date']}")

    def end(self, seq: int, release: Json) -> None:
        for told in release["contracts"]:
            contract = self.contracts[told["id"]]
            runs, contract["runs"] = contract["runs"], False
            want(runs and told["status"] == "terminated", f"contract {told['id']} had already ended, or becomes {told['status']}")

    # ---- What it comes to.

    def status(self) -> str:
        there = {lot["status"] for lot in self.lots.values()}
        return next((status for status in RANKS if status in there), "unsuccessful")

    def sums(self) -> tuple[int, int, int]:
        """The sums reserved, contracted and paid, by all releases so far."""
        reserved = sum(lot["reserved"] for lot in self.lots.values() if lot["status"] == "active")
        running = sum(contract["value"] - contract["paid"] for contract in self.contracts.values() if contract["runs"])
        return reserved, running, sum(contract["paid"] for contract in self.contracts.values())


TELLERS: dict[str, Callable[[Story, int, Json], None]] = {
    "tender": Story.publication, "tenderAmendment": Story.amendment, "tenderUpdate": Story.update, "tenderCancellation": Story.cancellation,
    "award": Story.award, "awardCancellation": Story.end_awards, "contract": Story.signing, "contractAmendment": Story.change,
    "implementation": Story.payment, "contractTermination": Story.end}


@rule("releases")
def releases_follow_each_other(notice: str, releases: list[Json]) -> Found:
    """Each release can follow the releases before it: deadlines, lots, awards, contracts and payments."""
    for seq, what in Story(notice, releases).misfits:
        yield f"releases {notice}/{seq}", what
