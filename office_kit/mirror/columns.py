"""The columns of the tables of `tools/mirror`, each with its type and meaning; and datapackage.json, which says so (Frictionless Data Package, version 1)."""
import json
import os
import sys
from typing import Any

from office_kit.audit.office import json_object

# A column: the name of its type in Frictionless' Table Schema, and its meaning. `state` and `status` differ: `state` is the office's word, `status` OCDS's.
Column = tuple[str, str]
WORD, WHOLE, TIME = "string", "integer", "datetime"
# How the tables keep formulas out.
GUARD = ("If a text in them begins with = + - or @, or has one of these right after a comma, a semicolon, a tab or |, an apostrophe is before that sign, so "
         "that no spreadsheet reads it as a formula, however it parts the lines.")
NOTICE = (WORD, "The procurement's identifier.")
LOT = (WORD, "The lot's identifier, unique within its notice.")
CURRENCY = (WORD, "The currency of all amounts in this row (ISO 4217). Amounts are whole units.")
TENDERER = (WORD, "The tenderer's identifier in the office.")
NAME = (WORD, "The tenderer's name.")
AWARD_PRICE = (WHOLE, "The price of the award.")
WORTH = (WHOLE, "The contract's present value: its price and all changes.")
PAID = (WHOLE, "The sum of all payments of the contract.")

TABLES: dict[str, dict[str, Column]] = {
    "notices": {
        "notice": NOTICE, "title": (WORD, "The title."), "buyer": (WORD, "The buyer's name."),
        "state": (WORD, "The office's word for the stage: receiving (until the opening, also after the deadline), opened, or cancelled."),
        "status": (WORD, "The status of the tender in OCDS: active, complete, cancelled or unsuccessful."),
        "published": (TIME, "When the notice was published."), "deadline": (TIME, "The present deadline. Tenders are in time until its last second."),
        "opened": (TIME, "When the tenders were opened; empty before."),
        "criteria": (WORD, "How lots are awarded: price (the lowest price) or points (for price and quality)."),
        "price_weight": (WHOLE, "The weight of the price out of 100 points; empty with the criteria price."),
        "validity_days": (WHOLE, "For how many days after the deadline tenders are in effect."),
        "standstill_days": (WHOLE, "For how many days after an award no contract is signed."),
        "late_withdrawal": (WORD, "Withdrawal of a tender after the deadline: refused, or forfeits (its security)."),
        "performance": (WHOLE, "The least amount of the performance security of each contract; 0 for none."),
        "currency": CURRENCY, "estimate": (WHOLE, "The sum of the estimates of all lots."), "lots": (WHOLE, "The number of lots."),
        "tenderers": (WHOLE, "The number of tenderers whose tenders were opened; empty before the opening."),
        "running": (WHOLE, "The number of contracts that run."),
        "amendments": (WHOLE, "The number of amendments of the notice: moved deadlines and cancellations."),
        "releases": (WHOLE, "The number of releases of the notice."),
    },
    "lots": {
        "notice": NOTICE, "lot": LOT, "title": (WORD, "The title."), "line": (WORD, "The budget line that pays for the lot (budget.csv)."),
        "currency": CURRENCY, "estimate": (WHOLE, "The estimate."), "security": (WHOLE, "The least amount of a tender's security; 0 for none."),
        "status": (WORD, "The status of the lot in OCDS: active, complete, cancelled or unsuccessful."), "items": (WHOLE, "The number of items."),
        "tenders": (WHOLE, "The number of tenders that were opened; empty before the opening."),
        "winner": (WORD, "The winner's identifier; empty without an award that holds."), "winner_name": (WORD, "The winner's name."), "price": AWARD_PRICE,
        "contract": (WORD, "The contract's number; empty before it is signed."),
        "contract_status": (WORD, "The status of the contract in OCDS: active, or terminated when it has ended."), "worth": WORTH, "paid": PAID,
    },
    "items": {
        "notice": NOTICE, "lot": LOT, "item": (WORD, "The item's identifier, unique within its lot."), "title": (WORD, "What is bought, and in which unit."),
        "quantity": (WHOLE, "How many units are bought."),
    },
    "tenders": {
        "notice": NOTICE, "lot": LOT, "receipt": (WHOLE, "The number of the tender's receipt; unique in the office."), "tenderer": TENDERER, "name": NAME,
        "address": (WORD, "The tenderer's address."), "currency": CURRENCY,
        "reading": (WORD, "How the office read the tender: priced, unreadable (no price list), or nonconforming (other items or quantities)."),
        "stated": (WHOLE, "The sum that the tender states; empty unless priced."),
        "corrected": (WHOLE, "The sum after the correction of arithmetic errors; it counts. Empty unless priced."),
        "corrections": (WHOLE, "The number of figures that were corrected; empty unless priced."),
        "answer": (WORD, "The examination: responsive or unresponsive; empty if it isn't examined or not published yet."),
        "quality": (WHOLE, "The points for quality, in whole points; empty if the price alone decides or none were given."),
        "points": (WHOLE, "All points in thousandths of a point (65000 are 65 points); empty if the price alone decides or the tender can't win."),
        "standing": (WORD, "admissible: it can win; failed: its award failed, or it was withdrawn late; otherwise empty."),
    },
    "awards": {
        "award": (WORD, "The award's number; unique in the office."), "notice": NOTICE, "lot": LOT, "tenderer": TENDERER, "name": NAME,
        "date": (TIME, "When the award was made."), "currency": CURRENCY, "price": AWARD_PRICE,
        "status": (WORD, "The status of the award in OCDS: active, or cancelled when the winner didn't sign or the lot was cancelled."),
    },
    "contracts": {
        "contract": (WORD, "The contract's number, which is also its award's."), "notice": NOTICE, "lot": LOT, "tenderer": TENDERER, "name": NAME,
        "signed": (TIME, "When the contract was signed."), "currency": CURRENCY, "price": AWARD_PRICE,
        "changes": (WHOLE, "The sum of all changes of the price; negative if it was cut."), "worth": WORTH, "paid": PAID,
        "status": (WORD, "The status of the contract in OCDS: active, or terminated when it has ended."), "ended": (TIME, "When it ended; empty before."),
    },
    "payments": {
        "contract": (WORD, "The contract's number."), "payment": (WORD, "The payment's identifier, unique within its contract."), "notice": NOTICE, "lot": LOT,
        "tenderer": TENDERER, "name": NAME, "date": (TIME, "When the payment was recorded."), "currency": CURRENCY, "amount": (WHOLE, "The amount."),
    },
    "budget": {
        "line": (WORD, "The budget line's identifier."), "title": (WORD, "Its title."), "currency": CURRENCY,
        "appropriation": (WHOLE, "What the line may spend: free, reserved, contracted and paid together."),
        "free": (WHOLE, "The part that nothing is reserved for."), "reserved": (WHOLE, "The part for lots without a contract."),
        "contracted": (WHOLE, "The part that is contracted and still to pay."), "paid": (WHOLE, "The part that is paid."),
    },
    "documents": {
        "notice": NOTICE, "file": (WORD, "The name of the document, which is at /documents/NOTICE/FILE of the front."), "length": (WHOLE, "Its bytes."),
        "sha256": (WORD, "The SHA-256 of its bytes. This version is kept as documents/SHA256, with the ending of the name."),
        "seen": (TIME, "When this version was first seen here."), "until": (TIME, "When it was first seen that it is gone or has other bytes; empty before."),
    },
}
COLUMNS = {table: list(columns) for table, columns in TABLES.items()}
# The columns that identify a row, and those that refer to a row of another table.
KEYS = {"notices": ["notice"], "lots": ["notice", "lot"], "items": ["notice", "lot", "item"], "tenders": ["receipt"], "awards": ["award"],
        "contracts": ["contract"], "payments": ["contract", "payment"], "budget": ["line"], "documents": ["notice", "file", "seen"]}
REFERS = {"lots": [("notice", "notices"), ("line", "budget")], "items": [("notice", "notices")], "tenders": [("notice", "notices")],
          "awards": [("notice", "notices")], "contracts": [("notice", "notices")], "payments": [("contract", "contracts")]}
MEANS = {"notices": "Procurements.", "lots": "The lots of each procurement, with the budget line of each.", "items": "What is bought, by lot.",
         "tenders": "Tenders that were opened.", "awards": "Awards, also those that ended.", "contracts": "Contracts.", "payments": "Payments of contracts.",
         "budget": "Budget lines and how their money is used.", "documents": "Documents beside notices, with all versions. The office doesn't know them."}
OTHERS = {"releases.jsonl": "All releases (OCDS 1.1), one on each line.", "compiled.jsonl": "The compiled release of each procurement, one on each line."}


def city_of(path: str | None) -> dict[str, Any]:
    """The city's own words: a file, or those that come with the program."""
    shipped = os.path.join(os.path.dirname(os.path.dirname(os.path.dirname(os.path.realpath(__file__)))), "web", "city.json")
    for place in (path, shipped):
        if place and os.path.exists(place):
            with open(place, encoding="utf-8") as file:
                told = json_object(file.read())
            if told is None:
                # (Data without a licence are better than none.)
                print(f"mirror: {place} is no JSON object, so no file names a licence", file=sys.stderr)
            return told or {}
    return {}


def licence_of(city: dict[str, Any]) -> list[dict[str, str]]:
    """The licence of the data as city.json names it: an object with `name` (such as CC-BY-4.0), `title` or `path` (an address)."""
    told = city.get("licence") or {}
    found = {name: told[name] for name in ("name", "title", "path") if isinstance(told, dict) and isinstance(told.get(name), str) and told[name]}
    return [found] if "name" in found or "path" in found else []


def resource(table: str) -> dict[str, Any]:
    fields = [{"name": name, "type": kind, "description": means} for name, (kind, means) in TABLES[table].items()]
    keys = [{"fields": column, "reference": {"resource": other, "fields": KEYS[other][0]}} for column, other in REFERS.get(table, [])]
    return {"name": table, "path": f"{table}.csv", "profile": "tabular-data-resource", "format": "csv", "mediatype": "text/csv", "encoding": "utf-8",
            "description": MEANS[table],
            "schema": {"fields": fields, "primaryKey": KEYS[table], "missingValues": [""], **({"foreignKeys": keys} if keys else {})}}


def datapackage(base: str, author: str, city: dict[str, Any]) -> str:
    """The data package: each table with the meaning of each column, and the files of releases."""
    lines = {"format": "jsonl", "mediatype": "application/jsonl", "encoding": "utf-8"}
    files = [{"name": path.removesuffix(".jsonl"), "path": path, **lines, "description": means} for path, means in OTHERS.items()]
    licences = licence_of(city)
    told = {"profile": "data-package", "name": "procurements", "title": f"Procurements: {author}", "homepage": f"{base}/",
            "description": f"Everything that a procurement office published. Amounts are whole units of the currency; times are UTC. {GUARD}",
            **({"licenses": licences} if licences else {}), "resources": [*map(resource, TABLES), *files]}
    return json.dumps(told, ensure_ascii=False, indent=1) + "\n"
