"""The tables of `tools/mirror`: what each has of a notice, from its record, terms, minutes and evaluation."""
import csv
import io
import re
from collections.abc import Iterable, Iterator
from typing import Any

from office_kit.mirror.columns import COLUMNS, TABLES, TIME
from office_kit.mirror.office import Json, Notice, text_of

Cell = str | int | None
# The tables for people whose spreadsheets have commas in numbers: their folder, the sign that ends a field, and the mark at the start of a file.
FORMS = {"": (",", ""), "de/": (";", "\ufeff")}
# The names of documents, as they are in addresses.
NAMED = re.compile(r"[A-Za-z0-9_-][A-Za-z0-9_.-]{0,99}")
# Where a spreadsheet may see a formula: at the beginning of a field, also if it parts the line at other signs than those of the file.
FORMULA = re.compile(r"(^|[,;\t|])('*)(?=[=+\-@\t\r])")
GUARDED = re.compile(r"(^|[,;\t|])'('*)(?=[=+\-@\t\r])")


def guarded(text: str) -> str:
    """A text as tables have it: with an apostrophe wherever a sheet would take what follows for a formula."""
    return FORMULA.sub(r"\1'\2", text)


def plain(cell: str) -> str:
    return GUARDED.sub(r"\1\2", cell)


def cell_of(name: str, column: str, value: Cell, folder: str) -> Cell:
    if folder and value and TABLES[name][column][0] == TIME:
        day, clock = str(value)[:10], str(value)[11:19]
        return f"{day[8:]}.{day[5:7]}.{day[:4]} {clock}"
    return guarded(value) if isinstance(value, str) else value


def rows_text(name: str, rows: Iterable[Json], folder: str = "") -> str:
    """Rows as RFC 4180 has them, in the form of a folder of tables."""
    out = io.StringIO()
    csv.writer(out, delimiter=FORMS[folder][0]).writerows([cell_of(name, column, row.get(column), folder) for column in COLUMNS[name]] for row in rows)
    return out.getvalue()


def head_of(name: str, folder: str = "") -> str:
    separator, mark = FORMS[folder]
    return mark + separator.join(COLUMNS[name]) + "\r\n"


def table(name: str, rows: Iterable[Json], folder: str = "") -> str:
    return head_of(name, folder) + rows_text(name, rows, folder)


def tenderer_of(party: Json) -> str:
    return str(party["id"]).removeprefix("T-")


def tender_rows(notice: Notice) -> list[Json]:
    """The opened tenders of the minutes, each with its data in the evaluation."""
    found: dict[str, list[str]] = {}
    for line in notice.texts.get("evaluations", "").split("\n"):
        if line.startswith("tender\t"):
            found[line.split("\t")[1]] = line.split("\t")[3:]
    rows, lot = list[Json](), ""
    for words in (line.split("\t") for line in notice.texts.get("minutes", "").split("\n")):
        if words[0] == "lot":
            lot = words[1]
        elif words[0] == "tender":
            row: Json = {"notice": notice.name, "lot": lot, **dict(zip(("receipt", "tenderer", "name", "address", "reading"), words[1:])),
                         "currency": currency_of(notice)}
            row.update(zip(("stated", "corrected", "corrections"), map(int, words[6:])))
            shown = dict(zip(("answer", "quality", "points", "standing"), found.get(words[1], [])[2:]))
            row.update({name: value for name, value in shown.items() if value != "-"})
            rows.append(row)
    return rows


def currency_of(notice: Notice) -> str:
    return str(notice.compiled["tender"]["value"]["currency"])


def award_rows(notice: Notice) -> Iterator[Json]:
    for award in notice.compiled.get("awards", []):
        supplier = award["suppliers"][0]
        yield {"award": award["id"], "notice": notice.name, "lot": award["relatedLots"][0], "tenderer": tenderer_of(supplier), "name": supplier["name"],
               "date": award["date"], "currency": award["value"]["currency"], "price": award["value"]["amount"], "status": award["status"]}


def transactions_of(contract: Json) -> list[Json]:
    return list(contract.get("implementation", {}).get("transactions", []))


def ends_of(notice: Notice) -> dict[str, str]:
    ended = [release for release in notice.releases if "contractTermination" in release["tag"]]
    return {contract["id"]: release["date"] for release in ended for contract in release["contracts"]}


def contract_rows(notice: Notice) -> Iterator[Json]:
    awards, ends = {row["award"]: row for row in award_rows(notice)}, ends_of(notice)
    for contract in notice.compiled.get("contracts", []):
        award = awards[contract["awardID"]]
        worth = contract["value"]["amount"]
        yield {**award, "contract": contract["id"], "signed": contract["dateSigned"], "price": award["price"], "changes": worth - award["price"],
               "worth": worth, "paid": sum(it["value"]["amount"] for it in transactions_of(contract)), "status": contract["status"],
               "ended": ends.get(contract["id"])}


def payment_rows(notice: Notice) -> Iterator[Json]:
    contracts = {row["contract"]: row for row in contract_rows(notice)}
    for contract in notice.compiled.get("contracts", []):
        for one in transactions_of(contract):
            yield {**contracts[contract["id"]], "payment": one["id"], "date": one["date"], "amount": one["value"]["amount"]}


def lot_rows(notice: Notice) -> Iterator[Json]:
    contracts = {row["lot"]: row for row in contract_rows(notice)}
    awards = {row["lot"]: row for row in award_rows(notice) if row["status"] == "active"}
    tenders = tender_rows(notice)
    status = {lot["id"]: lot["status"] for lot in notice.compiled["tender"]["lots"]}
    for lot in notice.terms["lots"]:
        award, contract = awards.get(lot["id"], {}), contracts.get(lot["id"], {})
        count = sum(row["lot"] == lot["id"] for row in tenders) if "minutes" in notice.texts else None
        yield {"notice": notice.name, "lot": lot["id"], **{name: lot[name] for name in ("title", "line", "estimate", "security")},
               "currency": currency_of(notice), "status": status[lot["id"]], "items": len(lot["items"]), "tenders": count, "winner": award.get("tenderer"),
               "winner_name": award.get("name"), "price": award.get("price"), "contract_status": contract.get("status"),
               **{name: contract.get(name) for name in ("contract", "worth", "paid")}}


def item_rows(notice: Notice) -> Iterator[Json]:
    for lot in notice.terms["lots"]:
        for item in lot["items"]:
            yield {"notice": notice.name, "lot": lot["id"], "item": item["id"], "title": item["title"], "quantity": item["quantity"]}


def notice_rows(notice: Notice) -> Iterator[Json]:
    compiled, terms = notice.compiled, notice.terms
    tender = compiled["tender"]
    running = sum(row["status"] == "active" for row in contract_rows(notice))
    names = ("title", "state", "published", "deadline", "opened", "criteria", "price_weight", "validity_days", "standstill_days", "late_withdrawal",
             "performance")
    yield {"notice": notice.name, **{name: terms[name] for name in names}, "buyer": compiled["buyer"]["name"], "status": tender["status"],
           "currency": currency_of(notice), "estimate": tender["value"]["amount"], "lots": len(terms["lots"]), "tenderers": tender.get("numberOfTenderers"),
           "running": running, "amendments": notice.row["amendments"], "releases": len(notice.releases)}


ROWS: dict[str, Any] = {"notices": notice_rows, "lots": lot_rows, "items": item_rows, "tenders": tender_rows, "awards": award_rows, "contracts": contract_rows,
                        "payments": payment_rows}


# The files with a part for each notice, and their beginnings.
HEADS = {"releases.jsonl": "", "compiled.jsonl": "", **{f"{folder}{name}.csv": head_of(name, folder) for folder in FORMS for name in ROWS}}


def parts_of(notice: Notice) -> dict[str, str]:
    """The part of each of these files that a notice has."""
    made = {name: list(rows(notice)) for name, rows in ROWS.items()}
    return {"releases.jsonl": "".join(f"{text_of(it)}\n" for it in notice.releases), "compiled.jsonl": f"{text_of(notice.compiled)}\n",
            **{f"{folder}{name}.csv": rows_text(name, rows, folder) for folder in FORMS for name, rows in made.items()}}


def whole(name: str, rows: list[Json]) -> dict[str, str]:
    """A table that has no parts of notices, in each form, by its files' names."""
    return {f"{folder}{name}.csv": table(name, rows, folder) for folder in FORMS}


def titles_of(budget: str) -> dict[str, str]:
    return {row["line"]: plain(row["title"]) for row in csv.DictReader(io.StringIO(budget, newline=""))}
