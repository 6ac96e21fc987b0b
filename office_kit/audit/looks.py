"""The rules of `tools/audit` for public answers besides the releases: the list of notices, their terms, and the evaluation of their tenders. There are also
rules for contracts, as the clerk or their tenderers see them. With a file each answer is compared with its rows, otherwise with the releases. Saved answers
must stay the same.
"""
from collections.abc import Iterator
from typing import Any

from office_kit.audit.answers import Answers
from office_kit.audit.earlier import Later
from office_kit.audit.office import Found, Json, Office, differing, rule, text_of
from office_kit.audit.outside import Seen, Tender, read_minutes
from office_kit.audit.releases import text_with, unlike
from office_kit.audit.story import Story

# The parts of the terms that an amended deadline, the opening, an award and a cancellation change.
CHANGES = ("deadline", "opened", "state")
# The states of a lot that has an outcome, and those that are final.
OUTCOMES = ("awarded", "contracted", "unsuccessful", "cancelled")
FINAL = OUTCOMES[1:]


# ---- What is due by the rows.

def listed_of(office: Office) -> dict[str, Json]:
    return {notice: {"amendments": row["amendments"], "deadline": text_of(row["deadline"]), "notice": notice, "opened": text_of(row["opened"]),
                     "published": text_of(row["published"]), "releases": row["releases"], "state": row["state"], "title": row["title"]}
            for (notice,), row in office.table("notices").items()}


def items_of(text: str) -> list[Json]:
    """The items of a lot, by their text in its row."""
    return [{"id": name, "quantity": int(quantity), "title": title} for name, quantity, title in (item.split("\t") for item in text.split("\n")[:-1])]


def terms_of(office: Office, notice: str) -> Json:
    row = office.table("notices")[(notice,)]
    lots = [{"estimate": estimate, "id": lot, "items": items_of(items), "line": line, "security": security, "state": state, "title": title}
            for lot, title, line, estimate, security, items, state in office.rows(
                "SELECT lot, title, line, estimate, security, items, state FROM lots WHERE notice = ? ORDER BY lot", notice)]
    return {"criteria": "points" if row["weight"] else "price", "deadline": text_of(row["deadline"]),
            "late_withdrawal": "forfeits" if (notice,) in office.table("late_rules") else "refused", "lots": lots, "notice": notice,
            "opened": text_of(row["opened"]), "performance": row["performance"], "price_weight": row["weight"] or None,
            "published": text_of(row["published"]), "standstill_days": row["standstill"], "state": row["state"], "title": row["title"],
            "validity_days": row["validity"]}


def may_win(finding: Any) -> bool:
    """Whether a tender has a price, was found responsive, and is neither passed over nor withdrawn late."""
    _, _, reading, _, responsive, _, failed = finding
    return reading == "priced" and responsive == 1 and not failed


def line_of(finding: Any, weight: int, lowest: int) -> list[object]:
    receipt, tenderer, reading, price, responsive, quality, failed = finding
    if reading != "priced":
        return ["tender", receipt, tenderer, reading]
    answer = {None: "-", 0: "unresponsive", 1: "responsive"}[responsive]
    points = (weight * 1000 * lowest // price if price else weight * 1000) + 1000 * (quality or 0) if weight and may_win(finding) else "-"
    standing = "failed" if failed else "admissible" if may_win(finding) else "-"
    return ["tender", receipt, tenderer, reading, price, answer, "-" if quality is None else quality, points, standing]


def evaluation_of(office: Office, notice: str, is_whole: bool = False) -> str | None:
    """The evaluation of a notice by the rows: the public's part, or the clerk's if it is whole; None if the notice isn't opened."""
    about = office.table("notices")[(notice,)]
    due: list[Any] = [["EVALUATION", notice]]
    for lot, state in office.rows("SELECT lot, state FROM lots WHERE notice = ? ORDER BY lot", notice):
        awards = office.rows("SELECT 'award', award, receipt, price, state FROM awards WHERE notice = ? AND lot = ? ORDER BY award", notice, lot)
        due.append(["lot", lot, state])
        if is_whole or state != "undecided" or awards:
            findings = office.rows("""SELECT receipt, tenderer, reading, corrected, responsive, quality, failed FROM envelopes
                WHERE notice = ? AND lot = ? AND state = 'opened' ORDER BY receipt""", notice, lot)
            lowest = min((it[3] for it in findings if may_win(it)), default=0)
            due += [line_of(it, about["weight"], lowest) for it in findings] + awards
    return text_with([*due, ["END"]]) if about["state"] == "opened" else None


def contract_of(office: Office, contract: int) -> Json | None:
    row = office.table("contracts").get((contract,))
    if row is None:
        return None
    entries = [{"amount": amount, "entry": entry, "kind": kind, "moment": text_of(moment), "rationale": rationale}
               for amount, entry, kind, moment, rationale in office.rows(
                   "SELECT amount, entry, kind, moment, rationale FROM entries WHERE contract = ? ORDER BY entry", contract)]
    sums = {kind: sum(it["amount"] for it in entries if it["kind"] == kind) for kind in ("raise", "cut", "payment")}
    return {"contract": contract, "ended": text_of(row["ended"]), "entries": entries, "how": row["how"], "lot": row["lot"], "moment": text_of(row["moment"]),
            "notice": row["notice"], "outstanding": row["signed"] + sums["raise"] - sums["cut"] - sums["payment"] - row["released"],
            "paid": sums["payment"], "released": row["released"], "signed": row["signed"], "tenderer": row["tenderer"]}


# ---- Beside the file.

@rule("list")
def listed_notices_are_of_the_rows(office: Office, listed: list[Json]) -> Found:
    """The list of notices has each notice of the file once, sorted, with the data of the file."""
    due, names = listed_of(office), [str(it.get("notice")) for it in listed]
    there = dict(zip(names, listed))
    for name in sorted({*due, *names}):
        yield from differing(f"notices {name}", there.get(name), due.get(name), "in the list {} is {}, and the file says {}")
    if names != sorted(set(names)):
        yield "office 1", "the list isn't sorted, or has a notice twice"


@rule("looks")
def terms_are_of_the_rows(office: Office, answers: Answers, notice: str) -> Found:
    """The terms of a notice say what the file says."""
    terms = answers.terms(notice)
    if terms is None:
        yield from [(f"notices {notice}", "is in the file, and no terms are answered")] if answers.has_looks() else []
    else:
        yield from differing(f"notices {notice}", terms, terms_of(office, notice), "its terms at {} answer {}, and the file says {}")


@rule("looks")
def evaluations_are_of_the_rows(office: Office, answers: Answers, notice: str) -> Found:
    """An opened notice's evaluation shows what the file says of each lot with an outcome, and nothing of others, except one that the clerk saved."""
    due, text = evaluation_of(office, notice), answers.of_notice(notice, "evaluation")
    if due is None:
        yield from [(f"notices {notice}", "an evaluation is answered, and it isn't opened")] if text is not None else []
    elif text is None:
        yield from [(f"notices {notice}", "is opened, and no evaluation is answered")] if answers.has_looks() else []
    elif answers.base or text != evaluation_of(office, notice, is_whole=True):
        yield from unlike(f"notices {notice}", text, due)


@rule("contracts")
def contracts_are_of_the_rows(office: Office, answers: Answers) -> Found:
    """A contract is shown as the file has it, with all its changes and payments."""
    for contract, shown in answers.contracts([number for number, in office.table("contracts")]):
        yield from differing(f"contracts {contract}", shown, contract_of(office, contract), "what is shown of it at {} is {}, and the file says {}")


# ---- Without the file.

def due_in_list(notice: str, releases: list[Json]) -> Json:
    """The list's entry for a notice after these releases."""
    story = Story(notice, releases)
    state = "opened" if story.opened else "cancelled" if story.status() == "cancelled" else "receiving"
    amendments = sum("tenderAmendment" in release.get("tag", []) for release in releases)
    return {"amendments": amendments, "deadline": story.deadline, "notice": notice, "opened": story.opened, "published": story.published,
            "releases": len(releases), "state": state, "title": story.title}


@rule("outside")
def listed_notices_are_of_the_releases(seen: Seen) -> Found:
    """The list says of each notice what its releases say; with all notices, it has exactly these."""
    for it in seen.listed or []:
        releases = seen.releases.get(str(it.get("notice")))
        if releases is None:
            yield from [(f"notices {it.get('notice')}", "is in the list, and has no releases")] if seen.complete else []
        else:
            due = due_in_list(it["notice"], releases[:it["releases"]])
            yield from differing(f"notices {it['notice']}", it, due, "in the list {} is {}, and its releases say {}")
    names = [it.get("notice") for it in seen.listed or []]
    for notice in seen.releases if seen.complete and seen.listed is not None else ():
        yield from [(f"notices {notice}", "isn't in the list")] if notice not in names else []


def due_in_terms(releases: list[Json]) -> dict[str, object]:
    """The terms of a notice that are also in its first release."""
    first = releases[0]["tender"]
    items = {lot["id"]: [{"id": item["id"].removeprefix(lot["id"] + "/"), "quantity": item["quantity"], "title": item["description"]}
                         for item in first["items"] if item["relatedLot"] == lot["id"]] for lot in first["lots"]}
    lots = [{"estimate": lot["value"]["amount"], "id": lot["id"], "items": items[lot["id"]], "title": lot["title"]} for lot in first["lots"]]
    return {"criteria": {"priceOnly": "price", "ratedCriteria": "points"}.get(first["awardCriteria"]), "lots": lots,
            "published": first["tenderPeriod"]["startDate"], "title": first["title"]}


def went_back(terms: Json, due: Json, complete: bool) -> Iterator[str]:
    """The terms that commands change and that differ from the releases. (They were asked for after the releases, so they may be newer if not all was saved.)"""
    goes_on = {"deadline": str(terms.get("deadline")) > str(due["deadline"]), "opened": due["opened"] is None, "state": due["state"] == "receiving"}
    for name in CHANGES:
        if terms.get(name) != due[name] and (complete or not goes_on[name]):
            yield f"its terms at /{name} are {terms.get(name)}, and its releases say {due[name]}"


@rule("outside")
def terms_are_of_the_releases(seen: Seen) -> Found:
    """Terms and the first release agree on title, publication, criteria, lots and items; terms and all releases on deadline, opening and state."""
    for notice, terms in seen.terms.items():
        due = due_in_terms(seen.releases[notice])
        told: Json = {name: terms.get(name) for name in due}
        told["lots"] = [{name: lot.get(name) for name in ("estimate", "id", "items", "title")} for lot in terms.get("lots", [])]
        yield from differing(f"notices {notice}", told, due, "its terms at {} are {}, and its releases say {}")
        for what in went_back(terms, due_in_list(notice, seen.releases[notice]), seen.complete):
            yield f"notices {notice}", what


class Evaluation:
    """The content of an evaluation: for each lot its state, its tenders by receipt and its awards by number, each as its remaining fields."""

    def __init__(self, text: str) -> None:
        lines = [line.split("\t") for line in text.split("\n")]
        (self.word, self.notice), self.ends = lines[0], [line[0] for line in lines[-2:]]
        self.states: dict[str, str] = {}
        self.tenders: dict[str, dict[int, list[str]]] = {}
        self.awards: dict[str, dict[int, list[str]]] = {}
        for word, *fields in lines[1:-2]:
            if word == "lot":
                lot, self.states[fields[0]] = fields[0], fields[1]
                self.tenders[lot], self.awards[lot] = {}, {}
            else:
                {"tender": self.tenders, "award": self.awards}[word][lot][int(fields[0])] = fields[1:]


def read_evaluation(text: str) -> Evaluation | None:
    """The evaluation, or None if the text has another form."""
    try:
        found = Evaluation(text)
    except (ValueError, KeyError, IndexError, UnboundLocalError):
        return None
    return found if found.word == "EVALUATION" and found.ends == ["END", ""] else None


def evaluation_found(evaluation: Evaluation, story: Story, tenders: list[Tender] | None, complete: bool) -> Iterator[str]:
    """Contradictions between the evaluation, the releases and the minutes of a notice. (It was asked for after these, so it may have one more award.)"""
    if evaluation.notice != story.notice or list(evaluation.states) != sorted(story.lots):
        yield f"the evaluation is of {evaluation.notice} and the lots {list(evaluation.states)}"
    for lot, awards in evaluation.awards.items():
        told = {int(number): str(award["price"]) for number, award in story.awards.items() if award["lot"] == lot}
        shown = {number: price for number, (_, price, _) in awards.items()}
        if not told.items() <= shown.items() or complete and shown != told:
            yield f"the evaluation of lot {lot} has the awards {awards}, and the releases {told}"
    for lot, there in evaluation.tenders.items() if tenders is not None else ():
        here = {receipt: ["T-" + who, reading, *figures[:1]] for receipt, (who, reading, *figures) in there.items()}
        due = {it.receipt: [it.tenderer, it.reading, *([str(it.corrected)] if it.reading == "priced" else [])] for it in tenders or [] if it.lot == lot}
        if (here or evaluation.awards[lot] or evaluation.states[lot] in OUTCOMES) and here != due:
            yield f"the evaluation of lot {lot} has the tenders {here}, and the minutes {due}"


@rule("outside")
def evaluations_are_of_the_minutes(seen: Seen) -> Found:
    """Only an opened notice has an evaluation: with the lots and awards of its releases and, for lots with an outcome, the tenders of its minutes."""
    for notice, text in seen.evaluations.items():
        if seen.stories[notice].opened is None:
            yield f"notices {notice}", "an evaluation is answered, and no release has its opening"
            continue
        evaluation, minutes = read_evaluation(text), read_minutes(seen.minutes[notice] or "")
        if evaluation is None:
            yield f"notices {notice}", "the evaluation has another form"
            continue
        for what in evaluation_found(evaluation, seen.stories[notice], minutes.tenders if minutes else None, seen.complete):
            yield f"notices {notice}", what


# ---- Saved before.

def fixed_in(terms: Json) -> Json:
    """The terms that no command changes."""
    lots = [{**lot, "state": None} for lot in terms.get("lots", [])]
    return {**{name: value for name, value in terms.items() if name not in CHANGES}, "lots": lots}


@rule("saved")
def saved_terms_stay(later: Later, office: Office | None, saved: Answers, notice: str) -> Found:
    """Saved terms are still the terms: only the notice's deadline may have moved later, and the notice and its lots may have progressed."""
    before, here = saved.terms(notice), later.terms(notice) if notice in later.notices else None
    if before is not None and here is not None:
        yield from differing(f"notices {notice}", fixed_in(here), fixed_in(before), "its terms at {} are {}, and were {} in {}", saved.place)
        if str(here.get("deadline")) < str(before.get("deadline")) or before.get("opened") not in (None, here.get("opened")):
            yield f"notices {notice}", f"its deadline or its opening was different in the terms of {saved.place}"


def went_otherwise(before: Evaluation, here: Evaluation) -> Iterator[str]:
    """Changes of an evaluation that are impossible. (What the clerk is shown may have tenders of a lot of which others aren't shown any yet.)"""
    for lot, tenders in before.tenders.items():
        state, there = here.states.get(lot), here.tenders.get(lot, {})
        if state != before.states[lot] and before.states[lot] in FINAL:
            yield f"lot {lot} is {state}, and was {before.states[lot]}"
        for receipt, was in tenders.items() if there or state != "undecided" else ():
            now = there.get(receipt, [])
            # Its tenderer, how it reads and its price stay. An answer and a quality stay once they exist, and so does a failure. Points may change.
            if now[:3] != was[:3] or any(new != old for old, new in zip(was[3:5], now[3:5]) if old != "-") or was[6:] == ["failed"] != now[6:]:
                yield f"tender {receipt} is {now}, and was {was}"
        for award, was in before.awards[lot].items():
            now = here.awards.get(lot, {}).get(award, ["", "", ""])
            if now[:2] != was[:2] or was[2] not in ("active", now[2]):
                yield f"award {award} is {now}, and was {was}"


@rule("saved")
def saved_evaluations_stay(later: Later, office: Office | None, saved: Answers, notice: str) -> Found:
    """A saved evaluation is unchanged: who submitted which tender, what was found, and the awards."""
    before, here = saved.of_notice(notice, "evaluation"), later.evaluation(notice) if notice in later.notices else None
    if before is not None and here is not None:
        was, now = read_evaluation(before), read_evaluation(here)
        for what in went_otherwise(was, now) if was and now else ["the evaluation has another form"]:
            yield f"notices {notice}", f"{what} in {saved.place}"


@rule("held")
def contracts_are_as_shown(office: Office, saved: Answers) -> Found:
    """A contract that the clerk or its tenderer saw exists with each change and payment it had; one that had ended is unchanged."""
    for _, shown in saved.held("contract"):
        here = contract_of(office, shown.get("contract", 0))
        if here is None:
            yield f"contracts {shown.get('contract')}", f"{saved.place} has what was shown of it, and it doesn't exist"
            continue
        entries = {it["entry"]: it for it in here["entries"]}
        stays = [name for name in ("lot", "moment", "notice", "signed", "tenderer") if shown.get(name) != here[name]]
        stays += [f"entry {it.get('entry')}" for it in shown.get("entries", []) if it != entries.get(it.get("entry"))]
        stays += ["end"] if shown.get("ended") is not None and shown != here else []
        for what in stays:
            yield f"contracts {here['contract']}", f"{what} differs from what was shown in {saved.place}"
