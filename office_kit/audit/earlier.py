"""The rules of `tools/audit` for witnesses: answers that were saved, and copies of the file that were made, before the audited file or answers.

No command takes back an answer of the office, or most facts of its rows. So a witness exposes changes even if everything related was changed too.
"""
import datetime
from collections.abc import Callable, Collection, Iterator

from office_kit.audit.answers import Answers
from office_kit.audit.office import TABLES, Found, Json, Office, Row, differing, rule, text_of
from office_kit.audit.releases import compiled_of, record_in, releases_in, unlike
from office_kit.audit.rows import MOMENTS

# A day after all others. And by how many seconds the clock of the person who saved a ledger may differ from the office's.
LAST_DAY, MARGIN = datetime.date(9999, 12, 31), 3600
# The columns that no command changes in an existing row.
FIXED = {
    "batches": "moment rows", "tenderers": "name address key", "notices": "title published validity standstill weight performance",
    "lots": "title line estimate security items", "envelopes": "notice lot tenderer moment length digest security", "seals": "bytes",
    "securities": "tenderer notice lot reference amount", "awards": "notice lot receipt price moment", "contracts": "notice lot tenderer signed moment",
    "entries": "kind amount moment rationale", "releases": "moment text", "performance": "reference amount", "lines": "", "compiled": "", "late_rules": ""}
# The columns that are empty until they are set, once.
ONCE = {"notices": "opened", "envelopes": "reading stated corrected corrections responsive quality", "contracts": "ended how"}
# The columns that only grow.
GROWS = {"notices": "deadline amendments releases", "envelopes": "failed", "contracts": "released", "office": "moment receipts awards"}
# The states after which another can follow. An awarded lot can reach every other state, since its award may fail.
GOES_ON = {"notices": "receiving", "lots": "undecided awarded", "envelopes": "sealed", "securities": "held", "awards": "active", "performance": "held"}
# Rows that are added together with another row, and never later: the table of that row, and its key as the columns of this one.
WITH = {"lots": ("notices", "notice"), "late_rules": ("notices", "notice"), "seals": ("envelopes", "receipt"), "securities": ("envelopes", "security"),
        "performance": ("contracts", "contract")}


def both(table: str, later: Office, earlier: Office) -> Iterator[tuple[str, Row, Row | None]]:
    """For each row of an earlier copy: its key as text, the row there, and the row here, or None."""
    here = later.table(table)
    for key, row in earlier.table(table).items():
        yield f"{table} {'/'.join(map(str, key))}", row, here.get(key)


def short(value: object) -> str:
    return str(value)[:60]


# ---- Earlier copies of the file.

@rule("copies")
def rows_of_an_earlier_copy_stay(later: Office, earlier: Office) -> Found:
    """Each row of an earlier copy exists, with everything that no command changes; only the bytes of a tender go, when it is returned."""
    for table, columns in FIXED.items():
        for row, before, here in both(table, later, earlier):
            if here is None:
                yield from [(row, f"is missing, and was in {earlier.path}")] if table != "seals" else []
                continue
            for column in columns.split():
                if here[column] != before[column]:
                    yield row, f"{column} is {short(here[column])}, and was {short(before[column])} in {earlier.path}"


@rule("copies")
def what_is_decided_stays(later: Office, earlier: Office) -> Found:
    """The decisions of an earlier copy stay (final states, readings, examinations, openings and ends), and deadlines, counts and the clock only grow."""
    for table in TABLES:
        for row, before, here in both(table, later, earlier):
            for column in went_back(table, before, here) if here else []:
                yield row, f"{column} is {short((here or {})[column])}, and was {short(before[column])} in {earlier.path}"


def went_back(table: str, before: Row, here: Row) -> Iterator[str]:
    """The columns of a row whose value can't have come after the one before."""
    yield from (column for column in ONCE.get(table, "").split() if before[column] not in (None, here[column]))
    yield from (column for column in GROWS.get(table, "").split() if before[column] > here[column])
    if table in GOES_ON and before["state"] not in (here["state"], *GOES_ON[table].split()):
        yield "state"


@rule("copies")
def tenders_stay_from_the_deadline_on(later: Office, earlier: Office) -> Found:
    """A tender that was sealed in an earlier copy, at its notice's deadline or after it, isn't withdrawn."""
    (clock,), = earlier.rows("SELECT moment FROM office")
    for row, before, here in both("envelopes", later, earlier):
        deadline = later.table("notices").get((before["notice"],), {}).get("deadline")
        if here and deadline is not None and clock >= deadline and (before["state"], here["state"]) == ("sealed", "withdrawn"):
            yield row, f"is withdrawn, and was sealed at {text_of(clock)}, after the deadline {text_of(deadline)}, in {earlier.path}"


@rule("copies")
def nothing_is_put_in_behind(later: Office, earlier: Office) -> Found:
    """A row that is added together with another one doesn't exist if an earlier copy has that other row without it."""
    for table, (parent, column) in WITH.items():
        before, parents = earlier.table(table), earlier.table(parent)
        for key, row in later.table(table).items():
            if key not in before and (row[column],) in parents:
                yield f"{table} {'/'.join(map(str, key))}", f"isn't in {earlier.path}, which has {parent} {row[column]}"


@rule("copies")
def what_is_new_is_later(later: Office, earlier: Office) -> Found:
    """Rows that an earlier copy doesn't have are of its last moment or later."""
    (clock,), = earlier.rows("SELECT moment FROM office")
    for place in MOMENTS.split(", "):
        table, column = place.split()
        before = earlier.table(table)
        for key, row in later.table(table).items():
            if row[column] is not None and row[column] < clock and before.get(key, {}).get(column) is None:
                yield f"{table} {'/'.join(map(str, key))}", f"{column} is {text_of(row[column])}, before {text_of(clock)}, and {earlier.path} doesn't have it"


@rule("copies")
def appropriations_come_from_batches(later: Office, earlier: Office) -> Found:
    """Since an earlier copy no more lines changed appropriation or title than rows of budget files were imported."""
    came = sum(row["rows"] for key, row in later.table("batches").items() if key not in earlier.table("batches"))
    told, before = (({key: (row["title"], row["appropriation"]) for key, row in of.table("lines").items()}) for of in (later, earlier))
    moved = [key for key, row in told.items() if row != before.get(key)]
    for line, in moved if len(moved) > came else []:
        yield f"lines {line}", (f"{len(moved)} lines have another title or appropriation than in {earlier.path}, "
                                f"and only {came} rows of budget files were imported since")


# ---- Answers that were saved.

class Later:
    """The audited office, by a notice: the releases, minutes, terms and evaluation that the file has, or that were answered."""

    def __init__(self, notices: Collection[str], releases: Callable[[str], list[Json]], minutes: Callable[[str], str | None],
                 terms: Callable[[str], Json | None], evaluation: Callable[[str], str | None]) -> None:
        self.notices, self.releases, self.minutes, self.terms, self.evaluation = notices, releases, minutes, terms, evaluation


@rule("witness")
def saved_notices_are_there(later: Later, office: Office | None, saved: Answers, notice: str) -> Found:
    """A notice for which somebody saved an answer exists."""
    if notice not in later.notices:
        yield f"notices {notice}", f"{saved.place} has answers of it, and it doesn't exist"


@rule("saved")
def saved_releases_stay(later: Later, office: Office | None, saved: Answers, notice: str) -> Found:
    """Saved releases, alone or in a record, are still the first ones of their notice, unchanged."""
    package, record = saved.package(notice, "releases"), saved.package(notice, "record")
    for kind, before in (("releases", releases_in(package or {})), ("record", releases_in(record_in(record or {})))):
        here = later.releases(notice)[:len(before)] if notice in later.notices else before
        yield from differing(f"notices {notice}", here, before, "its releases at {} have {}, and had {} in the {} of {}", kind, saved.place)


@rule("saved")
def saved_records_are_merges(later: Later, office: Office | None, saved: Answers, notice: str) -> Found:
    """The compiled release of a saved record is the merge of its releases."""
    record = saved.package(notice, "record")
    if record is not None:
        due = compiled_of(releases_in(record_in(record)))
        yield from differing(f"notices {notice}", record_in(record).get("compiledRelease"), due,
                             "the compiled release of {3} at {0} is {1}, and the merge of its releases {2}", saved.place)


@rule("saved")
def saved_minutes_stay(later: Later, office: Office | None, saved: Answers, notice: str) -> Found:
    """Saved minutes are still the minutes: nothing changes them."""
    before, here = saved.of_notice(notice, "minutes"), later.minutes(notice) if notice in later.notices else None
    if before is not None and here is not None:
        yield from unlike(f"notices {notice}", here, before, "line {} of its minutes is {}, and was {} in {}", saved.place)


@rule("witness")
def registers_are_of_the_rows(later: Later, office: Office | None, saved: Answers, notice: str) -> Found:
    """Each tender of a saved register exists with its lot, moment and length, in a state that can follow, and none was added between them."""
    text = saved.saved(f"register-{notice}.txt")
    if office is None or text is None:
        return
    rows = {row["receipt"]: [row["lot"], text_of(row["moment"]), str(row["length"]), row["state"]]
            for row in office.table("envelopes").values() if row["notice"] == notice}
    told = {int(receipt): fields for receipt, *fields in (line.split("\t") for line in text.split("\n")[1:-1])}
    for receipt, fields in told.items():
        here = rows.get(receipt)
        if here is None or fields[:-1] != here[:-1] or fields[-1] not in ("sealed", here[-1]):
            yield f"envelopes {receipt}", f"is {here}, and was {fields} in the register of {saved.place}"
    for receipt in sorted(rows.keys() - told.keys()):
        if receipt < max(told, default=0):
            yield f"envelopes {receipt}", f"isn't in the register of {saved.place}, which has later ones"


@rule("held")
def receipts_are_of_the_rows(office: Office, saved: Answers) -> Found:
    """A saved receipt has its tender, with its digest, moment and security; it was returned if it came late, otherwise only by a cancellation."""
    for number, receipt in saved.held("receipt"):
        row = office.table("envelopes").get((receipt.get("receipt"),))
        if row is None:
            yield f"envelopes {receipt.get('receipt')}", f"{saved.place} has a receipt of it, and it doesn't exist"
            continue
        here = {**row, "moment": text_of(row["moment"]), "digest": row["digest"].hex()}
        # (The answer to a withdrawal has its own moment, and no digest.)
        names = ("notice", "lot", "moment", "length", "digest", "security") if "digest" in receipt else ()
        for name in (name for name in names if name in receipt and receipt[name] != here[name]):
            yield f"envelopes {row['receipt']}", f"{name} is {here[name]}, and {receipt[name]} on the receipt of {saved.place}"
        notice = office.table("notices")[(row["notice"],)]
        in_time = row["state"] != "returned" or notice["state"] == "cancelled" and row["moment"] <= notice["deadline"]
        if not (receipt.get("state") == row["state"] or receipt.get("state") == "sealed" and in_time):
            yield f"envelopes {row['receipt']}", f"is {row['state']}, and {receipt.get('state')} on the receipt of {saved.place}"


@rule("held")
def securities_are_as_shown(office: Office, saved: Answers) -> Found:
    """A security that the clerk or its tenderer saw exists with its amount, reference and tenderer, in a state that can follow; so does a contract's."""
    for kind, table in (("security", "securities"), ("performance", "performance")):
        for number, shown in saved.held(kind):
            key = shown.get("security" if kind == "security" else "contract")
            row = office.table(table).get((key,))
            here = {**(row or {}), **({} if kind == "security" or row is None else {"tenderer": office.table("contracts")[(key,)]["tenderer"]})}
            others = [name for name in ("amount", "reference", "tenderer") if shown.get(name) != here.get(name)]
            if row is None or others or shown.get("state") not in ("held", row["state"]):
                told = {name: here.get(name) for name in ("amount", "reference", "tenderer", "state")}
                yield f"{table} {key}", f"is {told}, and was shown as {shown} in {saved.place}"


@rule("ledgers")
def paid_never_falls(here: str, before: str, place: str) -> Found:
    """Each line of a saved ledger exists, and no less is paid on it."""
    lines = {line.split("\t")[0]: line.split("\t") for line in here.split("\n")[2:-1]}
    for name, *_, paid in (line.split("\t") for line in before.split("\n")[2:-1]):
        if name not in lines or int(lines[name][-1]) < int(paid):
            yield f"lines {name}", f"{paid} were paid in {place}, and {lines.get(name, ['', 'none: it does not exist'])[-1]} now"


def appropriations_in(ledger: str) -> dict[str, int]:
    return {line.split("\t")[0]: int(line.split("\t")[1]) for line in ledger.split("\n")[2:-1]}


def start_of(day: datetime.date) -> int:
    """The first second of a day (UTC), since 1970."""
    return (day - datetime.date(1970, 1, 1)).days * 86_400


@rule("days")
def appropriations_of_days_come_from_batches(office: Office, saved: Answers) -> Found:
    """Between the saved ledgers of two days, and since the last, no more lines changed appropriation than rows of budget files were imported."""
    told = [(datetime.date.fromisoformat(day), appropriations_in(text)) for day, text in saved.days()]
    steps = [*told, (LAST_DAY, {key[0]: row["appropriation"] for key, row in office.table("lines").items()})]
    batches = [(row["moment"], row["rows"]) for row in office.table("batches").values()]
    for (day, before), (until, after) in zip(steps, steps[1:]):
        # (A ledger was saved at some time of its day, so files of that whole day may have come after it.)
        came = sum(rows for at, rows in batches if start_of(day) - MARGIN <= at < start_of(until) + 86_400 + MARGIN)
        moved = sorted(line for line in before.keys() | after.keys() if before.get(line) != after.get(line))
        for line in moved if len(moved) > came else []:
            end = "in the file" if until == LAST_DAY else f"on {until}"
            yield f"lines {line}", (f"its appropriation is {after.get(line)} {end}, and was {before.get(line)} on {day} in {saved.place}; "
                                    f"such lines: {len(moved)}, rows of budget files that were imported: {came}")
