"""The rules of `tools/audit` for releases: those in the file, and those that an office answers to anybody; with a merge of releases of its own."""
import collections
import json
import re
from collections.abc import Callable, Iterable
from typing import Any

from office_kit.audit.answers import Answers
from office_kit.audit.office import Found, Json, Office, differing, json_object, rule, text_of

TAGS = [["tenderAmendment"], ["tenderUpdate"], ["award"], ["awardCancellation"], ["tenderCancellation"], ["tenderCancellation", "awardCancellation"],
        ["contract"], ["contractAmendment"], ["implementation"], ["contractTermination"]]

# The events of a notice by its rows, in the form in which `events_told` has them by releases.
EVENTS = """
    SELECT printf('publication: at %s, of %d', text_of(published), (SELECT sum(estimate) FROM lots WHERE notice = ?1)) FROM notices WHERE notice = ?1
    UNION ALL SELECT printf('opening: at %s, of %d tenderers', text_of(opened), (SELECT count(DISTINCT tenderer) FROM envelopes
        WHERE notice = ?1 AND state = 'opened')) FROM notices WHERE notice = ?1 AND opened IS NOT NULL
    UNION ALL SELECT printf('lot %s: %s', lot, state) FROM lots WHERE notice = ?1 AND state IN ('unsuccessful', 'cancelled')
    UNION ALL SELECT printf('award %d: at %s, of %s to T-%s, %d', award, text_of(a.moment), a.lot, tenderer, price)
        FROM awards AS a JOIN envelopes AS e ON e.receipt = a.receipt WHERE a.notice = ?1
    UNION ALL SELECT printf('end of award %d: cancelled', award) FROM awards WHERE notice = ?1 AND state IN ('failed', 'cancelled')
    UNION ALL SELECT printf('contract %d: at %s, %d', contract, text_of(moment), signed) FROM contracts WHERE notice = ?1
    UNION ALL SELECT printf('entry %d/%s: at %s, %s', e.contract, entry, text_of(e.moment), CASE kind WHEN 'raise' THEN 'Raised by ' || amount
        WHEN 'cut' THEN 'Cut by ' || amount ELSE printf('paid %d to T-%s', amount, tenderer) END)
        FROM entries AS e JOIN contracts AS c ON c.contract = e.contract WHERE c.notice = ?1
    UNION ALL SELECT printf('end of contract %d: at %s', contract, text_of(ended)) FROM contracts WHERE notice = ?1 AND ended IS NOT NULL"""

# Its terms, lots, tenderers, awards and contracts by the rows, in the form in which `facts_told` has them by a merge.
FACTS = """
    SELECT 'terms', printf('%s to %s, %s, %s', text_of(published), text_of(deadline), iif(weight = 0, 'priceOnly', 'ratedCriteria'), title)
        FROM notices WHERE notice = ?1
    UNION ALL SELECT DISTINCT 'tenderer T-' || e.tenderer, printf('%s, %s', name, address) FROM envelopes AS e JOIN tenderers AS t ON t.tenderer = e.tenderer
        WHERE e.notice = ?1 AND e.state = 'opened'
    UNION ALL SELECT 'status', CASE WHEN max(state IN ('undecided', 'awarded')) THEN 'active' WHEN max(state = 'contracted') THEN 'complete'
        WHEN max(state = 'cancelled') THEN 'cancelled' ELSE 'unsuccessful' END FROM lots WHERE notice = ?1
    UNION ALL SELECT 'lot ' || lot, printf('%d %s %s', estimate, CASE state WHEN 'contracted' THEN 'complete' WHEN 'cancelled' THEN state
        WHEN 'unsuccessful' THEN state ELSE 'active' END, title) FROM lots WHERE notice = ?1
    UNION ALL SELECT 'items of ' || lot, items FROM lots WHERE notice = ?1
    UNION ALL SELECT 'award ' || award, printf('%d %s', price, iif(state IN ('active', 'signed'), 'active', 'cancelled')) FROM awards WHERE notice = ?1
    UNION ALL SELECT 'contract ' || contract, printf('%d %s', signed + raised - cut, iif(ended IS NULL, 'active', 'terminated')) FROM sums WHERE notice = ?1
    UNION ALL SELECT 'entry ' || e.contract || '/' || entry, rationale FROM entries AS e JOIN contracts AS c ON c.contract = e.contract
        WHERE c.notice = ?1 AND rationale IS NOT NULL
    UNION ALL SELECT 'paid under ' || contract, CAST(paid AS TEXT) FROM sums WHERE notice = ?1"""


# ---- The merge (OCDS 1.1, "Merging"; what that leaves open is as crates/ocds_merge/specs/Merge.antt has it).

ABSENT = object()


def is_id_list(value: Any) -> bool:
    """A list, not empty, of objects that each have a text `id`."""
    return isinstance(value, list) and bool(value) and all(isinstance(item, dict) and isinstance(item.get("id"), str) for item in value)


def last_run(column: list[Any], fits: Callable[[Any], bool]) -> list[Any]:
    """The longest run at the end of a column whose values all fit."""
    start = len(column)
    while start and fits(column[start - 1]):
        start -= 1
    return column[start:]


def merged(column: list[Any]) -> Any:
    """The merge of the values that releases give for one place, in their order. The last value decides. If it is null, nothing remains. If it is an object,
    each name is merged; if it is a list with ids, each id is; both over the run of such values at the end. Any other value is taken whole."""
    if not column or column[-1] is None:
        return ABSENT
    if isinstance(column[-1], dict):
        run = last_run(column, lambda value: isinstance(value, dict))
        names = dict.fromkeys(name for value in run for name in value)
        found = {name: merged([value[name] for value in run if name in value]) for name in names}
        return {name: value for name, value in found.items() if value is not ABSENT}
    if is_id_list(column[-1]):
        items: dict[str, list[Any]] = {}
        for item in [item for value in last_run(column, is_id_list) for item in value]:
            items.setdefault(item["id"], []).append(item)
        return [merged(alike) for alike in items.values()]
    return column[-1]


def date_of(release: Json) -> bytes:
    """The date of a release, as the bytes by which releases are ordered."""
    return str(release.get("date", "")).encode("utf-8", "surrogateescape")


def merge_of(releases: list[Json]) -> Any:
    """The merge of releases by date, without their own `id`, `date` and `tag`."""
    bodies = [{name: value for name, value in release.items() if name not in ("id", "date", "tag")} for release in sorted(releases, key=date_of)]
    return merged(bodies) if bodies else {}


def compiled_of(releases: list[Json]) -> Json:
    """The compiled release: the merge, with the last date, an id of ocid and date, and the tag compiled."""
    last = max((str(release.get("date", "")) for release in releases), default="")
    merge = merge_of(releases)
    return {**merge, "id": f"{merge.get('ocid')}-{last}", "date": last, "tag": ["compiled"]}


# ---- What releases tell.

def events_told(release: Json) -> list[str]:
    """The events of a release, a text for each: its name, a colon and the rest."""
    try:
        return [event for tag in release["tag"] for event in told_by(tag, release)]
    except (KeyError, TypeError, IndexError, AttributeError):
        return [f"unreadable: {json.dumps(release)[:80]}"]


def told_by(tag: str, release: Json) -> list[str]:
    """The events of a release by one of its tags."""
    date, tender, awards, contracts = release["date"], release.get("tender", {}), release.get("awards", []), release.get("contracts", [])
    match tag:
        case "tender":
            return [f"publication: at {date}, of {tender['value']['amount']}"]
        case "tenderAmendment":
            return ["amendment"]
        case "tenderUpdate" if "numberOfTenderers" in tender:
            return [f"opening: at {date}, of {tender['numberOfTenderers']} tenderers"]
        case "tenderUpdate" | "tenderCancellation":
            return [f"lot {lot['id']}: {lot['status']}" for lot in tender["lots"]]
        case "award":
            return [f"award {a['id']}: at {date}, of {a['relatedLots'][0]} to {a['suppliers'][0]['id']}, {a['value']['amount']}" for a in awards]
        case "awardCancellation":
            return [f"end of award {a['id']}: {a['status']}" for a in awards]
        case "contract":
            return [f"contract {c['id']}: at {date}, {c['value']['amount']}" for c in contracts]
        case "contractAmendment":
            return [f"entry {c['id']}/{a['id']}: at {a['date']}, {a['description']}" for c in contracts for a in c["amendments"]]
        case "implementation":
            return [f"entry {c['id']}/{p['id']}: at {p['date']}, paid {p['value']['amount']} to {p['payee']['id']}"
                    for c in contracts for p in c["implementation"]["transactions"]]
        case "contractTermination":
            return [f"end of contract {c['id']}: at {date}" for c in contracts]
    return []


def facts_told(merge: Json) -> dict[str, Any]:
    """The facts of a notice by a merge: its terms, tenderers and items; and the amounts and states of its lots, awards and contracts."""
    tender, period = merge["tender"], merge["tender"]["tenderPeriod"]
    told = {"terms": f"{period['startDate']} to {period['endDate']}, {tender['awardCriteria']}, {tender['title']}", "status": tender["status"]}
    for lot in tender["lots"]:
        told["lot " + lot["id"]] = f"{lot['value']['amount']} {lot['status']} {lot['title']}"
        told["items of " + lot["id"]] = "".join(f"{item['id'].removeprefix(lot['id'] + '/')}\t{item['quantity']}\t{item['description']}\n"
                                                for item in tender["items"] if item["relatedLot"] == lot["id"])
    for party in merge["parties"]:
        if "tenderer" in party["roles"]:
            told["tenderer " + party["id"]] = f"{party['name']}, {party['address']['streetAddress']}"
    for award in merge.get("awards", []):
        told["award " + award["id"]] = f"{award['value']['amount']} {award['status']}"
    for contract in merge.get("contracts", []):
        told["contract " + contract["id"]] = f"{contract['value']['amount']} {contract['status']}"
        told["paid under " + contract["id"]] = str(sum(paid["value"]["amount"] for paid in contract.get("implementation", {}).get("transactions", [])))
        told.update({f"entry {contract['id']}/{entry['id']}": entry["rationale"] for entry in contract.get("amendments", [])})
    return told


# ---- Rules of the releases that the file keeps.

@rule("kept")
def kept_texts_are_releases(office: Office, notice: str, releases: list[Json]) -> Found:
    """The text of a stored release is a JSON object, dated by its row's moment."""
    for seq, moment, text in office.rows("SELECT seq, moment, text FROM releases WHERE notice = ? ORDER BY seq", notice):
        if (json_object(text) or {}).get("date") != text_of(moment):
            yield f"releases {notice}/{seq}", f"isn't a JSON object of the date {text_of(moment)}"


@rule("kept")
def kept_texts_are_compact(office: Office, notice: str, releases: list[Json]) -> Found:
    """The text of a stored release or merge is written as the office writes JSON: compactly, members sorted by the bytes of their names."""
    for table in ("releases", "compiled"):
        for *key, text in office.rows(f"SELECT {'notice, seq' if table == 'releases' else 'notice'}, text FROM {table} WHERE notice = ?", notice):
            value = json_object(text)
            if value is not None and text != json.dumps(value, ensure_ascii=False, separators=(",", ":"), sort_keys=True):
                yield f"{table} {'/'.join(map(str, key))}", "isn't written as the office writes JSON"


@rule("kept")
def rows_have_their_releases(office: Office, notice: str, releases: list[Json]) -> Found:
    """The releases of a notice say exactly what its rows say, each event once."""
    told = collections.Counter(event for release in releases for event in events_told(release))
    done = collections.Counter(event for event, in office.rows(EVENTS, notice))
    done["amendment"] = office.rows("SELECT amendments FROM notices WHERE notice = ?", notice)[0][0]
    for event in (done - told).elements():
        yield f"notices {notice}", f"no release has {event}"
    for event in (told - done).elements():
        yield f"notices {notice}", f"a release says what no row says: {event}"


@rule("kept")
def merges_are_of_their_releases(office: Office, notice: str, releases: list[Json]) -> Found:
    """If a merge of a notice's releases is stored, it is their merge."""
    for text, in office.rows("SELECT text FROM compiled WHERE notice = ?", notice):
        yield from differing(f"compiled {notice}", json_object(text), merge_of(releases), "at {} it has {}, and the merge of the releases {}")


@rule("kept")
def merges_say_what_the_rows_say(office: Office, notice: str, releases: list[Json]) -> Found:
    """The merge of a notice's releases and the rows agree on terms, status, lots, tenderers, awards, contracts and payments."""
    kept = dict(office.rows(FACTS, notice))
    try:
        told = facts_told(merge_of(releases))
    except (KeyError, TypeError, AttributeError) as wrong:
        told = {"what can't be read of the releases": repr(wrong)}
    for name in sorted(kept.keys() | told.keys()):
        if kept.get(name) != told.get(name):
            yield f"notices {notice}", f"{name}: the releases say {told.get(name)}, and the rows {kept.get(name)}"


# ---- Rules of releases, wherever they come from.

@rule("releases")
def heads_are_in_sequence(notice: str, releases: list[Json]) -> Found:
    """A release's ocid is a prefix, a dash and the notice, the same in all; its id adds its number; its date isn't before that of the previous one."""
    ocid, date, due = releases[0].get("ocid") if releases else None, "", 1
    right = re.fullmatch(r"ocds-[0-9A-Za-z]{6}-" + re.escape(notice), str(ocid))
    for release in releases:
        here = [str(release.get(name)) for name in ("ocid", "id", "date")]
        if not right or here[:2] != [ocid, f"{ocid}-{due:04}"] or here[2] < date:
            yield f"releases {notice}/{due}", f"ocid {here[0]}, id {here[1]} and date {here[2]}, but number {due} of {ocid} is next, not before {date}"
        number = re.fullmatch(r".*-([0-9]{4})", here[1])
        date, due = here[2], int(number[1]) + 1 if number else due + 1


@rule("releases")
def tags_are_of_events(notice: str, releases: list[Json]) -> Found:
    """The first release has the tags planning and tender, and every other those of an event of the office."""
    for seq, release in enumerate(releases, 1):
        if release.get("tag") not in (TAGS if seq > 1 else [["planning", "tender"]]):
            yield f"releases {notice}/{seq}", f"has the tags {release.get('tag')}"


@rule("releases")
def events_come_once(notice: str, releases: list[Json]) -> Found:
    """Each award, its end, and each signing, entry and end of a contract is in exactly one release."""
    told = collections.Counter(event.split(":")[0] for release in releases for event in events_told(release) if ":" in event)
    for event, count in told.items():
        if count > 1:
            yield f"notices {notice}", f"{event} occurs {count} times"


# ---- Rules of answers.

def releases_in(package: Json) -> list[Json]:
    """The releases of a package that are objects."""
    releases = package.get("releases")
    return [release for release in releases if isinstance(release, dict)] if isinstance(releases, list) else []


def record_in(package: Json) -> Json:
    """The one record of a record package."""
    records = package.get("records")
    return records[0] if isinstance(records, list) and len(records) == 1 and isinstance(records[0], dict) else {}


@rule("answers")
def answered_releases_are_kept(office: Office | None, answers: Answers, notice: str, package: Json, record: Json) -> Found:
    """The answered releases are those in the file."""
    if office:
        yield from differing(f"notices {notice}", package.get("releases"), office.releases(notice), "its releases at {} answer {}, and the file has {}")


@rule("answers")
def records_have_the_releases(office: Office | None, answers: Answers, notice: str, package: Json, record: Json) -> Found:
    """A record package has one record, with the notice's ocid and the releases of the release package."""
    yield from differing(f"notices {notice}", record_in(record).get("releases"), package.get("releases"),
                         "its record's releases at {} are {}, and its releases {}")
    if any(release.get("ocid") != record_in(record).get("ocid") for release in releases_in(package)):
        yield f"notices {notice}", f"its record is of {record_in(record).get('ocid')}"


@rule("answers")
def compiled_is_the_merge(office: Office | None, answers: Answers, notice: str, package: Json, record: Json) -> Found:
    """The compiled release of a record is the merge of the releases, under its own head."""
    yield from differing(f"notices {notice}", record_in(record).get("compiledRelease"), compiled_of(releases_in(package)),
                         "its compiled release at {} is {}, and the merge of the releases {}")


@rule("answers")
def packages_have_their_heads(office: Office | None, answers: Answers, notice: str, package: Json, record: Json) -> Found:
    """A package has version 1.1, the address of its route, and the date of its last release."""
    last = max((str(release.get("date")) for release in releases_in(package)), default=None)
    for kind, value in (("releases", package), ("record", record)):
        if value.get("version") != "1.1" or not str(value.get("uri")).endswith(f"/notices/{notice}/{kind}") or value.get("publishedDate") != last:
            yield f"notices {notice}", f"the package of its {kind} is {value.get('version')}, {value.get('uri')}, {value.get('publishedDate')}"


def text_with(lines: Iterable[Iterable[object]]) -> str:
    """The text of lines whose fields have tabs between."""
    return "".join("\t".join(str(field) for field in line if field is not None) + "\n" for line in lines)


def minutes_of(office: Office, notice: str) -> str | None:
    """The minutes of a notice, by the rows; None if it isn't opened."""
    title, deadline, opened = office.rows("SELECT title, text_of(deadline), text_of(opened) FROM notices WHERE notice = ?", notice)[0]
    due = [("MINUTES", notice, title), ("deadline", deadline), ("opened", opened)]
    for lot in office.rows("SELECT 'lot', lot, title FROM lots WHERE notice = ? ORDER BY lot", notice):
        due += [lot] + office.rows("""SELECT 'tender', receipt, tenderer, name, address, reading, stated, corrected, corrections
            FROM envelopes JOIN tenderers USING (tenderer) WHERE notice = ? AND lot = ? AND state = 'opened' ORDER BY receipt""", notice, lot[1])
    return None if opened is None else text_with(due + [("END",)])


@rule("minutes")
def minutes_are_of_the_rows(office: Office, answers: Answers, notice: str) -> Found:
    """The minutes of an opened notice say what the file says, and no other notice has minutes."""
    due, text = minutes_of(office, notice), answers.of_notice(notice, "minutes")
    if due is None:
        yield from [(f"notices {notice}", "minutes are answered, and it isn't opened")] if text is not None else []
    elif text is None:
        yield from [(f"notices {notice}", "is opened, and no minutes are answered")] if answers.base else []
    else:
        yield from unlike(f"notices {notice}", text, due)


@rule("lacking")
def kept_notices_are_answered(office: Office | None, notice: str) -> Found:
    """An address answers for each notice in the file."""
    if office and notice in office.notices():
        yield f"notices {notice}", "is in the file, and the address answers nothing for it"


@rule("ledger")
def ledger_is_of_the_rows(office: Office | None, text: str) -> Found:
    """The answered ledger adds up, line by line, and says what the file says."""
    for line in text.split("\n")[2:-1]:
        name, *numbers = line.split("\t")
        if len(numbers) != 5 or not all(number.isdigit() for number in numbers) or sum(map(int, numbers[1:])) != int(numbers[0]):
            yield f"lines {name}", f"the ledger says {numbers}: appropriation, free, reserved, contracted, paid"
    if office:
        yield from unlike("office 1", text, ledger_of(office))


def ledger_of(office: Office) -> str:
    head = [("LEDGER",), ("line", "appropriation", "free", "reserved", "contracted", "paid")]
    return text_with(head + office.rows("SELECT line, appropriation, free, reserved, contracted, paid FROM pots ORDER BY line"))


def unlike(row: str, text: str, due: str, told: str = "line {} of the answer is {}, and the file says {}", *more: str) -> Found:
    """A finding if a text isn't the expected one. Its words have braces for the first line that differs, for both lines, and for more."""
    lines, wanted = text.split("\n"), due.split("\n")
    if lines != wanted:
        place = next((place for place, (here, there) in enumerate(zip(lines, wanted)) if here != there), min(len(lines), len(wanted)))
        yield row, told.format(place + 1, lines[place:place + 1], wanted[place:place + 1], *more)
