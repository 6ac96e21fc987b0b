"""The rules of `tools/audit` that compare the log of clerks who sign in at the front by name (deploy/clerks.conf) with the office: who gave which command."""
import csv
import datetime
import gzip
import hashlib
import io
import json
import re
from collections.abc import Iterable, Iterator
from typing import Any, NamedTuple

from office_kit.audit.looks import terms_of
from office_kit.audit.office import Found, Json, Office, Unreadable, json_object, rule, text_of

# The members of a line, in their order, with their types.
MEMBERS: dict[str, Any] = {"moment": str, "seconds": (int, float), "name": str, "roles": str, "address": str, "route": str, "status": int, "body": str}
ACCEPTED = 200
# Statuses of the front that don't say whether the office carried a command out. The office may do so this many seconds later.
OPEN, LATER = (499, 500, 502, 503, 504), 600
# The two workers of nginx may write lines in another order, so far apart; and a line's moment is a whole second.
APART, WHOLE = 2, 1


class Line(NamedTuple):
    """A line of the log: its place, the seconds between which the office answered, and its members."""

    place: str
    first: int
    last: int
    name: str
    route: str
    status: int
    body: bytes

    def told(self) -> str:
        return f"line {self.place}: {self.route} by {self.name or 'nobody'} at {text_of(self.last)}, {self.status}"


class Command(NamedTuple):
    """A command that the office accepted: the row that it left, its route, and its moment if the file has it. Of a payment or a change also the identifier. The
    body must say the last members."""

    row: str
    route: str
    moment: int | None
    entry: str | None
    says: Json | None


def body_of(line: Line) -> Json | None:
    return json_object(line.body.decode("utf-8", "surrogateescape"))


class Log:
    """The lines of one file or more, and why others can't be read."""

    def __init__(self, paths: Iterable[str], since: int) -> None:
        self.since, self.lines, self.unread = since, list[Line](), list[tuple[str, str]]()
        self.late: list[tuple[str, str]] = []
        self.paths = list(paths)
        for path in self.paths:
            self.read(path, f"{path}:" if len(self.paths) > 1 else "")
        self.pairs, self.left, self.missing = list[tuple[Command, Line]](), list[Line](), list[Command]()
        self.undated = 0

    def read(self, path: str, before: str) -> None:
        latest = 0
        for number, data in enumerate(self.texts(path), 1):
            place = f"{before}{number}"
            line = self.line_of(place, data)
            if line is None:
                self.unread.append((f"front {place}", "isn't a line that the front writes"))
                continue
            if line.last + APART < latest:
                self.late.append((f"front {place}", f"is of {text_of(line.last)}, and follows one of {text_of(latest)}"))
            latest = max(latest, line.last)
            if line.last >= self.since:
                self.lines.append(line)

    @staticmethod
    def texts(path: str) -> list[bytes]:
        try:
            with gzip.open(path) if path.endswith(".gz") else open(path, "rb") as file:
                return file.read().splitlines()
        except (OSError, EOFError) as why:
            raise Unreadable(f"{path}: {why}") from None

    @staticmethod
    def line_of(place: str, data: bytes) -> Line | None:
        value = json_object(data.decode("utf-8", "surrogateescape"))
        if value is None or list(value) != list(MEMBERS) or not all(isinstance(value[name], kind) for name, kind in MEMBERS.items()):
            return None
        try:
            moment = datetime.datetime.fromisoformat(value["moment"])
        except ValueError:
            return None
        if moment.tzinfo is None:
            return None
        last = int(moment.timestamp())
        return Line(place, last - int(value["seconds"]) - WHOLE, last, value["name"], value["route"], value["status"],
                    value["body"].encode("utf-8", "surrogateescape"))

    def join(self, office: Office) -> None:
        """Finds the line of each accepted command. Lines without a command, and commands without a line, are left."""
        free: dict[str, list[Line]] = {}
        for line in self.lines:
            free.setdefault(line.route, []).append(line)
        for command in commands_of(office, self.since):
            held = free.get(command.route, [])
            fitting = [line for line in held if is_of(line, command, (ACCEPTED,), 0)] or [line for line in held if is_of(line, command, OPEN, LATER)]
            if fitting:
                # (Of two that came in one second, the one that says the same.)
                found = next((line for line in fitting if not differences(line, command)), fitting[0])
                held.remove(found)
                self.pairs.append((command, found))
            elif command.moment is None and self.since:
                self.undated += 1
            else:
                self.missing.append(command)
        self.left = [line for line in self.lines if line.status == ACCEPTED and line in free[line.route]]

    def who(self) -> Iterator[str]:
        """A line for each command, in the order of their answers: moment, name, route, SHA-256 of the body, row."""
        order = {line: at for at, line in enumerate(self.lines)}
        for command, line in sorted(self.pairs, key=lambda pair: (pair[1].last, order[pair[1]])):
            moment = text_of(line.last if command.moment is None else command.moment)
            yield "\t".join([str(moment), line.name, line.route, hashlib.sha256(line.body).hexdigest(), command.row])


def is_of(line: Line, command: Command, statuses: tuple[int, ...], later: int) -> bool:
    """Whether a line can be that of a command."""
    if line.status not in statuses or command.moment is not None and not line.first <= command.moment <= line.last + later:
        return False
    return command.entry is None or (body_of(line) or {}).get("id") == command.entry


# ---- The commands that an office accepted.

def commands_of(office: Office, since: int) -> Iterator[Command]:
    """All commands of the clerk that left a row, and that came from a moment on. The file doesn't say when a tenderer was registered or a tender examined."""
    for batch, moment, rows in office.rows("SELECT batch, moment, rows FROM batches ORDER BY rowid"):
        if moment >= since:
            yield Command(f"batches {batch}", f"POST /budget/{batch}", moment, None, {"rows": rows})
    for tenderer, name, address, key in office.rows("SELECT tenderer, name, address, key FROM tenderers ORDER BY rowid"):
        yield Command(f"tenderers {tenderer}", f"POST /tenderers/{tenderer}", None, None, {"name": name, "address": address, "key": key.hex()})
    for receipt, responsive, quality, opened in office.rows(
            "SELECT receipt, responsive, quality, opened FROM envelopes AS e JOIN notices AS n ON n.notice = e.notice WHERE responsive IS NOT NULL"):
        if opened is not None and opened >= since or not since:
            yield Command(f"envelopes {receipt}", f"POST /tenders/{receipt}/examine", None, None, {"responsive": responsive == 1, "quality": quality})
    for notice in office.notices():
        for seq, moment, text in office.rows("SELECT seq, moment, text FROM releases WHERE notice = ? ORDER BY seq", notice):
            release = json_object(text)
            if release is not None and moment >= since:
                yield command_of(office, notice, f"releases {notice}/{seq}", moment, release)


def command_of(office: Office, notice: str, row: str, moment: int, release: Json) -> Command:
    """The command that made a release. (Other rules say what is wrong with a release that isn't one of a command.)"""
    try:
        route, entry, says = told_by(office, notice, release)
    except (KeyError, TypeError, IndexError, AttributeError, ValueError):
        return Command(row, "a command", moment, None, None)
    return Command(row, f"POST {route}", moment, entry, says)


# The members of a publication that may be absent, and their values then.
OPTIONAL: Json = {"price_weight": None, "late_withdrawal": "refused", "performance": 0}


def lots_of(lots: Iterable[Json]) -> Json:
    """The lots of a notice by their names, in the members that a publication gives them."""
    return {lot["id"]: {"items": {item["id"]: [item["title"], item["quantity"]] for item in lot["items"]},
                        **{name: lot[name] for name in ("title", "line", "estimate", "security")}} for lot in lots}


def publication(office: Office, notice: str, deadline: str) -> Json | None:
    """The body of a publication, with the deadline of its release, which may have moved since."""
    if (notice,) not in office.table("notices"):
        return None
    told = terms_of(office, notice)
    due = {name: told[name] for name in ("title", "validity_days", "standstill_days", "criteria", *OPTIONAL)}
    return {**due, "deadline": deadline, "lots": lots_of(told["lots"])}


def told_by(office: Office, notice: str, release: Json) -> tuple[str, str | None, Json | None]:
    """The route of the command that made a release, the identifier of a payment or a change, and the body by the rows."""
    tender, award, contract = release.get("tender", {}), *(release.get(name, [{}])[0] for name in ("awards", "contracts"))
    match release["tag"]:
        case ["planning", "tender"]:
            return f"/notices/{notice}", None, publication(office, notice, tender["tenderPeriod"]["endDate"])
        case ["tenderAmendment"]:
            said = {"deadline": tender["tenderPeriod"]["endDate"], "rationale": tender["amendments"][0]["rationale"]}
            return f"/notices/{notice}/amend", None, said
        case ["tenderCancellation", *_]:
            return f"/notices/{notice}/cancel", None, {"rationale": tender["amendments"][0]["rationale"]}
        case ["tenderUpdate"] if "numberOfTenderers" in tender:
            return f"/notices/{notice}/open", None, None
        case ["tenderUpdate"]:
            return f"/notices/{notice}/lots/{tender['lots'][0]['id']}/award", None, None
        case ["award"]:
            return f"/notices/{notice}/lots/{award['relatedLots'][0]}/award", None, None
        case ["awardCancellation"]:
            return f"/awards/{award['id']}/fail", None, None
        case ["contract"]:
            held = office.table("performance").get((int(contract["awardID"]),))
            return f"/awards/{contract['awardID']}/sign", None, held and {"security": held["reference"], "amount": held["amount"]}
        case ["contractAmendment"]:
            entry = contract["amendments"][0]["id"]
            row = office.table("entries").get((int(contract["id"]), entry))
            return f"/contracts/{contract['id']}/amend", entry, row and {name: row[name] for name in ("kind", "amount", "rationale")}
        case ["implementation"]:
            paid = contract["implementation"]["transactions"][0]
            return f"/contracts/{contract['id']}/pay", paid["id"], {"amount": paid["value"]["amount"]}
        case ["contractTermination"]:
            ended = office.table("contracts").get((int(contract["id"]),))
            return f"/contracts/{contract['id']}/end", None, ended and {"how": ended["how"]}
    raise ValueError(f"no command makes a release with the tags {release['tag']}")


def differences(line: Line, command: Command) -> list[tuple[str, Any, Any]]:
    """The things of which a line's body and a command's rows say something else: the name, and both."""
    due = command.says or {}
    said = said_by(line, due)
    return [(name, said.get(name), value) for name, value in due.items() if said.get(name) != value]


def said_by(line: Line, due: Json) -> Json:
    """The same things as a line's body says them."""
    if "rows" in due:
        return {"rows": len(budget_rows(line))}
    body = body_of(line) or {}
    said = {name: body.get(name, OPTIONAL.get(name)) for name in due}
    if "lots" in due:
        try:
            said["lots"] = lots_of(body["lots"])
        except (KeyError, TypeError):
            said["lots"] = None
    if isinstance(said.get("key"), str):
        said["key"] = str(said["key"]).lower()
    return said


def budget_rows(line: Line) -> list[list[str]]:
    """The rows of a budget file, without its header."""
    text = line.body.decode("utf-8-sig", "surrogateescape")
    return [row for row in csv.reader(io.StringIO(text, newline="")) if row][1:]


def shown(value: Any) -> str:
    return json.dumps(value, ensure_ascii=True, sort_keys=True)[:200]


# ---- The rules.

@rule("front")
def front_lines_can_be_read(office: Office, log: Log) -> Found:
    """Each line of the front's log is an object with exactly the members that the front writes."""
    yield from log.unread


@rule("front")
def front_lines_come_in_order(office: Office, log: Log) -> Found:
    """In a file of the front's log moments don't fall, by more than two seconds."""
    yield from log.late


@rule("front")
def commands_have_a_line(office: Office, log: Log) -> Found:
    """Each accepted command of the clerk has a line of its own in the front's log, with its route and its moment. It says 200, or that no answer came."""
    of_commands = {line.place for _, line in log.pairs}
    for command in log.missing:
        others = [line.told() for line in log.lines if line.route == command.route and line.place not in of_commands]
        hint = f"; there is {', '.join(others[:2])}" if others else ""
        at = "" if command.moment is None else f" at {text_of(command.moment)}"
        yield command.row, f"{command.route} was accepted{at}, and the front's log has no line of it: it was given past the front, or the line is gone{hint}"


@rule("front")
def lines_have_a_command(office: Office, log: Log) -> Found:
    """Each line of the front's log that says 200 is that of one accepted command."""
    for line in log.left:
        yield f"front {line.place}", f"{line.told()}: the office has no such command, or another line is that of it"


@rule("front")
def commands_have_a_name(office: Office, log: Log) -> Found:
    """Each accepted command was given by a clerk with a name."""
    for command, line in log.pairs:
        if not re.fullmatch(r"[a-z0-9._-]{1,32}", line.name):
            yield command.row, f"{line.told()} has no name of a clerk"


@rule("front")
def budget_lines_come_from_the_files(office: Office, log: Log) -> Found:
    """Each budget line has the title and the appropriation that all budget files in the front's log give it, if the log has them all."""
    if log.since or any(command.row.startswith("batches ") for command in log.missing):
        return
    due: dict[str, tuple[str, int]] = {}
    for command, said in log.pairs:
        for name, kind, amount, title in budget_rows(said) if command.row.startswith("batches ") else ():
            due[name] = (title, due.get(name, ("", 0))[1] + (int(amount) if kind == "add" else -int(amount)))
    for name, title, appropriation in office.rows("SELECT line, title, appropriation FROM lines ORDER BY line"):
        if due.get(name) != (title, appropriation):
            yield f"lines {name}", f"is {shown([title, appropriation])}, and by the budget files in the front's log {shown(due.get(name))}"


@rule("front")
def bodies_say_what_was_done(office: Office, log: Log) -> Found:
    """The body in the line of a command says what the rows say: rows, names, titles, deadlines, reasons, results, amounts."""
    for command, line in log.pairs:
        for name, said, due in differences(line, command):
            yield command.row, f"{line.told()} says {name} {shown(said)}, and the office {shown(due)}"
