"""Reads an office's answers for `tools/audit`: the files of a folder, or the answers of an address.

It asks again if a front answers that it is asked too often (429), or an office that it can't answer now (502, 503, 504). It waits as long as `Retry-After` says
(RFC 9110, section 10.2.3), or 1, 2, 4 .. seconds without it.
"""
import email.utils
import glob
import http.client
import os
import re
import time
import urllib.parse
from collections.abc import Callable

from office_kit.audit.office import Json, Unreadable, json_object

# The files of a folder, by the routes of their answers. Anybody may ask for all files of a notice, except for the register, which is the clerk's. A receipt is
# the answer to a tenderer that presents or changes a tender, or asks `GET /tenders/R`. Securities and contracts are shown to the clerk and to their tenderer.
OF_NOTICES = {"releases": ".json", "record": ".json", "minutes": ".txt", "terms": ".json", "evaluation": ".txt", "register": ".txt"}
HELD = ("receipt", "security", "performance", "contract")
# The folders of a mirror.
MIRRORED = {"record": "records", "terms": "terms", "minutes": "minutes", "evaluation": "evaluations"}

# The seconds to wait for one answer in all, the longest wait without `Retry-After`, and how often an office that can't answer is asked again.
PATIENCE, LONGEST, AGAIN = 600, 30, 5
TOO_MANY, NOT_NOW = 429, (502, 503, 504)
# A front may keep an answer for a while, and says by `Last-Modified` when the office gave it: for how long a fresh one is asked for, and how often.
KEPT, BETWEEN = 300, 2.0


def seconds_of(retry_after: str | None, tried: int, now: Callable[[], float] = time.time) -> float:
    """How long to wait, by the field `Retry-After` of an answer, a count of seconds or a date. Without it, twice as long each time."""
    text = (retry_after or "").strip()
    if re.fullmatch(r"[0-9]{1,9}", text):
        return int(text)
    moment = moment_in(text)
    return float(min(LONGEST, 1 << tried)) if moment is None else max(0.0, moment - now())


def moment_in(field: str | None) -> float | None:
    """The moment of a field such as `Date`, in seconds, or None if it has none."""
    try:
        return email.utils.parsedate_to_datetime(field or "").timestamp()
    except (TypeError, ValueError, OverflowError):
        return None


def fields_in(path: str) -> dict[str, str]:
    """The fields of a head that a file has, a line each, as `curl -H @FILE` takes them."""
    with open(path, encoding="utf-8") as file:
        pairs = [line.split(":", 1) for line in file.read().splitlines() if line.strip()]
    if not pairs or any(len(pair) != 2 for pair in pairs):
        raise Unreadable(f"{path}: it has no lines such as `Office-Caller: clerk`")
    return {name.strip(): value.strip() for name, value in pairs}


class Answers:
    """An office's answers: the files of a folder, or the answers of an address, each asked for once. With the clerk's fields it is asked for contracts too."""

    def __init__(self, folder: str | None, base: str | None, key: str | None = None) -> None:
        self.folder, self.base, self.place = folder or "", base or "", folder or base or ""
        self.fields = fields_in(key) if key else {}
        self.asked: dict[str, str | None] = {}
        self.given: float | None = None
        self.date: float | None = None
        self.list: list[Json] | None = None
        self.is_mirror = os.path.exists(os.path.join(self.folder, "mirror.json")) if self.folder else False

    def path_of(self, name: str) -> str:
        """The path of a file of the folder, also of a folder that `tools/mirror` keeps."""
        kind, _, rest = name.partition("-")
        return os.path.join(self.folder, *([MIRRORED[kind], rest] if self.is_mirror and kind in MIRRORED else [name]))

    def names(self, kind: str, end: str) -> list[str]:
        """The words after `kind-` in the names of the folder's files."""
        before = self.path_of(f"{kind}-")
        paths = glob.glob(f"{glob.escape(before)}*{end}") if self.folder else []
        return sorted(path[len(before):-len(end)] for path in paths)

    def notices(self) -> list[str]:
        """The notices of which the folder has anything."""
        return sorted({*(notice for kind, end in OF_NOTICES.items() for notice in self.names(kind, end)), *self.listed_names()})

    def page(self, path: str, name: str) -> Json | None:
        """A page of the list of notices, or None if there is none."""
        text = self.perhaps(path, name)
        page = json_object(text) if text is not None else None
        if text is not None and not (page and isinstance(page.get("notices"), list) and all(isinstance(it, dict) for it in page["notices"])):
            raise Unreadable(f"{self.place}: {path}: this is no page of the list of notices")
        return page

    def listed(self) -> list[Json] | None:
        """The list of notices, page by page; None if there is none, as in an office of an earlier program."""
        page, behind = self.page("/notices", "notices.json"), ""
        found: list[Json] = []
        while page is not None:
            found += page["notices"]
            if page.get("next") is None:
                self.list = found
                return found
            if str(page["next"]) <= behind:
                raise Unreadable(f"{self.place}: after {behind} the list continues at {page['next']}")
            behind = str(page["next"])
            page = self.page(f"/notices?after={behind}", f"notices-{behind}.json")
        if behind:
            raise Unreadable(f"{self.place}: there is no page of the list after {behind}")
        return None

    def listed_before(self) -> list[Json] | None:
        """The list, as it was when it was asked for; an address that wasn't asked for it isn't asked now."""
        return self.list if self.base else self.listed()

    def listed_names(self) -> list[str]:
        return [str(it.get("notice")) for it in self.listed() or []]

    def has_looks(self) -> bool:
        """Whether the address has the list of notices, and so the other queries that came with it."""
        return bool(self.base) and self.list is not None

    def terms(self, notice: str) -> Json | None:
        return self.package(notice, "terms")

    def contracts(self, numbers: list[int]) -> list[tuple[int, Json | None]]:
        """The contracts of a folder, or, with the clerk's fields, those of the address."""
        if not self.base:
            return [(int(shown.get("contract", 0)), shown) for _, shown in self.held("contract")]
        return [(number, json_object(self.perhaps(f"/contracts/{number}", "") or "")) for number in numbers] if self.fields else []

    def held(self, kind: str) -> list[tuple[str, Json]]:
        """The objects that the office gave a number and that the folder has: the number, and the JSON object."""
        return [(number, self.object(f"{kind}-{number}.json")) for number in self.names(kind, ".json")]

    def perhaps(self, path: str, name: str) -> str | None:
        """The text of the answer, or None if there is none."""
        if not self.base:
            return self.saved(name)
        if path not in self.asked:
            self.asked[path] = self.ask(path)
        return self.asked[path]

    def renewed(self, path: str, name: str) -> str | None:
        """A fresh text, which the office gives now: not an answer that a front kept from before."""
        if not self.base:
            return self.saved(name)
        begun, end = None, time.monotonic() + KEPT
        while True:
            self.asked[path] = self.ask(path)
            begun = begun or self.date
            if self.given is None or begun is None or self.given >= begun:
                return self.asked[path]
            if time.monotonic() > end:
                raise Unreadable(f"{self.base + path}: for {KEPT} s its front gives an answer from before")
            time.sleep(BETWEEN)

    def saved(self, name: str) -> str | None:
        """The text of a file of the folder, or None if it doesn't exist."""
        if not self.folder or not os.path.exists(self.path_of(name)):
            return None
        with open(self.path_of(name), encoding="utf-8", newline="") as file:
            return file.read()

    def days(self) -> list[tuple[str, str]]:
        """The ledgers that the folder kept of days, ledgers/YYYY-MM-DD.txt, the earliest first: the day and the text."""
        names = sorted(os.listdir(os.path.join(self.folder, "ledgers"))) if self.folder and os.path.isdir(os.path.join(self.folder, "ledgers")) else []
        return [(name[:-4], self.saved(os.path.join("ledgers", name)) or "") for name in names if re.fullmatch(r"[0-9]{4}-[0-9]{2}-[0-9]{2}\.txt", name)]

    def of_notice(self, notice: str, kind: str) -> str | None:
        """The text of a notice that is answered, or None."""
        return self.perhaps(f"/notices/{notice}/{kind}", f"{kind}-{notice}{OF_NOTICES[kind]}")

    def package(self, notice: str, kind: str) -> Json | None:
        """A package of a notice, which must be a JSON object, or None if there is none."""
        text = self.of_notice(notice, kind)
        package = json_object(text) if text is not None else None
        if text is not None and package is None:
            raise Unreadable(f"{self.place}: the {kind} of {notice}: no JSON object")
        return package

    def object(self, name: str) -> Json:
        value = json_object(self.saved(name) or "")
        if value is None:
            raise Unreadable(f"{os.path.join(self.folder, name)}: no JSON object")
        return value

    def packages(self, notice: str) -> tuple[Json | None, Json | None]:
        """The releases and the record of a notice. Those of an address are asked for again if a command came in between."""
        for _ in range(3):
            package, record = self.package(notice, "releases"), self.package(notice, "record")
            records = (record or {}).get("records")
            if not self.base or (package or {}).get("releases") == (records[0].get("releases") if records and isinstance(records[0], dict) else None):
                break
            self.forget(f"/notices/{notice}/releases", f"/notices/{notice}/record")
        return package, record

    def forget(self, *paths: str) -> None:
        """Forgets these, so that they are asked for again when needed."""
        for path in paths:
            self.asked.pop(path, None)

    def ask(self, path: str) -> str | None:
        """The body of the office's answer. None if it doesn't exist, or not yet, or the front knows no such route."""
        status, body = self.patient(path)
        told = json_object(body) or {} if status in (404, 409) else {}
        refused = "refusal" in told or status == 404 and "front" in told
        if status != 200 and not refused:
            raise Unreadable(f"{self.base + path}: status {status}: {body[:100]}")
        return body if status == 200 else None

    def patient(self, path: str) -> tuple[int, str]:
        """Status and body of an answer, asked for again as long as the front or the office says that it is too busy."""
        waited, tried, failed = 0.0, 0, 0
        while True:
            status, retry_after, body = self.exchange(path)
            wait = seconds_of(retry_after, tried)
            tried, failed = tried + 1, failed + (status in NOT_NOW)
            if status != TOO_MANY and status not in NOT_NOW or failed > AGAIN:
                return status, body
            if waited + wait > PATIENCE:
                raise Unreadable(f"{self.base + path}: status {status}, which asks to wait {wait:.0f} s more after {waited:.0f} s: try again later")
            waited += wait
            time.sleep(wait)

    def exchange(self, path: str) -> tuple[int, str | None, str]:
        """Status, `Retry-After` and body of one answer."""
        parts = urllib.parse.urlsplit(self.base)
        kind = http.client.HTTPSConnection if parts.scheme == "https" else http.client.HTTPConnection
        try:
            connection = kind(str(parts.hostname), parts.port, timeout=60)
            connection.request("GET", str(parts.path).rstrip("/") + path, headers=self.fields if path.startswith("/contracts/") else {})
            response = connection.getresponse()
            body = response.read().decode("utf-8")
            connection.close()
        except (OSError, http.client.HTTPException, ValueError) as why:
            raise Unreadable(f"{self.base + path}: {why!r}")
        self.given, self.date = moment_in(response.getheader("Last-Modified")), moment_in(response.getheader("Date"))
        return response.status, response.getheader("Retry-After"), body
