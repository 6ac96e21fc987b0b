"""Asks an office for `tools/mirror`, and keeps of each notice its row in the list, its record, terms, minutes and evaluation."""
import functools
import json
import os
import re
import time
from dataclasses import dataclass, field
from typing import Any

from office_kit.audit.answers import MIRRORED, OF_NOTICES, Answers
from office_kit.audit.office import Unreadable

Json = dict[str, Any]
IDENTIFIER = re.compile(r"[A-Za-z0-9_.-]{1,32}")
# How often a notice is asked for again if its record isn't that of the list, because a command came in between.
TRIES = 5
# The folders of a mirror with the texts of each notice as the office wrote them, and the endings of their files.
KEPT = {folder: OF_NOTICES[kind] for kind, folder in MIRRORED.items()}
# The columns of the ledger, and the seconds after which other titles of lines are asked for.
LINE, TURN = ("line", "appropriation", "free", "reserved", "contracted", "paid"), 300


def text_of(value: Any) -> str:
    """A value as the office writes it: compact, its members in the order of their names. Digests are computed of this text."""
    return json.dumps(value, ensure_ascii=False, sort_keys=True, separators=(",", ":"))


def now() -> str:
    return time.strftime("%Y-%m-%dT%H:%M:%SZ", time.gmtime())


@dataclass
class Notice:
    """A notice at one moment: its row in the list, that moment, and the office's answers by folder, without those that don't exist."""

    row: Json
    looked: str
    texts: dict[str, str]
    record: Json = field(init=False)

    def __post_init__(self) -> None:
        try:
            package = json.loads(self.texts["records"])
            self.record = package["records"][0]
            self.record["releases"], self.record["compiledRelease"]["tender"]["lots"]
        except (KeyError, TypeError, ValueError, LookupError) as why:
            raise Unreadable(f"the record of {self.row.get('notice')}: {why!r}") from why

    @property
    def name(self) -> str:
        return str(self.row["notice"])

    @property
    def releases(self) -> list[Json]:
        return list(self.record["releases"])

    @property
    def compiled(self) -> Json:
        return dict(self.record["compiledRelease"])

    @functools.cached_property
    def terms(self) -> Json:
        return dict(json.loads(self.texts["terms"]))

    def is_moving(self) -> bool:
        """Whether a notice may still change without a release: by a late withdrawal, before all its lots are decided."""
        return bool(self.row["state"] == "opened" and any(lot["status"] == "active" for lot in self.compiled["tender"]["lots"]))


class Office:
    """An office at an address, asked for public answers. If it is asked too often, it waits."""

    def __init__(self, base: str) -> None:
        self.base, self.answers = base.rstrip("/"), Answers(None, base.rstrip("/"))

    def must(self, path: str) -> str:
        text = self.answers.ask(path)
        if text is None:
            raise Unreadable(f"{self.base}{path}: the office has no such page")
        return text

    def notices(self) -> list[Json]:
        found = self.answers.listed()
        if found is None:
            raise Unreadable(f"{self.base}/notices: the office has no such page")
        # (Names become names of files, and the answers may be anybody's.)
        names = [str(row.get("notice")) for row in found]
        if not all(map(IDENTIFIER.fullmatch, names)) or names != sorted(set(names)):
            raise Unreadable(f"{self.base}/notices: these aren't notices sorted by name: {names[:5]}")
        return found

    def notice(self, row: Json) -> Notice:
        """A notice, fetched so that its record has at least as many releases as the list says."""
        name = row["notice"]
        for _ in range(TRIES):
            texts = {folder: self.answers.ask(f"/notices/{name}/{kind}") for kind, folder in MIRRORED.items()}
            if texts["records"] is None or texts["terms"] is None:
                raise Unreadable(f"{self.base}: {name} is in the list but has no record or no terms")
            found = Notice(row, now(), {folder: text for folder, text in texts.items() if text is not None})
            again = json.loads(self.must(f"/notices/{name}/terms"))
            if again == found.terms and (found.terms["state"] != "opened" or "evaluations" in texts and "minutes" in texts):
                return found
        raise Unreadable(f"{self.base}: {name} changed during each of {TRIES} tries: run this again later")

    def budget(self, before: str, titles: dict[str, str], again: int) -> tuple[str, list[Json]]:
        """The ledger, and its lines, each with its title. `before` and `titles` are those of the run before. A title comes with a row of a budget file, so the
        office is asked for the titles of lines that changed, and for some others in turn."""
        ledger, known_lines = self.must("/ledger"), set(before.split("\n"))
        lines, turn = ledger.split("\n")[2:-1], int(time.time()) // TURN * again
        others = {(turn + at) % len(lines) for at in range(again) if lines}
        found = []
        for at, line in enumerate(lines):
            row: Json = {name: word if name == "line" else int(word) for name, word in zip(LINE, line.split("\t"))}
            known = titles.get(row["line"]) if line in known_lines and at not in others else None
            found.append({**row, "title": json.loads(self.must(f"/lines/{row['line']}"))["title"] if known is None else known})
        return ledger, found


class Kept:
    """The parts of a folder that stay from the run before; nothing if there was no run. `rows` are those of the list, `known` the notes about each notice."""

    def __init__(self, folder: str) -> None:
        self.folder = folder
        self.state: Json = self.value("mirror.json")
        self.rows: dict[str, Json] = {row["notice"]: row for row in self.value("list.json").get("notices", [])}
        noted = self.value("kept.json")
        self.known: dict[str, Json] = {name: it for name, it in noted.get("notices", {}).items() if name in self.rows}
        self.documents: Json = noted.get("documents", {})

    def value(self, path: str) -> Json:
        return dict(json.loads(self.saved(path) or "{}"))

    def saved(self, *path: str) -> str | None:
        return saved(self.folder, *path)


def saved(*path: str) -> str | None:
    """The text of a file, or None if it doesn't exist."""
    if not os.path.exists(os.path.join(*path)):
        return None
    with open(os.path.join(*path), encoding="utf-8", newline="") as file:
        return file.read()


def texts_in(folder: str, name: str) -> dict[str, str]:
    texts = {kind: saved(folder, kind, name + end) for kind, end in KEPT.items()}
    return {kind: text for kind, text in texts.items() if text is not None}
