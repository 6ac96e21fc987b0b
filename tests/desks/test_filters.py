"""The portal's list (web/common/filters.js) has the procurements, states and order that a plain implementation here finds, for lists that hypothesis makes.

The lists have up to five notices, tables of the mirror that are older, newer or missing, and questions in all filters. In filters.toml are examples: words
without accents, `ue` for `ü`, budget lines, orders. It also has rules that are changed, one at a time. A list must show each change.
"""
import itertools
import random
import re
import unicodedata
import urllib.parse

import pytest
from hypothesis import HealthCheck, given, settings

from office_kit.api.tenders import CHANCE
from office_kit.desks import modules

pytestmark = pytest.mark.needs("node")
DATA = modules.data_of("filters")
NAMES, ORDERS = ("words", "state", "year", "line", "firm", "from", "to", "order"), ("deadline", "published", "amount")
NOW = "2027-01-15T08:00:00Z"
MOMENTS = ("2026-03-01T00:00:00Z", "2026-12-31T23:59:59Z", NOW, "2027-01-15T08:00:01Z", "2027-03-01T00:00:00Z")


# ---- The plain implementation.

def without_accents(text):
    found = "".join(letter for letter in unicodedata.normalize("NFD", text) if not unicodedata.category(letter).startswith("M"))
    return found.lower().replace("ß", "ss")


def spellings(text):
    """A text without accents, and with two letters for an umlaut."""
    return {without_accents(text), without_accents(re.sub("[äöüÄÖÜ]", r"\g<0>e", unicodedata.normalize("NFC", text)))}


def has_words(question, texts):
    """Whether each word of a question is in one of the texts, in a spelling of both."""
    known = set().union(*map(spellings, texts))
    return all(any(way in text for way, text in itertools.product(spellings(word), known)) for word in question.split())


class Entry:
    """A procurement of the list, with the rows of the mirror's tables about it."""

    def __init__(self, row, data):
        self.row, self.notice = row, row["notice"]
        of = {name: [it for it in rows if it.get("notice") == self.notice] for name, rows in (data or {}).items()}
        self.lots, self.known = of.get("lots", []), (of.get("notices") or [None])[-1]
        self.lines = sorted({it["line"] for it in self.lots})
        self.firms = {it["tenderer"]: it["name"] for it in of.get("tenders", [])}
        titles = {it["line"]: it["title"] for it in (data or {}).get("budget", [])}
        self.texts = [self.notice, row["title"], self.known["buyer"] if self.known else "", *self.firms.values(), *(it["title"] for it in of.get("items", []))]
        self.texts += [text for it in self.lots for text in (it["title"], it["line"], titles.get(it["line"], ""))]
        self.is_current = bool(self.known) and self.known["releases"] == row["releases"]

    def state(self):
        """Its state in the list. An older table shows no award of a procurement that isn't over."""
        if self.row["state"] == "receiving":
            return "open" if NOW <= self.row["deadline"] else "waiting"
        status = "cancelled" if self.row["state"] == "cancelled" else self.known["status"] if self.known else "active"
        if status == "active":
            return "awarded" if self.is_current and all(it["status"] != "active" or it["winner_name"] for it in self.lots) else "opened"
        return "running" if status == "complete" and self.known["running"] else status

    def matches(self, asked):
        """Whether all filters that an address names find it."""
        firm, line = asked["firm"], asked["line"]
        return (has_words(asked["words"], self.texts) and asked["state"] in ("", self.state()) and asked["year"] in ("", self.row["published"][:4])
                and (not line or line in self.lines) and (not firm or firm in self.firms or any(has_words(firm, [name]) for name in self.firms.values()))
                and self.is_within(asked["from"], asked["to"]))

    def is_within(self, least, most):
        if not least and not most:
            return True
        try:
            return bool(self.known) and float(least or 0) <= self.known["estimate"] <= float(most or "inf")
        except ValueError:
            return False

    def shown(self):
        is_older = self.state() == "opened" and not self.is_current
        winners = sorted({it["winner_name"] for it in self.lots if it["winner_name"] and not is_older})
        return [self.notice, self.state(), self.row["published"][:4], self.lines, sorted(map(list, self.firms.items())), winners]


def in_order(entries, order):
    """Open ones first. By deadline, the nearest of the open ones comes first, and the latest of the others. The newest is the first of equal ones."""
    entries = sorted(sorted(entries, key=lambda it: it.notice), key=lambda it: it.row["published"], reverse=True)
    parts = [[it for it in entries if (it.state() == "open") == is_open] for is_open in (True, False)]
    if order == "amount":
        parts = [sorted(part, key=lambda it: it.known["estimate"] if it.known else -1, reverse=True) for part in parts]
    elif order != "published":
        parts = [sorted(part, key=lambda it: it.row["deadline"], reverse=is_last) for part, is_last in zip(parts, (False, True))]
    return [it for part in parts for it in part]


def number_of(given_list, text):
    """The notice that a text names exactly, or the only one that it names in another case."""
    names = [it["notice"] for it in given_list]
    alike = [name for name in names if name.lower() == text.strip().lower()]
    return text.strip() if text.strip() in names else alike[0] if len(alike) == 1 else None


def expected(case):
    named = urllib.parse.parse_qsl(case["address"], keep_blank_values=True)
    asked = {name: next((value.strip() for other, value in named if other == name), "") for name in NAMES}
    asked["order"] = asked["order"] if asked["order"] in ORDERS else ""
    entries = [it for it in (Entry(row, case["data"]) for row in case["list"]) if it.matches(asked)]
    found = [it.shown() for it in in_order(entries, asked["order"])]
    return {"asked": asked, "again": asked, "found": found, "number": number_of(case["list"], case["number"])}


# ---- What hypothesis makes.

LINES, FIRMS, AMOUNTS = ("1000", "2000", "3000"), ("T1", "T2", "mueller"), ("", "0", "100", "499", "500", "501", "x", "1.5")
WORDS = ("Müller", "MUELLER", "muller", "Straße", "strasse", "Café", "cafe\u0301", "Söhne", "Soehne", "Clay tiles", "roof", "N1", "Ål", "u\u0308")
STATES = ("open", "waiting", "opened", "awarded", "running", "complete", "unsuccessful", "cancelled", "other")


def text_of(chance, *counts):
    """Words, as many as one of these counts."""
    return " ".join(chance.choice(WORDS) for _ in range(chance.choice(counts or (0, 0, 1, 2))))


def table_of(chance, notices):
    """The mirror's tables about these notices, and sometimes about another one."""
    def rows(**members):
        return [{name: made() for name, made in members.items()} for _ in range(chance.choice((0, 1, 3, 6)))]

    def one(*values):
        return lambda: chance.choice(values)
    notice, text, line = one(*notices, "N9"), (lambda: text_of(chance)), one(*LINES)
    status = one("active", "active", "complete", "unsuccessful", "cancelled")
    return {"notices": rows(notice=notice, status=status, running=one(0, 1), releases=one(1, 1, 2), estimate=one(0, 100, 500, 501), buyer=text),
            "lots": rows(notice=notice, line=line, title=text, status=one("active", "complete", "complete"), winner_name=one("", "Ann", "Bo")),
            "items": rows(notice=notice, title=text), "budget": rows(line=line, title=text), "tenders": rows(notice=notice, tenderer=one(*FIRMS), name=text)}


def question_of(chance):
    """Most questions are about one filter: several together find nothing."""
    values = {"words": text_of(chance, 1, 1, 2), "state": chance.choice(STATES), "year": chance.choice(("2025", "2026", "2027")), "line": chance.choice(LINES),
              "firm": chance.choice((*FIRMS * 3, *WORDS[:9])), "from": chance.choice(AMOUNTS), "to": chance.choice(AMOUNTS),
              "order": chance.choice((*ORDERS, "amount", "constructor", "")), "other": "x"}
    names = [chance.choice((*values, "order", "order", "words", "words", "firm")) for _ in range(chance.choice((0, 1, 1, 1, 2, 3)))]
    return urllib.parse.urlencode([(name, values[name] + chance.choice(("", "", " "))) for name in names])


def made(chance):
    """A list, tables, a question in an address, and the text of a number."""
    notices = chance.sample(("N1", "n1", "N2", "aB", "Ab"), chance.choice((0, 1, 2, 3, 4)))
    listed = [{"notice": name, "published": chance.choice(MOMENTS[:3]), "deadline": chance.choice(MOMENTS), "title": text_of(chance),
               "state": chance.choice(("receiving", "receiving", "opened", "opened", "cancelled")), "releases": chance.choice((1, 1, 2))} for name in notices]
    return {"list": listed, "data": table_of(chance, notices) if chance.randrange(8) else None, "now": NOW, "address": question_of(chance),
            "number": chance.choice(("N1", "n1", " n2 ", "ab", "", "N9"))}


# ---- Examples.

FIELDS = ("notice", "published", "deadline", "state", "title")
LISTS = {name: [{**dict(zip(FIELDS, row)), "releases": 1} for row in rows] for name, rows in DATA["lists"].items()}
QUESTIONS = [(LISTS[name.split("_")[0]], DATA["tables"] if "_" in name else None, *it) for name, found in DATA["questions"].items() for it in found]


@pytest.fixture(scope="module")
def node():
    with modules.Node("filters", "common/filters") as node:
        yield node


@pytest.mark.parametrize("listed, data, address, found", QUESTIONS)
def test_example(node, listed, data, address, found):
    told = node.ask("answerTo", {"list": listed, "data": data, "now": NOW, "address": address, "number": ""})
    assert " ".join(notice for notice, *_ in told["found"]) == found


def test_texts_of_questions(node):
    assert node.ask("written", "words=a+b&state=open&x=1") == "words=a+b&state=open"
    assert [node.ask("noticeOf", LISTS["first"], text) for text in ("n1", "N2", "n2", " N4 ", "N9", "")] == ["N1", "N2", "n2", "N4", None, None]


# ---- Lists that are made.

@settings(max_examples=500, deadline=None, suppress_health_check=HealthCheck.all())
@given(CHANCE.map(made))
def test_list(node, case):
    assert node.ask("answerTo", case) == expected(case)


@pytest.fixture(scope="module")
def answers():
    """Many cases, each with the expected answer. (Not by hypothesis, which prefers small ones.)"""
    return [(case, expected(case)) for case in (made(random.Random(seed)) for seed in range(2000))]


def test_many_lists(node, answers):
    for case, right in answers:
        assert node.ask("answerTo", case) == right


@pytest.mark.parametrize("old, new", DATA["changed"], ids=[old for old, _ in DATA["changed"]])
def test_changed_rule(tmp_path, answers, old, new):
    """A list shows the difference."""
    with modules.Node("filters", "common/filters", modules.copy_of(str(tmp_path), ("common/filters.js", old, new))) as node:
        assert any(node.ask("answerTo", case) != right for case, right in answers)
