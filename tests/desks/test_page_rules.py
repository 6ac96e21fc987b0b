"""The modules of the screens (web/) without a browser, in Node.js: states, points, the mirror's tables, the clerk's next tasks, budget files, and texts.

Each check is a function, whose comment says what it is about. In page_rules.toml are evaluations, budget files, and rules that are made wrong, one at a time:
then the check must fail.
"""
import csv
import gzip
import os
import random
import re
from pathlib import Path

import pytest

from office_kit.common import ROOT
from office_kit.desks import modules
from office_kit.docs.help_pages import pages, sections_of
from office_kit.mirror.tables import guarded, table

pytestmark = pytest.mark.needs("node", "lowdown")
NAMES = ("common/findings common/data common/days common/money common/texts common/zone list figures tender/search tender/session clerk/budget "
         "clerk/convert clerk/notice clerk/values clerk/stage")
# The most bytes that each page may load at once; the most bytes of all modules with the texts of one language, by gzip; the most lines of a module.
MOST_BYTES, MOST_ZIPPED, MOST_LINES = {"page.js": 147_000, "tender/main.js": 150_000, "clerk/desk.js": 195_000}, 206_000, 300
NOW, PAST, NEAR, LATER = 1_800_000_000_000, "2026-03-01T00:00:00Z", "2027-02-01T00:00:00Z", "2027-03-01T00:00:00Z"
HEAD = "EVALUATION\tN1\n"
DATA = modules.data_of("page_rules")


def answers(node, script, *rows):
    """To the values of each row, the answer of the modules is the row's last one."""
    for *values, wanted in rows:
        assert node.ask(script, *values) == wanted, values


# ---- Texts.

BOOKS, LANGUAGES = ("common", ".", "tender", "clerk"), ("en", "de")
# Modules put some names of texts together from a kind and a name. These are the kinds, for each page.
KINDS = {"tender": ("fault.", "change.", "help.", "withdraw.help.", "receipt.", "check."), "clerk": (), ".": (), "common": ()}
# Words that no text may have, by language and page: those for which all pages have another word, and those that a reader must read twice.
OTHER_WORDS = [("de", BOOKS, r"Reiter|Posten|Rücknahme|Vertragsbruch|Einheitspreis|Anforderung|[Dd]er SHA-256|Prüfsumme|[Dd]er Kopf\b|Öffentlichkeit sieht"),
               ("de", ("common", "."), "[Uu]nterschr"), ("en", BOOKS, r"(?<!your )(?<!\{)\b[Oo]ffice\b(?! hours|-)|digest|regularly"),
               ("de", BOOKS, r"Haushaltstitel|\bTitel[ns]?\b|\bT(o|ö)pfe?n?\b|(?<!\()Stillhalte|\bgesichert\b|\bsichern\b"),
               ("en", BOOKS, r"\bblanks\b|security (of the tender )?is lost"),
               ("en", BOOKS, r"\bbehind\b|\bstands?\b|\bwants\b|(?<!\{)\btold\b|\banew\b|\black(s|ing)?\b|\bhand(s|ed)? in\b|\b(an|the|this|your) offer\b|"
                r"\bgiven? back\b|\bresponsive\b|\btaken? (it |the file )?in\b")]
MOST_WORDS = 30
# By the state of a procurement in lists, its states on its own page.
STATE_NAMES = {"open": ["open"], "waiting": ["waiting"], "opened": ["opened", "decided"], "awarded": ["awarded"], "running": ["unpaid", "part", "paid"],
               "complete": ["complete"], "cancelled": ["cancelled"], "unsuccessful": ["unsuccessful"]}


def books_of(node):
    """The texts of each page, by language. (Those of pictures are a file of their own, loaded with them.)"""
    read = "(await import(`${web}/${book}/${tag}%s.js`)).default"
    script = f"async (book, tag) => ({{ ...{read % ''}, ...(book === 'common' && {read % '_pictures'}) }})"
    return {book: {tag: node.ask(script, book, tag) for tag in LANGUAGES} for book in BOOKS}


def source(node, book):
    """The sentences that the modules of a page say, without its texts."""
    paths = [path for path in sorted(Path(node.web, book).iterdir()) if path.suffix == ".js" or path.name == "index.html"]
    return "\n".join(path.read_text(encoding="utf-8") for path in paths if not re.match(r"(en|de)(_[a-z]+)?\.js$", path.name))


def sides(text):
    """The texts of a pair, or the text alone."""
    return [text] if isinstance(text, str) else text


def values_of(text):
    """Whether a text is no pair, and the names of its values."""
    return isinstance(text, str), sorted(name for one in sides(text) for name in set(re.findall(r"\{(\w+)\}", one)))


def texts(node):
    """Each text exists in both languages, has the same values in both, and is used. Each text that a module asks for exists. All pages use one word for one
    thing. The windows of awards name the lot and the firm. German counts the days to a deadline in the right case."""
    books = books_of(node)
    sources = {book: source(node, book) for book in BOOKS}
    for book, found in books.items():
        english, german = found["en"], found["de"]
        assert english.keys() == german.keys(), book
        assert [name for name in english if values_of(english[name]) != values_of(german[name])] == [], book
        missing = set(re.findall(r'\bsay(?:Parts)?\("([^"]+)"', sources[book])) - english.keys() - books["common"]["en"].keys()
        assert not missing, book
        asking = BOOKS if book == "common" else (book, "common")
        named = {name for it in asking for name in re.findall(r'"([a-z]+(?:\.[a-zA-Z_]+)*)"', sources[it])}
        parts = tuple(part for it in asking for part in (*re.findall(r"`([a-z.]+\.)\$\{", sources[it]), *KINDS[it]))
        assert [name for name in english if name not in named and not name.startswith(parts)] == [], f"{book}: never asked for"
    # A state has one name: that of a procurement's page begins with that of the lists.
    for tag, found in books["common"].items():
        for name, names in STATE_NAMES.items():
            assert [it for it in names if not found[f"see.is.{it}"].startswith(found[f"see.state.{name}"])] == [], (tag, name)
    assert not re.search("[`\"][“„]", "".join(sources.values())), "quotation marks belong to a language's texts"
    for tag, where, pattern in OTHER_WORDS:
        assert [name for book in where for name, text in books[book][tag].items() if re.search(pattern, str(text))] == [], pattern
    for name in ("order.award.title", "order.sign.title", "order.fail.title"):
        assert {"lot", "name"} <= set(values_of(books["clerk"]["en"][name])[1]), name
    answers(node, "leftUntil", ("de", 89 * 86_400, "endet in 89 Tagen"), ("de", 86_401, "endet in 1 Tag"), ("en", 89 * 86_400, "closes in 89 days"))


def text_lines(path):
    """The names of a file of texts, in order; each text, or pair of texts, is one line."""
    _, body = path.read_text(encoding="utf-8").split("export default {\n")
    *rows, end = body.removesuffix("\n").split("\n")
    text = r'"(?:[^"\\]|\\.)+"'
    assert [row for row in rows if not re.fullmatch(rf'  (?:("[\w.]+"): (?:{text}|\[{text}, {text}\])|\.\.\.[a-z]+),', row)] == [], path
    assert end == "};", path
    return [row.split(":")[0] for row in rows]


def lines(node):
    """Both languages have the same names in the same order, one text a line. No sentence has more than 30 words."""
    for english in sorted(Path(node.web).rglob("en*.js")):
        assert text_lines(english) == text_lines(english.with_name(re.sub("^en", "de", english.name)))
    said = [one for book in books_of(node).values() for found in book.values() for text in found.values() for one in sides(text)]
    assert [it for one in said for it in re.split(r"(?<=[.?!]) ", one) if len(it.split()) > MOST_WORDS] == []


# For each document of the help: the modules that lead to its sections, and what begins the names of screens there.
HELPS = {"CLERK": (("clerk/desk.js", r"(\w+): \[\(\) => import"), ("clerk/procurement.js", None)), "TENDERER": (("tender/main.js", r"(\w+): (?:draw|own\()"),)}


def helps(node):
    """Each screen of a desk leads to a section of the help, and there is such a section. No link within the help leads nowhere."""
    for document, paths in HELPS.items():
        sections = sections_of(Path(ROOT, "docs", f"{document}.md").read_text(encoding="utf-8"))
        for path, begins in paths:
            text = Path(node.web, path).read_text(encoding="utf-8")
            found = dict(re.findall(r'(\w+): "([a-z-]+)"', re.search(r"const HELP = \{(.*?)\};", text, re.S)[1]))
            assert found and set(found.values()) <= set(sections), path
            assert not begins or set(re.findall(begins, text)) <= found.keys(), path
    made = {f"/{path}": data.decode("utf-8", "replace") for path, data in pages()}
    for path, target in ((path, it) for path, text in made.items() for it in re.findall(r'(?:href|src)="(/help/[^"]*|#[^"]*)"', text)):
        page, _, anchor = target.partition("#")
        assert (page or path) in made and (not anchor or f'id="{anchor}"' in made[page or path]), (path, target)


# ---- Procurements, lots and tenders.

# The state of the tender, the moment of its opening, the deadline, its contracts (worth, payments, ended), and the state that the pages show for the
# procurement.
STATES = [("active", None, LATER, [], "open", "open"), ("active", None, PAST, [], "running", "waiting"), ("active", 2, PAST, [], "running", "opened"),
          ("cancelled", None, LATER, [], "stopped", "cancelled"), ("unsuccessful", 2, PAST, [], "stopped", "unsuccessful"),
          ("complete", 1, PAST, [(10, [], False)], "running", "unpaid"),
          ("complete", 1, PAST, [(10, [4], False), (10, [], True)], "running", "part"), ("complete", 1, PAST, [(10, [4, 6], False)], "done", "paid"),
          ("complete", 1, PAST, [(10, [4, 6], False), (10, [10], True)], "ended", "paid"),
          ("complete", 1, PAST, [(10, [4, 6], True)], "ended", "complete"), ("complete", 1, PAST, [(10, [4], True)] * 2, "ended", "complete")]
# A lot's status, whether its contract ended, and its state.
LOTS = [("complete", False, ["running", "contracted"]), ("complete", True, ["ended", "contractended"]), ("cancelled", False, ["stopped", "cancelled"]),
        ("active", False, ["running", "awarded"])]


def contracts_of(told, first=0):
    """Contracts, each with its worth, its payments, and whether it ended; none where a contract is None."""
    return [{"id": str(at), "awardID": str(at), "value": {"amount": it[0]}, "status": "terminated" if it[2] else "active",
             "implementation": {"transactions": [{"value": {"amount": paid}} for paid in it[1]]}} for at, it in enumerate(told, first) if it]


def states(node):
    """The state that the pages show for a procurement and for a lot. A contract that ended isn't shown as fulfilled, and its remaining value isn't counted."""
    for status, count, deadline, told, *wanted in STATES:
        tender = {"status": status, "lots": [{"id": "L1", "status": status}], "tenderPeriod": {"endDate": deadline}}
        tender |= {"numberOfTenderers": count} if count else {}
        answers(node, "stateOf", ({"tender": tender, "contracts": contracts_of(told)}, NOW, wanted))
        # The lists call it by the name that belongs to this state.
        row = {"state": "cancelled" if status == "cancelled" else "opened" if count else "receiving", "deadline": deadline, "releases": 1}
        known = {"status": status, "running": sum(not ended for _, _, ended in told), "releases": 1}
        assert wanted[1] in STATE_NAMES[node.ask("async (...asked) => (await import(`${web}/common/filters.js`)).stateOf(...asked)", row, known, NOW)], row
    compiled = {"tender": {"status": "complete", "numberOfTenderers": 1}, "awards": [{"id": "0", "status": "active", "relatedLots": ["L1"]}]}
    for status, ended, wanted in LOTS:
        answers(node, "stateOfLot", ({**compiled, "contracts": contracts_of([(10, [10], ended)])}, {"id": "L1", "status": status}, wanted))
    releases = [{"tag": ["awardCancellation"], "awards": [{"id": "1"}]}, {"tag": ["tenderCancellation", "awardCancellation"], "awards": [{"id": "2"}]}]
    answers(node, "passedOver", (releases, ["1"]))
    made = (("contract", "A", "1"), ("contractTermination", "B", "2"), ("contractTermination", "C", "1"))
    releases = [{"tag": [tag], "date": date, "contracts": [{"id": name}]} for tag, date, name in made]
    answers(node, "endOf", (releases, {"id": "1"}, "C"), (releases, {"id": "2"}, "B"), (releases, {"id": "3"}, None))
    paid = {"worth": 9, "paid": 4}
    answers(node, "worthNow", ({**paid, "status": "active"}, 9), ({**paid, "status": "terminated"}, 4),
            ({**paid, "status": "complete", "contract_status": "terminated"}, 4),
            ({"worth": None, "paid": None, "status": "active", "contract_status": ""}, None))


def outcomes(node):
    """The pages show the outcome of each tender of a lot and of its security, from the rows of the evaluation, also while some are hidden."""
    tenders = [{"receipt": at, "reading": "priced", "corrected": price} for at, price in ((1, 100), (2, 90), (3, 100))]
    tenders.append({"receipt": 4, "reading": "unreadable"})
    for state, found, award, given, wanted in DATA["outcomes"]:
        rows = [f"tender {at} {who} priced {price} {it}" for at, who, price, it in zip((1, 2, 3), "ABC", (100, 90, 100), found)]
        rows = [f"lot L1 {state}", *rows, *(["tender 4 D unreadable"] if rows else []), *filter(None, [award]), "END\n"]
        told = node.ask("outcomesOf", tenders, HEAD + "\n".join(rows).replace(" ", "\t"), *given)
        assert [" ".join(words) for words in told] == wanted, rows


def evaluation(chance):
    """An evaluation by points as the office makes it, and the rule's result: the lowest price, and each tender's thousandths for the price, and quality."""
    weight = chance.randint(1, 100)
    prices = [chance.choice([0, chance.randint(1, 10 ** 12), chance.randint(1, 1000)]) for _ in range(5)]
    rows = [(at, price, chance.randint(0, 100 - weight), chance.random() < 0.7) for at, price in enumerate(prices, 1)]
    lowest = min((price for _, price, _, good in rows if good), default=None)
    text, wanted = f"{HEAD}lot\tL1\tawarded\n", []
    for at, price, quality, good in rows:
        thousandths = (weight * 1000 * lowest // price if price else weight * 1000) if good else None
        wanted.append((thousandths, quality) if good else None)
        found = f"responsive\t{quality}\t{thousandths + 1000 * quality}\tadmissible" if good else "unresponsive\t-\t-\t-"
        text += f"tender\t{at}\tT{at}\tpriced\t{price}\t{found}\n"
    return text + "END\n", lowest, wanted


def points(node):
    """For some hundred evaluations by points, the price's part, the quality and the sum are those of the rule, computed here again."""
    chance = random.Random(7)
    for text, lowest, wanted in (evaluation(chance) for _ in range(200)):
        [[least, told, has]] = node.ask("pointsIn", text)
        assert least == lowest and has == any(wanted) and [it and (round(it["price"] * 1000), it["quality"]) for it in told] == wanted, text
        assert all(it is None or abs(it["price"] + it["quality"] - it["sum"]) < 1e-6 for it in told), text


def plans(node):
    """The order in which the tenderer's desk searches notices for own tenders, those that the mirror's tables have, and those that it searches again."""
    rows = [("FAR", LATER, "receiving"), ("NEAR", NEAR, "receiving"), ("LAST", "2026-12-01T00:00:00Z", "receiving"), ("FIRST", PAST, "receiving"),
            ("NEW", PAST, "opened"), ("OLD", PAST, "opened"), ("GONE", NEAR, "cancelled")]
    listed = [{"notice": name, "published": PAST, "deadline": deadline, "state": state, "title": "Road works", "releases": 1} for name, deadline, state in rows]
    tenders = [{"notice": "OLD", "lot": "L2", "receipt": "7", "tenderer": "T1"}, {"notice": "OLD", "lot": "L1", "receipt": "8", "tenderer": "T2"},
               {"notice": "NOT", "lot": "L1", "receipt": "9", "tenderer": "T1"}]
    data = {"notices": [{"notice": "OLD", "state": "opened"}, {"notice": "NEW", "state": "receiving"}], "tenders": tenders}
    answers(node, "searchPlan", (listed, data, "T1", NOW, [["NEAR", "FAR", "LAST", "FIRST", "NEW"], [["OLD", "L2", 7]], ["GONE", "OLD"]]),
            (listed, None, "T1", NOW, [["NEAR", "FAR", "LAST", "FIRST", "NEW", "OLD"], [], ["GONE"]]))
    own = [{"notice": name, "receipt": at, "state": state} for at, (name, state) in enumerate([("OLD", "sealed"), ("GONE", "withdrawn"), ("NEAR", "opened")])]
    answers(node, "askedAgain", ({"order": listed[1:2], "rest": [listed[5], listed[6]]}, own, ["/notices/NEAR/tenders", "/notices/OLD/tenders"]))


def tables(node):
    """A table that office_kit/mirror/tables.py writes is read back unchanged, with formulas, quotation marks and line ends. The pages guard as it does."""
    texts = ["=1+1", "+a", "-5", "@x", 'a "b", c', "two\nlines", "'quoted", "Straße", "a;=1|@b,-c", "''=x", "a;'+b"]
    rows = [{"line": "1000", "title": text, "free": at} for at, text in enumerate(texts)]
    own = list(csv.reader(node.ask("tableOf", ["title", "free"], [[row["title"], row["free"]] for row in rows]).removeprefix("\ufeff").splitlines(True)))
    assert own == [["title", "free"], *([guarded(row["title"]), str(row["free"])] for row in rows)]
    back = node.ask("rowsOf", table("budget", rows))
    assert [(it["title"], it["free"]) for it in back] == [(it["title"], it["free"]) for it in rows] and back[0]["paid"] is None


# ---- The clerk's tasks.

DAY, DEADLINE = 86_400_000, 1_772_323_200_000
BINDS, STILL = DEADLINE + 90 * DAY, DEADLINE + 10 * DAY
WAITING, FOUND = "tender\t1\tA\tpriced\t5\t-\t-\t-\t-\n", "tender\t1\tA\tpriced\t5\tresponsive\t-\t-\tadmissible\n"
# A notice's state, the states of its lots (has the winner signed, did the contract end), the evaluation of its first lot, and the moment after the deadline.
# Then the step that the desk shows, and the tasks. Then the group of the notice in the list of a clerk, of one with the role `notices` alone, and of one
# with `contracts`. (The tasks of other roles don't count there, except for dates.)
STAGES = [
    ("receiving", ["undecided"], None, -1, ["tenders", ["wait", DEADLINE]], "week week week"),
    ("receiving", ["undecided"], None, 0, ["opening", ["open", DEADLINE]], "overdue waiting waiting"),
    ("cancelled", ["cancelled"], None, 5, [None], "waiting waiting waiting"),
    ("opened", ["undecided"], WAITING, DAY, ["examination", ["examine", "L1", 1], ["binds", BINDS]], "week waiting waiting"),
    ("opened", ["undecided", "awarded"], FOUND, DAY, ["award", ["award", "L1"], ["standstill", "L2", STILL], ["binds", BINDS]], "week waiting waiting"),
    ("opened", ["awarded"], FOUND, 10 * DAY - 1, ["signing", ["standstill", "L1", STILL], ["binds", BINDS]], "week week week"),
    ("opened", ["awarded"], FOUND, 10 * DAY, ["signing", ["sign", "L1", STILL], ["binds", BINDS]], "overdue waiting overdue"),
    ("opened", ["awarded"], FOUND, 90 * DAY, ["signing", ["expired", BINDS], ["sign", "L1", STILL]], "overdue overdue overdue"),
    ("opened", ["undecided"], FOUND, 90 * DAY - 1, ["award", ["award", "L1"], ["binds", BINDS]], "week week week"),
    ("opened", ["undecided"], FOUND, 90 * DAY, ["award", ["expired", BINDS], ["award", "L1"]], "overdue overdue overdue"),
    ("opened", ["contracted", "unsuccessful"], FOUND, 5, ["contract", ["contract", "L1"]], "later waiting later"),
    ("opened", ["paid", "contracted"], FOUND, 5, ["contract", ["end", "L1"], ["contract", "L2"]], "later waiting later"),
    ("opened", ["ended", "cancelled"], FOUND, 5, ["over"], "waiting waiting waiting"),
    ("opened", ["contracted", "undecided"], FOUND, 5, ["award", ["endlot", "L2"], ["contract", "L1"], ["binds", BINDS]], "week waiting later"),
]
# Notices without an evaluation: a state, that of the lot, the moment, and the group.
GROUPS = [("receiving", "undecided", -7 * DAY, "waiting"), ("receiving", "undecided", 1 - 7 * DAY, "week"), ("opened", "awarded", DAY, "waiting")]


def award(lot, status, price):
    return {"id": str(lot), "status": status, "relatedLots": [f"L{lot}"], "date": "2026-03-01T00:00:00Z", "value": {"amount": price}}


def seen_of(state, states, text=None, standstill=10):
    """The notice, its lots in these states, awards made at the deadline, and the evaluation of the first lot."""
    lots = [{"id": f"L{at}", "state": {"ended": "contracted", "paid": "contracted"}.get(it, it), "title": "", "estimate": 5, "line": "1", "security": 0}
            for at, it in enumerate(states, 1)]
    contracts = contracts_of([(5, [5 if it == "paid" else 4], it == "ended") if it in ("contracted", "paid", "ended") else None for it in states], 1)
    awards = [award(at, "active", 5) for at, it in enumerate(states, 1) if it in ("awarded", "contracted", "paid", "ended")]
    terms = {"state": state, "deadline": "2026-03-01T00:00:00Z", "validity_days": 90, "standstill_days": standstill, "criteria": "price", "lots": lots}
    return {"compiled": {"tender": {}, "awards": awards, "contracts": contracts}, "terms": terms,
            "tenders": [{"lot": "L1", "receipt": 1, "reading": "priced", "corrected": 5}],
            "evaluation": text and f"{HEAD}lot\tL1\t{states[0]}\n{text}END\n"}


def stages(node):
    """The next task that the clerk's desk shows for a notice, by role, to the second. The most urgent task comes first. The money that a lot reserves."""
    for state, states, text, after, tasks, groups in STAGES:
        told = node.ask("stageSeen", seen_of(state, states, text), DEADLINE + after)
        assert (told["tasks"], told["groups"]) == (tasks, groups), (state, states, text, after)
    for state, lot, after, group in GROUPS:
        assert node.ask("stageSeen", seen_of(state, [lot]), DEADLINE + after)["groups"].split()[0] == group, (state, after)
    # A lot has the estimate reserved, and after an award that ended its price.
    seen = seen_of("opened", ["undecided", "undecided"])
    seen["compiled"]["awards"] = [award(1, "cancelled", 3), award(1, "cancelled", 4)]
    assert node.ask("stageSeen", seen, 0)["reserved"] == [4, 5]
    # Without a standstill none has ended.
    seen = seen_of("opened", ["awarded"], standstill=0)
    assert node.ask("stageSeen", seen, DEADLINE + 5)["tasks"] == ["signing", ["unsigned", "L1", DEADLINE], ["binds", BINDS]]
    # Dates come after the tasks. The end of the validity is a task from two weeks before it on.
    for code, day, wanted in (("binds", 6, True), ("binds", 7, False), ("standstill", 19, True), ("expired", 1, False), ("sign", 19, False)):
        answers(node, "isFact", ({"code": code, "until": 20 * DAY}, day * DAY, wanted))
    entries = [{"notice": "runs", "seen": seen_of("opened", ["contracted"])}, {"notice": "binds", "seen": seen_of("opened", ["undecided"])},
               {"notice": "late", "state": "open", "deadline": "2026-07-01T00:00:00Z"},
               {"notice": "stands still", "seen": seen_of("opened", ["awarded", "undecided"])},
               {"notice": "soon", "state": "open", "deadline": "2026-03-02T00:02:00Z"},
               {"notice": "past", "state": "waiting", "deadline": "2026-02-28T00:00:00Z"}]
    answers(node, "noticesInOrder", (entries, DEADLINE + DAY, ["past", "soon", "stands still", "binds", "late", "runs"]))


# ---- Budget files and drafts.

BUDGET = "line,kind,amount,title"
# Hours of the clerk's clock, and the hours that it skips or repeats.
HOURS = [("2027-03-28T02:30", "missing"), ("2027-03-28T01:59", None), ("2027-03-28T03:00", None), ("2027-10-31T02:30", "twice"),
         ("2027-10-31T02:30:00", "twice"), ("2027-10-31T01:59", None), ("2027-10-31T03:00", None), ("2027-06-01T02:30", None), ("", None)]


# Fields with a date and a time, by the city's zone, or the browser's if its name is empty or unknown: the moment, and what the field then shows.
ZONES = [("", "2027-01-01T12:00", "2027-01-01T11:00:00Z", None), ("No/Where", "2027-06-01T12:00", "2027-06-01T10:00:00Z", None),
         ("America/New_York", "2027-01-01T12:00", "2027-01-01T17:00:00Z", None),
         ("America/New_York", "2027-03-14T02:30", "2027-03-14T07:30:00Z", "2027-03-14T03:30"),
         ("America/New_York", "2027-11-07T01:30", "2027-11-07T05:30:00Z", None), ("Asia/Kolkata", "2027-06-01T00:10:30", "2027-05-31T18:40:30Z", None)]
# Amounts as people paste them.
AMOUNTS = [("46.000,00 €", "46000"), ("EUR 1,450", "1450"), ("118.000,-", "118000"), ("12 Euro", "12"), ("0,500 €", None), ("1.5 €", None), ("x €", None)]
# Titles, and whether they look misread.
TITLES = [("Straße, Größe, Café", False), ("Straáe", True), ("Äîðîãà", True), ("Gr”áe", True), ("Gr”n", True), ("Дорога", True), ("Roads “A”", False)]


def zones(node):
    """A field has the time of the city's zone, as everything that is shown. In an hour that comes twice it is the first one."""
    answers(node, "inZone", *((name, text, [moment, shown or text]) for name, text, moment, shown in ZONES))


def budgets(node):
    """The clerk is warned of a budget file that was taken in before, of one that would double a line, and of titles that look misread."""
    answers(node, "amountOf", *AMOUNTS)
    answers(node, "(title) => oddTitles([{ title }]).length > 0", *TITLES)
    file = f"{BUDGET}\n1000,add,2500,Roads\n2000,add,50,Parks\n"
    turned = f'{BUDGET}\n2000,add,50,"Parks, and trees"\r\n1000,add,2500,Roads\r\n'
    known = [{"line": "1000", "appropriation": 2500, "free": 0}, {"line": "2000", "appropriation": 60, "free": 60}]
    entry = {"path": "/budget/B1", "status": 200, "found": None, "body": file}
    answers(node, "repeatsIn", (file, known, [entry], [["B1"], ["1000"]]), (turned, known, [entry], [["B1"], ["1000"]]), (file, [], [], [[], []]),
            (file, [], [{**entry, "status": 409}], [[], []]), (file, [], [{**entry, "status": None, "found": "done"}], [["B1"], []]),
            (file, [], [{**entry, "path": "/notices/B1"}, {**entry, "body": None}], [[], []]),
            (f"{BUDGET}\n1000,add,2501,Roads\n", known, [entry], [[], []]),
            (f"{BUDGET}\n1000,add,1250,Roads\n1000,add,1250,Roads\n3000,add,1,New\n", known, [], [[], ["1000"]]))


def converts(node):
    """A spreadsheet's budget file is converted to the office's form with each change listed, and nothing is guessed."""
    for coding, text, *wanted in DATA["converted"]:
        if wanted:
            wanted[2] = [[*change, None][:3] for change in wanted[2]]
        assert node.ask("convertedFrom", list(text.encode(coding))) == (wanted or None), text


def drafts(node):
    """A draft of a notice comes back from its file. The desk warns of a deadline in an hour that clocks skip or repeat, and of an estimate below 20 a unit."""
    empty = node.ask("newDraft")
    lot = {**empty["lots"][0], "items": []}
    full = {**empty, "name": "N1", "deadline": 1_800_000_000_000, "lots": [{**lot, "items": [{"id": "I1", "title": "a", "quantity": "3"}] * 2}] * 2}
    odd = {"name": 5, "lots": [{"id": "L1", "items": "none"}, None], "other": "x", "deadline": "soon"}
    answers(node, "draftIn", (full, full), (empty, empty), (odd, {**empty, "lots": [lot, lot]}), ({}, None), (None, None))
    answers(node, "oddHour", *HOURS)
    lot = {"id": "L1", "title": "x", "line": "1", "security": "0", "items": [{"id": "I1", "title": "a", "quantity": "100"}]}
    for estimate, wanted in (("1999", ["cents L1/I1"]), ("2000", []), ("", [])):
        answers(node, "warningsAbout", ({"lots": [{**lot, "estimate": estimate}]}, "2027-03-30T10:00", NOW, wanted))
    answers(node, "warningsAbout", ({}, "2027-03-28T02:30", NOW, ["hour", "hour.missing"]))


# ---- Pictures.

def pictures(node):
    """The steps in the picture of a procurement, each done, under way or to come. The marks of its axis. The months and years of payments."""
    script = f"""(notice, now) => stepsOf(notice).map((one) => [one.step, one.lot, ...[one.from, one.to].map((it) => it && (it - {DEADLINE}) / {DAY}),
        stateOfStep(one, now)].filter((it) => it !== undefined).join(' '))""".replace("\n", "")
    for status, days, now, steps in DATA["pictured"]:
        moment = f"(days) => days < 999 ? new Date({DEADLINE} + days * {DAY}).toISOString() : null"
        opened, awarded, signed, ended = (node.ask(moment, it) for it in days)
        compiled = {"tender": {"status": status, "lots": [{"id": "L1"}], "tenderPeriod": {"startDate": "2026-02-01", "endDate": "2026-03-01"}},
                    "awards": [{"id": "1", "date": awarded, "relatedLots": ["L1"]}] if awarded else [],
                    "contracts": [{"id": "1", "awardID": "1", "dateSigned": signed}] if signed else []}
        tags = ["contractTermination"] if signed else ["tenderCancellation", "awardCancellation"]
        releases = [{"tag": tags, "date": ended, "contracts": [{"id": "1"}], "awards": [{"id": "1"}]}] if ended else []
        notice = {"compiled": compiled, "releases": releases, "terms": {"opened": opened, "standstill_days": 10, "validity_days": 90}}
        answers(node, script, (notice, DEADLINE + now * DAY, steps))
    for days, *wanted in DATA["axes"]:
        first = 1_738_368_000_000
        answers(node, f"(...asked) => [marksOf(...asked)].map((it) => [it.unit, it.marks.map((at) => (at - {first}) / {DAY})])[0]",
                (first, first + days * DAY, 5, wanted))
    paid = [{"date": f"{month}-03T00:00:00Z", "amount": 5} for month in ("2025-11", "2026-02", "2026-02")]
    answers(node, "monthsOf", (paid, [["2025-11", 5], ["2025-12", 0], ["2026-01", 0], ["2026-02", 10]]))
    answers(node, "(rows) => [monthsOf(rows).length, monthsOf(rows)[0][0]]", ([*paid, {"date": "2021-01-01T00:00:00Z", "amount": 1}], [24, "2024-03"]))
    told = {"lots": [{"notice": "N", "lot": name, "estimate": at} for at, name in enumerate(("L0", "L1", "L2"))], "payments": paid,
            "contracts": [{"notice": "N", "lot": name, "signed": "2025-12-31T23:59:59Z", "price": 4} for name in ("L1", "L2")]}
    # (In Berlin these were signed in 2026.)
    years = [("2026", 2, 3, 8, 10), ("2025", 0, 0, 0, 5)]
    lines = [{"line": str(at), "appropriation": 9 * at, "paid": paid, "contracted": signed, "reserved": kept}
             for at, (paid, signed, kept) in enumerate(((9, 9, 9), (0, 5, 0), (2, 0, 1), (2, 1, 1), (0, 0, 8)))]
    for order, wanted in {"paid": "3241", "contracted": "1342", "reserved": "4321", "line": "1234"}.items():
        answers(node, "(...asked) => linesBy(...asked).map(({ line }) => line).join('')", (order, lines, wanted))
    answers(node, "yearsOf", (told, [dict(zip(("year", "count", "estimate", "price", "paid"), one)) for one in years]))


# ---- What the pages load.

def loaded(web, entry, language):
    """The texts of the modules that a page loads at once, by their paths: its first module, its imports, and its texts in a language, if one is given."""
    found, left = {}, [entry]
    while left:
        path = os.path.normpath(left.pop())
        if path not in found:
            found[path] = Path(web, path).read_text(encoding="utf-8")
            named = re.findall(r'^(?:import|export)[^;]*?from "(\.[^"]+)"', found[path], re.M)
            named += [it for it in re.findall(r'import\("(\.[^"]+)"\)', found[path]) if it.endswith(f"/{language}.js")]
            left += [os.path.join(os.path.dirname(path), it) for it in named]
    return found


def sizes(node):
    """No module has more than 300 lines. No page loads more bytes at once than this file allows. All modules with the texts of one language have at most
    206,000 bytes by gzip, each compressed alone, as nginx sends it."""
    files = {path: path.read_bytes() for path in Path(node.web).rglob("*.js")}
    assert [path for path, data in files.items() if data.count(b"\n") > MOST_LINES] == []
    for entry, most in MOST_BYTES.items():
        size = max(sum(len(text.encode()) for text in loaded(node.web, entry, language).values()) for language in LANGUAGES)
        print(f"{entry} {size:,} of {most:,}")
        assert size <= most, entry
        # The browser asks for all modules of the first screen at once, as the page names them, and not one after another.
        page = Path(node.web, entry).with_name("index.html").read_text(encoding="utf-8")
        first = {path for path in loaded(node.web, entry, None) if path != entry}
        assert set(re.findall(r'<link rel="modulepreload" href="/([^"]+)">', page)) == first, entry
    zipped = {path: len(gzip.compress(data, 5)) for path, data in files.items()}
    for other in LANGUAGES:
        size = sum(size for path, size in zipped.items() if not re.match(rf"{other}(_[a-z]+)?\.js$", path.name))
        print(f"all but {other} by gzip {size:,} of {MOST_ZIPPED:,}")
        assert size <= MOST_ZIPPED, other


CHECKS = {check.__name__: check for check in (
    texts, lines, helps, states, outcomes, points, plans, tables, stages, zones, budgets, converts, drafts, pictures, sizes)}
WRONG = DATA["wrong"]


def holds(name, web):
    """(The clerk's clock is Berlin's.)"""
    with modules.Node("page_rules", NAMES, web, TZ="Europe/Berlin") as node:
        CHECKS[name](node)


@pytest.mark.parametrize("name", CHECKS)
def test_screens(name):
    holds(name, modules.WEB)


@pytest.mark.parametrize("name, path, old, new", WRONG, ids=[f"{name}-{path}-{number}" for number, (name, path, _, _) in enumerate(WRONG)])
def test_wrong_rule(tmp_path, name, path, old, new):
    web = modules.copy_of(str(tmp_path), (path, old, new))
    with pytest.raises((AssertionError, LookupError, ValueError, TypeError)):
        holds(name, web)
