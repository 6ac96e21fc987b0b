"""The clerk's desk (web/clerk/) says before a budget file, a notice or an award is sent what the program will answer.

One run of `procure desk` takes in files and notices, valid ones, changed ones and ones at the bounds, and prints its ledger after each. The desk's modules
read the same bytes with the ledger from before. The refusal must be the same, and so must the first wrong record, the rows of `procure read-budget`, and the
amounts that each line has afterwards. The desk also foretells the winner of lots that are examined, by price and by points. A journal's file is read back
unchanged, and each change of a line in it is found. Each refusal of docs/API.md has a sentence in English and in German. Then rules of
the modules are changed, one at a time: these checks must find each change.
"""
import base64
import collections
import itertools
import json
import subprocess

import pytest
from hypothesis import given, settings

from office_kit.api.tenders import CHANCE, MARK, changed_bytes, samples
from office_kit.client import Blocks, Client, answer_of, budget, lot, notice, tender
from office_kit.common import CONFIG, parts_of
from office_kit.desks import modules
from office_kit.desks.modules import WEB
from office_kit.desks.page_checks import refusals

pytestmark = pytest.mark.needs("node")
NOW, DEADLINE, NOW_MS = "2026-01-05T09:00:00Z", "2026-02-01T12:00:00Z", 1_767_603_600_000
MOST_BODY = 65_536
LATER, PAST = 1_767_700_000_000, 1_767_600_000_000
HEAD = b"line,kind,amount,title\n"
# The rules that are changed: a module, the text in it, and the changed text.
CHANGED = modules.data_of("clerk_rules")
# The changed values of a notice's field.
VALUES = {
    "title": ["", "x" * 201, "\u00e4" * 101, "a\u0001"], "validity": ["0", "365", "366", "x", ""], "standstill": ["0", "90", "91", "-1"],
    "weight": ["0", "100", "101", ""], "performance": ["1000000000000", "1000000000001", "", "1.5"], "line": ["7000", "", "a b"],
    "estimate": ["0", "1000000000001", "1e3", ""], "security": ["1000000000001", "", "50"], "id": ["", "L1", "I1", "a b", "x" * 33],
    "quantity": ["0", "1000000", "1000001", "3.0"],
}
LINES = ["1000", "2000", "3000", "a.b-c_d", "x" * 32]
AMOUNTS = ["1", "7", "500", "0100", "999999999999999", "1000000000000000"]
ODD = ["0", "1000000000000001", "00000000000000001", "12.5", "1,000", "-1", " 1", "", "x", '"5"', '"', "add", "ADD", "Cut", "cut ", "y" * 33, "y z", "\u00e4",
       "t" * 200, "t" * 201, "\u00e4" * 100, "\u00e4" * 101, "a\tb", "\x7f"]


# ---- What is tried: made by chance, which hypothesis shrinks, and at the bounds.

def budget_file(chance):
    """A budget file: right, or with up to two rows changed, or bytes."""
    columns = [LINES, ("add", "add", "cut"), AMOUNTS[:4] * 9 + AMOUNTS, ("Roads", "Parks, and trees", "Stra\u00dfen", 'a "b"')]
    rows = [["line", "kind", "amount", "title"], *(list(map(chance.choice, columns)) for _ in range(chance.choice((1, 1, 2, 3, 8))))]
    for _ in range(chance.choice((0, 0, 0, 1, 1, 2))):
        at, field = chance.randrange(len(rows)), chance.randrange(4)
        rows[at] = [*rows[at][:field], chance.choice(ODD), *rows[at][field + 1:]] if chance.randrange(5) else rows[at][:-1]
    data = written(chance, rows)
    return changed_bytes(chance, data) if chance.randrange(7) == 1 else data


def written(chance, rows):
    end, quoted = chance.choice((b"\n", b"\n", b"\r\n", b"\r", b"\n\n")), chance.choice((99, 5, 1))

    def text(field, at):
        is_quoted = field in ("", '"', '"5"') or "," in field or '"' in field or at % quoted == quoted - 1
        return b'"%s"' % field.encode().replace(b'"', b'""') if is_quoted else field.encode()
    body = end.join(b",".join(text(field, at) for at, field in enumerate(fields, number)) for number, fields in enumerate(rows))
    return chance.choice((b"", b"", MARK)) + body + chance.choice((end, end, b""))


def right_draft(**changes):
    """A notice as it is typed."""
    return {"name": "", "title": "Road repair", "deadline": LATER, "validity": "90", "standstill": "10", "criteria": "price", "weight": "60", "late": "refused",
            "performance": "0", "lots": [right_lot()], **changes}


def right_lot(**changes):
    item = {"id": "I1", "title": "Paving", "quantity": "3"}
    return {"id": "L1", "title": "North", "line": "5000", "estimate": "1", "security": "0", "items": [item], **changes}


def numbered(thing, letter, count):
    return [{**thing, "id": f"{letter}{at}"} for at in range(count)]


def made_draft(chance):
    """A notice: right, or with some fields changed; and whether it has the name of the one before."""
    lots = []
    for number in range(chance.choice((1, 2, 3))):
        one = right_lot(id=f"L{number}", line=chance.choice(("5000", "5000", "6000")), estimate=chance.choice(("1", "20", "400") * 9 + ("1000000000000",) * 3))
        lots.append({**one, "items": numbered(one["items"][0], "I", chance.choice((1, 2, 5)))})
    draft = right_draft(criteria=chance.choice(("price", "points")), late=chance.choice(("refused", "forfeits")), lots=lots)
    is_again = chance.choice((False, False, False, True))
    for _ in range(chance.choice((0, 0, 1, 1, 2))):
        change(chance, draft)
    return draft, is_again


def change(chance, draft):
    if not draft["lots"] or not all(it["items"] for it in draft["lots"]):
        return
    one = chance.choice(draft["lots"])
    item = chance.choice(one["items"])
    at = {**dict.fromkeys(("title", "deadline", "validity", "standstill", "weight", "performance", "lots"), draft),
          **dict.fromkeys(("line", "estimate", "security", "items"), one), "id": chance.choice((one, item)), "quantity": item}
    name = chance.choice(list(at))
    many = {"items": [numbered(item, "J", count) for count in (0, 50, 51)], "deadline": [None, PAST, NOW_MS, 4_102_444_800_000],
            "lots": [numbered({**one, "estimate": "1"}, "K", count) for count in (0, 20, 21)]}
    at[name][name] = chance.choice((VALUES | many)[name])


def at_bounds():
    """Budget files at the bounds, and one beyond."""
    rows = b"".join(b"7000,add,1,R%d\n" % at for at in range(500))
    one, shape = b"7000,add,1,x\n", HEAD + b"7000,add,1,x\n"
    texts = [b"", b"\n", MARK, HEAD, HEAD[:-1], HEAD.replace(b",", b";"), b"Line,Kind,Amount,Title\n" + one, b"PK\x03\x04", HEAD.decode().encode("utf-16")]
    bodies = [rows, rows + one, b"8000,add,1000000000000000,Full\n", b"8000,add,1,x\n", b"8001,add,999999999999999,x\n8001,add,1,x\n",
              b"8002,add,1000000000000000,x\n8002,cut,1,x\n8002,add,2,x\n", b"9999,cut,1,x\n", b"9000,add,5,x\n9000,cut,6,x\n",
              b"9000,add,5,x\n9000,cut,5,y\n", b"5000,add,2000,Roads\n6000,add,500,Parks\n", b"5000,cut,2001,Roads\n", one + b"7000,cut,0,y\n7000,add,x,z\n",
              b'7000,add,1,"x', b"5000,cut,1,\xff\n", b"5000,add,3,Roads\n5000,cut,1,Roads\n", b"7001,add,1,x\n7002,cut,1,x\n",
              b"7000,ADD,1,x\n", b"y" * 32 + b",add,1,x\n", b"y" * 33 + b",add,1,x\n", b"7000,add,1," + b"t" * 200, b"7000,add,1," + b"t" * 201]
    return texts + [HEAD + body for body in bodies] + [shape.ljust(length, b"\n") for length in (65_536, 65_537)] + [MARK + shape, MARK + MARK + shape]


def asked_of(web, **given):
    """The answers of the modules in a folder."""
    with modules.Node("clerk_rules", "", web) as node:
        return node.ask("answersTo", {"now": NOW_MS, **given})


def bodies_of(drafts):
    """The bodies that the desk makes of drafts."""
    return [base64.b64decode(body) for body in asked_of(WEB, drafts=drafts)["bodies"]]


def with_size(size):
    """A draft of twenty lots of fifty items. The titles of its items are so long that the body has this many bytes."""
    item = {"id": "I", "title": "x" * 20, "quantity": "3"}
    draft = right_draft(lots=[right_lot(id=f"L{at}", items=numbered(item, "I", 50)) for at in range(20)])
    items = [item for one in draft["lots"] for item in one["items"]]
    more, rest = divmod(size - len(bodies_of([draft])[0]), len(items))
    for number, item in enumerate(items):
        item["title"] += "y" * (more + (number < rest))
    return draft


def drafts_at_bounds():
    """Notices at the bounds, and one beyond, each with a name of its own."""
    own = right_lot()
    (item,) = own["items"]
    lots = [[], [right_lot(items=[])], numbered(own, "L", 20), numbered(own, "L", 21), [right_lot(items=numbered(item, "I", 50))],
            [right_lot(items=numbered(item, "I", 51))], [own, own], [right_lot(items=[item, item])],
            [right_lot(estimate="2000"), right_lot(id="L2", estimate="8000")]]
    changes = [{"deadline": NOW_MS}, {"deadline": NOW_MS + 1000}, {"standstill": "90"}, {"standstill": "91"}, *({"lots": some} for some in lots)]
    drafts = [*(right_draft(**change) for change in changes), with_size(65_536), with_size(65_537)]
    return [{**draft, "name": f"M{at}"} for at, draft in enumerate(drafts)]


def read_budget(program, data):
    """The rows that the program reads in a file, or None if it refuses the file."""
    return json.loads(subprocess.run([program, "read-budget", "/dev/stdin"], input=data, capture_output=True).stdout).get("rows")


# Firms of which the first isn't responsive. If its price were the measure, the points of the others would change their order.
TELLING = (60, [(1, 50, False, None), (2, 100, True, 0), (3, 150, True, 15)])


def firms(chance):
    """A weight of the price, or none, and firms: each with its unit price, its examination and its quality."""
    weight, found = chance.choice((None, None, 1, 40, 60, 60, 100)), []
    for who in sorted(chance.sample(range(1, 6), chance.choice((0, 1, 3, 4, 5)))):
        responsive = chance.randrange(5) > 0
        quality = chance.randrange(0, 101 - weight) if responsive and weight else None
        found.append((who, chance.choice((50, 60, 75, 80, 100, 150, 151)), responsive, quality))
    return weight, found


# ---- The program's answers.

def answers_of(program, commands):
    """The program's answers to commands (a method of the client, a name and a body), each with the ledger before it and after it. They are one run of `procure
    desk`, except for those that are too long: it doesn't read their bodies. So each of these has a run of its own, and no ledger."""
    blocks = Blocks(NOW)
    office = Client(blocks)
    for method, name, body in commands:
        if len(body) <= MOST_BODY:
            office.ledger()
            method(office, name, body)
    office.ledger()
    answers = blocks.answers(program)
    ledgers = [it.body.decode() for it in answers[::2]]
    told = zip((it.value() for it in answers[1::2]), ledgers, ledgers[1:])
    return [next(told) if len(body) <= MOST_BODY else (answer_to(program, method(Client(Blocks(NOW)), name, body)), "", "")
            for method, name, body in commands]


def answer_to(program, block):
    """The first answer of a run."""
    ran = subprocess.run([program, "desk", CONFIG], input=block, capture_output=True)
    return answer_of(parts_of(ran.stdout)[0]).value()


def awards_of(program, count):
    """Lots by price and by points, whose tenders are examined and which are awarded, in one run of `procure desk`: the answers before each award, and the
    winners. Some prices are the same."""
    blocks, receipts, places = Blocks(NOW), itertools.count(1), []
    office = Client(blocks)
    office.import_budget("B1", budget("1000,add,1000000000,All"))
    for number in range(1, 6):
        office.register(f"T{number}")
    cases = {f"E{number}": case for number, case in enumerate([TELLING, *samples(CHANCE.map(firms), count)])}
    for name, (weight, found) in cases.items():
        office.publish(name, notice(DEADLINE, lot(), **({"criteria": "points", "price_weight": weight} if weight else {})))
        for who, unit, *_ in found:
            office.present(f"T{who}", name, "L1", tender((3, unit)))
    blocks.moment = DEADLINE
    for name, (_, found) in cases.items():
        office.open(name)
        for (*_, responsive, quality), receipt in zip(found, receipts):
            office.examine(receipt, responsive, **({} if quality is None else {"quality": quality}))
        places.append(len(blocks.sent))
        for query in (office.record, office.terms, office.minutes):
            query(name)
        office.evaluation(name, "clerk")
        office.award(name)
    answers = blocks.answers(program)
    asked = [dict(zip(("record", "terms", "minutes", "evaluation"), (it.body.decode() for it in answers[at:at + 4]))) for at in places]
    made = [answers[at + 4].value() for at in places]
    return asked, [[award["tender"], award["price"]] if award["tender"] else "nobody" for award in made]


def plain(answer):
    """An answer, as the desk's modules give it."""
    return {name: answer[name] for name in ("rows", "name", "what") if name in answer}


class Given:
    """Everything that the modules are asked, and the program's answers. Whatever the files leave, the notices must have enough money. The last files cut lines
    with money that is reserved: the free amount of such a line is less than its appropriation."""

    def __init__(self, program, count):
        files = [*at_bounds(), *samples(CHANCE.map(budget_file), count), budget("5000,add,9000,Roads", "6000,add,5000,Parks").encode()]
        later = [budget(f"{line},cut,{amount},Cut").encode() for line in (5000, 6000) for amount in (1, 4999, 9000, 10 ** 6)]
        # Each made notice has a name of its own or that of the one before.
        made = enumerate(samples(CHANCE.map(made_draft), count // 3), 1)
        self.drafts = [*drafts_at_bounds(), *({**draft, "name": f"N{number - is_again}"} for number, (draft, is_again) in made)]
        imports = [(Client.import_budget, f"B{at}", data) for at, data in enumerate(files + later)]
        publications = [(Client.publish, draft["name"], body) for draft, body in zip(self.drafts, bodies_of(self.drafts))]
        told = answers_of(program, imports[:len(files)] + publications + imports[len(files):])
        self.of_notices = told[len(files):-len(later)]
        self.of_files = told[:len(files)] + told[-len(later):]
        self.rows = [read_budget(program, data) for data in files + later]
        awards, self.winners = awards_of(program, count // 5)
        asked = [{"data": base64.b64encode(data).decode(), "ledger": ledger} for data, (_, ledger, _) in zip(files + later, self.of_files)]
        sentences = [f"refusal.{json.loads(body)['name']}" for _, body in refusals()]
        notices, taken = [], set()
        for draft, (answer, ledger, _) in zip(self.drafts, self.of_notices):
            notices.append({"draft": draft, "ledger": ledger, "isUsed": draft["name"] in taken})
            taken |= set() if "refusal" in answer else {draft["name"]}
        self.asked = {"files": asked, "notices": notices, "awards": awards, "refusals": sentences}


# ---- The tests. Each but the last compares the answers of the modules with the program's.

@pytest.fixture(scope="module", params=[300, pytest.param(1000, marks=[pytest.mark.long])])
def given_all(program, request):
    return Given(program, request.param)


@pytest.fixture(scope="module")
def told(given_all):
    return asked_of(WEB, **given_all.asked)


def test_budget_files(given_all, told):
    for at, (it, (answer, _, ledger)) in enumerate(zip(told["files"], given_all.of_files, strict=True)):
        assert (it["answer"], it["read"]) == (plain(answer), given_all.rows[at]), given_all.asked["files"][at]
        after = {row[0]: row[1:3] for row in (line.split("\t") for line in ledger.split("\n")[2:]) if row[0]}
        assert "rows" not in answer or all(after[line] == amounts for line, *amounts in it["after"])


def test_notices(given_all, told):
    for it, (answer, _, _), draft in zip(told["notices"], given_all.of_notices, given_all.drafts, strict=True):
        assert it == (plain(answer) if "refusal" in answer else None), draft


def test_awards(given_all, told):
    assert told["awards"] == given_all.winners


def test_journal(told):
    journal = told["journal"]
    assert journal["ways"] and not journal["missed"] and journal["isSame"]


def test_texts(given_all, told):
    assert given_all.asked["refusals"] and told["texts"] == []


def test_each_outcome_comes(given_all):
    for answers in (given_all.of_files, given_all.of_notices):
        counts = collections.Counter(answer.get("name", "taken") for answer, _, _ in answers)
        assert counts["taken"] >= 10 and len(counts) >= 6, counts
    assert {"nobody"} < {str(it) for it in given_all.winners}


@settings(max_examples=60, deadline=None)
@given(data=CHANCE.map(budget_file))
def test_made_budget_file(program, data):
    """The desk reads a budget file as `procure read-budget` does."""
    (it,) = asked_of(WEB, files=[{"data": base64.b64encode(data).decode(), "ledger": ""}])["files"]
    assert it["read"] == read_budget(program, data)


@pytest.mark.parametrize("change", CHANGED.values(), ids=CHANGED)
def test_changed_rule(given_all, tmp_path, change):
    told = asked_of(modules.copy_of(str(tmp_path), change), **given_all.asked)
    with pytest.raises(AssertionError):
        for test in (test_awards, test_budget_files, test_notices):
            test(given_all, told)
        test_journal(told)
        test_texts(given_all, told)
