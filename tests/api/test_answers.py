"""The program answers as docs/openapi.yaml says: everything in it is sent to an office that is served, and much that is wrong, and each answer is compared.

- Its operations are the routes of crates/office_commands/src/table.rt, and no other path made of the same words is a route.
- A parameter, the start of a page, and each member of a JSON body is accepted exactly if its schema accepts it.
- The examples of requests are answered with the examples of answers, except for moments, in a walk through all commands (office_kit/api/walk.py).
- Each answer has the head, status, media type and body that the document says. Each refusal that an operation lists occurs, except those in CANT, which would
  take days or all memory.
- Requests that hypothesis makes of each operation, by each caller, are answered as the document says. Documents that say something else are found.
"""
import copy
import itertools
import re
import urllib.parse
from pathlib import Path

import pytest

for module, package in {"jsonschema": "python3-jsonschema", "yaml": "python3-yaml", "hypothesis": "python3-hypothesis"}.items():
    pytest.importorskip(module, reason=f"missing: {module}. Get it: apt-get install {package}")

from hypothesis import HealthCheck, given, settings, strategies

from office_kit.api import walk
from office_kit.api.office import JSON, Asker, Document, award_of, plain, shape
from office_kit.api.openapi_rules import METHODS
from office_kit.common import ROOT
from office_kit.store.served import server

DOCUMENT = Document()
# Refusals that a run of a few seconds can't cause: without memory, after days of validity, at 9,999 releases or 10^9 receipts.
CANT = {*((name, "Expired") for name in ("award", "fail", "sign", "withdraw")),
        *((name, "LimitReached") for name in ("cancel", "open", "present", "modify", "award", "fail", "sign", "end"))}
MISSING_MEMBER = object()
# Values that replace each member of a body, besides those that its bounds suggest.
OTHERS = [MISSING_MEMBER, None, True, 5, 1.5, -1, "", "5", "a b", "\u00e4", "a\tb", "\u007f", "0" * 64, "A" * 64, "g" * 64, "0" * 63, [], {}, "2026-03-01",
          "2026-03-01T12:00:00", "1969-12-31T23:59:59Z", "1970-01-01T00:00:00Z", "2099-12-31T23:59:59Z", "2100-01-01T00:00:00Z", "2026-03-01T24:00:00Z",
          "2026-03-01t12:00:00z"]


# ---- The checks of an office, in the order of the states that they need.

def paths_of_words(shapes):
    """Paths made of the words of these: of one to four segments, each second one a parameter; and of five after each four that a path begins with."""
    words = sorted({word for path in shapes for word in path.split("/") if word not in ("", "{}")})
    for first, second in itertools.product(words, words):
        yield from (f"/{first}", f"/{first}/1", f"/{first}/1/{second}", f"/{first}/1/{second}/1")
    for front in {"/".join(path.split("/")[:5]) for path in shapes if path.count("/") > 4}:
        yield from (f"{front.replace('{}', '1')}/{word}" for word in words)
    yield from ("/", "//ledger", "/ledger/", "/LEDGER", "/ledger%20", "/lines/1/", "/lines/1/x", "/notices/1/lots/1", "*")


def routes(asker):
    """The operations are the program's routes, by its table and by trying paths."""
    text = Path(ROOT, "crates", "office_commands", "src", "table.rt").read_text(encoding="utf-8")
    methods = {"CommandKind": "POST", "QueryKind": "GET"}
    rows = {(methods[kind], shape(path)) for kind, path in re.findall(r'(CommandKind|QueryKind)::\w+ => row\(\s*\w+,\s*"([^"]+)"', text)}
    assert len(rows) == sum(map(int, re.findall(r"const (?:COMMANDS|QUERIES): \[\w+; (\d+)\]", text)))
    listed = {(it.method, shape(it.template)) for it in asker.operations}
    for method, path in sorted(rows | listed):
        asker.check((method, path) in rows & listed, f"{method} {path} is a route of the program or an operation of the document, and not both")
    shapes = {path for _, path in listed}
    matching = re.compile("|".join(re.escape(path).replace(r"\{\}", "[^/]+") for path in shapes))
    for path in sorted(set(paths_of_words(shapes | {path for _, path in rows}))):
        has_route = asker.send("GET", path).told() != "NoRoute"
        asker.check(has_route == bool(matching.fullmatch(path)), f"{path}: the program has {'a' if has_route else 'no'} route there, unlike the document")


def methods(asker):
    """Another method is answered with the right one."""
    response = asker.document.tree["components"]["responses"]["WrongMethod"]
    for path in {operation.template for operation in asker.operations}:
        right = [operation.method for operation in asker.operations if operation.template == path]
        for method in {*map(str.upper, METHODS), right[0].lower()}.difference(right):
            answer = asker.send(method, re.sub(r"\{\w+\}", "1", path))
            asker.judge(f"{method} {path}", response, answer)
            told = answer.told(), answer.fields.get("Allow")
            asker.check(told == ("WrongMethod", ", ".join(right)), f"{method} {path}: {told[0]}, Allow: {told[1]}")


def may(operation, who):
    return ("tenderer" if who.startswith("T") else who) in operation.callers


def parameters(asker):
    """A parameter of a path is accepted if its schema accepts it; else there is no route."""
    texts = ("", "a", "a" * 32, "a" * 33, "A.z_-9", "a%20b", "a+b", "0", "01", "1", "9999999999", "10000000000", "-1", "%C3%A4")
    for operation in asker.operations:
        for (number, schema), text in itertools.product(enumerate(operation.places), texts):
            value = int(text) if text.isdigit() and str(int(text)) == text and operation.nowhere[number] != "nowhere" else text
            place = [*operation.nowhere]
            place[number] = text
            told = asker.put(operation, operation.caller, place).told()
            asker.check((asker.document.flaw(schema, value) is None) == (told != "NoRoute"), f"{operation.target(place)}: {told}, unlike the schema")


def pages(asker):
    """The start of a page is accepted exactly if its schema accepts it, and once."""
    texts = ("", "a", "a" * 32, "a" * 33, "A.z_-9", "a%20b", "a+b", "%61", "0", "!", "%C3%A4", "%ff")
    for operation, part in [(operation, part) for operation in asker.operations if operation.method == "GET" for part in operation.queries]:
        name = part["name"]
        wanted = {f"?{name}": False, f"?{name}=a&{name}=a": False, f"?{name.upper()}=!": True}
        wanted.update({f"?x=1&{name}={text}": asker.document.flaw(part["schema"], urllib.parse.unquote_plus(text)) is None for text in texts})
        for query, is_right in wanted.items():
            asker.ask(operation.name, operation.caller, want="200" if is_right else f"BadBody {name}", query=query)


def rights(asker):
    """Each request here changes nothing, even if the caller may ask: it has no body, so an operation with a body refuses it, and its path names nothing."""
    for operation, who in itertools.product(asker.operations, ("public", "clerk", "T1")):
        told = asker.put(operation, who, operation.nowhere).told()
        asker.check(may(operation, who) == (told != "Forbidden"), f"{operation.name} by {who}: {told}, though x-callers is {operation.callers}")


def forms(asker):
    """Malformed requests, requests beyond a bound, and callers whose name and key don't belong together."""
    named = ["Office-Caller: clerk", "Office-Key: abc"]
    rows = [("BadHead", [*named, "Content-Length: 9"]), ("BadHead", ["Content-Length: 4"] * 2), ("BadHead", ["Content-Length: +4"]), ("BadHead", ["no field"]),
            ("TooLong", [*named, "Content-Length: 65537"]), ("TooLong", [*named, *["A: b"] * 63]), ("TooLong", ["A: " + "b" * 8192]),
            ("Coding", [*named, "Transfer-Encoding: chunked"]), ("BadKey", ["Office-Caller: clerk", "Office-Key: abd"]), ("BadKey", ["Office-Caller: clerk"]),
            ("BadKey", ["Office-Key: abc"]), ("BadKey", ["Office-Caller: nobody", "Office-Key: abc"]), ("BadKey", ["Office-Caller: clerk", *named])]
    for operation, (want, fields) in itertools.product(asker.operations, rows):
        told = asker.put(operation, "public", operation.nowhere, b"line" if want == "BadHead" else b"", fields=fields).told()
        asker.check(told == want, f"{operation.name} with {fields[-1][:40]}: {told}, and not {want}")


def members(document, schema, value, way=()):
    """Each member of a body, and of the first element of a list in it: its path, and its schema."""
    schema = document.resolved(schema)
    if isinstance(value, list):
        yield from members(document, schema["items"], value[0], (*way, 0))
    elif isinstance(value, dict):
        for name, part in schema["properties"].items():
            yield (*way, name), part
            if name in value:
                yield from members(document, part, value[name], (*way, name))


def candidates(schema):
    """The values that replace a member with this schema."""
    bounds = [schema[bound] + step for bound, step in (("minimum", -1), ("minimum", 0), ("maximum", 0), ("maximum", 1)) if bound in schema]
    lengths = ["a" * (schema[bound] + step) for bound, step in (("minLength", 0), ("maxLength", 0), ("maxLength", 1)) if bound in schema]
    return [*OTHERS, *bounds, *lengths, *schema.get("enum", [])]


def with_member(value, way, other):
    """The value with another member at the end of a path, or without it."""
    changed = parent = copy.deepcopy(value)
    for step in way[:-1]:
        parent = parent[step]
    parent.pop(way[-1], None)
    if other is not MISSING_MEMBER:
        parent[way[-1]] = other
    return changed


def check_body(asker, operation, place, value, first):
    """Notes each body that the program accepts and the schema doesn't, or the reverse, or names another member than `first`, which is changed."""
    flaw, text = asker.document.flaw(operation.body["schema"], value), plain(value)
    told = asker.put(operation, "clerk", place, text.encode()).told()
    asker.check((flaw is None) != told.startswith("BadBody"), f"{operation.name}: {told}, though by the schema {flaw or 'it is right'}: {text[:200]}")
    if flaw and told.startswith("BadBody"):
        named = f"BadBody {first}", "BadBody price_weight" if first == "criteria" else None
        asker.check(told in named, f"{operation.name}: {told}, and not {first}: {text[:200]}")


def bodies(asker):
    """The office has no lines and no tenderers. A right body names something that doesn't exist, or registers the clerk's name."""
    for operation in [operation for operation in asker.operations if operation.media == JSON]:
        place = ["clerk"] if operation.name == "register" else operation.nowhere
        # (If a body isn't required, no bytes mean no body.)
        none = [b""] if operation.needs_body else []
        for text in (*none, b" ", b"[]", b"{", b'"a"', b"null", b"\xff", b'{"a":1e999}', b'{"a":' + b"[" * 128 + b"]" * 128 + b"}"):
            asker.ask(operation.name, "clerk", *place, want="BadBody body", body=text)
        schema = operation.body["schema"]
        for value in [example["value"] for example in operation.body["examples"].values()]:
            check_body(asker, operation, place, {**value, "another": 1}, None)
            for way, part in members(asker.document, schema, value):
                for other in candidates(asker.document.resolved(part)):
                    check_body(asker, operation, place, with_member(value, way, other), way[0])


def refusals(asker):
    """Each refusal that an operation lists came from it."""
    for name, _, refusal, what in asker.document.refusals():
        came = refusal == "Unavailable" or (name, refusal) in CANT or (name, refusal, what) in asker.seen
        asker.check(came, f"{name} lists {refusal}{f' {what}' if what else ''}, which didn't come from it")


CHECKS = (routes, bodies, walk.begin, methods, parameters, pages, rights, forms, walk.walk, refusals)


@pytest.fixture(scope="module")
def asker(program, tmp_path_factory):
    with server(program, tmp_path_factory.mktemp("api") / "office.db") as (_, port):
        yield Asker(DOCUMENT, port)


def found_by(check, asker):
    """The differences that a check finds."""
    asker.flaws.clear()
    check(asker)
    return [*asker.flaws]


@pytest.fixture(scope="module")
def found(asker):
    """The differences that all checks find, in turn."""
    return {check: found_by(check, asker) for check in CHECKS}


@pytest.mark.parametrize("check", CHECKS, ids=lambda check: check.__name__)
def test_office(found, check):
    assert found[check] == []


# Documents that say something else, and the check that finds it.
WRONG = {
    "the public may award": (rights, lambda tree: award_of(tree)["x-callers"].append("public")),
    "nobody is forbidden to award": (rights, lambda tree: award_of(tree)["responses"].pop("403")),
    "a name may be longer": (parameters, lambda tree: tree["components"]["schemas"]["Id"].update(maxLength=33)),
    "a page may begin anywhere": (pages, lambda tree: tree["components"]["parameters"]["after"].update(schema={"type": "string"})),
    "a route is missing": (routes, lambda tree: tree["paths"].pop("/ledger")),
    "a refusal has another number": (forms, lambda tree: tree["components"]["schemas"]["BadKey"]["properties"]["refusal"].update(const=99)),
}


@pytest.mark.parametrize("check, change", WRONG.values(), ids=WRONG)
def test_wrong_document(asker, found, check, change):
    change(tree := copy.deepcopy(DOCUMENT.tree))
    assert found_by(check, Asker(Document(tree), asker.port))


# ---- Requests that hypothesis makes, to the office that the checks leave.

# The names and numbers that a path may have: those of the office, and others. Each fits a path's form, so that there is a route.
NAMES = ("N1", "N2", "N3", "N4", "N5", "L1", "L2", "1000", "2000", "B1", "T1", "T2", "A.z_-9", "nowhere")
NUMBERS = (*range(1, 13), 9999, 9999999999)
QUERIES = ("", "?", "?after=N1", "?after=N9", "?after=", "?after", "?after=%4e1", "?after=N1&after=N2", "?x=1&after=A", "?AFTER=!", "?security=G1&amount=50",
           "?security=G1", "?amount=50", "?security=G1&amount=0", "?security=%ff&amount=1", "?&&=&", "?x=%ff", "?after=%00", "?" + "a" * 4000)
MEMBERS = (*OTHERS, 0, 1, 10 ** 12, 10 ** 15 + 1, "N1", [{}])


def by_schema(schema):
    """Values of a schema."""
    schema = DOCUMENT.resolved(schema)
    if "enum" in schema:
        return strategies.sampled_from(schema["enum"])
    if schema["type"] == "object":
        parts = {name: by_schema(part) for name, part in schema["properties"].items()}
        return strategies.fixed_dictionaries({name: parts.pop(name) for name in schema.get("required", [])}, optional=parts)
    if schema["type"] == "array":
        return strategies.lists(by_schema(schema["items"]), min_size=schema["minItems"], max_size=3)
    if schema["type"] == "integer":
        return strategies.integers(schema["minimum"], schema["maximum"])
    texts = strategies.from_regex(schema["pattern"], fullmatch=True) if "pattern" in schema else strategies.text()
    return strategies.booleans() if schema["type"] == "boolean" else texts


@strategies.composite
def asked(draw, operation):
    """A caller, a place, a body and a query. The body is an example or a value of its schema, one that is changed or cut, or bytes of any kind."""
    place = [draw(strategies.sampled_from(NAMES if nothing == "nowhere" else NUMBERS)) for nothing in operation.nowhere]
    body = draw(strategies.binary(max_size=40) | strategies.just(b"a" * 65_536))
    if operation.body and draw(strategies.integers(0, 9)):
        value = draw(strategies.sampled_from([it["value"] for it in operation.body["examples"].values()]) | by_schema(operation.body["schema"]))
        if isinstance(value, dict) and draw(strategies.booleans()):
            value = with_member(value, [draw(strategies.sampled_from([*value, "another"]))], draw(strategies.sampled_from(MEMBERS)))
        text = plain(value).encode(errors="replace")
        body = text[:draw(strategies.sampled_from([len(text)] * 8 + [-1, len(text) // 2]))]
    return draw(strategies.sampled_from(["public", "clerk", "T1", "T2", "T3"])), place, body, draw(strategies.sampled_from(QUERIES))


@pytest.mark.parametrize("operation", DOCUMENT.operations.values(), ids=DOCUMENT.operations)
@settings(max_examples=20, deadline=None, suppress_health_check=HealthCheck.all())
@given(data=strategies.data())
def test_made_requests(asker, found, operation, data):
    """Each is answered as its operation says, and by `Forbidden` exactly if the operation doesn't name the caller."""
    who, place, body, query = data.draw(asked(operation))
    asker.flaws.clear()
    told = asker.put(operation, who, place, body, query).told()
    assert told not in ("NoRoute", "Unavailable") and may(operation, who) == (told != "Forbidden") and asker.flaws == []
