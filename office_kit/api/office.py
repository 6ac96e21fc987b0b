"""Serves an office and compares its answers with docs/openapi.yaml. Used by tests/api/."""
import json
import re
from collections.abc import Iterable, Iterator, Sequence
from pathlib import Path
from typing import Any

import jsonschema
import yaml
from jsonschema.exceptions import best_match

from office_kit import client
from office_kit.api.openapi_rules import METHODS, target_of
from office_kit.common import ROOT, exchange
from office_kit.gate.transcripts import PHRASES

JSON = "application/json"
MOMENT = re.compile(r"\d{4}-\d\d-\d\dT\d\d:\d\d:\d\dZ")
KEYS = {"clerk": "abc", "T1": "hello", "T2": "hello", "T3": "hello"}


def plain(value: Any) -> str:
    """A text unchanged, and any other value as the office writes it in JSON."""
    return value if isinstance(value, str) else json.dumps(value, sort_keys=True, separators=(",", ":"), ensure_ascii=False)


def shape(template: str) -> str:
    """A path without the names of its parameters."""
    return re.sub(r"\{\w+\}", "{}", template)


def award_of(tree: Any) -> Any:
    """The operation in a document in which tests plant faults."""
    return tree["paths"]["/notices/{notice}/lots/{lot}/award"]["post"]


class Operation:
    def __init__(self, document: "Document", template: str, method: str, item: dict[str, Any]) -> None:
        node = item[method]
        self.name, self.template, self.method, self.node, self.callers = node["operationId"], template, method.upper(), node, node["x-callers"]
        # Somebody who may ask.
        self.caller = {"public": "public", "clerk": "clerk", "tenderer": "T1"}[self.callers[0]]
        parameters = [document.resolved(part) for part in (*item.get("parameters", []), *node.get("parameters", []))]
        self.places = [part["schema"] for part in parameters if part["in"] == "path"]
        # Parts of the path that fit their schemas and name nothing.
        self.nowhere: list[object] = ["nowhere" if document.flaw(schema, "nowhere") is None else 9999999999 for schema in self.places]
        self.queries = [part for part in parameters if part["in"] == "query"]
        self.responses: dict[str, dict[str, Any]] = {status: document.resolved(part) for status, part in node["responses"].items()}
        asked = node.get("requestBody", {"content": {}})
        self.media: str = next(iter(asked["content"]), "")
        self.body: dict[str, Any] = asked["content"].get(self.media, {})
        self.needs_body: bool = asked.get("required", False)

    def target(self, place: Iterable[object], query: str = "") -> str:
        return shape(self.template).format(*place) + query


class Document:
    """docs/openapi.yaml, or another tree of its kind."""

    def __init__(self, tree: Any = None) -> None:
        self.tree = tree or yaml.load(Path(ROOT, "docs", "openapi.yaml").read_text(encoding="utf-8"), getattr(yaml, "CSafeLoader", yaml.SafeLoader))
        self.validators: dict[int, Any] = {}
        found = (Operation(self, template, method, item) for template, item in self.tree["paths"].items() for method in item if method in METHODS)
        self.operations = {operation.name: operation for operation in found}

    def resolved(self, node: Any) -> Any:
        """A node, or the node that it refers to."""
        while "$ref" in node:
            node = target_of(self.tree, node["$ref"])
        return node

    def flaw(self, schema: Any, value: Any) -> str | None:
        """The place at which a value doesn't meet a schema, or None."""
        if id(schema) not in self.validators:
            whole = {**schema, "components": self.tree["components"]} if isinstance(schema, dict) else schema
            self.validators[id(schema)] = jsonschema.Draft202012Validator(whole)
        error = best_match(self.validators[id(schema)].iter_errors(value))
        return None if error is None else f"{error.json_path}: {error.message[:200]}"

    def refusals(self) -> Iterator[tuple[str, str, str, str | None]]:
        """Each operation's name with the status and the name of each refusal that it lists, and the first word of each `what`."""
        listed = [(operation.name, status, response["content"][JSON]["schema"])
                  for operation in self.operations.values() for status, response in operation.responses.items() if status not in ("200", "default")]
        for name, status, schema in listed:
            # (The front's own answers are no refusals.)
            for part in [it for it in schema.get("oneOf", [schema]) if it["$ref"] != "#/components/schemas/Front"]:
                what = {**self.resolved(part)["properties"], **part.get("properties", {})}.get("what")
                for word in what.get("enum", ["row"]) if what else [None]:
                    yield name, status, part["$ref"].split("/")[-1], word

    def number(self, refusal: str) -> int:
        return int(self.tree["components"]["schemas"][refusal]["properties"]["refusal"]["const"])


class Answer(client.Answer):
    """A response, to be compared with the document."""

    @property
    def media(self) -> str:
        return self.fields.get("Content-Type", "")

    def value(self) -> Any:
        """The body: a value of JSON, or a text."""
        return super().value() if self.media == JSON else self.body.decode()

    def told(self) -> str:
        """`200`, or the refusal's name and its `what`."""
        return "200" if self.status == 200 else " ".join(str(self[member]) for member in ("name", "what") if member in self.value())

    def flaw(self, response: bytes) -> str | None:
        """The part of the response's head or of its body's form that isn't as docs/API.md says, or None."""
        asked = [f"{name}: {self.fields[name]}" for name in ("Allow", "WWW-Authenticate") if name in self.fields]
        fields = [f"Content-Type: {self.media}", f"Content-Length: {len(self.body)}", *asked, "Connection: close"]
        head = "\r\n".join([f"HTTP/1.1 {self.status} {PHRASES.get(str(self.status))}", *fields, "", ""]).encode("latin-1")
        if response != head + self.body:
            return f"the response is {response[:300]!r}"
        if self.media == JSON and self.body.decode() != plain(self.value()):
            return f"not compact, or members out of order: {self.body[:100]!r}"
        return None


class Asker:
    """Asks an office, and notes what isn't as the document says."""

    def __init__(self, document: Document, port: int) -> None:
        self.document, self.port = document, port
        self.operations = document.operations.values()
        self.flaws: list[str] = []
        self.seen: set[tuple[str, str, str | None]] = set()

    def check(self, holds: object, flaw: str) -> None:
        """Notes a flaw, unless something holds."""
        if not holds:
            self.flaws.append(flaw)

    def send(self, method: str, target: str, who: str = "public", body: bytes = b"", fields: Sequence[str] | None = None) -> Answer:
        """The answer to a request. Faults of its form are noted. Given fields replace those of this caller's requests."""
        if fields is None:
            named = [] if who == "public" else [f"Office-Caller: {who}", f"Office-Key: {KEYS[who]}"]
            fields = [*named, f"Content-Length: {len(body)}"]
        # The server reads no more of a longer head. Bytes that it doesn't read reset the connection, perhaps before the answer comes.
        head = "\r\n".join([f"{method} {target} HTTP/1.1", *fields, "", ""]).encode()[:8192]
        response, _ = exchange(self.port, head + body, ends=True)
        answer = Answer(**vars(client.answer_of(response)))
        flaw = answer.flaw(response)
        self.check(flaw is None, f"{method} {target}: {flaw}")
        return answer

    def judge(self, where: str, response: dict[str, Any], answer: Answer) -> None:
        """Notes an answer that isn't as the document says for its status."""
        content = response.get("content", {}).get(answer.media)
        if content is None:
            return self.check(False, f"{where}: {answer.status} with {answer.media} isn't in the document: {answer.body[:100]!r}")
        for name, header in response.get("headers", {}).items():
            flaw = self.document.flaw(header["schema"], answer.fields.get(name))
            self.check(flaw is None, f"{where}: {answer.status}: {name}: {flaw}")
        flaw = self.document.flaw(content["schema"], answer.value())
        self.check(flaw is None, f"{where}: {answer.status} {answer.body[:120]!r}: {flaw}")

    def put(self, operation: Operation, who: str, place: Iterable[object], body: bytes = b"", query: str = "",
            fields: Sequence[str] | None = None) -> Answer:
        """The answer to a request of an operation, which is judged and remembered."""
        answer = self.send(operation.method, operation.target(place, query), who, body, fields)
        self.judge(operation.name, operation.responses.get(str(answer.status), {}), answer)
        name, what = (answer.told() + " ").split(" ")[:2]
        self.seen.add((operation.name, name, what or None))
        return answer

    def ask(self, name: str, who: str, *place: object, want: str = "200", body: Any = b"", query: str = "", like: str | None = None) -> Any:
        """The answer. `want` is the expected one; with `like`, it must equal this example except for moments."""
        operation = self.document.operations[name]
        answer = self.put(operation, who, place, client.data_of(body), query)
        self.check(answer.told() == want, f"{operation.method} {operation.target(place, query)} by {who}: {answer.told()}, and not {want}")
        if like and answer.told() == want:
            example = operation.responses["200"]["content"][answer.media]["examples"][like]["value"]
            said, right = (MOMENT.sub("MOMENT", plain(value)) for value in (answer.value(), example))
            self.check(said == right, f"{name}: the example {like} isn't what is answered: {said[:400]}")
        return answer.value()
