"""The rules of OpenAPI 3.1 that this repository's document needs: the schema openapi-3.1.yaml, and rules that no schema can state.

The document's own schemas are JSON Schema 2020-12, as OpenAPI 3.1 uses them by its dialect.
"""
import re
from collections import Counter
from collections.abc import Iterator
from pathlib import Path
from typing import Any

import jsonschema
import yaml
from jsonschema.exceptions import best_match

META = yaml.safe_load(Path(__file__).with_name("openapi-3.1.yaml").read_text(encoding="utf-8"))
METHODS = ("get", "post")


def nodes_of(tree: Any, way: tuple[str, ...] = ()) -> Iterator[tuple[tuple[str, ...], dict[str, Any]]]:
    """Each object below a node that isn't an example's value, with the way to it."""
    if isinstance(tree, dict):
        yield way, tree
        for name, part in tree.items():
            if name not in ("example", "value", "enum", "const"):
                yield from nodes_of(part, (*way, str(name)))
    elif isinstance(tree, list):
        for number, part in enumerate(tree):
            yield from nodes_of(part, (*way, str(number)))


def target_of(tree: Any, reference: str) -> Any:
    """The value that a reference within the document names, or None."""
    for word in reference.removeprefix("#/").split("/") if reference.startswith("#/") else ["#"]:
        tree = tree.get(word.replace("~1", "/").replace("~0", "~")) if isinstance(tree, dict) else None
    return tree


def flaws_of_schemas(tree: Any) -> Iterator[str]:
    """Schemas that aren't JSON Schema 2020-12."""
    for way, node in nodes_of(tree):
        if way[-1:] == ("schema",) or way[:2] == ("components", "schemas") and len(way) == 3:
            try:
                jsonschema.Draft202012Validator.check_schema(node)
            except jsonschema.SchemaError as error:
                yield f"{'/'.join(way)}: no schema: {error.message[:200]}"


def flaws_of_operations(tree: Any) -> Iterator[str]:
    """Parameters of paths that aren't in them, those in paths that nothing declares, unknown names, and names of operations that come twice."""
    names = Counter[str]()
    for path, item in tree["paths"].items():
        for method in sorted(item.keys() & METHODS):
            where, operation = f"{method} {path}", item[method]
            names.update([operation["operationId"]] if "operationId" in operation else [])
            named = [*item.get("parameters", []), *operation.get("parameters", [])]
            parameters = [target_of(tree, it["$ref"]) if "$ref" in it else it for it in named]
            declared = sorted(it["name"] for it in parameters if it and it["in"] == "path")
            if declared != sorted(re.findall(r"\{([^}]+)\}", path)):
                yield f"{where}: its parameters are declared as {declared}"
            for unknown in {name for one in operation.get("security", []) for name in one}.difference(tree.get("components", {}).get("securitySchemes", {})):
                yield f"{where}: no security scheme {unknown}"
            for unknown in set(operation.get("tags", [])) - {tag["name"] for tag in tree.get("tags", [])}:
                yield f"{where}: no tag {unknown}"
    yield from (f"operationId {name} comes twice" for name, times in names.items() if times > 1)


def flaws_of(tree: Any) -> list[str]:
    error = best_match(jsonschema.Draft202012Validator(META).iter_errors(tree))
    if error:
        return [f"{error.json_path}: {error.message[:200]}"]
    references = [(way, node["$ref"]) for way, node in nodes_of(tree) if isinstance(node.get("$ref"), str)]
    lost = [f"{'/'.join(way)}: nothing at {reference}" for way, reference in references if target_of(tree, reference) is None]
    return [*lost, *flaws_of_schemas(tree), *([] if lost else flaws_of_operations(tree))]
