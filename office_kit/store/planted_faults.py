"""The faults that tests/audit/test_audit.py plants in an office that `life.py` made, and the rule and row by which `tools/audit` must find each.

A plain fault is one change of the file (planted_faults.sql), or of an answer. A forgery (forgeries.sql) changes all related rows, releases and merges, so that
the file alone shows nothing. The test tries that too, and tries which witnesses expose it. These forgeries show that the facts which docs/AUDITOR.md calls
unseen are unseen.
"""
import json
from collections.abc import Callable, Iterator
from pathlib import Path
from typing import Any

from office_kit.audit.office import Json
from office_kit.audit.releases import compiled_of, releases_in
from office_kit.store.files import scripts_of
from office_kit.store.life import AuditedLife

# Faults of the file: the rule, the row that it must name, the script that writes it, and the arguments that name a witness.
FAULTS_OF_FILES: list[tuple[Any, ...]] = [(*found.split(" ", 1), script, " ".join(words)) for (found, *words), script in scripts_of("planted_faults.sql")]


def found_by(line: str) -> tuple[str, ...]:
    """A witness, the rule and the row by which it exposes a forgery."""
    witness, found = line.split(": ")
    return witness, *found.split(" ", 1)


# Forgeries that the file alone doesn't show: their name, the script, and the witness, the rule and the row by which each is found.
FORGERIES: list[tuple[Any, ...]] = [(name, script, *map(found_by, lines)) for (name, *lines), script in scripts_of("forgeries.sql")]


def filled(what: Any, life: AuditedLife) -> Any:
    """A text, or a tuple of texts and others, with the office's values in the place of each name in braces."""
    if isinstance(what, str):
        return life.filled(what)
    return tuple(filled(it, life) for it in what) if isinstance(what, tuple) else what


def rewrite(folder: Path, notice: str, before: str, after: str) -> None:
    """Says something else in the releases of a notice that were answered, in its record, and in their merge, so that these three fit."""
    paths = [folder / f"{kind}-{notice}.json" for kind in ("releases", "record")]
    package, record = (json.loads(path.read_bytes().replace(before.encode(), after.encode())) for path in paths)
    record["records"][0]["compiledRelease"] = compiled_of(releases_in(package))
    package["publishedDate"] = record["publishedDate"] = record["records"][0]["compiledRelease"]["date"]
    for path, value in zip(paths, (package, record)):
        path.write_text(json.dumps(value))


def replace(folder: Path, name: str, before: str, after: str) -> None:
    """Says something else in an answer."""
    path = folder / name
    path.write_bytes(path.read_bytes().replace(before.encode(), after.encode()))


def lose_notice(folder: Path, notice: str) -> None:
    for path in folder.glob(f"*-{notice}.*"):
        path.unlink()


def put(folder: Path, name: str, text: str) -> None:
    (folder / name).write_text(text)


CHANGES: dict[str, Callable[..., None]] = {"rewrite": rewrite, "replace": replace, "lose_notice": lose_notice, "put": put}


def faults_in_table() -> Iterator[tuple[Any, ...]]:
    """The faults of planted_answers.tsv. A tab and the end of a line are written as \\t and \\n there."""
    for line in Path(__file__).with_name("planted_answers.tsv").read_text(encoding="utf-8").splitlines()[1:]:
        rule, row, further, change, *given = line.split("\t")
        yield rule, row, further, CHANGES[change], *(it.replace("\\t", "\t").replace("\\n", "\n") for it in given)


def plant(folder: Path, change: Callable[[Any], object], *names: str) -> None:
    """Changes the JSON of these answers."""
    for name in names:
        change(value := json.loads((folder / name).read_bytes()))
        put(folder, name, json.dumps(value))


def take_over(folder: Path) -> None:
    """Puts the compiled release of N2 into the record of N1."""
    other = json.loads((folder / "record-N2.json").read_bytes())["records"][0]["compiledRelease"]
    plant(folder, lambda record: record["records"][0].update(compiledRelease=other), "record-N1.json")


def pay_twice(package: Json) -> None:
    """Adds a copy of a payment after the releases, as a release of the next number."""
    releases = package.get("releases") or package["records"][0]["releases"]
    again = next(release for release in releases if release["tag"] == ["implementation"])
    releases.append({**again, "id": again["id"][:-4] + f"{len(releases) + 1:04}", "date": releases[-1]["date"]})


# Faults of answers: the rule, the row, further arguments of the audit, and the change of their folder with its arguments.
FAULTS_OF_ANSWERS: list[tuple[Any, ...]] = [
    ("answered_releases_are_kept", "notices N1", "whole.db", plant, lambda package: package["releases"].pop(), "releases-N1.json"),
    ("records_have_the_releases", "notices N1", "whole.db", plant, lambda package: package["records"][0]["releases"].pop(4), "record-N1.json"),
    ("compiled_is_the_merge", "notices N1", "whole.db", take_over),
    ("packages_have_their_heads", "notices N1", "whole.db", plant, lambda package: package.update(publishedDate="2026-01-01T00:00:00Z"), "record-N1.json"),
    ("terms_are_of_the_rows", "notices N1", "whole.db", plant, lambda terms: terms["lots"][0]["items"].pop(), "terms-N1.json"),
    ("listed_notices_are_of_the_rows", "notices N3", "whole.db", plant, lambda page: page["notices"][2].update(state="receiving"), "notices.json"),
    ("listed_notices_are_of_the_rows", "notices N8", "whole.db", plant, lambda page: page["notices"].pop(), "notices.json"),
    ("listed_notices_are_of_the_rows", "office 1", "whole.db", plant, lambda page: page["notices"].reverse(), "notices.json"),
    ("heads_are_in_sequence", "releases N1/5", "", plant, lambda package: package["releases"].pop(4), "releases-N1.json"),
    ("events_come_once", "notices N1", "", plant, pay_twice, "releases-N1.json", "record-N1.json"),
    *faults_in_table(),
]
