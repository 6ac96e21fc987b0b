"""The definitions of crates/*/specs/**/*.antt: their comments, their lines, the names that each uses, and where an imported name comes from.

Used by tools/lists and office_kit/docs/reached.py; tools/check_promises takes ROOT and Fault from here.
"""
import re
from collections.abc import Iterable, Iterator, Mapping
from functools import cache
from itertools import takewhile
from pathlib import Path

from office_kit.gate.crates import crates_of

ROOT = Path(__file__).resolve().parent.parent.parent

NAMED = re.compile(r"\s*(?:(?:abbrev|unfoldable) (?:pub )?(?!mutual\b)(\S+) :|(?:pub )?(?:record|data) ([^\s{]+))")
BARE = re.compile(r"pub (?!mod\b|use\b|record\b|data\b)(\S+) :")
IN_MUTUAL = re.compile(r"  (?:pub )?(\S+) :")
KEYWORD = re.compile(r"(?:abbrev|unfoldable|record|data|pub) (?!mod\b|use\b)")
# Lines between definitions, which belong to none.
APART = re.compile(r"(?:use|pub use|pub mod|module|infix[lr]?)\b")
WORD = re.compile(r"Rattle(?:\.[\w']+)+|[\w']+(?:\.[\w']+)*")
IMPORT = re.compile(r"\buse Rattle\.([\w.]+?)(?:\.\{([^}]*)\}|\s+as\s+([\w']+))")
CASE = re.compile(r"\s+(?:pub )?(\S+) :")

# The place of an imported name, and the name there; a module has none.
Imported = tuple[str, str | None]


class Fault(Exception):
    """A text that can't be read, and its place."""


@cache
def text_of(path: Path) -> str:
    try:
        return path.read_text(encoding="utf-8")
    except (OSError, UnicodeDecodeError) as fault:
        raise Fault(f"{path}: {fault}") from fault


def crates() -> list[Path]:
    """The folders of the crates, in the order of their names."""
    return sorted(path for path in (ROOT / "crates").glob("*") if path.is_dir())


@cache
def crates_of_the_program() -> set[str]:
    """The names of the crates of the program `procure`: itself, and all crates below it by crates.txt."""
    return {"procure"} | crates_of(ROOT)["procure"]


def without_nested(inner: str, text: str) -> str:
    """A text without its parts in brackets; they may be nested. A pattern finds a part that has none."""
    while re.search(inner, text):
        text = re.sub(inner, "", text)
    return text


def words_of(comment: Iterable[str]) -> str:
    """The text of a comment's lines; rules such as `-- ---- laws` are no comment."""
    return " ".join(line.strip()[2:].strip() for line in comment if not line.strip().startswith("-- ----"))


class Definition:
    """A definition: its file, its name, the comment above it, and the lines of its text without comments."""

    def __init__(self, source: "Source", name: str, comment: str) -> None:
        self.source, self.name, self.comment = source, name, comment
        self.lines: list[str] = []

    def words(self) -> set[str]:
        """The names that it uses, as they are written; a name with dots is one name."""
        text = "\n".join(self.lines)
        steps = {"◌>>=◌"} if re.search(r"\bdo\b|>>=", text) else set()
        return set(WORD.findall(text)) | steps

    def cases(self) -> set[str]:
        """The names of its cases, if it is a type with cases: the words before a colon in its further lines."""
        is_of_cases = re.match(r"\s*(?:pub )?data\b", self.lines[0])
        return {found[1] for found in map(CASE.match, self.lines[1:]) if found} if is_of_cases else set()


def definitions_of(source: "Source", lines: Iterable[str]) -> list[Definition]:
    """The definitions of a file, in its order, each with its lines. The comment above a block is that of the first one in it."""
    made: list[Definition] = []
    current: Definition | None = None
    in_mutual, of_block, comment = False, "", list[str]()
    for at, line in enumerate(lines, 1):
        if line.strip().startswith("--"):
            comment.append(line)
            continue
        above, comment = words_of(comment), []
        is_block = line.startswith("abbrev mutual")
        if line and not line[0].isspace():
            in_mutual = is_block
        if is_block:
            of_block, current = above, None
        elif found := (IN_MUTUAL.match(line) if in_mutual else None) or NAMED.match(line) or BARE.match(line):
            current, of_block = Definition(source, next(filter(None, found.groups())), above or of_block), ""
            made.append(current)
        elif KEYWORD.match(line) and " = " not in line:
            raise Fault(f"{source.path.relative_to(ROOT)}:{at}: no definition that this script knows: {line}")
        elif APART.match(line):
            current = None
        if current and line.strip():
            current.lines.append(line)
    return made


class Source:
    """A file of definitions: its crate, its module with dots for folders, what it is about, and its definitions."""

    def __init__(self, path: Path) -> None:
        self.path, text = path, text_of(path)
        lines = text.split("\n")
        specs = next(above for above in path.parents if above.name == "specs")
        self.crate, self.module = specs.parent.name, ".".join(path.relative_to(specs).with_suffix("").parts)
        self.heading = words_of(takewhile(lambda line: line.startswith("--"), lines))
        self.definitions, self.imports = definitions_of(self, lines), imports_of(text)
        # (By name, and by the names of cases.)
        self.defined = {case: each for each in self.definitions for case in each.cases()} | {each.name: each for each in self.definitions}


@cache
def sources_of(crate: str) -> list[Source]:
    """The files of definitions of a crate that have any, in the order of their paths."""
    found = map(Source, sorted((ROOT / "crates" / crate / "specs").rglob("*.antt")))
    return [source for source in found if source.definitions]


@cache
def source_at(crate: str, module: str) -> Source | None:
    """The file of a crate with this module, or None."""
    return next((source for source in sources_of(crate) if source.module == module), None)


def definition_at(crate: str, module: str, name: str) -> Definition | None:
    """The definition of a name of a module, if there is one; a module may be that of a definition's cases."""
    source = source_at(crate, module)
    if not source:
        module, _, name = module.rpartition(".")
        source = source_at(crate, module)
    return source.defined.get(name) if source else None


# ---- Imports.

def imports_of(text: str) -> dict[str, Imported]:
    """The meaning of each imported name in a file: (its name there, a place, the name in that place). A place is as `office_base.specs.Tables`; a module has no
    name in it."""
    found: dict[str, Imported] = {}
    for place, names, alias in IMPORT.findall(text):
        if alias:
            found[alias] = (place, None)
        for name in filter(None, map(str.strip, names.split(","))):
            there, _, here = name.partition(" as ")
            found[here.strip() or there] = (place, there)
    return found


def places_in(words: Iterable[str], imports: Mapping[str, Imported]) -> Iterator[tuple[str, str]]:
    """(place, name) of each word that was imported, or that has its whole place."""
    for word in words:
        first, _, rest = word.partition(".")
        if first == "Rattle" and rest:
            place, _, name = rest.rpartition(".")
            yield place, name
        elif first in imports:
            place, known = imports[first]
            yield place, known or rest.partition(".")[0]
