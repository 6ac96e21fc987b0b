"""The functions of crates/*/src/**/*.rt: their owners, their doc comments, and the clauses of their contracts.

Used by tools/lists, office_kit/docs/reached.py and tools/check_promises.
"""
import re
from collections.abc import Iterable, Sequence
from functools import cache, cached_property
from itertools import takewhile
from pathlib import Path
from typing import NamedTuple

from office_kit.docs.definitions import ROOT, text_of, without_nested

# A function, by the words before its name: at the left, or in a block.
FUNCTION = re.compile(r"^( *)((?:pub(?:\([^)]*\))? )?)(?:const |async |unsafe )*fn (\w+)")
# A line above a function that belongs to it: of its comment, or an attribute.
ABOVE = re.compile(r"\s*(?:///|#\[)")
BLOCK = re.compile(r"^(?:pub(?:\([^)]*\))? )?(impl|trait)\b(.*)")
CLAUSE = re.compile(r"^( *)(requires|ensures)(?: (\w+))? \{", re.MULTILINE)
HANDED_ON = re.compile(r"^pub use (?:crate::)?(\w+)::(?:\{([^}]*)\}|(\w+));", re.MULTILINE)
MODULE = re.compile(r"^(pub(?:\([^)]*\))? )?mod (\w+);", re.MULTILINE)

# An owner, whether it is a public trait, and whether the block is an `impl` of a trait.
Block = tuple[str, bool, bool]
NO_BLOCK: Block = ("", False, False)


class Clause(NamedTuple):
    """A clause: `ensures` or `requires`, its name or an empty text, and its statement."""

    kind: str
    name: str
    text: str


class Call:
    """A function: its name, the type or trait that it is of (or an empty text), whether it is public, its comment, and its lines without comments."""

    def __init__(self, found: re.Match[str], block: Block, above: Sequence[str]) -> None:
        self.owner, in_public_trait, of_trait = block
        self.indent, self.name = len(found[1]), found[3]
        self.doc = first_paragraph(line for line in above if line.strip().startswith("///"))
        self.is_public = not of_trait and (in_public_trait or found[2] == "pub ")
        self.lines: list[str] = []

    @cached_property
    def text(self) -> str:
        return "\n".join(self.lines)

    @cached_property
    def clauses(self) -> list[Clause]:
        """Its clauses: those that are one step further in than itself."""
        found = [clause for clause in CLAUSE.finditer(self.text) if len(clause[1]) == self.indent + 4]
        return [Clause(clause[2], clause[3] or "", folded(in_brace(self.text, clause.end()))) for clause in found]


def folded(text: str) -> str:
    """A text with each run of spaces and line ends as one space."""
    return " ".join(text.split())


def in_brace(text: str, begin: int) -> str:
    """The text of the block whose brace opens before this place."""
    depth, at = 1, begin
    while depth and at < len(text):
        depth += {"{": 1, "}": -1}.get(text[at], 0)
        at += 1
    return text[begin:at - 1]


def first_paragraph(doc: Iterable[str]) -> str:
    """The first paragraph of a comment, without the marks of three letters at the begin of its lines."""
    return " ".join(takewhile(bool, (line.strip()[3:].strip() for line in doc)))


def block_at(line: str) -> Block | None:
    found = BLOCK.match(line)
    if not found:
        return None
    head = without_nested("<[^<>]*>", found[2].replace("->", ""))
    words = re.findall(r"[\w:']+", head.split(" where ")[0].split("{")[0])
    if found[1] == "trait":
        return words[0].rstrip(":"), line.startswith("pub "), False
    of_trait = "for" in words
    name = words[words.index("for") + 1] if of_trait else next(iter(words), "")
    return name.split("::")[-1], False, of_trait


@cache
def calls_of(path: Path) -> list[Call]:
    """The functions of a source, in their order, those in functions left out."""
    calls, block, above = list[Call](), NO_BLOCK, list[str]()
    for line in text_of(path).split("\n"):
        found = FUNCTION.match(line)
        if line and not line[0].isspace():
            block = block_at(line) or (NO_BLOCK if found or line[0] == "}" else block)
        if found and len(found[1]) in (0, 4):
            calls.append(Call(found, block if found[1] else NO_BLOCK, above))
        above = [*above, line] if ABOVE.match(line) else []
        if calls and not line.lstrip().startswith("//"):
            calls[-1].lines.append(line)
    return calls


@cache
def sources_of(crate: str) -> list[Path]:
    return sorted((ROOT / "crates" / crate / "src").rglob("*.rt"))


def is_reached(crate: str, path: Path) -> bool:
    """Whether the module of a source is public from the crate's top."""
    top, module = ROOT / "crates" / crate / "src", path.with_suffix("")
    while module not in (top, top / "lib"):
        above = top / "lib.rt" if module.parent == top else module.parent.with_suffix(".rt")
        if not above.is_file() or ("pub ", module.name) not in MODULE.findall(text_of(above)):
            return False
        module = module.parent
    return True


def public_calls_of(crate: str, path: Path) -> list[Call]:
    """The functions of a source that another crate can call: of a private module those that the crate's top makes public by `pub use`, by name or by type."""
    top, public = ROOT / "crates" / crate / "src" / "lib.rt", [call for call in calls_of(path) if call.is_public]
    if is_reached(crate, path):
        return public
    found = HANDED_ON.findall(text_of(top)) if top.is_file() else []
    handed_on = {name for module, names, one in found if module == path.stem for name in re.findall(r"\w+", names or one)}
    return [call for call in public if (call.owner or call.name) in handed_on]
