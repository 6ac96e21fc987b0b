"""Finds sentences that read badly: long ones, words of docs/STYLE.md's table, and relative clauses without a noun. Used by tools/check_words.

It reads the prose of documents, the comments and docstrings of sources and scripts, and the English texts of the screens. (A docstring at the head of a script
is its --help.) Code spans, code blocks and links' targets are no prose. These are rules of thumb: a text may break one of them and be clear.
"""
import ast
import re
from collections.abc import Iterable, Iterator
from pathlib import Path
from typing import NamedTuple

from office_kit.docs.documents import FENCED

LONGEST = 30
# The words of the table, each with its pattern. (A name in a code span isn't found.)
WORDS = {
    "behind": r"behind", "stand": r"stands?|stood|standing(?! still)", "want": r"wants?|wanted|wanting",
    "told": r"(?:is|are|was|were|be|been|being|as|not) told|tells?", "lacks": r"lack(?:s|ed|ing)?", "anew": r"anew|once more",
    "as of": r"as of|of before|of then|by right", "goes on": r"(?:go|goes|went|gone|going) on|carr(?:y|ies|ied) on",
    "a look": r"(?:an?|the|each|every|this|that|all|public|of) looks?(?! (?:at|for|like|up|in|as)\b)",
    "hands out": r"hand(?:s|ed|ing)? (?:out|in)", "thus": r"be it|thus|therein|thereby|thereof|wherein|whereby", "comes to": r"(?:comes?|came) to|makes? up",
    "is there": r"(?:is|are|was|were|isn't|aren't) there(?! (?:an?|no|any)\b)", "wrong body": r"wrong bod(?:y|ies)",
    "machine": r"office machine",
    "pot, room": r"pots?|rooms?|shelf|shelves", "at will": r"at will|by itself|ever", "from nothing": r"from nothing", "whoever": r"whom?ever",
}
FOUND = {name: re.compile(rf"(?<![\w-])(?:{pattern})(?![\w-])", re.IGNORECASE) for name, pattern in WORDS.items()}
# `who` and `what` that no noun goes before: at the beginning of a sentence that is no question and no heading, or after a word that isn't a noun.
NO_NOUN = "of|to|for|by|from|with|in|on|at|than|as|and|or|but|that|is|are|if|where|when"
FOUND["bare"] = re.compile(rf"^(?:Who|What) (?!if\b)(?=[^?]*[.;:]\W*$)|\b(?:{NO_NOUN}) (?:who|what)\b(?! (?:if|to|it is|they are)\b)")
SENTENCE = re.compile(r"(?<=[.?!])[)'\"*_]*\s+(?=[A-Z0-9`'\"(*\[_])")
SPAN = re.compile(r"(`+).+?\1", re.DOTALL)
LINK = re.compile(r"!?\[([^\]]*)\](?:\([^)]*\)|\[[^\]]*\])")
ITEM = re.compile(r"^\s*(?:[-*+]|\d+\.)\s+")
BLOCK = re.compile(r"/\*(.*?)\*/", re.DOTALL)
TEXT = re.compile(r'"((?:[^"\\]|\\.)*)"')
# How a comment begins in files of each ending; in others with #.
MARKS = {".antt": "--", ".rt": "//", ".js": "//"}
# A line with its number, or a paragraph with that of its first line.
Numbered = tuple[int, str]


class Finding(NamedTuple):
    """A sentence that reads badly: the line where its paragraph begins, the kind (`long`, a word of the table, or `bare`), and the words."""

    line: int
    kind: str
    words: str


def joined(lines: Iterable[Numbered]) -> Iterator[Numbered]:
    """Paragraphs of numbered lines: an empty line ends one, and an item of a list or an indented line begins one."""
    begun: list[Numbered] = []
    for number, line in [*lines, (0, "")]:
        starts = not line.strip() or ITEM.match(line) or line.startswith("    ") and not (begun and ITEM.match(begun[0][1]))
        if begun and (starts or number != begun[-1][0] + 1):
            yield begun[0][0], " ".join(it.strip() for _, it in begun)
            begun = []
        begun += [(number, line)] if line.strip() else []


# ---- What of a file is prose.

def of_document(text: str) -> Iterator[Numbered]:
    """The prose of a document: its paragraphs, items, headings and cells of tables."""
    kept, empty = list[Numbered](), True
    for number, line in enumerate(FENCED.sub(lambda block: "\n" * block[0].count("\n"), text).split("\n"), 1):
        if line.startswith("|"):
            yield from ((number, cell.strip()) for cell in SPAN.sub("`x`", line).split("|") if cell.strip(" -:"))
        elif not re.match(r"\[[^\]]+\]: ", line) and not (empty and line.startswith("    ") and not (kept and ITEM.match(kept[-1][1]))):
            kept.append((number, line.lstrip("#> ") if line.startswith(("#", ">")) else line))
            if line.startswith("#"):
                kept.append((number, ""))
        empty = not line.strip()
    yield from joined(kept)


def of_comments(text: str, mark: str) -> Iterator[Numbered]:
    """The comments on lines of their own, by the mark with which they begin."""
    found = [(number, line.strip()) for number, line in enumerate(text.split("\n"), 1) if line.strip().startswith(mark)]
    lines = [(number, re.sub(rf"^{re.escape(mark)}[/!]* ?", "", line)) for number, line in found if not line.startswith("#!")]
    yield from joined((number, line) for number, line in lines if not line.startswith("----"))


def paragraphs_of(path: Path) -> Iterator[Numbered]:
    """The paragraphs of a file: a document, the comments and docstrings of a source or a script, or the words of a screen, where each text is one."""
    text = path.read_text(encoding="utf-8")
    if path.suffix == ".md":
        yield from of_document(text)
        return
    yield from of_comments(text, MARKS.get(path.suffix, "#"))
    if path.suffix == ".js" and path.name.startswith("en"):
        yield from ((number, found) for number, line in enumerate(text.split("\n"), 1) for found in TEXT.findall(line) if " " in found)
    elif path.suffix == ".js":
        for found in BLOCK.finditer(text):
            lines = [re.sub(r"^\s*\*? ?", "", line) for line in found[1].split("\n")]
            yield from joined(enumerate(lines, text.count("\n", 0, found.start()) + 1))
    if path.suffix == ".py" or re.match(r"#!.*\bpython3?\b", text):
        for node in ast.walk(ast.parse(text)):
            if isinstance(node, (ast.Module, ast.ClassDef, ast.FunctionDef)) and (doc := ast.get_docstring(node)) is not None:
                yield from joined(enumerate(doc.split("\n"), node.body[0].lineno))


# ---- What reads badly.

def findings_of(path: Path) -> list[Finding]:
    """The findings in a file, in the order of its lines. A code span is one word."""
    found = []
    for line, text in paragraphs_of(path):
        for sentence in SENTENCE.split(LINK.sub(r"\1", SPAN.sub("`x`", ITEM.sub("", text, count=1)))):
            if len([word for word in sentence.split() if re.search(r"\w", word)]) > LONGEST:
                found.append(Finding(line, "long", sentence))
            for name, pattern in FOUND.items():
                found += [Finding(line, name, sentence) for _ in pattern.findall(sentence)]
    return sorted(found, key=lambda it: it.line)
