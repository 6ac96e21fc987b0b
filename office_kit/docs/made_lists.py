"""The lists for looking things up: every definition of crates/*/specs/**/*.antt with the comment above it, and each public call with its clauses. Read by
tools/lists and office_kit/docs/releases.py."""
from collections.abc import Iterable
from itertools import takewhile

from office_kit.docs import definitions
from office_kit.docs.contracts import Call, first_paragraph, public_calls_of, sources_of
from office_kit.docs.definitions import ROOT, Definition, Fault, crates, crates_of_the_program, text_of
from office_kit.docs.made import WIDTH, opening, wrapped
from office_kit.gate.crates import crates_of

OF_DEFINITIONS = """\
# Index of definitions

Every definition of `crates/*/specs/`, by crate and by file, with the comment above it. Use it to find what a name means. A bold name is a file, as a module:
`Rules.Award` of `award_core` is `crates/award_core/specs/Rules/Award.antt`. One comment often speaks for several definitions; the others follow after 'Then'.
[READING.md](READING.md) says which of these files you must read for the promises, and in which order. Made by `tools/lists`, not by hand.
"""
OF_CALLS = """\
# Calls

Each public function of the crates of the program, with its comment and its contract. A crate comes after those that it uses. `requires` is what a caller must
show; `ensures` is what then holds of every call, whatever its arguments. That each call returns, that no number wraps and that no index is out of bounds is
proved besides. [INDEX.md](INDEX.md) says what the names in the clauses mean, and [PROMISES.md](PROMISES.md) what the promises make of them. Functions of
private modules are left out, and so are those of an `impl` of a trait: the trait has their contract. Made by `tools/lists`, not by hand."""


def entries_of(some: Iterable[Definition]) -> list[str]:
    """A text for each comment: the name below it, what it says, and the names after that one that have no comment. If the first name has no comment, the names
    alone."""
    entries: list[list[Definition]] = []
    for each in some:
        if each.comment or not entries:
            entries.append([])
        entries[-1].append(each)
    return [entry_text(entry[0].comment, *(f"`{each.name}`" for each in entry)) for entry in entries]


def entry_text(comment: str, name: str, *others: str) -> str:
    """`name`: its comment. Then `other`."""
    if not comment:
        return ", ".join([name, *others])
    end = "" if comment[-1] in ".:;" else "."
    return f"{name}: {comment}{end} Then {', '.join(others)}" if others else f"{name}: {comment}"


def index() -> tuple[list[str], str]:
    sources = {crate.name: of_crate for crate in crates() if (of_crate := definitions.sources_of(crate.name))}
    if not sources:
        raise Fault("crates/*/specs: there is no definition")
    made, counts = opening(OF_DEFINITIONS), list[int]()
    for name, of_crate in sources.items():
        made += [f"## `{name}`", ""]
        for source in of_crate:
            made += [*wrapped(f"**`{source.module}`**" + (f": {source.heading}" if source.heading else "")), ""]
            made += [*(line for text in entries_of(source.definitions) for line in wrapped(text, "- ", "  ")), ""]
            counts.append(len(source.definitions))
    return made[:-1], f"{sum(counts)} definitions of {len(counts)} files"


def lines_of_call(call: Call) -> list[str]:
    """The lines of a call: its name, its comment, and its clauses as a block of code."""
    name = f"{call.owner}::{call.name}" if call.owner else call.name
    head = wrapped(f"`{name}`{f': {call.doc}' if call.doc else ''}{'' if call.clauses else ' (no clause)'}", "- ", "  ")
    if not call.clauses:
        return head
    texts = [f"{clause.kind}{f' {clause.name}' if clause.name else ''} {{ {clause.text} }}" for clause in call.clauses]
    return [*head, "", "  ```rt", *(line for text in texts for line in wrapped(text, "  ", "      ", WIDTH - 2)), "  ```"]


def calls() -> tuple[list[str], str]:
    lines, found = opening(OF_CALLS), list[Call]()
    for crate in (name for name in crates_of(ROOT) if name in crates_of_the_program()):
        public = {path: own for path in sources_of(crate) if (own := public_calls_of(crate, path))}
        if public:
            lines += [f"## `{crate}`", ""]
        for path, own in public.items():
            heading = first_paragraph(takewhile(lambda line: line.startswith("//!"), text_of(path).split("\n")))
            lines += [*wrapped(f"**{path.relative_to(ROOT / 'crates' / crate / 'src')}**" + (f": {heading}" if heading else "")), ""]
            lines += [line for call in own for line in lines_of_call(call)] + [""]
            found += own
    if not found:
        raise Fault("crates/*/src: there is no public function")
    crates = sum(line.startswith("## ") for line in lines)
    return lines[:-1], f"{len(found)} calls with {sum(len(call.clauses) for call in found)} clauses, in {crates} crates"


# By their documents.
LISTS = {"docs/INDEX.md": index, "docs/CALLS.md": calls}
