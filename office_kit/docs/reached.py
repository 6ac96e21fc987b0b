"""Finds the definitions that a reader must believe for the promises: those that the clauses use, directly or through others.

Used by tools/reading. A variable that has the name of such a definition counts as it.
"""
from collections import defaultdict
from collections.abc import Iterable, Mapping, Sequence
from pathlib import Path

from office_kit.docs.contracts import calls_of
from office_kit.docs.definitions import ROOT, WORD, Definition, Fault, Imported, Source, crates_of_the_program, definition_at, imports_of, places_in, text_of

# The calls whose clauses are the headline, file by file.
START: dict[str, list[str]] = {
    "office_http/src/office.rt": ["run", "serve_one"], "office_http/src/answering.rt": ["answer"], "office_http/src/laws.rt": ["seals"],
}
# The calls whose clauses are the other promises: an office in files, a store, a desk.
BESIDES: dict[str, list[str]] = {
    "procure_programs/src/store.rt": ["serve_from", "stop_from", "print_from"], "procure_programs/src/serving.rt": ["serve", "serve_at"],
    "procure_programs/src/connection.rt": ["serve_connection"], "procure_programs/src/desk.rt": ["answer_streams", "desk_on"],
    "procure_programs/src/printing.rt": ["print", "print_notices"], "procure_programs/src/jobs.rt": ["printout_of", "work_on"],
    "procure_programs/src/placing.rt": ["place_empty"], "procure_programs/src/laws.rt": ["premises"],
    "procure_programs/src/clock.rt": ["moment_now"], "office_http/src/answering.rt": ["answer_request"],
    "office_desk/src/desk.rt": ["caller", "plan", "commit", "ask", "look"], "office_base/src/shelf.rt": ["apply"], "office_store/src/path.rt": ["open_from"],
    "office_store/src/open.rt": ["create", "open_files", "close_files"], "office_changes/src/apply.rt": ["apply_all"],
    "office_machine/src/laws.rt": ["terms", "awards", "pages_along", "clock", "late_tenders", "late_withdrawals", "contracts", "imports", "releases", "order",
                                   "refusals", "query_refusals", "parents", "no_parents", "lacking", "sums", "outstanding", "worlds", "merges"],
    "office_machine/src/fates.rt": ["rows"], "office_desk/src/laws.rt": ["moved_lines"],
}


# Names, by their crates and their modules.
Names = defaultdict[str, defaultdict[str, set[str]]]


class Reached:
    """The definitions reached so far, and those to follow; the types of the program that they use, each with the cases that they name; and the words of
    libraries. The definitions of a module `apart` are left out."""

    def __init__(self, apart: str = "") -> None:
        self.crates, self.apart = crates_of_the_program(), apart
        self.definitions: dict[tuple[str, str, str], Definition] = {}
        self.types, self.libraries = Names(lambda: defaultdict(set)), Names(lambda: defaultdict(set))
        self.waiting: list[Definition] = []

    def add_all(self, words: Iterable[str], imports: Mapping[str, Imported], source: Source | None = None) -> None:
        """Adds the meanings of words in a file with these imports: definitions, types and words of libraries. In a file of definitions, its own come first."""
        for word in sorted(words):
            own = source.defined.get(word.split(".")[0]) if source else None
            if own:
                self.add(own)
        for place, name in places_in(sorted(words), imports):
            crate, _, module = place.partition(".specs.")
            if crate not in self.crates:
                self.libraries[crate][module].add(name)
            elif module.startswith("declared."):
                kind = module.removeprefix("declared.")
                self.types[crate][kind.removesuffix(".TheVariants")].update({name} if kind.endswith(".TheVariants") else ())
            elif module != self.apart:
                definition = definition_at(crate, module, name)
                if not definition:
                    raise Fault(f"there is no definition {name} in {place}")
                self.add(definition)

    def need(self, imports: Mapping[str, Imported], where: Path | str) -> None:
        """Checks that each definition of the program's crates that a file imports exists."""
        for place, name in imports.values():
            crate, _, module = place.partition(".specs.")
            if name and crate in self.crates and not module.startswith("declared.") and not definition_at(crate, module, name):
                raise Fault(f"{where}: there is no definition {name} in {place}")

    def add(self, definition: Definition) -> None:
        key = definition.source.crate, definition.source.module, definition.name
        if key not in self.definitions:
            self.definitions[key] = definition
            self.waiting.append(definition)

    def follow(self) -> None:
        """Follows the names that definitions use, until nothing new is reached."""
        while self.waiting:
            definition = self.waiting.pop(0)
            self.add_all(definition.words() - {definition.name}, definition.source.imports, definition.source)

    def files(self) -> dict[tuple[str, str], list[Definition]]:
        found: dict[tuple[str, str], list[Definition]] = {}
        for (crate, module, _), definition in self.definitions.items():
            found.setdefault((crate, module), []).append(definition)
        return found


def begin(made: Reached, start: Mapping[str, Sequence[str]]) -> None:
    """Follows the names that the clauses of these calls use, until nothing new is reached."""
    for name, wanted in start.items():
        path = ROOT / "crates" / name
        calls = [call for call in calls_of(path) if call.name in wanted]
        if {call.name for call in calls} != set(wanted):
            raise Fault(f"crates/{name}: not all of {', '.join(wanted)} are there")
        imports = imports_of(text_of(path))
        made.need(imports, f"crates/{name}")
        for call in calls:
            made.add_all(set(WORD.findall(" ".join(clause.text for clause in call.clauses))), imports)
    made.follow()
    for source in dict.fromkeys(definition.source for definition in made.definitions.values()):
        made.need(source.imports, source.path.relative_to(ROOT))
