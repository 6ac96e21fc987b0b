"""Compares the arrows of docs/pictures/states.dot with the specification. Read by tools/pictures.

- Tenders and both kinds of security: the decisions of Fates.antt for each command, and the states in which they begin.
- Notices, lots and awards: the states that the puts of each command write (crates/*/specs/Rules/, `NAME_puts` and the definitions that it uses). The tests in
  BEFORE give the state from which an arrow leads: the rule of the command must use them.
- Contracts: whether `ended` is empty or filled in the puts of a command.
"""
import re
from collections.abc import Iterable, Iterator

from office_kit.docs.definitions import ROOT, WORD, Fault, Source, source_at, sources_of, text_of
from office_kit.docs.reached import Reached

# A kind of thing, the state before (empty if it begins), the state after, and the command.
Arrow = tuple[str, str, str, str]

DRAWING = "docs/pictures/states.dot"
ARROW = re.compile(r'^\s*([a-z]+)(?:_(\w+))? -> ([a-z]+)_(\w+) \[label="([a-z_]+)(?: \([^)]*\))?"\];', re.MULTILINE)
ANY_ARROW = re.compile(r"^(?!\s*//).*->", re.MULTILINE)
# The type of a kind's states, and a line of a test of States.antt.
STATES = re.compile(r"records\.(\w+)State")
TEST = re.compile(r"^(\w+) \w+_states\.(\w+) = (true|false)$", re.MULTILINE)
# The crates that have the rules, a file for each command.
CORES = ("tender_core", "award_core")
KINDS = ("notice", "lot", "award")
# The states from which a command leads: by a test of States.antt that its rule uses, or `not` such a test.
BEFORE = {
    ("Open", "notice"): ["not is_cancelled", "not is_opened"], ("Cancel", "notice"): ["is_receiving"], ("Award", "lot"): ["is_undecided"],
    ("Cancel", "lot"): ["is_open"], ("Cancel", "award"): ["is_active"], ("Fail", "award"): ["is_active"], ("Sign", "award"): ["is_active"]}
# The states before that no rule tests: a new row has none, and the lot of an award that is active is awarded.
UNTESTED = {("Publish", "notice"): "", ("Publish", "lot"): "", ("Award", "award"): "", ("Fail", "lot"): "Awarded", ("Sign", "lot"): "Awarded"}
# Words in the puts of a rule, and a contract's states before and after. If it runs before, the rule must refuse contracts that have ended.
CONTRACTS = {"ended = None": ("", "Running"), "ended = Some": ("Running", "Ended"), "puts.Entry": ("Running", "Running")}


def command_name(name: str) -> str:
    """The name of a command in an arrow: `AmendContract` is amend_contract."""
    return re.sub(r"(?<!^)([A-Z])", r"_\1", name).lower()


# ---- What definitions say.

def lines_of(source: Source, name: str) -> list[str]:
    """The lines of a definition that must exist."""
    definition = source.defined.get(name)
    if not definition:
        raise Fault(f"{source.path.relative_to(ROOT)}: there is no {name}")
    return definition.lines


def followed(words: Iterable[str], source: Source) -> Reached:
    """All that words of a file lead to. The tests of states are left out: they write nothing."""
    made = Reached(apart="States")
    made.add_all(words, source.imports, source)
    made.follow()
    return made


def states_in(made: Reached) -> set[tuple[str, str]]:
    """The states that are named there, each with its kind."""
    kinds = ((STATES.fullmatch(kind), names) for kind, names in made.types["office_base"].items())
    return {(found[1].lower(), name) for found, names in kinds if found for name in names}


# ---- Tenders and securities: Fates.antt.

def cases_of(source: Source, name: str) -> Iterator[tuple[str, set[str]]]:
    """(command, words) of each line of a definition by cases over commands; the catch-all line has no command."""
    for line in lines_of(source, name)[1:]:
        left, _, right = line.partition(" = ")
        command = re.match(rf"{name} \((\w+)", left)
        yield command_name(command[1]) if command else "", set(WORD.findall(right))


def of_fates(source: Source) -> Iterator[Arrow]:
    """How tenders and securities begin, and the decisions of each command about those that are undecided. A tender that replaces another is in time, and
    carries the old one's security."""
    for kind, name in (("tender", "first_state"), ("security", "first_security")):
        words = WORD.findall("\n".join(lines_of(source, name)))
        yield from ((kind, "", state, "present") for _, state in states_in(followed(words, source)))
    text = "\n".join(lines_of(source, "reception_replacing"))
    if "in_time = true" not in text or "named = None" not in text:
        raise Fault("crates/office_machine/specs/Fates.antt: `reception_replacing` isn't in time, or names a security")
    yield "tender", "", "Sealed", "modify"
    yield from (("performance", "", "Held", command) for command, words in cases_of(source, "named_for") if command)
    for kind, undecided in (("tender", "Sealed"), ("security", "Held"), ("performance", "Held")):
        for command, decisions in cases_of(source, f"{kind}_decided"):
            yield from ((kind, undecided, state, command) for _, state in states_in(followed(decisions, source)) if state != undecided)


# ---- Notices, lots, awards and contracts: the rules.

def states_before(command: str, kind: str, words: set[str]) -> set[str]:
    """The states from which a command leads, by the tests of States.antt; an empty one if it makes a new row."""
    if (command, kind) in UNTESTED:
        return {UNTESTED[command, kind]}
    tests = BEFORE.get((command, kind), [])
    if not tests:
        raise Fault(f"docs/drawn_states.py: the rule {command} writes a {kind} in a state; from which one?")
    for test in tests:
        if test.removeprefix("not ") not in words:
            raise Fault(f"docs/drawn_states.py: the rule {command} uses no {test}")
    lines = TEST.findall(text_of(ROOT / "crates/office_base/specs/States.antt"))
    holds = {(test if value == "true" else f"not {test}", state) for test, state, value in lines}
    return {state for _, state in holds if all((test, state) in holds for test in tests)}


def arrows_of(source: Source) -> Iterator[Arrow]:
    """The arrows by the rule of one command."""
    command = source.module.removeprefix("Rules.")
    name = command_name(command)
    made = followed([f"{name}_puts"], source)
    put, tests = (list(it.definitions.values()) for it in (made, followed([f"{name}_tests"], source)))
    words = {word for definition in put + tests for word in definition.words()}
    for kind, state in states_in(made):
        if kind in KINDS:
            yield from ((kind, before, state, name) for before in states_before(command, kind, words) if before != state)
    put_text, test_text = ("\n".join(line for definition in some for line in definition.lines) for some in (put, tests))
    for said, (before, after) in CONTRACTS.items():
        if said in put_text and (not before or "has_ended" in test_text):
            yield "contract", before, after, name
            break


def faults_of_states() -> list[str]:
    """The arrows that the drawing has and the specification hasn't, and the other way."""
    text, fates = text_of(ROOT / DRAWING), source_at("office_machine", "Fates")
    drawn = ARROW.findall(text)
    if len(drawn) != len(ANY_ARROW.findall(text)) or any(kind != other for kind, _, other, _, _ in drawn):
        raise Fault(f"{DRAWING}: an arrow isn't written as `kind_State -> kind_State [label=\"command (when)\"];`")
    if not fates:
        raise Fault("crates/office_machine/specs: there is no module Fates")
    rules = [source for crate in CORES for source in sources_of(crate) if source.module.startswith("Rules.")]
    had = {(kind, before, after, command) for kind, before, _, after, command in drawn}
    wanted = set(of_fates(fates)).union(*map(arrows_of, rules))
    faults = [("the specification has no arrow", arrow) for arrow in sorted(had - wanted)] + [("there is no arrow", arrow) for arrow in sorted(wanted - had)]
    return [f"{DRAWING}: {fault} {kind}: {before or '(new)'} -> {after} by {command}" for fault, (kind, before, after, command) in faults]
