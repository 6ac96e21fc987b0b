"""Reads what rt says of mutants. Used by bench/gate and tools/edits.

A contract refuses a mutant if a goal of it can't be proved. Some refusals name no goal: if the borrow checker doesn't cover the changed function yet,
nothing was proved. Then rt counts the mutant as refused. These scripts count it as a failure.
"""
import re

# The words of a refusal that names no goal.
NO_GOAL = "the borrow checker does not cover"
UNTRIED = "REFUSED BY NO GOAL"

# The words of rt about a mutant, and the result's name here; the first that fits counts.
SAID = {
    "refused, as it must be (only by a limit": "only by a limit",
    "refused, as it must be (only because a proof": "only by a proof's names",
    "refused, as it must be": "refused",
    "NOT REFUSED": "NOT REFUSED",
    "BAD EDIT": "BAD EDIT",
    "NOT TRIED": "NOT TRIED",
}
REFUSED = ("refused", "only by a limit", "only by a proof's names")


def came_to(line: str) -> tuple[str, str, str] | None:
    found = re.match(r"rt: (?:must-fail |\S*crates/)(\w+)/(?:must-fail/)?(\S+): (.*)", line)
    if found:
        for said, kind in SAID.items():
            if found[3].startswith(said):
                return found[1], found[2], UNTRIED if kind in REFUSED and NO_GOAL in found[3] else kind
    return None
