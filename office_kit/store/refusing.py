"""The parts of tests that refuse memory by the library of refusing.c: what it counted, and plays of the transcripts."""
import re

from office_kit.gate.transcripts import topics


def counted(errors: str) -> tuple[int, int]:
    """The allocations that the library counted, and how many of them it refused, by a program's standard error."""
    counts = re.findall(r"^(\d+) made, (\d+) refused$", errors, re.M)
    if not counts:
        raise AssertionError(f"the library counted nothing: {errors.strip()}")
    return int(counts[-1][0]), int(counts[-1][1])


def plays() -> dict[tuple[str, str], list[str]]:
    """The blocks of each play of the transcripts, by its file and its title."""
    pieces, found = dict[str, list[str]](), {}
    for topic in topics():
        pieces.update(topic.pieces)
        for kind, title, parts in topic.played:
            if kind == "play":
                found[topic.name, title] = [block for name in parts[0] for block in pieces[name]]
    return found
