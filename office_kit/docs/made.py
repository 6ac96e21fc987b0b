"""Documents that scripts make: how each is written, compared, and reported. Read by tools/lists and tools/reading."""
import difflib
import itertools
import os
import re
import sys
import textwrap
from collections.abc import Callable

from office_kit.common import options_of
from office_kit.docs.definitions import ROOT, Fault, text_of

WIDTH = 100
# The most lines of a difference that are printed.
MOST = 12
# A function that makes a document: its lines, and the summary to print.
Make = Callable[[], tuple[list[str], str]]


def wrapped(text: str, first: str = "", rest: str = "", width: int = WIDTH) -> list[str]:
    """The lines of a text, at most so many characters each."""
    return textwrap.wrap(text, width, initial_indent=first, subsequent_indent=rest, break_long_words=False, break_on_hyphens=False)


def opening(text: str) -> list[str]:
    """The lines of a document's head: its title as it is, and each paragraph wrapped and followed by an empty line."""
    title, *paragraphs = text.strip().split("\n\n")
    return [title, ""] + [line for paragraph in paragraphs for line in [*wrapped(paragraph), ""]]


def put(name: str, wanted: str, said: str, is_check: bool) -> int:
    """Writes a document, or says whether it is current; the exit status."""
    path = ROOT / name
    if not is_check:
        path.parent.mkdir(parents=True, exist_ok=True)
        path.write_text(wanted, encoding="utf-8")
    elif (had := text_of(path) if path.is_file() else "") != wanted:
        different = difflib.unified_diff(had.splitlines(), wanted.splitlines(), name, "made of the sources", n=0, lineterm="")
        print(f"{name}: not what is made of the sources; `make docs` makes it again", *itertools.islice(different, MOST), sep="\n")
        return 1
    print(f"{said}: {name} is {'current' if is_check else 'written'}")
    return 0


def main(name: str, make: Make, manual: str | None, below: str = "") -> int:
    """Writes or compares a document, by the words of the command line: none, or --check. The exit status.

    One that isn't in git is written below a folder and never compared. Its links to documents that are in git lead there.
    """
    options, name = options_of(manual), os.path.join(below, name)
    if not below:
        options.add_argument("--check", action="store_true", help="write nothing, and say whether the document is current")
    is_check = bool(vars(options.parse_args()).get("check"))
    try:
        lines, said = make()
        if below:
            lines = [re.sub(r"\]\((PROMISES|READING)\.md\)", r"](../../docs/\1.md)", line) for line in lines]
        return put(name, "\n".join(lines) + "\n", said, is_check)
    except (Fault, OSError) as fault:
        print(f"{sys.argv[0]}: {fault}", file=sys.stderr)
        return 2
