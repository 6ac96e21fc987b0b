"""The office that `tools/screens` shows: a city that repairs the roof of a school. school_roof.toml has its lots, the firms and their prices."""
import tomllib
from collections.abc import Iterable
from datetime import datetime
from pathlib import Path
from zoneinfo import ZoneInfo

from office_kit.client import tender
from office_kit.common import CONFIG

STORY = tomllib.loads(Path(__file__).with_suffix(".toml").read_text(encoding="utf-8"))
ROOF, FIRMS, LOTS = STORY["roof"], STORY["firms"], STORY["lots"]
ZONE = "Europe/Berlin"


def settings() -> str:
    text = Path(CONFIG).read_text(encoding="utf-8")
    for old, new in STORY["settings"].items():
        text = text.replace(old, new)
    return text


def at(text: str) -> float:
    """The second of a moment in the city's time, written as `2026-01-12 09:14`."""
    return datetime.fromisoformat(text).replace(tzinfo=ZoneInfo(ZONE)).timestamp()


def table() -> str:
    """The lots as a sheet has them, with a row for each item."""
    rows = ["Lot\tTitle of the lot\tBudget line\tEstimate\tTender security\tItem\tTitle\tQuantity"]
    for name, lot in LOTS.items():
        head = f"{name}\t{lot['title']}\t2110\t{lot['estimate']}\t{lot['security']}"
        for number, (title, quantity) in enumerate(lot["items"], 1):
            rows.append(f"{head}\t{lot['letter']}{number}\t{title}\t{quantity}")
            head = "\t" * 4
    return "\n".join(rows) + "\n"


def offer_of(name: str, units: Iterable[int], wrong: int = 0) -> str:
    return tender(*zip((quantity for _, quantity in LOTS[name]["items"]), units), wrong=wrong).replace("\nI", f"\n{LOTS[name]['letter']}")
