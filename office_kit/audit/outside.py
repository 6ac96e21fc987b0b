"""The rules of `tools/audit` for public answers without a file: minutes and ledger compared with releases, notices with one another."""
import re
from collections.abc import Iterator

from office_kit.audit.answers import Answers
from office_kit.audit.office import Found, Json, rule
from office_kit.audit.story import Story

POTS = ("reserved", "contracted", "paid")


class Seen:
    """The answers about some notices. For each notice: its releases, their story, its minutes or None, and its terms and evaluation if there are any. For all:
    the list of notices or None; the ledgers from before and after these answers, or None; and whether these are all notices of the office."""

    def __init__(self, releases: dict[str, list[Json]], answers: Answers, ledgers: tuple[str | None, str | None], complete: bool) -> None:
        self.releases, self.ledgers, self.complete, self.listed = releases, ledgers, complete, answers.listed_before()
        self.stories = {notice: Story(notice, there) for notice, there in releases.items()}
        self.minutes = {notice: answers.of_notice(notice, "minutes") for notice in releases}
        self.terms = {notice: terms for notice in releases if (terms := answers.terms(notice)) is not None}
        self.evaluations = {notice: text for notice in releases if (text := answers.of_notice(notice, "evaluation")) is not None}


class Minutes:
    """The content of minutes: title, deadline and opening, the title of each lot, and the fields of each tender."""

    def __init__(self, text: str) -> None:
        lines = [line.split("\t") for line in text.split("\n")]
        (self.notice, self.title), (self.deadline,), (self.opened,) = (line[1:] for line in lines[:3])
        self.shape = [line[0] for line in lines]
        self.lots: dict[str, str] = {}
        self.tenders: list[Tender] = []
        for line in lines[3:-2]:
            if line[0] == "lot":
                lot, self.lots[line[1]] = line[1], line[2]
            else:
                self.tenders.append(Tender(lot, *line[1:]))


class Tender:
    def __init__(self, lot: str, receipt: str, tenderer: str, name: str, address: str, reading: str, *figures: str) -> None:
        self.lot, self.receipt, self.tenderer, self.known, self.reading = lot, int(receipt), "T-" + tenderer, (name, address), reading
        self.stated, self.corrected, self.corrections = map(int, figures) if reading == "priced" else (-1, -1, -1)

    def is_read(self) -> bool:
        """Whether its figures can come from a reading."""
        return self.reading in ("unreadable", "nonconforming") or self.reading == "priced" and (self.corrections > 0 or self.stated == self.corrected)


def read_minutes(text: str) -> Minutes | None:
    """The minutes, or None if the text has another form."""
    try:
        found = Minutes(text)
    except (ValueError, TypeError, UnboundLocalError):
        return None
    middle = set(found.shape[3:-2])
    return found if found.shape[:3] == ["MINUTES", "deadline", "opened"] and found.shape[-2:] == ["END", ""] and middle <= {"lot", "tender"} else None


def pots_of(ledger: str) -> dict[str, int] | None:
    """The sums of a ledger that are reserved, contracted and paid, of all lines together; None if it has another form."""
    lines = [line.split("\t") for line in ledger.split("\n")[2:-1]]
    if not ledger.startswith("LEDGER\n") or not all(len(line) == 6 and all(re.fullmatch("[0-9]{1,16}", number) for number in line[1:]) for line in lines):
        return None
    return dict(zip(POTS, ([sum(int(line[place]) for line in lines) for place in (3, 4, 5)])))


# ---- Minutes.

def minutes_found(minutes: Minutes, story: Story) -> Iterator[str]:
    said, told = [minutes.notice, minutes.title, minutes.deadline, minutes.opened], [story.notice, story.title, story.deadline, str(story.opened)]
    if said != told:
        yield f"the minutes say {', '.join(said)}, and the releases {', '.join(told)}"
    if list(minutes.lots.items()) != sorted((lot, told["title"]) for lot, told in story.lots.items()):
        yield f"the minutes have the lots {minutes.lots}, and the releases others"
    there = {tender.tenderer: tender.known for tender in minutes.tenders}
    for tenderer in sorted(there.keys() | story.tenderers.keys()):
        if there.get(tenderer) != story.tenderers.get(tenderer):
            yield f"{tenderer} is {there.get(tenderer)} in the minutes, and {story.tenderers.get(tenderer)} in the releases"
    for tender in minutes.tenders:
        if not tender.is_read():
            yield f"tender {tender.receipt} is {tender.reading}, {tender.stated}, {tender.corrected}, {tender.corrections}"
    for lot in minutes.lots:
        here = [tender for tender in minutes.tenders if tender.lot == lot]
        receipts = [tender.receipt for tender in here]
        if sorted(set(receipts)) != receipts or len({tender.tenderer for tender in here}) < len(here):
            yield f"the tenders of lot {lot} aren't sorted, or two are of one tenderer"
    for number, award in story.awards.items():
        prices = [tender.corrected for tender in minutes.tenders if (tender.lot, tender.tenderer) == (award["lot"], award["tenderer"])]
        if prices != [award["price"]]:
            yield f"award {number} is of {award['price']} to {award['tenderer']}, and the minutes say {prices}"


@rule("outside")
def minutes_are_of_the_releases(seen: Seen) -> Found:
    """Minutes and releases agree on title, deadline, opening, lots, tenderers and awarded prices; only opened notices have minutes."""
    for notice, story in seen.stories.items():
        text = seen.minutes[notice]
        if text is not None and story.opened is None:
            yield f"notices {notice}", "minutes are answered, and no release has its opening"
        elif text is not None:
            minutes = read_minutes(text)
            for what in ["the minutes have another form"] if minutes is None else minutes_found(minutes, story):
                yield f"notices {notice}", what


# ---- The ledger.

@rule("outside")
def ledger_covers_the_releases(seen: Seen) -> Found:
    """Releases reserve, contract and pay no more than all lines of the ledger have; with all notices, exactly as much."""
    before, after = (pots_of(ledger or "") for ledger in seen.ledgers)
    if before is None or after is None:
        return
    sums = dict(zip(POTS, map(sum, zip(*(story.sums() for story in seen.stories.values())))))
    for pot, told in sums.items():
        # The paid sum only grows. The reserved and contracted sums rise and fall, so they are compared only if nothing moved meanwhile.
        if (pot == "paid" or before == after) and not (before[pot] if seen.complete else 0) <= told <= after[pot]:
            yield "office 1", f"{pot}: the releases of {'all' if seen.complete else 'these'} notices say {told}, and the ledger {after[pot]}"


# ---- The notices together.

@rule("outside")
def awards_are_told_in_turn(seen: Seen) -> Found:
    """Each award number occurs in one notice, and in the order of the numbers dates never fall; with all notices, none is missing."""
    told = sorted((int(number), award["date"], notice) for notice, story in seen.stories.items() for number, award in story.awards.items())
    for (before, earlier, other), (number, date, notice) in zip(told, told[1:]):
        if number == before or date < earlier:
            yield f"notices {notice}", f"award {number} is of {date}, and award {before} of {other} of {earlier}"
    numbers = {number for number, _, _ in told}
    left = sorted(set(range(1, max(numbers, default=0))) - numbers)
    if seen.complete and left:
        yield "office 1", f"no notice has the awards {left}"


@rule("outside")
def receipts_are_told_in_turn(seen: Seen) -> Found:
    """Each receipt is in one notice's minutes; a later one isn't in a notice whose deadline came before the other's notice was published."""
    minutes = {notice: read_minutes(text) for notice, text in seen.minutes.items() if text is not None}
    told = sorted((tender.receipt, notice) for notice, found in minutes.items() if found for tender in found.tenders)
    latest, last = ("", 0, ""), 0
    for receipt, notice in told:
        story = seen.stories[notice]
        if receipt == last:
            yield f"notices {notice}", f"receipt {receipt} occurs twice"
        if story.deadline < latest[0]:
            yield f"notices {notice}", f"receipt {receipt} came by {story.deadline}, and receipt {latest[1]} of {latest[2]} from {latest[0]} on"
        latest, last = max(latest, (story.published, receipt, notice)), receipt


@rule("outside")
def tenderers_are_known_alike(seen: Seen) -> Found:
    """A tenderer has the same name and address in all notices: a registration never changes."""
    known: dict[str, tuple[str, tuple[str, str]]] = {}
    for notice, story in seen.stories.items():
        for tenderer, what in story.tenderers.items():
            first, there = known.setdefault(tenderer, (notice, what))
            if there != what:
                yield f"notices {notice}", f"{tenderer} is {what}, and {there} in {first}"


def lacks_minutes(answers: Answers, notice: str, releases: list[Json]) -> bool:
    """Whether the releases of a notice have its opening, and there are no minutes."""
    return Story(notice, releases).opened is not None and answers.of_notice(notice, "minutes") is None
