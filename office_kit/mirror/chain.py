"""The chain of `tools/mirror`, and comparisons with it. It has a line for each release that was seen at any time, each with the digest of all lines before it.

A line is `CHAIN\tMOMENT\tNOTICE\tNUMBER\tDIGEST`: when the release was first seen, which one it is, and the SHA-256 of its text. The text is as the office
writes it: compact JSON, members sorted by name, in UTF-8. CHAIN is the SHA-256 of the previous line's CHAIN, a tab, and the rest of this line; before the first
line it is 64 zeros. If a release is gone or has changed, and that was accepted, it has another line, with the word `gone` or its new digest.
"""
import hashlib
from typing import Any, NamedTuple

from office_kit.audit.office import difference
from office_kit.mirror.office import Notice, text_of

FIRST, GONE = "0" * 64, "gone"


class Finding(NamedTuple):
    """A release that changed: when it was first seen, its digest then, and now (`gone` if it is missing). If the folder still has it as it was, also the first
    place that differs, with the value there now and before."""

    notice: str
    number: int
    seen: str
    before: str
    after: str
    where: tuple[str, str, str] | None = None

    def told(self) -> str:
        place = "{} is {}, and was {}; ".format(*self.where) if self.where else ""
        what = "is GONE" if self.after == GONE else f"has CHANGED: {place}SHA-256 is {self.after} now"
        return f"release {self.number} of {self.notice} {what}; as it was published, seen {self.seen}, it was {self.before}"

    def placed(self, here: list[Any], before: list[Any]) -> "Finding":
        """The same with the first place that differs: `here` are the notice's releases now, `before` those that the folder has."""
        if self.after == GONE or self.number > len(before) or digest_of_release(before[self.number - 1]) != self.before:
            return self
        return self._replace(where=difference(here[self.number - 1], before[self.number - 1]))


def digest_of(text: str) -> str:
    return hashlib.sha256(text.encode()).hexdigest()


def digest_of_release(release: Any) -> str:
    return digest_of(text_of(release))


class Chain:
    """The lines so far, and by notice and number the last digest of each release and when it was seen."""

    def __init__(self, text: str) -> None:
        self.lines, self.head = [line for line in text.split("\n") if line], FIRST
        self.broken: int | None = None
        self.seen: dict[str, dict[int, tuple[str, str]]] = {}
        # (Each run reads it all: after ten years of a city it has some 70,000 lines.)
        for number, line in enumerate(self.lines, 1):
            head, *words = line.split("\t")
            if self.broken is None and (len(words) != 4 or head != digest_of(self.head + line[len(head):])):
                self.broken = number
            self.head = head
            moment, notice, count, digest = words if len(words) == 4 else (words + [""] * 4)[:4]
            self.seen.setdefault(notice, {})[int(count) if count.isdigit() else 0] = (digest, moment)

    def add(self, moment: str, notice: str, number: int, digest: str) -> None:
        rest = f"{moment}\t{notice}\t{number}\t{digest}"
        self.head = digest_of(f"{self.head}\t{rest}")
        self.lines.append(f"{self.head}\t{rest}")
        self.seen.setdefault(notice, {})[number] = (digest, moment)

    def text(self) -> str:
        return "".join(f"{line}\n" for line in self.lines)

    def compared(self, name: str, releases: list[Any]) -> list[Finding]:
        """The changes of a notice: `releases` are those that the office has of it now."""
        now = {number: digest_of_release(release) for number, release in enumerate(releases, 1)}
        known = {number: it for number, it in self.seen.get(name, {}).items() if it[0] != GONE}
        return [Finding(name, number, moment, digest, now.get(number, GONE)) for number, (digest, moment) in sorted(known.items())
                if now.get(number) != digest]

    def take(self, notice: Notice) -> int:
        """Adds the releases of a notice that are new or changed; returns how many these were."""
        added = 0
        for number, release in enumerate(notice.releases, 1):
            digest = digest_of_release(release)
            if self.seen.get(notice.name, {}).get(number, ("", ""))[0] != digest:
                self.add(notice.looked, notice.name, number, digest)
                added += 1
        return added
