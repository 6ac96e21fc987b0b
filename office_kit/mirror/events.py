"""The events of a procurement in sentences: one for each release. The texts are those of the screens (web/common/en.js and de.js).

The tags are those of web/common/timeline.js, in the same order.
"""
import datetime
import functools
import html
import json
import os
import re
import sys
import zoneinfo
from collections.abc import Iterable
from typing import Any

from office_kit.mirror.office import Json, Notice

# The languages of the screens, each with its name and the forms of its numbers and days.
LANGUAGES = {"en": "English", "de": "Deutsch"}
GROUPS = {"en": ",", "de": "."}
MONTHS = {"en": "January February March April May June July August September October November December",
          "de": "Januar Februar März April Mai Juni Juli August September Oktober November Dezember"}
DAYS, AT = {"en": "{0} {1} {2}", "de": "{0}. {1} {2}"}, {"en": "at", "de": "um"}
# The German abbreviations of time zones, as browsers write them.
ZONES = {"CET": "MEZ", "CEST": "MESZ", "EET": "OEZ", "EEST": "OESZ", "WET": "WEZ", "WEST": "WESZ"}
TEXTS = os.path.join(os.path.dirname(os.path.dirname(os.path.dirname(os.path.realpath(__file__)))), "web", "common")
LINE = re.compile(r'\s*("[A-Za-z0-9_.]+": (?:"(?:[^"\\]|\\.)*"|\[.*\])),?')


@functools.cache
def texts(language: str) -> dict[str, Any]:
    """The texts of the screens by name. Each is a line of the file: a text, or a pair of texts for one and for more."""
    with open(os.path.join(TEXTS, f"{language}.js"), encoding="utf-8") as file:
        found = [it for line in file if (it := LINE.fullmatch(line.rstrip("\n")))]
    made: dict[str, Any] = json.loads("{" + ",".join(it[1] for it in found) + "}")
    return made


def number(language: str, value: int) -> str:
    return f"{value:,}".replace(",", GROUPS[language])


def say(language: str, text_name: str, /, **values: str | int) -> str:
    """A text of the screens with its values filled in. Of a pair it is the first if `count` is 1, else the second."""
    text = texts(language)[text_name]
    if isinstance(text, list):
        text = text[0 if values.get("count") == 1 else 1]
    shown = {key: number(language, value) if isinstance(value, int) else value for key, value in values.items()}
    return re.sub(r"\{(\w+)\}", lambda it: shown[it[1]], text)


def money(language: str, value: Json) -> str:
    return f"{number(language, value['amount'])} {value['currency']}"


class Zone:
    """The time zone of all pages and feeds: the city's, as city.json names it, or else UTC. (A file can't know the zone of its reader's browser.)"""

    own: datetime.tzinfo = datetime.timezone.utc

    @classmethod
    def use(cls, name: object) -> None:
        try:
            cls.own = zoneinfo.ZoneInfo(str(name)) if name else datetime.timezone.utc
        except (zoneinfo.ZoneInfoNotFoundError, ValueError, OSError):
            print(f"mirror: there is no time zone {name}, so times are UTC", file=sys.stderr)
            cls.own = datetime.timezone.utc


def moment(language: str, text: str, is_day: bool = False) -> str:
    """A moment of the office as the screens write it: a deadline to the second, and what is past by its day alone."""
    try:
        at = datetime.datetime.strptime(text, "%Y-%m-%dT%H:%M:%SZ").replace(tzinfo=datetime.timezone.utc).astimezone(Zone.own)
    except (ValueError, OverflowError):
        return text
    day = DAYS[language].format(at.day, MONTHS[language].split()[at.month - 1], f"{at.year:04}")
    zone = at.strftime("%Z")
    return day if is_day else f"{day} {AT[language]} {at.strftime('%H:%M:%S')} {ZONES.get(zone, zone) if language == 'de' else zone}"


def time_of(language: str, text: str, is_day: bool = False) -> str:
    """The same as HTML. Its title has the whole moment."""
    return f'<time datetime="{html.escape(text)}" title="{html.escape(moment(language, text))}">{html.escape(moment(language, text, is_day))}</time>'


def lots_told(language: str, compiled: Json, names: Iterable[str]) -> str:
    titles = {lot["id"]: lot.get("title") for lot in compiled["tender"]["lots"]}
    told = [f"{name} ({titles[name]})" if titles.get(name) else name for name in names]
    return f"{say(language, 'see.lots', count=len(told))} {', '.join(told)}"


def change_told(language: str, contract: Json) -> str:
    """The change of a contract, which the office writes in English, without groups and currency."""
    said = str(contract["amendments"][0]["description"])
    found = re.fullmatch(r"(Raised|Cut) by ([0-9]+)", said)
    amount = money(language, {**contract["value"], "amount": int(found[2])}) if found else ""
    return say(language, "see.raised" if found[1] == "Raised" else "see.cut", amount=amount) if found else said


def told_by(tag: str, language: str, compiled: Json, release: Json) -> tuple[str, dict[str, str | int]]:
    """The sentence of a release with this tag: the end of its name (`see.told.*`) and its values. (An award or a contract that ends has only its number.)"""
    tender, award, contract = release.get("tender", {}), *(release.get(name, [{}])[0] for name in ("awards", "contracts"))
    amount, lots = functools.partial(money, language), functools.partial(lots_told, language, compiled)
    match tag:
        case "tender":
            size = say(language, "see.count.lots", count=len(tender["lots"]))
            return "published", {"lots": size, "amount": amount(tender["value"]), "deadline": moment(language, tender["tenderPeriod"]["endDate"])}
        case "tenderAmendment":
            return "amended", {"deadline": moment(language, tender["tenderPeriod"]["endDate"])}
        case "tenderUpdate" if tender.get("numberOfTenderers") is not None:
            return "opened" if tender["numberOfTenderers"] else "none", {"count": tender["numberOfTenderers"]}
        case "tenderUpdate" | "tenderCancellation":
            return "nobody" if tag == "tenderUpdate" else "cancelled", {"lots": lots(lot["id"] for lot in tender["lots"])}
        case "award":
            return "awarded", {"lots": lots(award["relatedLots"]), "name": award["suppliers"][0]["name"], "amount": amount(award["value"])}
        case "awardCancellation":
            (award,) = [it for it in compiled["awards"] if it["id"] == award["id"]]
            return "passed", {"lots": lots(award["relatedLots"]), "name": award["suppliers"][0]["name"]}
        case "contract":
            return "signed", {"contract": contract["id"], "amount": amount(contract["value"])}
        case "contractAmendment":
            return "changed", {"contract": contract["id"], "change": change_told(language, contract), "amount": amount(contract["value"])}
        case "implementation":
            payment = contract["implementation"]["transactions"][0]
            return "paid", {"contract": contract["id"], "name": payment["payee"]["name"], "amount": amount(payment["value"])}
    (contract,) = [it for it in compiled["contracts"] if it["id"] == contract["id"]]
    paid = sum(it["value"]["amount"] for it in contract.get("implementation", {}).get("transactions", []))
    return "ended", {"contract": contract["id"], "paid": amount({**contract["value"], "amount": paid}), "amount": amount(contract["value"])}


# The tags of releases. If a release has more than one, the first one here counts.
TAGS = ("tenderCancellation", "awardCancellation", "tenderAmendment", "contractAmendment", "contractTermination", "implementation", "contract", "award",
        "tenderUpdate", "tender")


def event(language: str, notice: Notice, release: Json) -> tuple[str, str]:
    """The head and the sentences of a release. A release with an unknown tag shows its tags."""
    tag = next((tag for tag in TAGS if tag in release["tag"]), None)
    if tag is None:
        return ", ".join(release["tag"]), ""
    name, values = told_by(tag, language, notice.compiled, release)
    amended = [part for part in (release.get("tender", {}), *release.get("contracts", [])) if "amendments" in part]
    reasons = [say(language, "see.reason", text=part["amendments"][0]["rationale"]) for part in amended]
    return say(language, f"see.head.{'opened' if name == 'none' else name}"), " ".join([say(language, f"see.told.{name}", **values), *reasons])


def state_of(notice: Notice, now: str) -> str:
    """The state of a procurement at a moment, as the screens name it (`see.state.*`). Moments are compared as texts."""
    if notice.row["state"] == "receiving":
        return "open" if now <= notice.row["deadline"] else "waiting"
    tender = notice.compiled["tender"]
    status = "cancelled" if notice.row["state"] == "cancelled" else str(tender["status"])
    if status == "active":
        awarded = {lot for award in notice.compiled.get("awards", []) if award["status"] == "active" for lot in award["relatedLots"]}
        return "awarded" if all(lot["status"] != "active" or lot["id"] in awarded for lot in tender["lots"]) else "opened"
    is_running = any(contract["status"] == "active" for contract in notice.compiled.get("contracts", []))
    return "running" if status == "complete" and is_running else status


def language_of(notices: list[Notice]) -> str:
    """The office's language, if the screens speak it; else English."""
    told = str(notices[0].releases[0].get("language", "en")) if notices else "en"
    return told if told in LANGUAGES else "en"
