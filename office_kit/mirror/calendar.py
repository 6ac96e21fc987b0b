"""The calendars of `tools/mirror` (RFC 5545): deadlines, openings, ends of standstills and of the validity of tenders, in the office's language."""
import datetime
import re

from office_kit.mirror.feeds import address
from office_kit.mirror.office import Notice
from office_kit.mirror.tables import award_rows, tender_rows

TOLD = {"en": {"deadline": "Deadline for tenders", "standstill": "End of the standstill", "validity": "Tenders are valid until here"},
        "de": {"deadline": "Angebotsfrist", "standstill": "Ende der Stillhaltefrist", "validity": "Ende der Bindefrist"}}
HEAD = "BEGIN:VCALENDAR\r\nVERSION:2.0\r\nPRODID:-//Vechumsa//mirror//EN\r\nMETHOD:PUBLISH\r\nREFRESH-INTERVAL;VALUE=DURATION:PT1H\r\n"


def later(moment: str, days: int) -> str:
    at = datetime.datetime.strptime(moment, "%Y-%m-%dT%H:%M:%SZ") + datetime.timedelta(days)
    return at.strftime("%Y-%m-%dT%H:%M:%SZ")


def days_of(notice: Notice) -> list[tuple[str, str, str]]:
    """The next moments of a notice: an identifier, the name of its words, and the moment."""
    terms = notice.terms
    if terms["state"] == "receiving":
        return [("deadline", "deadline", terms["deadline"])]
    states = {lot["id"]: lot["state"] for lot in terms["lots"]}
    awards = [it for it in award_rows(notice) if it["status"] == "active" and states[it["lot"]] == "awarded" and terms["standstill_days"]]
    is_open = {"undecided", "awarded"} & set(states.values())
    return [*((f"standstill-{it['award']}", "standstill", later(it["date"], terms["standstill_days"])) for it in awards),
            *([("validity", "validity", later(terms["deadline"], terms["validity_days"]))] if is_open else [])]


def folded(line: str) -> str:
    """A line as RFC 5545 has it: at most 75 bytes, and more on lines that begin with a space."""
    parts, part = list[str](), ""
    for sign in line:
        if len((part + sign).encode()) > 73:
            parts, part = [*parts, part], ""
        part += sign
    return "\r\n ".join([*parts, part]) + "\r\n"


def quoted(text: str) -> str:
    return re.sub(r"([\\;,])", r"\\\1", text).replace("\n", "\\n")


def events_of(base: str, language: str, notice: Notice) -> str:
    made = ""
    for name, told, moment in days_of(notice):
        at, title = re.sub(r"[-:]", "", moment), f"{notice.row['title']} ({notice.name})"
        lines = ["BEGIN:VEVENT", f"UID:{notice.compiled['ocid']}-{name}", f"DTSTAMP:{re.sub(r'[-:]', '', notice.releases[-1]['date'])}", f"DTSTART:{at}",
                 f"SEQUENCE:{len(notice.releases)}", f"SUMMARY:{TOLD[language][told]}: {quoted(title)}", f"URL:{address(base, language, notice.name)}",
                 "TRANSP:TRANSPARENT", "END:VEVENT"]
        made += "".join(map(folded, lines))
    return made


def calendars(base: str, language: str, notices: list[Notice]) -> dict[str, str]:
    """One of all, one for each budget line, and one for each firm whose tender was opened. Only notices in which something is to come have events."""
    found: dict[str, str] = {"deadlines.ics": ""}
    for notice in notices:
        text, rows = events_of(base, language, notice), tender_rows(notice)
        names = {*(f"line-{lot['line']}" for lot in notice.terms["lots"]), *(f"firm-{row['tenderer']}" for row in rows)}
        for path in ["deadlines.ics", *(f"calendars/{name}.ics" for name in sorted(names))] if text else []:
            found[path] = found.get(path, "") + text
    return {path: f"{HEAD}{text}END:VCALENDAR\r\n" for path, text in found.items()}


EMPTY = f"{HEAD}END:VCALENDAR\r\n"
