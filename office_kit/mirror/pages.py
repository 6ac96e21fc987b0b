"""The index of `tools/mirror` for readers: a table of all procurements that needs no script, and the files."""
import html
import json
from typing import Any
from xml.sax.saxutils import quoteattr

from office_kit.mirror.columns import COLUMNS, GUARD, MEANS, OTHERS, TABLES, licence_of
from office_kit.mirror.events import LANGUAGES, say, state_of, time_of
from office_kit.mirror.feeds import author
from office_kit.mirror.office import Json, Notice

# The number of items that the index names of each procurement, and of procurements that it lists beside the open ones.
MOST, NEWEST = 10, 100
# This says what the mirror's own files have.
OWN = {"datapackage.json": "The type and the meaning of each column of each table (Frictionless Data Package).",
       "ledger.txt": "The ledger, as the office answered it.", "chain.txt": "A line for each release that was seen here, with digests."}
# The files of which the index says the length and the digest.
FILES = [*(f"{name}.csv" for name in COLUMNS), "releases.jsonl", "compiled.jsonl", "datapackage.json", "ledger.txt", "chain.txt"]
# The head of the index, a page of HTML.
HEAD = """<!DOCTYPE html>
<html lang="en">
<head>
<meta charset="utf-8">
<meta name="viewport" content="width=device-width, initial-scale=1">
<meta name="color-scheme" content="light dark">
<title>Open data of the procurement office</title>
<link rel="stylesheet" href="/page.css">
<link rel="alternate" type="application/atom+xml" title="New procurements" href="notices.atom">
<link rel="alternate" type="application/atom+xml" title="What happened" href="feed.atom">
"""
WORDS = """<p>Everything that this office has published: the procurements below, and files to download. Amounts are whole units of the currency. Times
in tables and in files for programs are UTC.</p>
<p lang="de">Alles, was diese Vergabestelle veröffentlicht hat: unten die Vergaben, dazu Dateien zum Herunterladen. Beträge sind ganze Einheiten der
Währung. Zeiten in Tabellen und in Dateien für Programme sind UTC.</p>"""
COLUMN_NAMES = "<thead><tr><th>Procurement</th><th>State</th><th>Deadline</th><th>Estimate</th></tr></thead>\n"
WITNESS = """<p>The chain has a line for each release that was seen here. Each line has the SHA-256 of all lines before it. Keep today's last line, and you can
show later whether anything published until now was changed. <code>tools/mirror URL FOLDER</code> keeps such a copy for you and reports changes.</p>"""


def page(base: str, told: dict[str, tuple[int, str]], notices: list[Notice], rows: dict[str, Json], head: str, city: Json, now: str) -> str:
    """The index. `told` are lengths and digests of files. `notices` are the newest and the open ones at least, and `rows` are the rows of all. `head` is the
    last digest of the chain, and `city` are the city's own words."""
    files = [(name, *told[name]) for name in FILES]
    return f"""{HEAD}<script type="application/ld+json">{dataset(base, notices, city)}</script>
</head>
<body>
<main>
<h1>Open data of the procurement office</h1>
{WORDS}
<p>From <a href={quoteattr(base)}>{html.escape(base)}</a>. Something changed last at {now}; <code>mirror.json</code> has the time of the last question.</p>
{licence_told(city)}<p>Follow: <a href="en/notices.atom">new procurements</a>, <a href="en/feed.atom">everything that happened</a>,
<a href="deadlines.ics">a calendar of what is to come</a> (for one budget line <code>calendars/line-LINE.ics</code>, for one firm
<code>calendars/firm-TENDERER.ics</code>).</p>
<p lang="de">Folgen: <a href="de/notices.atom">neue Vergaben</a>, <a href="de/feed.atom">alles, was geschah</a>,
<a href="deadlines.ics">ein Kalender der kommenden Termine</a>.</p>
<h2>Procurements</h2>
<p>Here are those that take tenders, and the newest. All of a year: {years_told(rows)}.</p>
<table>
{COLUMN_NAMES}<tbody>
{"".join(notice_row(one, now) for one in ordered(notices, now))}</tbody>
</table>
<h2>Tables</h2>
<p>For people: any spreadsheet opens them. {GUARD}</p>
<p lang="de">Für deutsches Excel und LibreOffice: die Tabellen in <code>de/</code>, mit Semikolons und Tagen wie 31.12.2026:
{", ".join(f'<a href="de/{name}.csv" hreflang="de">{name}.csv</a>' for name in COLUMNS)}.</p>
{files_table([it for it in files if it[0].endswith(".csv")])}{"".join(columns_told(name) for name in COLUMNS)}<h2>Files for programs</h2>
{files_table([it for it in files if not it[0].endswith(".csv")])}<p>There are also <code>records/NOTICE.json</code>, <code>terms/NOTICE.json</code>,
<code>minutes/NOTICE.txt</code> and <code>evaluations/NOTICE.txt</code>, as the office answered them, and the ledger of each day,
<code>ledgers/YYYY-MM-DD.txt</code>.</p>
<h2>The chain</h2>
{WITNESS}
<p>Its last digest: <code>{head}</code></p>
</main>
</body>
</html>
"""


def files_table(files: list[tuple[str, int, str]]) -> str:
    means = {**{f"{name}.csv": text for name, text in MEANS.items()}, **OTHERS, **OWN}
    rows = [f"<tr><td><a href={quoteattr(name)}>{html.escape(name)}</a></td><td>{html.escape(means[name])}</td><td>{length:,}</td>"
            f"<td><code>{digest}</code></td></tr>\n" for name, length, digest in files]
    return ("<table>\n<thead><tr><th>File</th><th>What it has</th><th>Bytes</th><th>SHA-256</th></tr></thead>\n<tbody>\n"
            f"{''.join(rows)}</tbody>\n</table>\n")


def columns_told(name: str) -> str:
    """The meaning of each column of a table, folded."""
    rows = "".join(f"<dt><code>{html.escape(column)}</code></dt><dd>{html.escape(means)}</dd>\n" for column, (_, means) in TABLES[name].items())
    return f"<details><summary>The columns of {html.escape(name)}.csv</summary>\n<dl>\n{rows}</dl>\n</details>\n"


def ordered(notices: list[Notice], now: str) -> list[Notice]:
    """Open procurements first, with the nearest deadline first, then the others, the newest first."""
    newest = sorted(notices, key=lambda one: (one.row["published"], one.name), reverse=True)
    return sorted((one for one in newest if state_of(one, now) == "open"), key=lambda one: str(one.row["deadline"])) + [
        one for one in newest[:NEWEST] if state_of(one, now) != "open"]


def dataset(base: str, notices: list[Notice], city: dict[str, Any]) -> str:
    """The data as schema.org describes it: a data set with its files. (A script of this type isn't run; `<` can't end it.)"""
    files = [{"@type": "DataDownload", "name": name, "contentUrl": f"{base}/data/{name}.csv", "encodingFormat": "text/csv"} for name in COLUMNS]
    licence = [it.get("path") or it["name"] for it in licence_of(city)]
    told = {"@context": "https://schema.org", "@type": "Dataset", "name": f"Procurements: {author(notices)}", "url": f"{base}/data/",
            "description": "Notices, lots, items, tenders, awards, contracts, payments and budget lines of a procurement office, as it published them.",
            "creator": {"@type": "GovernmentOrganization", "name": author(notices)}, "isAccessibleForFree": True, "distribution": files,
            **({"license": licence[0]} if licence else {})}
    return json.dumps(told, ensure_ascii=False, sort_keys=True).replace("<", "\\u003c")


def licence_told(city: dict[str, Any]) -> str:
    for it in licence_of(city):
        name = html.escape(it.get("title") or it.get("name") or it["path"])
        path = it.get("path", "")
        return f"<p>Licence of the data: {f'<a href={quoteattr(path)}>{name}</a>' if path.startswith(('https://', 'http://')) else name}</p>\n"
    return ""


def year_of(row: Json) -> str:
    return str(row["published"])[:4]


def years_told(rows: dict[str, Json]) -> str:
    return ", ".join(f'<a href="notices-{year}.html">{year}</a>' for year in sorted({year_of(row) for row in rows.values()}, reverse=True)) or "–"


def years(buyer: str, currency: str | None, rows: dict[str, Json], known: dict[str, Json]) -> dict[str, str]:
    """A page for each year, with all procurements that were published in it, the newest first."""
    found: dict[str, list[str]] = {}
    for name, row in sorted(rows.items(), key=lambda it: (it[1]["published"], it[0]), reverse=True):
        others = "".join(f', <a href="{tag}/{name}.html" hreflang="{tag}">{told}</a>' for tag, told in LANGUAGES.items() if tag != "en")
        found.setdefault(year_of(row), []).append(
            f'<tr><td><a href="en/{name}.html">{html.escape(name)}</a> <bdi>{html.escape(row["title"])}</bdi>{others}</td>'
            f"<td>{say('en', 'see.state.' + known[name]['state'])}</td><td>{time_of('en', row['deadline'])}</td>"
            f"<td>{known[name]['amount']:,} {html.escape(currency or '')}</td></tr>\n")
    return {f"notices-{year}.html": f"""{HEAD}</head>
<body>
<main>
<h1>Procurements of {year}: {html.escape(buyer)}</h1>
<p><a href="index.html">Open data</a></p>
<table>
{COLUMN_NAMES}<tbody>
{"".join(lines)}</tbody>
</table>
</main>
</body>
</html>
""" for year, lines in found.items()}


def notice_row(one: Notice, now: str) -> str:
    value, state = one.compiled["tender"]["value"], say("en", f"see.state.{state_of(one, now)}")
    link = f"<a href={quoteattr(f'en/{one.name}.html')}>{html.escape(one.name)}</a> <bdi>{html.escape(one.row['title'])}</bdi>"
    more = [f'<a href={quoteattr(f"{tag}/{one.name}.html")} hreflang="{tag}">{name}</a>' for tag, name in LANGUAGES.items() if tag != "en"]
    files = (("records", "json", "record"), ("minutes", "txt", "minutes"), ("evaluations", "txt", "evaluation"))
    more += [f"<a href={quoteattr(f'{folder}/{one.name}.{end}')}>{word}</a>" for folder, end, word in files if folder in one.texts]
    items = [item["description"] for item in one.compiled["tender"].get("items", [])]
    bought = html.escape(", ".join(items[:MOST]) + (" …" if len(items) > MOST else ""))
    return (f"<tr><td>{link}<br><bdi>{bought}</bdi><br>{', '.join(more)}</td><td>{state}</td><td>{time_of('en', one.row['deadline'])}</td>"
            f"<td>{value['amount']:,} {html.escape(value['currency'])}</td></tr>\n")
