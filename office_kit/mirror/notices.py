"""A page of HTML for each procurement: for search engines, previews of links, paper, and readers without scripts. Its texts are those of the screens."""
import html
import json
from xml.sax.saxutils import quoteattr

from office_kit.audit.answers import MIRRORED
from office_kit.mirror.events import LANGUAGES, event, money, number, say, state_of, time_of
from office_kit.mirror.feeds import address, author, summary
from office_kit.mirror.office import KEPT, Json, Notice
from office_kit.mirror.tables import Cell, award_rows, lot_rows, tender_rows

# The style of these pages besides the portal's (page.css), which other hosts of the files may not have.
STYLE = """td.number, th.number { text-align: end; font-variant-numeric: tabular-nums; }
nav { display: flex; flex-wrap: wrap; gap: 0 1.25rem; }
@media print {
  @page { margin: 2cm; }
  header, nav { display: none; }
  h2, h3 { break-after: avoid; }
  tr, li { break-inside: avoid; }
  .source a::after { content: " (" attr(href) ")"; }
}
"""
# The words of these pages that no screen has.
WORDS = {"en": {"item": "Item", "quantity": "Quantity", "sum": "Sum after corrections", "portal": "This procurement in the portal", "record": "Record (OCDS)",
                "terms": "Terms", "minutes": "Minutes of the opening", "evaluation": "Evaluation", "data": "Open data", "what": "What"},
         "de": {"item": "Posten", "quantity": "Menge", "sum": "Summe nach Berichtigung", "portal": "Diese Vergabe im Portal", "record": "Datensatz (OCDS)",
                "terms": "Bedingungen", "minutes": "Niederschrift der Öffnung", "evaluation": "Wertung", "data": "Offene Daten", "what": "Was"}}
# The most letters of a description that a search engine or a preview shows.
MOST = 300


def text(given: Cell) -> str:
    """A text of the office: in its own direction, and no markup."""
    return f"<bdi>{html.escape(str(given))}</bdi>"


def structured(base: str, language: str, notice: Notice, now: str) -> str:
    """A procurement as schema.org describes it: a demand of an organization. (A script of this type isn't run; `<` can't end it.)"""
    tender = notice.compiled["tender"]
    offered = [{"@type": "Product", "name": item["description"]} for item in tender.get("items", [])]
    price = {"@type": "PriceSpecification", "price": tender["value"]["amount"], "priceCurrency": tender["value"]["currency"]}
    demand: Json = {
        "@type": "Demand", "@id": f"urn:ocds:{notice.compiled['ocid']}", "identifier": notice.compiled["ocid"], "name": notice.row["title"],
        "description": summary(language, notice, now), "url": address(base, language, notice.name), "validFrom": notice.row["published"],
        "availabilityStarts": notice.row["published"], "validThrough": notice.row["deadline"], "availabilityEnds": notice.row["deadline"],
        "priceSpecification": price, "itemOffered": offered}
    told = {"@context": "https://schema.org", "@type": "GovernmentOrganization", "name": author([notice]), "seeks": demand}
    return json.dumps(told, ensure_ascii=False, sort_keys=True).replace("<", "\\u003c")


def head(base: str, language: str, notice: Notice, now: str) -> str:
    title = f"{notice.row['title']} ({notice.name})"
    bought = ", ".join(item["description"] for item in notice.compiled["tender"].get("items", []))
    told = f"{summary(language, notice, now)} {say(language, 'see.items')}: {bought}" if bought else summary(language, notice, now)
    told = told if len(told) <= MOST else told[:MOST - 1] + "…"
    own = address(base, language, notice.name)
    preview = {"og:type": "website", "og:title": title, "og:description": told, "og:url": own, "og:site_name": author([notice]), "og:locale": language}
    others = "".join(f'<link rel="alternate" hreflang="{tag}" href={quoteattr(address(base, tag, notice.name))}>\n' for tag in LANGUAGES)
    return f"""<!DOCTYPE html>
<html lang="{language}">
<head>
<meta charset="utf-8">
<meta name="viewport" content="width=device-width, initial-scale=1">
<meta name="color-scheme" content="light dark">
<title>{html.escape(title)} – {html.escape(author([notice]))}</title>
<meta name="description" content={quoteattr(told)}>
{"".join(f'<meta property="{name}" content={quoteattr(value)}>{chr(10)}' for name, value in preview.items())}<meta name="twitter:card" content="summary">
<link rel="canonical" href={quoteattr(own)}>
{others}<link rel="alternate" type="application/atom+xml" href="notices.atom">
<link rel="stylesheet" href="/page.css">
<link rel="stylesheet" href="../notices.css">
<script type="application/ld+json">{structured(base, language, notice, now)}</script>
</head>
"""


def facts(rows: list[tuple[str, str]]) -> str:
    return '<dl class="terms">\n' + "".join(f"<dt>{html.escape(name)}</dt><dd>{value}</dd>\n" for name, value in rows) + "</dl>\n"


def lot(language: str, notice: Notice, row: Json, tenders: list[Json], titles: dict[str, str]) -> str:
    """A lot: its budget line and money, what is bought, and the tenders that were opened."""
    words = WORDS[language]

    def amount(value: int) -> str:
        return html.escape(money(language, {"amount": value, "currency": row["currency"]}))
    told = [(say(language, "see.line"), text(f"{row['line']} {titles.get(row['line'], '')}".strip())), (say(language, "see.estimate"), amount(row["estimate"]))]
    if row["security"]:
        told.append((say(language, "see.security.asked"), amount(row["security"])))
    if row["winner_name"]:
        told.append((say(language, "see.head.awarded"), f"{text(row['winner_name'])}, {amount(row['price'])}"))
    if row["contract"]:
        told += [(say(language, "see.contract", contract=row["contract"]), say(language, "see.runs" if row["contract_status"] == "active" else "see.ended")),
                 (say(language, "see.worth" if row["contract_status"] == "active" else "see.worth.end"), amount(row["worth"])),
                 (say(language, "see.paid"), amount(row["paid"]))]
    elif row["status"] in ("cancelled", "unsuccessful"):
        told.append((say(language, "see.state"), say(language, f"see.is.{row['status']}")))
    (items,) = [it["items"] for it in notice.terms["lots"] if it["id"] == row["lot"]]
    bought = "".join(f'<tr><td>{text(it["id"])}</td><td>{text(it["title"])}</td><td class="number">{number(language, it["quantity"])}</td></tr>\n'
                     for it in items)
    made = (f"<h3>{html.escape(say(language, 'see.lot', lot=row['lot']))}: {text(row['title'])}</h3>\n{facts(told)}<table>\n<caption>"
            f"{say(language, 'see.items')}</caption>\n<thead><tr><th>{words['item']}</th><th>{words['what']}</th>"
            f"<th class=\"number\">{words['quantity']}</th></tr></thead>\n<tbody>\n{bought}</tbody>\n</table>\n")
    if not tenders:
        return made
    awards = {it["tenderer"]: it for it in award_rows(notice) if it["lot"] == row["lot"]}
    found = {it["receipt"]: outcome(it, row, awards) for it in tenders}
    best = sorted(tenders, key=lambda it: (found[it["receipt"]] != "won", it.get("corrected", float("inf")), int(it["receipt"])))
    opened = "".join(f'<tr><td>{text(it["name"])}</td><td>{number(language, int(it["receipt"]))}</td><td class="number">{price_of(language, it)}</td>'
                     f"<td>{html.escape(say(language, 'see.outcome.' + found[it['receipt']]))}</td></tr>\n" for it in best)
    return made + (f"<table>\n<caption>{say(language, 'see.tenders')}</caption>\n<thead><tr><th>{say(language, 'see.tenderer')}</th>"
                   f"<th>{say(language, 'see.tender.receipt', receipt='').strip()}</th><th class=\"number\">{words['sum']}</th>"
                   f"<th>{say(language, 'see.found')}</th></tr></thead>\n<tbody>\n{opened}</tbody>\n</table>\n")


def outcome(tender: Json, lot: Json, awards: dict[str, Json]) -> str:
    """The result of an opened tender of a lot, as the screens name it (`see.outcome.*`). `awards` has the last award of each tenderer of this lot."""
    award, is_open = awards.get(tender["tenderer"]), lot["status"] == "active" and not lot["winner"]
    if tender["reading"] != "priced":
        return str(tender["reading"])
    if award:
        return "won" if award["status"] == "active" else "awardended" if lot["status"] == "cancelled" else "passed"
    if tender.get("answer") == "unresponsive" or tender.get("standing") == "failed":
        return "unresponsive" if tender.get("answer") == "unresponsive" else "late"
    if is_open:
        return "admissible" if tender.get("answer") else "waits"
    return "unexamined" if not tender.get("answer") else "notchosen" if awards else "undecided"


def price_of(language: str, row: Json) -> str:
    """The sum of a tender, or why it has none."""
    if row["reading"] != "priced":
        return html.escape(say(language, f"see.why.{row['reading']}"))
    return html.escape(money(language, {"amount": row["corrected"], "currency": row["currency"]}))


def portal_of(base: str, language: str, notice: Notice) -> str:
    return f"{base}/?language={language}#notice/{notice.name}"


def sources(base: str, language: str, notice: Notice) -> str:
    """The answers of which the page is made, and the portal."""
    links = [(f"../{folder}/{notice.name}{KEPT[folder]}", WORDS[language][kind]) for kind, folder in MIRRORED.items() if folder in notice.texts]
    links.append((portal_of(base, language, notice), WORDS[language]["portal"]))
    return '<ul class="source">\n' + "".join(f"<li><a href={quoteattr(link)}>{html.escape(name)}</a></li>\n" for link, name in links) + "</ul>\n"


def page_of(base: str, language: str, notice: Notice, now: str, titles: dict[str, str]) -> str:
    """The page of a procurement in a language; `titles` are those of budget lines. (It has no moment of the run: it stays the same while nothing happens.)"""
    tender, lots, tenders = notice.compiled["tender"], list(lot_rows(notice)), tender_rows(notice)
    told = [(say(language, "see.notice"), text(notice.name)), (say(language, "see.buyer"), text(author([notice]))),
            (say(language, "see.state"), html.escape(say(language, f"see.state.{state_of(notice, now)}"))),
            (say(language, "see.published"), time_of(language, notice.row["published"], is_day=True)),
            (say(language, "see.deadline"), time_of(language, notice.row["deadline"])),
            (say(language, "see.estimate"), html.escape(money(language, tender["value"])))]
    if tender.get("numberOfTenderers") is not None:
        told.append((say(language, "see.tenderers"), number(language, tender["numberOfTenderers"])))
    happened = "".join("<li><b>{}</b>, {}: {}</li>\n".format(html.escape(name), time_of(language, release["date"], is_day=True), text(what))
                       for release in notice.releases for name, what in [event(language, notice, release)])
    others = ", ".join(f'<a href={quoteattr(f"../{tag}/{notice.name}.html")} hreflang="{tag}" lang="{tag}">{name}</a>'
                       for tag, name in LANGUAGES.items() if tag != language)
    each = "".join(lot(language, notice, row, [it for it in tenders if it["lot"] == row["lot"]], titles) for row in lots)
    return f"""{head(base, language, notice, now)}<body>
<header>
<p class="site">{html.escape(author([notice]))}</p>
<nav><a href="{html.escape(portal_of(base, language, notice))}">{WORDS[language]["portal"]}</a>
<a href="../index.html">{WORDS[language]["data"]}</a> {others}</nav>
</header>
<main>
<h1>{text(notice.row["title"])}</h1>
{facts(told)}<h2>{say(language, "see.lots.title")}</h2>
{each}<h2>{say(language, "see.happened")}</h2>
<ol>
{happened}</ol>
<h2>{say(language, "see.raw")}</h2>
{sources(base, language, notice)}</main>
</body>
</html>
"""
