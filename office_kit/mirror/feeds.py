"""The feeds of `tools/mirror` (RFC 4287), the sitemap and robots.txt. notices.atom has the notices, feed.atom everything that happened."""
from xml.sax.saxutils import escape, quoteattr

from office_kit.mirror.events import LANGUAGES, event, language_of, money, moment, say, state_of
from office_kit.mirror.office import Json, Notice

# The number of entries in a feed, the newest first. Notices that take tenders are all in theirs.
NEWEST = 100
# The most addresses in one sitemap (sitemaps.org).
MOST = 50_000
TITLES = {"en": {"notices": "New procurements", "feed": "What happened in all procurements"},
          "de": {"notices": "Neue Vergaben", "feed": "Was in allen Vergaben geschah"}}


def author(notices: list[Notice]) -> str:
    return str(notices[0].compiled["buyer"]["name"]) if notices else "The procurement office"


def address(base: str, language: str, name: str) -> str:
    return f"{base}/data/{language}/{name}.html"


def summary(language: str, notice: Notice, now: str) -> str:
    """A procurement in a few sentences: its state, its size and its deadline."""
    tender, state = notice.compiled["tender"], state_of(notice, now)
    lots, amount = say(language, "see.count.lots", count=len(tender["lots"])), money(language, tender["value"])
    deadline = moment(language, notice.row["deadline"])
    told = f"{lots}. {say(language, 'see.estimate')}: {amount}. {say(language, 'see.deadline')}: {deadline}."
    # (Only an open notice still takes tenders.)
    told = say(language, "see.told.published", lots=lots, amount=amount, deadline=deadline) if state == "open" else told
    return f"{say(language, f'see.state.{state}')}. {told}"


def entry(link: str, number: str, title: str, published: str, updated: str, told: str) -> str:
    return (f"<entry>\n<id>{escape(number)}</id>\n<title>{escape(title)}</title>\n<updated>{escape(updated)}</updated>\n"
            f"<published>{escape(published)}</published>\n<link href={quoteattr(link)}/>\n<summary>{escape(told)}</summary>\n</entry>\n")


def feed_of(base: str, path: str, language: str, kind: str, notices: list[Notice], entries: list[tuple[str, str]], now: str) -> str:
    """A feed with these entries, each with its moment."""
    updated = max((at for at, _ in entries), default=now)
    own = f"{base}/data/{path}"
    return (f'<?xml version="1.0" encoding="utf-8"?>\n<feed xmlns="http://www.w3.org/2005/Atom" xml:lang="{language}">\n<id>{escape(own)}</id>\n'
            f"<title>{escape(TITLES[language][kind])}: {escape(author(notices))}</title>\n<updated>{escape(updated)}</updated>\n"
            f"<author><name>{escape(author(notices))}</name></author>\n<link rel=\"self\" href={quoteattr(own)}/>\n<link href={quoteattr(base + '/')}/>\n"
            f"{''.join(text for _, text in entries)}</feed>\n")


def of_notices(base: str, path: str, language: str, notices: list[Notice], now: str) -> str:
    """An entry for each of the newest notices, and for each that takes tenders. It is updated when the deadline moves."""
    newest = sorted(notices, key=lambda one: (one.row["published"], one.name), reverse=True)
    entries = []
    for place, one in enumerate(newest):
        if place < NEWEST or state_of(one, now) == "open":
            moved = [release["date"] for release in one.releases if "tender" in release["tag"] or "tenderAmendment" in release["tag"]][-1]
            number, title = f"urn:ocds:{one.compiled['ocid']}", f"{one.row['title']} ({one.name})"
            told = summary(language, one, now)
            entries.append((moved, entry(address(base, language, one.name), number, title, one.row["published"], moved, told)))
    return feed_of(base, path, language, "notices", notices, entries, now)


def of_events(base: str, path: str, language: str, notices: list[Notice], now: str) -> str:
    releases = sorted(((release["date"], release["id"], one, release) for one in notices for release in one.releases), key=lambda it: it[:2], reverse=True)
    entries = [(date, entry(address(base, language, one.name), f"urn:ocds:{number}", f"{head}: {one.row['title']} ({one.name})", date, date, told))
               for date, number, one, release in releases[:NEWEST] for head, told in [event(language, one, release)]]
    return feed_of(base, path, language, "feed", notices, entries, now)


def feeds(base: str, notices: list[Notice], now: str) -> dict[str, str]:
    """Both feeds in each language, and at the top in the office's language."""
    places = [("", language_of(notices)), *((f"{language}/", language) for language in LANGUAGES)]
    made = [(f"{folder}{kind}.atom", of, language) for folder, language in places for kind, of in (("notices", of_notices), ("feed", of_events))]
    return {path: of(base, path, language, notices, now) for path, of, language in made}


def sitemaps(base: str, known: dict[str, Json]) -> dict[str, str]:
    """The sitemap, with the page of each procurement in each language; with more than 50,000 addresses an index of several. And robots.txt, which names it."""
    begun = '<?xml version="1.0" encoding="utf-8"?>\n'
    names = 'xmlns="http://www.sitemaps.org/schemas/sitemap/0.9" xmlns:xhtml="http://www.w3.org/1999/xhtml"'
    pages = []
    for name, it in known.items():
        others = "".join(f'<xhtml:link rel="alternate" hreflang="{tag}" href={quoteattr(address(base, tag, name))}/>' for tag in LANGUAGES)
        pages += [f"<url><loc>{escape(address(base, tag, name))}</loc><lastmod>{escape(it['last'])}</lastmod>{others}</url>\n" for tag in LANGUAGES]
    parts = [pages[at:at + MOST] for at in range(0, len(pages), MOST)]
    maps = [f"{begun}<urlset {names}>\n{''.join(part)}</urlset>\n" for part in parts or [[]]]
    robots = {"robots.txt": f"User-agent: *\nDisallow: /clerk/\nSitemap: {base}/data/sitemap.xml\n"}
    if len(maps) == 1:
        return {"sitemap.xml": maps[0], **robots}
    listed = "".join(f"<sitemap><loc>{escape(base)}/data/sitemap-{at}.xml</loc></sitemap>\n" for at in range(1, len(maps) + 1))
    return {**{f"sitemap-{at}.xml": text for at, text in enumerate(maps, 1)},
            "sitemap.xml": f'{begun}<sitemapindex xmlns="http://www.sitemaps.org/schemas/sitemap/0.9">\n{listed}</sitemapindex>\n', **robots}
