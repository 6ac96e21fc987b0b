"""The questions of tests/desks/test_portal.py beyond single views: German, open data, the search, many notices, paper, and an office without a mirror."""
import json
import os
from pathlib import Path
from typing import Any

from office_kit.client import text_of
from office_kit.desks.browser import Page
from office_kit.desks.page_checks import FOUND, NARROWEST, VIEWS, WIDEST, fits, has_contrast, is_quiet, is_within, page_of, printed_to, texts_of
from office_kit.desks.page_office import SCRIPT, mirror
from office_kit.desks.scene import Scene
from office_kit.mirror.tables import table

# The notices of an office that has run for some years, and the seconds of the page's own work within which they are shown.
MANY, LONGEST = 500, 1.0
# The first of the seconds in which they were published.
PUBLISHED = 1_767_225_600
# The paths below /data/ that the test asks for, each with its type.
FILES = {"": "text/html; charset=utf-8", "notices.csv": "text/csv; charset=utf-8", "releases.jsonl": "application/jsonl; charset=utf-8",
         "feed.atom": "application/atom+xml", "records/N1.json": "application/json", "minutes/N1.txt": "text/plain; charset=utf-8",
         "releases.jsonl.gz": "application/gzip", "mirror.json": "application/json"}


def german(scene: Scene) -> None:
    """By the browser's language, and by hand, all views are German; none is wider than the window, and no text is missing."""
    page = Page(scene.browser, 1280)
    page.ask("Emulation.setUserAgentOverride", userAgent="a browser", acceptLanguage="de-AT,de")
    for name, place in VIEWS.items():
        page.shape(1280)
        page.go(scene.front.address(place))
        assert page.run("document.documentElement.lang") == "de", name
        assert "see." not in page.text(), "it shows names of texts"
        fits(name, page, NARROWEST, WIDEST)
        page.picture(os.path.join(scene.pictures, f"{name}-german.png"))
    page.go(scene.front.address())
    page.run("document.querySelector('#languages [lang=en]').click()")
    page.wait("document.documentElement.lang === 'en' && document.querySelector('h1').textContent === 'Procurements'")
    assert page.run("new URLSearchParams(location.search).get('language')") == "en"
    assert page.run("document.activeElement.lang") == "en"
    page.run("[...document.querySelectorAll('nav a')].at(-1).click()")
    page.drawn("location.pathname === '/tender/'")
    assert page.run("document.documentElement.lang") == "en"
    page.run("document.querySelector('footer a').click()")
    page.wait("location.pathname === '/' && document.querySelector('h1')?.textContent === 'About this page'")
    is_quiet(page)


def open_data(scene: Scene) -> None:
    """The mirror's files have their types, and gzip for clients that accept it. The front answers that a file is unchanged, and any site's page may read it. A
    mirror elsewhere, which asks by the net, has the same releases."""
    for name, media in FILES.items():
        answer = scene.front.ask("GET", f"/data/{name}")
        told = answer.status, *(answer.head[field] for field in ("Content-Type", "Cache-Control", "Access-Control-Allow-Origin"))
        assert told == (200, media, "no-cache", "*"), name
        assert scene.front.ask("GET", f"/data/{name}", If_None_Match=answer.head["ETag"]).status == 304, name
    own, elsewhere = Path(scene.front.folder, "mirror", "data"), Path(scene.front.folder, "elsewhere")
    zipped = scene.front.ask("GET", "/data/releases.jsonl", Accept_Encoding="gzip")
    assert zipped.head["Content-Encoding"] == "gzip" and zipped.body == (own / "releases.jsonl.gz").read_bytes()
    mirror(scene.front.address().rstrip("/"), str(elsewhere), SSL_CERT_FILE=scene.front.certificate)
    assert (elsewhere / "releases.jsonl").read_bytes() == (own / "releases.jsonl").read_bytes()
    for path in ("/data/../data.lock", "/data/x/y", "/data/.lock/x", "/data/records/", "/data/earlier/../mirror.json"):
        assert scene.front.ask("GET", path).status == 404, path
    page = Page(scene.browser, 1280)
    page.ask("Page.navigate", url=scene.front.address("data/"))
    page.wait("document.readyState === 'complete' && document.querySelector('tbody')")
    assert page.run("document.querySelectorAll('tbody')[0].rows.length") == 6, "each procurement"
    fits("the index", page, NARROWEST, 1280)
    has_contrast("the index", page)
    page.picture(os.path.join(scene.pictures, "data.png"))
    is_quiet(page)


# By language the links to feeds, and the titles with which the feeds begin.
FEEDS = {"en": {"New procurements as a feed": "New procurements: ", "Everything that happens, as a feed": "What happened in all procurements: "},
         "de": {"Neue Vergaben als Feed": "Neue Vergaben: ", "Alles, was geschieht, als Feed": "Was in allen Vergaben geschah: "}}


def feeds(scene: Scene) -> None:
    """The list leads to a feed of new procurements and to one of everything that happens, each in the spoken language."""
    for language, titles in FEEDS.items():
        page = page_of(scene, f"?language={language}")
        links = dict(page.run("[...document.querySelectorAll('main a[href$=\".atom\"]')].map((at) => [at.textContent, at.pathname])"))
        assert list(links) == list(titles)
        for text, title in titles.items():
            feed = scene.front.ask("GET", links[text]).body.decode()
            assert f"<title>{title}" in feed and f'xml:lang="{language}"' in feed, feed[:200]


# Questions in the address of the list, and the titles that it finds there, or their number.
QUESTIONS: dict[str, set[str] | int] = {
    "words=kerbs": {"Road repair in the north"}, "words=soehne": 3, "words=footbridge+2400": 0, "words=1800": {"Playgrounds"},
    "words=street+lighting+poles": {"Street lamps"}, "order=amount&words=lamps+lights": {"A footbridge over the river"},
    "words=bridge+FOOT": {"A footbridge over the river"}, "words=sohne": 3, "state=cancelled": 2, "line=1800": {"Playgrounds"}, "firm=gamma": 2,
    "from=600000&to=700000": {"Road repair in the north"}, "year=1999": 0, "words=n6": {"Street lamps"}, "words=lamps&line=1500&state=opened": {"Street lamps"}}


def search(scene: Scene) -> None:
    """The search finds words without accents, firms, lines, states and amounts; the address keeps what was asked; a clock runs."""
    page = page_of(scene, "")
    assert texts_of(page, FOUND)[0] == "A footbridge over the river", "open ones come first"
    page.go(scene.front.address("#list?order=amount"))
    found = texts_of(page, f"section:last-of-type {FOUND}")
    assert found[:2] == ["Road repair in the north", SCRIPT] and found[-1] == "Playgrounds"
    for address, wanted in QUESTIONS.items():
        page.go(scene.front.address(f"#list?{address}"))
        found = texts_of(page, FOUND)
        assert wanted == (len(found) if isinstance(wanted, int) else set(found)), address
    page.go(scene.front.address())
    page.fill("by-words", "poles")
    assert page.run("location.hash") == "#list?words=poles" and texts_of(page, FOUND) == ["Street lamps"], "the address keeps what is typed"
    page.go(scene.front.address())
    before = texts_of(page, ".clock")[0]
    page.run("void (Date.now = ((now) => () => now() + 60_000)(Date.now.bind(Date)))")
    page.wait(f"document.querySelector('.clock').textContent !== '{before}'")
    page.go(scene.front.address("#firms?name=gamma"))
    assert texts_of(page, "tbody th a") == ["Gamma O'Neill"]
    page.go(scene.front.address("#ledger"))
    for words, line in (("POOL", "Budget line 2000"), ("3100", "Budget line 3100")):
        page.fill("by-line", words)
        assert texts_of(page, ".lines h3 a") == [line]
    page.go(scene.front.address("#figures"))
    for order, line in {"line": "1100 Roads", "contracted": "1500 Street", "reserved": "1100 Roads", "paid": "1100 Roads"}.items():
        page.run(f"(() => {{ const at = document.getElementById('lines-by'); at.value = '{order}'; at.dispatchEvent(new Event('change')); }})()")
        assert texts_of(page, "#lines-by ~ ul .name, section:has(#lines-by) .bars .name")[0].startswith(line), order
    page.go(scene.front.address("#notice/n6"))
    assert page.run("location.hash") == "#notice/N6" and page.text().startswith("Street lamps\n")
    is_quiet(page)


def many(scene: Scene) -> None:
    """Five hundred notices are shown within a second of the page's work, those that take tenders above, and searched as one types. Tables have three
    lots of each and five firms. (The page gets all as answers. large_checks.py has an office with 400 notices.)"""
    names = [f"M{number:04}" for number in range(MANY)]
    listed = [{"amendments": 0, "deadline": "2099-12-31T23:59:59Z" if name.endswith("0") else "2026-01-02T00:00:00Z", "notice": name, "opened": None,
               "published": text_of(PUBLISHED + at), "releases": 1, "state": "receiving", "title": f"Purchase {name}"} for at, name in enumerate(names)]
    shape = {"state": "receiving", "status": "active", "releases": 1, "running": 0, "currency": "EUR", "buyer": "City", "published": "2026-01-01T00:00:00Z"}
    tables: dict[str, list[dict[str, Any]]] = {
        "notices": [{**shape, "notice": name, "title": name, "estimate": 1000 + at} for at, name in enumerate(names)],
        "lots": [{"notice": name, "lot": f"L{lot}", "title": "A lot", "line": "1100", "estimate": 500} for name in names for lot in range(3)],
        "tenders": [{"notice": name, "lot": "L1", "tenderer": f"T{firm}", "name": f"Firm {firm}"} for name in names for firm in range(5)],
        "budget": [{"line": "1100", "title": "Roads"}]}
    answers = {f"/data/{name}.csv": (200, table(name, rows).encode()) for name, rows in tables.items()}
    page = Page(scene.browser, 1280)
    page.ask("Performance.enable", timeDomain="threadTicks")
    page.answer_for({**answers, "/notices": (200, json.dumps({"next": None, "notices": listed}).encode())})
    page.go(scene.front.address("#list?order=published"))
    took = {it["name"]: it["value"] for it in page.ask("Performance.getMetrics")["metrics"]}["TaskDuration"]
    assert took < LONGEST, "seconds"
    assert texts_of(page, ".count")[0] == f"{MANY} procurements"
    page.run("document.querySelector('.more').click()")
    wanted = [f"Purchase {name}" for name in reversed(names) if name.endswith("0")]
    assert texts_of(page, FOUND)[:MANY // 10] == wanted, "open ones come first, and newest first"
    page.fill("by-words", "m012")
    assert len(texts_of(page, FOUND)) == 10
    page.picture(os.path.join(scene.pictures, "many.png"))
    is_quiet(page)


CITY = {"name": {"en": "Example City", "de": "Beispielstadt"}, "imprint": {"en": ["1 <b>Town</b> Square", "See https://example.org/x, or ask a@example.org."]},
        "privacy": {"de": ["Nichts wird gespeichert."]}}


def city(scene: Scene) -> None:
    """The city's own words are its file's: the name above, its paragraphs as texts with links, in the language in which they exist."""
    own = scene.put("city/city.json", json.dumps(CITY).encode())
    page = page_of(scene, "#about")
    os.unlink(own)
    for text in ("Imprint\n1 <b>Town</b> Square\n", "Privacy\nNichts wird gespeichert.\n", "hasn't filled"):
        assert text in page.text()
    assert texts_of(page, "#site") == ["Example City"] and page.run("document.title").endswith("Example City")
    links = page.run("[...document.querySelectorAll('section a')].map((at) => at.getAttribute('href'))")
    assert links[:2] == ["https://example.org/x", "mailto:a@example.org"]
    assert page.run("[...document.querySelectorAll('main [lang]')].some((at) => at.lang === 'de')"), "its language is told"
    is_quiet(page)


def on_paper(scene: Scene) -> None:
    """On paper, a view has no menus and buttons. Folded parts are printed. The page prints its address and the time by the server's clock."""
    page = page_of(scene, "")
    page.ask("Page.addScriptToEvaluateOnNewDocument", source="Date.now = ((now) => () => now() - 9e11)(Date.now.bind(Date))")
    page.go(scene.front.address("#notice/N1"))
    page.run("document.querySelector('main').append(Object.assign(document.createElement('details'), { textContent: 'folded' }))")
    assert printed_to(page, os.path.join(scene.pictures, "paid.pdf")) > 10_000
    page.ask("Emulation.setEmulatedMedia", media="print")
    page.run("dispatchEvent(new Event('beforeprint'))")
    shown = page.run("['header', 'nav', 'button', '.source', '#foot'].map((at) => Boolean(document.querySelector(at)?.checkVisibility()))")
    assert shown == [False, False, False, True, False]
    assert page.run("[...document.querySelectorAll('details')].every((at) => at.open)"), "what is folded is unfolded"
    assert page.run("[...document.querySelectorAll('main tr, .timeline li')].every((at) => getComputedStyle(at).breakInside === 'avoid')"), "rows may be broken"
    assert page.run("[...document.querySelectorAll('.card')].every((at) => at.getBoundingClientRect().right < innerWidth)"), "a frame is cut"
    told = texts_of(page, ".source")[0]
    assert scene.front.address("#notice/N1") in told and " at " in told and " 199" not in told, told
    page.run("dispatchEvent(new Event('afterprint'))")
    assert page.run("[...document.querySelectorAll('details')].some((at) => !at.open)"), "and folded again"
    is_quiet(page)


def without_mirror(scene: Scene) -> None:
    """If there is no mirror, the list and the notices are shown. Views that need the tables say so, and nothing breaks."""
    page = page_of(scene, "")
    page.answer_for({f"/data/{name}.csv": (404, b"{}") for name in ("notices", "lots", "tenders", "awards", "contracts", "payments", "budget")})
    for place in ("#list", "#firms", "#firm/T1", "#figures", "#line/1100"):
        page.go(scene.front.address(place))
        assert "open data isn't available" in page.text(), place
    page.go(scene.front.address("#list"))
    assert len(texts_of(page, FOUND)) == 6
    page.go(scene.front.address("#ledger"))
    page.wait("[...document.querySelectorAll('.lines h3')].every((at) => at.textContent.includes(': '))")
    assert "Budget line 1100: Roads and bridges" in page.text()
    page.answer_for({f"/data/{name}.csv": (200, table(name, []).encode()) for name in ("notices", "lots", "contracts", "payments", "budget")})
    page.go(scene.front.address("#figures"))
    assert [it for it in ("Nothing has been paid", "No tender has been opened", "No contract has been signed") if f"{it} yet." not in page.text()] == []
    is_quiet(page)


# For each page the module that begins, and one that it imports.
MODULES = {"": ("/page.js", "/common/draw.js"), "tender/": ("/tender/main.js", "/tender/key.js"), "clerk/": ("/clerk/desk.js", "/clerk/today.js")}


def failing_scripts(scene: Scene) -> None:
    """If a module doesn't come, or isn't one, each page says that its scripts didn't come. A fault of a script that runs is reported within the view."""
    for place, (first, other) in MODULES.items():
        for module, answer in ((first, None), (other, None), (other, (200, b"export const nothing = 1;"))):
            page = Page(scene.browser, 1280)
            page.answer_for({module: answer}, "Script")
            page.ask("Page.navigate", url=scene.front.address(place))
            page.wait("document.readyState === 'complete' && document.querySelector('main')")
            assert "scripts didn't come" in page.text() and "Skripte nicht" in page.text(), module
        page = page_of(scene, place, 375)
        page.run("setTimeout(() => { throw new Error('planted'); })")
        page.wait("document.querySelector('main .fault')")
        assert page.text().startswith("Something went wrong in this page.")
        is_within("a fault", 375, page)
    page = Page(scene.browser, 1280)
    page.answer_for({"/clerk/award.js": None}, "Script")
    page.go(scene.front.address("clerk/#notice/N1"))
    assert page.text().startswith("Not shown\nSomething went wrong in this page.")
    page.run("location.hash = '#today'")
    page.wait("document.querySelector('main h1').textContent === 'Today'")
    # (Nobody answers the other files that the page then loads.)
    page.answer_for({})
    page.ask("Page.navigate", url="about:blank")


CHECKS = [german, open_data, feeds, search, many, city, on_paper, failing_scripts, without_mirror]
