"""Checks of tests/desks/test_portal.py: what each view says to eyes, keyboards and screen readers, and that no input breaks it."""
import base64
import contextlib
import itertools
import json
import os
import re
from collections.abc import Callable, Iterator
from pathlib import Path
from typing import Any

from office_kit import client
from office_kit.common import ROOT
from office_kit.desks.browser import Page
from office_kit.desks.page_office import SCRIPT
from office_kit.desks.scene import Scene
from office_kit.front.nginx import OUTSIDE, exchange

SITE = "Public procurement"
# The views, each with its place in the address.
VIEWS = {"list": "", "open": "#notice/N3", "awarded": "#notice/N2", "paid": "#notice/N1", "cancelled": "#notice/N4", "stopped": "#notice/N5",
         "running": "#notice/N6", "budget": "#ledger", "line": "#line/1100", "firms": "#firms", "firm": "#firm/T1", "figures": "#figures", "about": "#about",
         "missing": "#notice/N99"}
WIDTHS, NARROWEST, WIDEST = {"narrow": 375, "wide": 1280}, 320, 1920
# The titles of the list.
FOUND = ".entry-of-list h3"
# The roles that a page has once, and those of elements that must have a name.
LANDMARKS = ("banner", "navigation", "main", "contentinfo")
NAMED = ("link", "button", "textbox", "checkbox", "image", "table", "region", "article", "navigation", "search")
# The number of queries that are more than the front takes from one address at a time, on any machine.
MANY = 2000
# Moments, days, clocks and years, which differ in each run.
DAYS = r"\d{1,2}\.? [A-Z][a-zä]+ \d{4}"
MOVING = [(re.compile(rf"{DAYS} (at|um) \d\d:\d\d:\d\d \w+"), "MOMENT"), (re.compile(rf"{DAYS} (at|um) \d\d:\d\d \w+"), "MINUTE"),
          (re.compile(rf"{DAYS}|\d{{1,2}}\.? [A-Z][a-zä]+(?= – {DAYS})"), "DAY"), (re.compile(r"(?<=Paid in )\w+ \d{4}"), "MONTH"),
          (re.compile(r"closes in [^\n]*"), "closes in CLOCK"), (re.compile(r"([0-9a-f]{8} ){7}[0-9a-f]{8}"), "DIGEST"),
          (re.compile(r"^20\d\d(?=$|:)", re.M), "YEAR")]
ZONE = "Europe/Berlin"
IN_PAGE = Path(__file__).with_name("in_page.js").read_text()


def asked(page: Page, question: str) -> Any:
    return page.run(f"{IN_PAGE.rstrip()}.{question}")


def page_of(scene: Scene, place: str, width: int = 1280) -> Page:
    page = Page(scene.browser, width)
    page.ask("Emulation.setTimezoneOverride", timezoneId=ZONE)
    page.go(scene.front.address(place))
    return page


def texts_of(page: Page, selector: str) -> list[str]:
    return list(page.run(f"[...document.querySelectorAll({json.dumps(selector)})].map((at) => at.textContent)"))


def view(scene: Scene, name: str) -> None:
    """A view: its text, which is left with its pictures; headings, names and landmarks; contrast; no wider than the window. Nothing is kept."""
    page = page_of(scene, VIEWS[name])
    page.wait("[...document.querySelectorAll('.lines h3')].every((heading) => heading.textContent.includes(':'))")
    Path(scene.pictures, f"{name}.txt").write_text(in_rows(without_moments(name, page)))
    says_what_it_should(name, page)
    has_its_own(name, page)
    # (Colours depend on light and dark, and not on the width: each is checked once, and also for each picture.)
    for shape, dark in (("narrow", False), ("wide", True), *((("narrow", True), ("wide", False)) if page.browser.pictures else ())):
        in_shape(scene, name, page, shape, dark)
        tells_all(name, page)
    fits(name, page, NARROWEST)
    keeps_nothing(scene, page)


def in_shape(scene: Scene, name: str, page: Page, shape: str, dark: bool) -> None:
    """A page in a narrow or wide window, light or dark: a picture, contrast, and no wider than the window."""
    page.shape(WIDTHS[shape], dark=dark)
    called = f"{name}-{shape}-{'dark' if dark else 'light'}"
    page.picture(os.path.join(scene.pictures, f"{called}.png"))
    has_contrast(called, page)
    is_within(called, WIDTHS[shape], page)


def in_all_shapes(scene: Scene, name: str, page: Page) -> None:
    """A page in all widths; narrow and wide, also light and dark."""
    fits(name, page, NARROWEST, 768, WIDEST)
    for shape, dark in itertools.product(WIDTHS, (False, True)):
        in_shape(scene, name, page, shape, dark)
    page.shape(WIDTHS["wide"])


def without_moments(name: str, page: Page) -> str:
    """The text of a view, without moments. (The order of notices that were published within a few seconds isn't known before.)"""
    text = moved(page.text())
    return "".join(sorted(text.splitlines(True))) if name == "list" else text


def in_rows(text: str) -> str:
    """A text as `page_texts/` has it: short lines are together in a row, with ¶ between two. (They may also be alone.)"""
    rows: list[str] = []
    for line in text.splitlines():
        if rows and len(line) <= 60 and len(rows[-1]) + len(line) < 150:
            rows[-1] += f" ¶ {line}"
        else:
            rows.append(line)
    return "".join(f"{row}\n" for row in rows)


def moved(text: str) -> str:
    for form, word in MOVING:
        text = form.sub(word, text)
    return text


def sheets(scene: Scene, page: Page, name: str) -> None:
    """In both languages each printed sheet of a view is, as a whole, that of `page_texts/sheets.txt`: a line each, but for moments, digests and addresses."""
    told = []
    for language in ("de", "en"):
        page.run(f"document.querySelector('#languages [lang={language}]').click()")
        page.drawn(f"document.documentElement.lang === '{language}' && document.querySelector('.sheet')")
        page.ask("Emulation.setEmulatedMedia", media="print")
        texts = page.run("[...document.querySelectorAll('.sheet')].map((at) => at.innerText.trim().split(/\\s*[\\n\\t]\\s*/).join(' ¶ '))")
        page.ask("Emulation.setEmulatedMedia", media="")
        told += [f"{name} {language}: {moved(text.replace(scene.front.address(), 'https://ADDRESS/'))}" for text in texts]
    Path(scene.pictures, f"sheets-{name.replace('/', '-')}.txt").write_text("".join(f"{line}\n" for line in told))
    assert told == [line for line in Path(ROOT, "tests", "page_texts", "sheets.txt").read_text().splitlines() if line.startswith(f"{name} ")]


def says_what_it_should(name: str, page: Page) -> None:
    """The text is that of `page_texts/`, except for moments."""
    wanted = Path(ROOT, "tests", "page_texts", f"{name}.txt").read_text()
    assert without_moments(name, page).splitlines() == wanted.replace(" ¶ ", "\n").splitlines()


def has_its_own(name: str, page: Page) -> None:
    """The title is that of the view, and nothing in the page is a script or a mark that came with a text."""
    title = page.run("document.title")
    assert title.endswith(SITE) and (name != "awarded" or title.startswith(SCRIPT)), title
    assert page.run("document.scripts.length === 1 && !document.querySelector('main :is(script, i, img, style)')"), name


def has_contrast(name: str, page: Page) -> None:
    assert asked(page, "pale()") == [], name


def is_within(name: str, width: int, page: Page) -> None:
    """Nothing is wider than the window, and no head of a table wider than its cell. (A phone's `innerWidth` grows with its content.)"""
    assert page.run("document.documentElement.scrollWidth") <= width, name
    # (On a phone the heads are hidden in a pixel.)
    heads = "[...document.querySelectorAll('th')].filter((at) => !(at.closest('thead')?.offsetWidth < 2) && at.scrollWidth > at.clientWidth + 1)"
    assert page.run(f"{heads}.map((at) => at.textContent)") == [], name


def fits(name: str, page: Page, *widths: int) -> None:
    for width in widths:
        page.shape(width)
        page.answer()
        is_within(name, width, page)


def is_read_out(name: str, page: Page) -> list[tuple[str, str, dict[str, Any]]]:
    """A screen reader finds landmarks, one heading of the first level and no level left out. Each thing has a name, each table headers. Returns it all."""
    tree = page.tree()
    roles = [role for role, _, _ in tree]
    assert [roles.count(role) for role in LANDMARKS] == [1] * len(LANDMARKS), name
    levels = [more["level"] for role, _, more in tree if role == "heading"]
    assert levels[0] == 1 and levels.count(1) == 1 and all(below <= level + 1 for level, below in zip(levels, levels[1:])), (name, levels)
    assert [role for role, text, _ in tree if not text and role in NAMED] == [], f"{name}: without a name"
    assert "table" not in roles or {"columnheader", "rowheader"} <= set(roles), name
    return tree


def tells_all(name: str, page: Page) -> None:
    """The portal is read out. The list has a search. Each bar has a text, and no bar is distinguished by its colour alone."""
    tree = is_read_out(name, page)
    roles = [role for role, _, _ in tree]
    assert (roles.count("status"), roles.count("search")) == (1, int(name == "list")), name
    bars = [text for role, text, _ in tree if role == "image"]
    assert len(bars) == page.run("document.querySelectorAll('.bar, .picture').length") and all(re.search(r"\d", text) for text in bars), (name, bars)
    patterns = [pattern.split(" ", 1) for pattern in asked(page, "patterns()")]
    assert len(patterns) == len({kind for kind, _ in patterns}) == len({how for _, how in patterns}), (name, patterns)


def keeps_nothing(scene: Scene, page: Page) -> None:
    """The page sets no cookie, stores nothing and asks no other server. The console has no errors, and the policy is not broken."""
    assert page.ask("Network.getAllCookies")["cookies"] == []
    assert page.run("localStorage.length + sessionStorage.length === 0 && indexedDB.databases().then((all) => all.length === 0)"), "something is stored"
    # (The browser asks no server for the parts of its own fields.)
    urls = {event["request"]["url"] for event in page.events("Network.requestWillBeSent")}
    assert [url for url in urls if not url.startswith((scene.front.address(), "about:", "data:"))] == []
    assert any(url.startswith(scene.front.address()) for url in urls)
    is_quiet(page)


def is_quiet(page: Page) -> None:
    """The console has no faults, except the browser's own about refusals. (The test itself moves a script elsewhere, and newer browsers report that.)"""
    faults = page.events("Runtime.exceptionThrown", "Runtime.consoleAPICalled", "Audits.issueAdded")
    assert [event for event in faults if "NavigationEntryMarkedSkippable" not in str(event)] == []
    assert [event for event in page.events("Log.entryAdded") if event["entry"]["source"] != "network"] == []


def focused(page: Page, slack: int = 0) -> Any:
    return asked(page, f"focused({slack})")


def tab(page: Page) -> Any:
    """The element that has the focus after a tab: its name, and whether it is seen."""
    page.press("Tab")
    return focused(page)


def printed_to(page: Page, path: str) -> int:
    """The page on paper of A4, as a PDF that is saved: its bytes."""
    paper = base64.b64decode(page.ask("Page.printToPDF", paperWidth=8.27, paperHeight=11.69)["data"])
    assert paper.startswith(b"%PDF-")
    return Path(path).write_bytes(paper)


# The elements to which tabs lead from the top of the list: links by their texts, fields and buttons by their names.
ORDER = ["skip", "Procurements", "Budget", "Firms", "Figures", "About", "For tenderers", "English", "Deutsch", "by-words", "Filters",
         "by-state", "by-year", "by-line", "by-firm", "by-from", "by-to", "by-order", "Search", "A footbridge over the river"]


def keyboard(scene: Scene) -> None:
    """The keyboard reaches and uses everything, in the order of the page, and the element with the focus is seen."""
    page = page_of(scene, "")
    order = [tab(page) for _ in ORDER]
    page.picture(os.path.join(scene.pictures, "focus-wide-light.png"))
    assert order == [[name, True] for name in ORDER]
    page.press("Enter")
    page.wait("document.title.startsWith('A footbridge')")
    assert focused(page)[0] == "A footbridge over the river"
    page.go(scene.front.address("#ledger"))
    page.run("[...document.querySelectorAll('main .lines a')].at(-1).focus()")
    assert tab(page)[0].startswith("Show more")
    page.press("Enter")
    assert focused(page)[0] == "Budget line 3100"
    assert page.run("document.querySelectorAll('main h3').length === 22 && !document.querySelector('.more').checkVisibility()"), "the other lines are shown"
    page.go(scene.front.address())
    page.press("Tab")
    page.press("Enter")
    assert focused(page)[0] == "content"
    assert tab(page) == ["by-words", True]
    page.type("n1")
    page.press("Enter")
    page.wait("document.title.startsWith('Road repair')")
    assert focused(page)[0] == "Road repair in the north"
    is_quiet(page)


def is_seen(page: Page) -> None:
    """The elements to which the first tabs lead are seen."""
    assert [name for name, seen in (tab(page) for _ in range(3)) if not seen] == []


# Faults that are planted in any screen: the change of the page, and the check above that must find it.
COMMON_PLANTS: list[tuple[str, Callable[[Scene, Page], None]]] = [
    ("document.querySelector('main h1').style.color = '#ddd'", lambda _, page: has_contrast("planted", page)),
    ("document.querySelector('main').style.width = '2000px'", lambda _, page: is_within("planted", 1280, page)),
    ("console.log('x')", lambda _, page: is_quiet(page)),
    ("localStorage.setItem('x', 'y')", keeps_nothing),
    ("document.cookie = 'x=y'", keeps_nothing),
]
# And in a view of the portal.
PLANTS: list[tuple[str, Callable[[Scene, Page], None]]] = [
    *COMMON_PLANTS,
    ("document.querySelector('main h2').append(' x')", lambda _, page: says_what_it_should("paid", page)),
    ("Object.assign(document.querySelector('main table').style, { tableLayout: 'fixed', width: '9rem' })", lambda _, page: is_within("planted", 1280, page)),
    ("document.querySelector('main dd, main td').remove()", lambda _, page: says_what_it_should("paid", page)),
    ("document.title = 'Another'", lambda _, page: has_its_own("paid", page)),
    ("document.body.append(document.createElement('script'))", lambda _, page: has_its_own("paid", page)),
    ("document.querySelector('main').append(document.createElement('i'))", lambda _, page: has_its_own("paid", page)),
    ("document.querySelector('main').append(Object.assign(document.createElement('h1'), {textContent: 'x'}))", lambda _, page: tells_all("paid", page)),
    ("document.querySelector('main').append(document.createElement('button'))", lambda _, page: tells_all("paid", page)),
    ("document.querySelectorAll('th').forEach((at) => at.replaceWith(document.createElement('td')))", lambda _, page: tells_all("paid", page)),
    ("document.querySelectorAll('.part, .swatch').forEach((at) => { at.style.background = '#333'; })", lambda _, page: tells_all("paid", page)),
    ("document.querySelectorAll('.span').forEach((at) => { at.style.strokeDasharray = at.style.fill = 'none'; })", lambda _, page: tells_all("paid", page)),
    ("document.styleSheets[0].insertRule('* { outline: none !important; }')", lambda _, page: is_seen(page)),
    ("new Promise((done) => { setTimeout(() => { throw new Error('x'); }); setTimeout(done, 50); })", lambda _, page: is_quiet(page)),
    ("new Promise((done) => { indexedDB.open('x').onsuccess = done; }).then(() => 0)", keeps_nothing),
]


def refusals() -> Iterator[tuple[int, bytes]]:
    """The rows of the table of docs/API.md: the answer of each refusal, as a status and a body."""
    rows = re.findall(r"^\| (\d+) \| `(\w+)` \| (\d+) \|([^|]*)\|", Path(ROOT, "docs", "API.md").read_text(), re.M)
    assert len(rows) == 32
    for number, name, status, what in rows:
        for word in re.findall(r"`(\w+)`", what) if name == "NoSuch" else [None]:
            yield int(status), json.dumps({"name": name, "refusal": int(number), **({"what": word} if word else {})}).encode()


KINDS_OF_LOOKS = ("record", "releases", "terms", "minutes", "evaluation")


def sentence(page: Page, notice: str, answer: tuple[int, bytes] | None) -> str:
    """The sentence that the page shows if its requests for a notice get this answer."""
    page.answer_for({**{f"/notices/{notice}/{name}": answer for name in KINDS_OF_LOOKS}, "/notices": (200, b'{"next":null,"notices":[]}')})
    page.run(f"document.querySelector('main').replaceChildren(); location.hash = '#notice/{notice}'")
    page.drawn("document.querySelector('main h1')")
    head, rest, *_ = page.text().split("\n")
    assert head == "Not shown" and re.fullmatch(r"[A-Z].*\.", rest) and "answered with the status" not in rest, (answer, rest)
    assert page.run("document.getElementById('status').textContent") == rest, "it isn't read out"
    return rest


def each_refusal(scene: Scene) -> None:
    """The page shows each refusal of the office as a sentence of its own, and errors of the front, of the net and of a notice's number as sentences."""
    page = page_of(scene, "")
    told = {answer: sentence(page, f"R{at}", answer) for at, answer in enumerate(refusals())}
    assert len(set(told.values())) == len(told), told
    others = [*((status, b'{"front":"no"}') for status in (403, 404, 413, 502, 503, 504)), (502, b"<html><b>no</b></html>"), (200, b"{"),
              (200, b'{"records":[]}'), None]
    for at, answer in enumerate(others):
        sentence(page, f"F{at}", answer)
    # (The page may still ask for files of the mirror, which nobody waits for.)
    page.answer_for({})
    for text in ("N 1", "a/b", "..", "x" * 33, "<b>", "%00", "é"):
        page.run(f"location.hash = '#notice/' + encodeURIComponent({json.dumps(text)})")
        page.wait("document.querySelector('main').textContent.includes('not a valid number')")
        page.run("location.hash = '#about'")
        page.wait("document.querySelector('h1').textContent.startsWith('About')")


def long_texts(scene: Scene) -> None:
    """Texts of the greatest length, without a space and of either direction, and the greatest amounts: nothing is wider than the window."""
    answers = {}
    for name in KINDS_OF_LOOKS:
        text = scene.front.ask("GET", f"/notices/N1/{name}").body.decode()
        text = re.sub(r'"(title|name|rationale|description|streetAddress)":"(?:[^"\\]|\\.)*"', lambda found: f'"{found[1]}":"\u202e{"W" * 197}"', text)
        text = re.sub(r'"amount":\d+', '"amount":999999999999', text)
        text = re.sub(r"^(tender\t\d+\tT\d)\t[^\t]*\t[^\t]*", r"\1\t" + "W" * 200 + r"\t" + "M" * 200, text, flags=re.M)
        answers[f"/notices/N9/{name}"] = (200, text.encode())
    answers["/notices"] = (200, json.dumps({"next": None, "notices": [{"amendments": 50, "deadline": "2099-12-31T23:59:59Z", "notice": "W" * 32,
        "opened": None, "published": "2026-01-01T00:00:00Z", "releases": 9999, "state": "receiving", "title": "\u202e" + "W" * 197}] * 3}).encode())
    answers["/ledger"] = (200, b"LEDGER\nline\n" + b"".join(b"%s\t999999999999999\t1\t2\t3\t999999999999993\n" % (b"W" * 32) for _ in range(3)))
    answers["/lines/" + "W" * 32] = (200, json.dumps({"title": "M" * 200}).encode())
    page = page_of(scene, "")
    page.answer_for(answers)
    for name, place in (("long", "#notice/N9"), ("large", "#ledger"), ("many", "#list")):
        page.go(scene.front.address(place))
        fits(name, page, NARROWEST, *WIDTHS.values())
        page.picture(os.path.join(scene.pictures, f"{name}-wide-light.png"))
        assert asked(page, "turning()") == [], name
    is_quiet(page)


def without_scripts(scene: Scene, place: str = "", *texts: str) -> None:
    """If scripts are turned off, the page says where the answers are."""
    page = Page(scene.browser, WIDTHS["narrow"])
    page.ask("Emulation.setScriptExecutionDisabled", value=True)
    page.ask("Page.navigate", url=scene.front.address(place))
    page.wait("document.readyState === 'complete' && document.querySelector('main')")
    assert [text for text in texts or ("/notices/NUMBER/record",) if text not in page.text()] == []


def injected(scene: Scene) -> None:
    """If the page had a fault, an attacker could still do little: no markup is made of texts, no script in the page runs, no other server is asked."""
    def breaches() -> list[Any]:
        told = [event["issue"]["details"].get("contentSecurityPolicyIssueDetails", {}) for event in page.events("Audits.issueAdded")]
        return [details.get("violatedDirective") for details in told]
    page = page_of(scene, "")
    elsewhere = f"https://{OUTSIDE}:{scene.front.port}/ledger"
    styled = "Object.assign(document.createElement('style'), {onload: yes, onerror: no, textContent: '*{}'})"
    harms = {"document.body.innerHTML = '<img src=x onerror=hurt()>'": "require-trusted-types-for",
             "document.body.append(Object.assign(document.createElement('script'), {textContent: 'hurt()'}))": "require-trusted-types-for",
             f"await new Promise((yes, no) => document.body.append({styled}))": "style-src-elem", f"await fetch('{elsewhere}')": "connect-src",
             f"await new Promise((yes, no) => Object.assign(new Image(), {{onload: yes, onerror: no}}).src = '{elsewhere}')": "img-src"}
    for harm, directive in harms.items():
        assert page.run(f"(async () => {{ {harm}; }})().then(() => false, () => true)"), f"{harm} is done"
        page.expect(f"{harm} is refused by {directive}", lambda: directive in breaches())
    assert page.run("typeof hurt === 'undefined' && document.scripts.length === 1"), "a script of a text ran"


def office_away(scene: Scene) -> None:
    """If the office is gone, the front says so, and so does the page. It shows the ledger that the mirror has, and the list."""
    scene.stop()
    # The checks before used up what one address may ask at once. So the front may answer 429 first, until its count has run down.
    answer = client.Front(scene.front.address().rstrip("/"), scene.front.context, strict=False).send("GET", "/lines/78", b"", None)
    assert answer.status == 502 and b"front" in answer.body
    told = "The register isn't answering at the moment."
    assert page_of(scene, "#notice/N78").text() == f"Not shown\n{told} Try again in a few minutes.\nTry again\nProcurements\n"
    for place, text in (("#ledger", "All 22 budget lines\nAppropriation 44,"), ("#list", "6 procurements\n"), ("#notice/N1", "All contracts ended\n")):
        said = page_of(scene, place).text()
        assert text in said and f"\n{told}\nSo this page shows what" in said, place


def too_often(scene: Scene) -> None:
    """If a client asks too often, the front says so. The page waits as long as the front says, and then draws."""
    with contextlib.closing(scene.front.connection()) as connection:
        # (A busy machine asks more slowly, and each second ten more queries are free)
        for _ in range(MANY):
            answer = exchange(connection, "GET", "/lines/77")
            if answer.status == 429:
                break
    assert answer.status == 429 and b"front" in answer.body
    assert page_of(scene, "#notice/N77").text().startswith("Not shown\nThere is no notice with this number.")


CHECKS, LAST = [keyboard, each_refusal, long_texts, without_scripts, injected], [too_often, office_away]
