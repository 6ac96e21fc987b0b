"""Checks of the portal and of the tenderer's desk in an office of 400 notices (clerk_large.py), with its mirror beside it: each view comes at once, what the
reader came for isn't far down, and everything can be found. Faults that are planted in the views must be found."""
import json
from collections.abc import Callable

from office_kit.client import AHEAD, PATIENCE, tender
from office_kit.common import busy, until
from office_kit.desks import clerk_large
from office_kit.desks.browser import Page
from office_kit.desks.page_checks import FOUND, is_quiet, page_of, texts_of
from office_kit.desks.scene import Scene
from office_kit.desks.tender_page import Desk

# A view is drawn within so many seconds, and what the reader came for isn't further down than so many pixels.
SECONDS, PIXELS = 2 * max(1.0, AHEAD / 4), 3000
PHONE, DESKTOP = 390, 1280
# The most pixels of a phone's window above a view.
MOST_HEAD = {"en": 150, "de": 170}
# The firm whose tenders are searched, the notice that closes next, and one that isn't among the first that are searched.
FIRM, NEXT, FAR = "F3", 202, 245


def timed(page: Page, place: str, wanted: str) -> None:
    """A view is drawn in time. What the reader came for, an expression that finds an element, is there and isn't far down."""
    before, seconds = busy(), drawn(page, place)
    assert seconds < SECONDS * max(before, busy()), place
    page.wait(wanted)
    assert page.run(f"({wanted}).getBoundingClientRect().top + scrollY") < PIXELS, (place, wanted)


def drawn(page: Page, place: str) -> float:
    start = page.run(f"(performance.clearMarks('shown'), location.hash = {json.dumps('#' + place)}, performance.now())")
    page.drawn("performance.getEntriesByName('shown').length > 0")
    return float((page.run("performance.getEntriesByName('shown').at(-1).startTime") - start) / 1000)


def with_text(selector: str, text: str) -> str:
    return f"[...document.querySelectorAll({json.dumps('main ' + selector)})].find((at) => at.textContent.startsWith({json.dumps(text)}))"


def folds_its_menu(page: Page, language: str, other: str) -> None:
    """On a phone the head leaves most of the window to the view. The menu is folded, opens, and folds again when another view is chosen."""
    assert page.run("document.querySelector('main').getBoundingClientRect().top + scrollY") <= MOST_HEAD[language]
    assert not page.run("document.querySelector('#pages').checkVisibility()")
    page.run("document.getElementById('menu-name').click()")
    page.wait("document.querySelector('#pages a').checkVisibility()")
    page.run(f"document.querySelector('#pages a[href$={json.dumps('#' + other)}]').click()")
    page.wait(f"location.hash === '#{other}' && !document.querySelector('#pages').checkVisibility()")


# The portal.

# Views, each with the element for which its reader came.
VIEWS = {"ledger": "document.getElementById('by-line')", "line/2003": with_text("h2", "What this budget line"),
         "firms": "document.getElementById('by-name')", "firm/F1": with_text("table", "20 tenders"), "figures": with_text("h2", "Tenders for each lot"),
         "notice/N001": with_text("caption", "24 tenders for lot L1"), "notice/N300": with_text("a", "Prepare a tender")}


def portal(large: Scene) -> None:
    page = page_of(large, "#about", DESKTOP)
    portal_list(page)
    portal_search(page)
    for place, wanted in VIEWS.items():
        timed(page, place, wanted)
    portal_lot(page)
    is_quiet(page)
    for language in MOST_HEAD:
        phone = Page(large.browser, PHONE, 844)
        phone.go(large.front.address(f"?language={language}#about"))
        timed(phone, "list", "document.querySelector('.jumps button:last-child')")
        folds_its_menu(phone, language, "ledger")


def portal_list(page: Page) -> None:
    """The nearest deadline comes first. A button leads to those that are no longer open."""
    timed(page, "list", with_text("h2", "No longer open for tenders (201)"))
    assert [title.rsplit(", ", 1)[1] for title in texts_of(page, FOUND)[:7]] == [f"purchase {number}" for number in range(NEXT, NEXT + 7)]
    page.run(f"{with_text('.jumps button', 'No longer open')}.click()")
    page.wait("document.activeElement.tagName === 'H2' && Math.abs(document.activeElement.getBoundingClientRect().top) < 5")


def portal_search(page: Page) -> None:
    """What is bought and what pays for it are found, in each order."""
    for words, wanted in {"slate": range(3, 401, 7), "2117": (117, 242, 367), "upkeep district 117": (117, 242, 367), "gravel": (2,)}.items():
        timed(page, f"list?words={words.replace(' ', '+')}", "document.querySelector('.count')")
        assert texts_of(page, ".count")[0] == f"{len(wanted)} of 400 procurements", words
        assert {int(title.rsplit(" ", 1)[1]) for title in texts_of(page, FOUND)} <= set(wanted), words
    for order, number in {"deadline": NEXT, "amount": 390}.items():
        timed(page, f"list?order={order}", "document.querySelector('.entry-of-list')")
        assert texts_of(page, FOUND)[0].endswith(f", purchase {number}"), order
    # (Several were published in the last second.)
    timed(page, "list?order=published&state=open", "document.querySelector('.entry-of-list')")
    moments = {row["title"]: row["published"] for row in page.run("import('/common/office.js').then(({ notices }) => notices())")}
    shown = [moments[title] for title in texts_of(page, FOUND)]
    assert shown == sorted(shown, reverse=True) and shown[0] == max(moments.values())


def portal_lot(page: Page) -> None:
    """A lot has an address: it is unfolded and in view. A wrong address is one sentence."""
    for place, name in (("notice/n002/l2", "lot-L2"), ("notice/N390/L4", "lot-L4")):
        timed(page, place, f"document.getElementById('{name}')")
        seen = page.run("[document.activeElement.id, document.activeElement.getBoundingClientRect().top, document.activeElement.innerText]")
        assert seen[0] == name and seen[1] < 400 and "Tender security" in seen[2]
    assert not page.run("document.querySelector('#lot-L3 details').open"), "other lots are unfolded"
    assert texts_of(page, '#lot-L4 a[href$="#notice/N390/L4"]')[:1] == ["Link to this lot"]
    is_one_sentence(page)


def is_one_sentence(page: Page) -> None:
    wrong = {"notice/N002/L9": "There is no such lot.", "notice/": "This is not a valid number.", "notice/a%20b/L1": "This is not a valid number.",
             "notice/NONE/L1": "There is no notice with this number."}
    for place, sentence in wrong.items():
        timed(page, place, "document.querySelector('main .bad')")
        said = page.run("[...document.querySelectorAll('main :is(.bad, .fault)')].map((at) => at.innerText)")
        assert len(said) == 1 and said[0].startswith(sentence), place
    is_quiet(page)


# The queries of a notice's view, and texts that the portal shows while the office is away.
PARTS = ("record", "releases", "terms", "minutes", "evaluation")
AWAY = {"list": "400 procurements", "notice/N005": "Under contract, paid in part", "notice/N001": "24 tenders for lot L1", "notice/N300": "Tenders sealed",
        "ledger": "All 125 budget lines", "line/2003": "Upkeep of district 3", "firms": "Firm 24 Ltd", "figures": "Tenders for each lot"}


def away(large: Scene) -> None:
    """While the office is away, the portal shows what the mirror has, and of which moment it is. A button asks the office again."""
    large.stop()
    # (nginx answers the list and other queries from its cache for some seconds, as if the office still answered.)
    left = ["/notices", "/lines/2003", *(f"/notices/{name}/{part}" for name in ("N001", "N005", "N300") for part in PARTS)]
    while left:
        assert until(lambda: large.front.ask("GET", left[-1]).status in (502, 504), PATIENCE), left.pop()
        left.pop()
    page = page_of(large, "#about", DESKTOP)
    moment = json.loads(large.front.ask("GET", "/data/mirror.json").body)["moment"]
    for place, text in AWAY.items():
        timed(page, place, "document.querySelector('main h1')")
        assert text in page.text(), place
        # (Views of the tables alone are the same as always, and nginx keeps the ledger for a minute.)
        if place not in ("firms", "figures", "ledger"):
            page.wait("document.querySelector('.look time')")
            told = page.run("[document.querySelector('.look')?.innerText, document.querySelector('.look time')?.getAttribute('datetime')]")
            assert str(told[0]).startswith("The register isn't answering at the moment.") and told[1] == moment, place
    timed(page, "notice/NONE", "document.querySelector('main .bad')")
    assert page.text().startswith("Not shown\nThe register isn't answering") and "Try again" in page.text()
    timed(page, "list", "document.querySelector('.entry-of-list')")
    large.start()
    page.run(f"{with_text('button', 'Try again')}.click()")
    page.wait("document.querySelector('.count') && !document.querySelector('main .look')")
    is_quiet(page)


# The tenderer's desk.

def tenderer(large: Scene) -> None:
    """The tender whose deadline is next is shown first and at once, and open notices are found."""
    receipts = [int(large.client.present(FIRM, clerk_large.name_of(number), "L1", tender((100, 30)))["receipt"]) for number in (FAR, NEXT)]
    desk = Desk(large, FIRM)
    own_tenders(desk, *receipts)
    open_notices(desk)
    is_quiet(desk.page)
    logged = large.front.logged("access.log").split("\n")
    assert [line for line in logged if "/tenders" in line and " 429 " in line] == [], "queries came too fast"
    for language in MOST_HEAD:
        phone = Desk(large, FIRM, width=PHONE, language=language)
        timed(phone.page, "offer", "document.querySelector('main li')")
        folds_its_menu(phone.page, language, "check")


def own_tenders(desk: Desk, far: int, near: int) -> None:
    """The tender whose deadline is next is shown first, and opened ones with it. The others appear without a press, and a withdrawal isn't held up."""
    next_first(desk, near)
    desk.press("Show more (")
    assert len(texts_of(desk.page, "main tbody tr")) == 21
    desk.says("of 379 notices are searched. Your tenders appear below.")
    desk.page.run("document.querySelector('main tbody a').focus()")
    desk.page.wait(f"{with_text('a', f'Change or withdraw {far}')}")
    assert desk.page.run("document.activeElement.textContent") == f"Change or withdraw {near}", "the focus moves"
    desk.press("Show more (")
    order = [int(text) for text in texts_of(desk.page, "main tbody th")]
    assert order[:2] == [near, far] and order[2:] == sorted(order[2:], reverse=True)
    desk.press(f"Change or withdraw {near}")
    desk.shows("Tender with receipt")
    desk.withdraw("The tender is withdrawn.")
    timed(desk.page, "tenders", with_text("a", f"Change or withdraw {far}"))
    desk.fill("tenders-receipt", str(near))
    desk.page.press("Enter")
    desk.shows(f"Tender with receipt {near}")


def next_first(desk: Desk, near: int) -> None:
    timed(desk.page, "tenders", "document.querySelector('main tbody a')")
    assert texts_of(desk.page, "main tbody a")[0] == f"Change or withdraw {near}"


def open_notices(desk: Desk) -> None:
    """Open notices are listed by the nearest deadline, and found by number or by what is bought."""
    heads = "[...document.querySelectorAll('main li h2')].map((at) => at.textContent)"
    timed(desk.page, "offer", "document.querySelector('main li')")
    assert desk.page.run(heads)[0].endswith(f"purchase {NEXT}")
    desk.fill("offer-notice", "slate desks")
    desk.page.wait(f"{heads}.length > 0 && {heads}.every((it) => it.startsWith('School desks') && Number(it.split(' ').at(-1)) % 7 === 3)")
    desk.fill("offer-notice", "2117")
    desk.page.wait(f"{heads}.length === 2")
    desk.page.press("Enter")
    desk.says("Select one of the notices below.")
    desk.fill("offer-notice", "n245")
    desk.page.press("Enter")
    desk.shows("", "offer/N245")


# ---- Faults that are planted in a module: its path, the text, the text that replaces it, and the check that must find it.

# A wait that is longer than a view may take, also on a busy machine.
LATE = f"new Promise((done) => {{ setTimeout(done, {10_000 * SECONDS + 100:.0f}); }})"
PLANTS: list[tuple[str, str, str, Callable[[Page], None]]] = [
    ("/common/filters.js", '(one.state === "open" ? 1 : -1)', '(one.state === "open" ? -1 : 1)', portal_list),
    ("/common/filters.js", "more.get(notice)?.words.push(title)", "void title", portal_search), ("/list.js", "FIRST = 12", "FIRST = 100", portal_list),
    ("/common/process.js", "part: lot &&", "part: false &&", portal_lot), ("/common/process.js", "unfolded.add(`${name}/${lot.id}`)", "void lot", portal_lot),
    ("/common/office.js", 'new Refused({ kind: "id" })', 'new Refused({ kind: "key" })', is_one_sentence),
    ("/mirror.js", "await draw();", f"await draw();\n  await {LATE};", portal_list),
]


def own_receipt(large: Scene) -> int:
    """The receipt of the firm's tender for the notice that closes next."""
    name = clerk_large.name_of(NEXT)
    sealed = [one for one in large.client.own_tenders(FIRM, name)["tenders"] if one["state"] == "sealed"]
    return int((sealed or [large.client.present(FIRM, name, "L1", tender((100, 30)))])[0]["receipt"])


# (These checks get the desk and that receipt.)
PLANTS_OF_DESK: list[tuple[str, str, str, Callable[[Desk, int], None]]] = [
    ("/tender/search.js", "of(isOpen, 1)", "of(isOpen, -1)", next_first),
    ("/tender/search.js", "FIRST = 12, AT_ONCE = 6", "FIRST = 240, AT_ONCE = 240", next_first),
    ("/tender/open.js", "FIRST = 20", f"FIRST = 20, LATE = await {LATE}", lambda desk, _: open_notices(desk)),
]
