"""The portal (web/) and the front (deploy/nginx/): nginx in front of an office, and a browser without a window.

The office has six notices and its mirror (office_kit/desks/page_office.py). The front is asked until the deadline comes (office_kit/front/checks.py), and the
page after it (page_checks.py and portal_checks.py in office_kit/desks/). The text of each view is compared with `page_texts/`, except for moments. Another
office has 400 notices and its mirror (large_checks.py). Faults are planted in a view, and in modules of the portal. Checks must find each of them.

With `--pictures FOLDER` the folder test_portal below it gets a picture of each view, narrow and wide, light and dark, and the text that was read there.
"""
import pytest

from office_kit.desks import large_checks, page_checks, portal_checks
from office_kit.desks.page_office import Procurements, mirror_beside
from office_kit.desks.scene import staged
from office_kit.desks.tender_page import planted
from office_kit.front import checks
from office_kit.front.nginx import LEDGER_OF_NOW

pytestmark = [pytest.mark.needs("nginx", "openssl"), pytest.mark.nginx]


@pytest.fixture(scope="module")
def scene(program, browser, pictures):
    """The office before the deadline."""
    with staged(program, browser, pictures, more=LEDGER_OF_NOW) as made:
        made.client = Procurements(made.client.transport)
        made.client.before_the_deadline()
        yield made


@pytest.fixture(scope="module")
def scene_after(scene):
    """The office after it, and its mirror."""
    scene.client.after_the_deadline()
    mirror_beside(scene.front)
    return scene


@pytest.mark.parametrize("one", checks.CHECKS, ids=lambda one: one.__name__)
def test_front(scene, one):
    one(scene)


@pytest.mark.parametrize("name", page_checks.VIEWS)
def test_view(scene_after, name):
    page_checks.view(scene_after, name)


@pytest.mark.parametrize("fault, check", page_checks.PLANTS)
def test_planted_in_view(scene_after, fault, check):
    """The check for it finds a fault in a page, and nothing before it is planted."""
    page = page_checks.page_of(scene_after, page_checks.VIEWS["paid"])
    check(scene_after, page)
    page.run(fault if fault.startswith("new ") else f"void ({fault})")
    with pytest.raises(AssertionError):
        check(scene_after, page)


# (After the last ones the front refuses more requests, and then the office is gone.)
@pytest.mark.parametrize("one", page_checks.CHECKS + portal_checks.CHECKS + page_checks.LAST, ids=lambda one: one.__name__)
def test_page(scene_after, one):
    one(scene_after)


@pytest.mark.parametrize("one", [large_checks.portal, large_checks.away], ids=lambda one: one.__name__)
def test_large(large, one):
    one(large)


@pytest.mark.parametrize("path, old, new, check", large_checks.PLANTS)
def test_planted_in_module(large, path, old, new, check):
    page = planted(large, path, old, new)
    page.go(large.front.address("#about"))
    with pytest.raises((AssertionError, SystemExit)):
        check(page)
