"""The tenderer's desk (web/tender): nginx with deploy/nginx/ in front of an office, and a browser without a window.

A comment above each check says what it is about: those of a tender's life in office_kit/desks/tender_checks.py, those of the desk's looks in tender_shapes.py
beside it. Faults are planted in modules of the desk, and checks must find each of them. Another office has 400 notices and its mirror (large_checks.py).
"""
import pytest

from office_kit.desks import large_checks, tender_checks, tender_shapes
from office_kit.desks.tender_page import Desk, planted

pytestmark = [pytest.mark.needs("nginx", "openssl"), pytest.mark.nginx]


@pytest.fixture(scope="module")
def scene(scene):
    tender_checks.prepare(scene)
    return scene


@pytest.mark.parametrize("one", tender_checks.CHECKS + tender_shapes.CHECKS, ids=lambda one: one.__name__)
def test_desk(scene, one):
    one(scene)


@pytest.mark.parametrize("module, old, new, who, check", tender_shapes.PLANTS)
def test_planted(scene, module, old, new, who, check):
    """The check finds the fault, and nothing if none is planted."""
    check(scene, Desk(scene, who))
    desk = Desk(scene, who, page=planted(scene, f"/tender/{module}.js", old, new))
    with pytest.raises(AssertionError):
        check(scene, desk)


def test_large(large):
    large_checks.tenderer(large)


@pytest.mark.parametrize("path, old, new, check", large_checks.PLANTS_OF_DESK)
def test_planted_in_large(large, path, old, new, check):
    receipt = large_checks.own_receipt(large)
    desk = Desk(large, large_checks.FIRM, page=planted(large, path, old, new))
    with pytest.raises((AssertionError, SystemExit)):
        check(desk, receipt)
