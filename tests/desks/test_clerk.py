"""The clerk's desk (web/clerk/): nginx with deploy/nginx/ in front of an office, and a browser without a window.

`life` does a procurement from the budget to the last payment with the screens only, except for the tenders, which scripts submit. Those that use its notice run
after it. Each check says what it is about: office_kit/desks/clerk_checks.py, clerk_more.py (`large` makes an office of 400 notices) and clerk_names.py.
"""
import pytest

from office_kit.desks import clerk_checks, clerk_more, clerk_names

pytestmark = [pytest.mark.needs("nginx", "openssl", "htpasswd"), pytest.mark.nginx, pytest.mark.xdist_group("desks")]


@pytest.mark.parametrize("one", [*clerk_checks.CHECKS, *clerk_more.CHECKS, *clerk_names.CHECKS], ids=lambda one: one.__name__)
def test_desk(scene, one):
    one(scene)
