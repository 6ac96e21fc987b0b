"""All screens together: nginx with deploy/nginx/ in front of an office that is asked only by the desks, in a browser without a window.

The checks are those of office_kit/desks/all_checks.py. `lost_key` runs after `life`.
"""
import pytest

from office_kit.desks import all_checks

pytestmark = [pytest.mark.needs("nginx", "openssl"), pytest.mark.nginx, pytest.mark.xdist_group("desks")]


@pytest.mark.parametrize("one", all_checks.CHECKS, ids=lambda one: one.__name__)
def test_desks(scene, one):
    one(scene)
