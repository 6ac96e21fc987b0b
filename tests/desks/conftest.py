"""The offices of the tests of the screens, each with its front and a browser."""
import pytest

from office_kit.client import Client, Port
from office_kit.desks import clerk_large
from office_kit.desks.page_office import mirror_beside
from office_kit.desks.scene import staged
from office_kit.store.life import key_of


@pytest.fixture(scope="module")
def scene(program, browser, pictures):
    """A new office."""
    with staged(program, browser, pictures) as made:
        yield made


@pytest.fixture(scope="module")
def large(program, browser, pictures):
    """The office of 400 notices, its mirror, and a client that no front makes wait. It takes half a minute."""
    with staged(program, browser, pictures, clerk_large.fill) as made:
        made.client = Client(Port(made.front.office), key_of)
        mirror_beside(made.front)
        yield made
