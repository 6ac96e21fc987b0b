"""The fixtures that tests of offices' files share."""
import time

import pytest

from office_kit.store import pages


@pytest.fixture(params=pages.SIZES)
def size(request):
    """The page size of a file: that of earlier files, and that of a new one."""
    return request.param


@pytest.fixture
def seed():
    """The seed of random moments, which a failed test prints."""
    chosen = time.time_ns() % 1_000_000
    print(f"seed {chosen}")
    return chosen
