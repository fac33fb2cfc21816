"""Recordings for the tests and for the examples in docstrings."""
import pytest
import wedgepetal
from ogg_files import packets, pages


@pytest.fixture(scope="session")
def recordings(tmp_path_factory):
    """The folder of the recordings: shot.ogv is whole, damaged.ogv has a packet that is refused."""
    folder = tmp_path_factory.mktemp("recordings")
    sound = packets("three_by_five")
    (folder / "damaged.ogv").write_bytes(b"".join(pages(sound)))
    del sound[9]
    (folder / "shot.ogv").write_bytes(b"".join(pages(sound)))
    return folder


@pytest.fixture(autouse=True)
def _names(doctest_namespace, recordings):
    doctest_namespace["wedgepetal"] = wedgepetal
    doctest_namespace["recording"] = recordings / "shot.ogv"
    doctest_namespace["damaged"] = recordings / "damaged.ogv"
