"""The client kazoo, tested against a server that zkplay.py plays: what it makes of replies, and of a broken connection.

    python3 -m pytest examples/pytest

It needs pytest and kazoo (Debian: python3-pytest, python3-kazoo), and the program zkdump, which makes recordings of the
listings here. Where one is missing, the tests are left out, and a line says so.
"""

import pathlib
import shutil

import pytest

kazoo = pytest.importorskip("kazoo", reason="left out: there is no kazoo here (Debian: python3-kazoo)")
from kazoo.client import KazooClient  # noqa: E402
from kazoo.exceptions import ConnectionLoss  # noqa: E402
from kazoo.retry import KazooRetry  # noqa: E402

HERE = pathlib.Path(__file__).resolve().parent
LISTING = HERE / "missing_node.show"
BUILT = HERE.parent.parent / "crates" / "zkdump" / "out" / "zkdump"
pytestmark = pytest.mark.skipif(not (BUILT.exists() or shutil.which("zkdump")),
                                reason="left out: the program zkdump is not built")


@pytest.fixture
def client():
    """A kazoo client that begins with `client(hosts)`, and ends with the test."""
    begun = []

    def connect(played):
        begun.append(KazooClient(hosts=played.hosts, timeout=10, connection_retry=KazooRetry(max_tries=0)))
        begun[-1].start(timeout=10)
        return begun[-1]
    yield connect
    for each in begun:
        each.stop()
        each.close()


def test_a_node_that_is_missing_and_one_that_is_there(zkplay, client):
    played = zkplay(LISTING)
    kazoo_client = client(played)
    assert kazoo_client.exists("/a") is None
    data, stat = kazoo_client.get("/b")
    assert (data, stat.version, stat.czxid) == (b"hello", 0, 3)
    kazoo_client.stop()
    assert played.end() == ["played: 99 bytes of the client, 178 of the server"]


def test_an_answer_that_takes_its_time(zkplay, client):
    played = zkplay(LISTING, "--delay", "0.2")
    future = client(played).exists_async("/a")
    assert not future.ready()
    assert future.get(timeout=5) is None


def test_a_connection_that_breaks_within_an_answer(zkplay, client):
    played = zkplay(LISTING, "--cut-at", "1:7")
    with pytest.raises(ConnectionLoss):
        client(played).exists("/a")


def test_a_byte_of_an_answer_that_is_another(zkplay, client):
    # The last byte of the error: -102, NOAUTH, in place of -101.
    played = zkplay(LISTING, "--flip", "1:15=9a")
    with pytest.raises(kazoo.exceptions.NoAuthError):
        client(played).exists("/a")
