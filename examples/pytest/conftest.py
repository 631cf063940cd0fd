"""A fixture of pytest that plays the server of a recording, or of a listing, to the client under test."""

import pathlib
import subprocess
import sys

import pytest

ZKPLAY = pathlib.Path(__file__).resolve().parent.parent.parent / "tools" / "zkplay.py"


class Played:
    """A zkplay that listens at `hosts`."""

    def __init__(self, recording, *words):
        self.process = subprocess.Popen([sys.executable, ZKPLAY, *words, "0", recording], stdout=subprocess.PIPE,
                                        stderr=subprocess.PIPE, text=True)
        first = self.process.stdout.readline()
        self.hosts = first.removeprefix("listening on ").rstrip()
        if self.hosts == first.rstrip():
            pytest.fail(self.process.communicate()[1])

    def end(self):
        """Waits until all is played; returns zkplay's lines. The test fails where the client said something else."""
        out, err = self.process.communicate(timeout=30)
        if self.process.returncode:
            pytest.fail(err)
        return out.splitlines()


@pytest.fixture
def zkplay():
    """What plays a recording: `zkplay(RECORDING, OPTION ..)` returns a Played."""
    begun = []

    def play(recording, *words):
        begun.append(Played(recording, *words))
        return begun[-1]
    yield play
    for played in begun:
        played.process.kill()
        played.process.communicate()
