"""Runs the tests of the repository's own scripts: python3 -m dev.tests [WORD ..]."""

import pathlib
import sys

from tests import unit

if __name__ == "__main__":
    sys.exit(unit.main(pathlib.Path(__file__).parent, __package__))
