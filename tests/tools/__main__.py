"""Runs the tests of the tools: python3 -m tests.tools [WORD ..]."""

import pathlib
import sys

from tests import unit

if __name__ == "__main__":
    sys.exit(unit.main(pathlib.Path(__file__).parent, __package__))
