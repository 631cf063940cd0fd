"""Runs installed.py."""

import sys

from .installed import main

if __name__ == "__main__":
    sys.exit(main())
