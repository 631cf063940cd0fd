"""Runs header.py."""

import sys

from .header import main

if __name__ == "__main__":
    sys.exit(main())
