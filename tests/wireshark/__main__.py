"""Runs dissection.py."""

import sys

from .dissection import main

if __name__ == "__main__":
    sys.exit(main())
