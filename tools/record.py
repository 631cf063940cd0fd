#!/usr/bin/env -S sh -c '[ -d /dev/stdin ] && exec <&-; exec python3 "$0" "$@"'
"""The command of zkdump_tools/record.py, which says what it does."""

import sys

from zkdump_tools import record

if __name__ == "__main__":
    sys.exit(record.main())
