#!/usr/bin/env -S sh -c '[ -d /dev/stdin ] && exec <&-; exec python3 "$0" "$@"'
"""The command of zkdump_tools/pcap2zkr.py, which says what it does."""

import sys

from zkdump_tools import pcap2zkr

if __name__ == "__main__":
    sys.exit(pcap2zkr.main())
