"""What a test leaves out for lack of a tool, in one wording, by which ./test gathers it and counts the checks:

    left out: 4 checks of examples/go, since go is not here
"""

# How many checks a part has that is left out as a whole. What has run is compared with this, so the order is right.
CHECKS = {"what is linked with libzk": 101_900, "examples/listing.rs": 800, "the plugin for Wireshark": 2_700,
          "standard input and output that fail": 9_125, "memory that is refused": 23_100}


def line(checks, part, why):
    """The line of a part of which this many checks are left out."""
    return f"left out: {checks:,} check{'' if checks == 1 else 's'} of {part}, since {why}"


def say(part, why, checks=None):
    """Prints the line of a part; one of CHECKS has its number there."""
    print(line(CHECKS[part] if checks is None else checks, part, why), flush=True)


def compared(part, checks):
    """A check of a part that has run: its name, whether it has between half and twice its number in CHECKS, and what is
    said if it hasn't."""
    good = checks <= 2 * CHECKS[part] and CHECKS[part] <= 2 * checks
    return part, good, f"{part} has {checks:,} checks, and CHECKS of tests/left_out.py says {CHECKS[part]:,}"


def lacking(tools):
    """Why a part is left out that needs these."""
    return f"{' and '.join(map(str, tools))} {'is' if len(tools) == 1 else 'are'} not here"
