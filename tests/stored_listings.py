"""The stored listings of the recordings in captures/."""


def listings_of(path):
    """The profiles under which a recording is listed, the oldest first, each with its listing: REC.show is that under
    3.4, REC.show35 that under 3.5, and so on."""
    return [(".".join(listing.suffix[len(".show"):]) or "3.4", listing)
            for listing in sorted(path.parent.glob(f"{path.stem}.show*"))]
