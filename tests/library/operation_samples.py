"""A request and a reply of each operation, made by the tables of docs/FORMATS.md, as rows of the table of fields.py."""

from dev import formats
from tools.zkdump_tools import zkr

# Of each kind of items one: its bytes, where its content begins and how long it is, and its number in a row.
SAMPLES = {"int": ("00000007", 0, 4, " 7"), "long": ("0000000000000008", 0, 8, " 8"), "bool": ("01", 0, 1, " 1"),
           "text": ("00000002 2f61", 4, 2, ""), "blob": ("00000001 ff", 4, 1, "")}
XIDS, PROFILE = {11: -2, 100: -4}, max(zkr.PROFILES.values())


def sample(of, place):
    """Items from this place on, a list with one element: their bytes in hexadecimal, and what a row has of them."""
    digits, rows = "", ""
    for name, kind in of:
        at = place + len(bytes.fromhex(digits))
        if isinstance(kind, list):
            element, more = sample(kind, at + 4)
            digits, rows = f"{digits} 00000001 {element}", f"{rows}{at}+4 {name} list 1\n{more}"
        else:
            of_kind, begin, length, number = SAMPLES[kind]
            digits, rows = f"{digits} {of_kind}", f"{rows}{at + begin}+{length} {name} {kind}{number}\n"
    return digits, rows


def messages():
    """Of each operation but multi the row of a request, and that of its reply."""
    for row in formats.table("Op"):
        if row.name != "multi":
            xid = XIDS.get(row.number, 1)
            header, shown = f"{xid % 2**32:08x}", f"xid {xid} operation {row.number}"
            digits, rows = sample(formats.items(row.request), 8)
            yield f"request {PROFILE}", f"{header} {row.number % 2**32:08x} {digits}", f"REQUEST {shown}", rows
            digits, rows = sample(formats.items(row.reply), 16)
            yield f"reply {row.number}", f"{header} {5:016x} {0:08x} {digits}", f"REPLY {shown} zxid 5", rows


OPERATIONS = tuple(messages())
