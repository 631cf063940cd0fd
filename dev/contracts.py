"""How a source in Rattle is cut into impls, functions and the clauses of their contracts."""

import re

CLAUSE = re.compile(r"\s*(requires|ensures)\*?\s+(\w+\s+)?\{")
BLOCK = re.compile(r"^(?:pub )?(impl|trait)\b([^\n{;]*)\{", re.M)
TAIL = re.compile(r"\n\s*(?:requires|ensures|where)\b|\s*\{|;\n")
BOUNDS = re.compile(r"(\s*where\b[^{;]*?)?(?=\n\s*(?:requires|ensures)\b|\s*\{|;\n)")


def generics(text, at):
    """The place after the parameters in angle brackets, if there are any here."""
    depth = 0
    while depth or text[at] == "<":
        depth += {"<": 1, ">": 0 if text[at - 1] == "-" else -1}.get(text[at], 0)
        at += 1
    return at


def balanced(text, at, pair):
    """The place after the bracket that closes the one at this place."""
    depth = 0
    for place in range(at, len(text)):
        depth += {pair[0]: 1, pair[1]: -1}.get(text[place], 0)
        if depth == 0:
            return place + 1
    return len(text)


def blocks(text):
    """The impls and traits of a file: the type or trait, whether it is a trait, and where its body begins and ends.
    An impl of a trait has the trait's clauses, so its owner is None."""
    for block in BLOCK.finditer(text):
        head = re.sub(r"<[^<>]*(<[^<>]*>[^<>]*)*>", "", block[2])
        owner = None if " for " in head else re.findall(r"\w+", head)[0]
        yield owner, block[1] == "trait", block.start(), balanced(text, block.end() - 1, "{}")
