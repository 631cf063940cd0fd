"""The pages of an installation: links that would lead nowhere are plain words, and commands are those of it."""

import posixpath
import re

LINK = re.compile(r"(!?)\[((?:[^\[\]]|\[[^\]]*\])*)\]\(([^()\s]+)\)")
ELSEWHERE = re.compile(r"[a-z]+:|#")
TOOL = re.compile(r"(?<![\w/])(?:\.\./)*tools/(\w+)\.py\b")
SAYS = re.compile(r"^    (\w+)\.py(?=: )")
# What a tree has at another place, or under another name.
RUN = "examples/exists.zkr"
PLACES = (("crates/zkdump/stdin", RUN), ("crates/zkdump/out/zkdump", "../../bin/zkdump"))
NOTE = ("The commands of this page are those of an installation. Run those that name `captures/` in a copy of this "
        "folder.\n")


def plain_links(line, where, there):
    """A line without links to files that aren't there."""
    def kept(link):
        _, words, target = link.groups()
        path = posixpath.normpath(posixpath.join(posixpath.dirname(where), target.partition("#")[0]))
        return link[0] if ELSEWHERE.match(target) or path in there else words
    return LINK.sub(kept, line)


def command_line(line, called):
    """A line of a block of commands and what they print."""
    line = re.sub(r"(?<![\w./])\./zkdump\b", "zkdump", line)
    for old, new in PLACES:
        line = line.replace(old, new)
    return SAYS.sub(lambda found: f"    {called.get(found[1], found[0].strip())}", line)


def installed(text, where, files, called):
    """The page at this place, where these files are; `called` has the command of each script, without its .py."""
    there, lines, fenced = {*files, *(posixpath.dirname(each) for each in files)}, [], False
    for line in text.splitlines(keepends=True):
        fenced ^= line.lstrip().startswith("```")
        is_code = line.startswith("    ")
        if is_code:
            line = command_line(line, called)
        elif not fenced:
            line = plain_links(line, where, there)
        parts = [line] if is_code else re.split(r"(`[^`]*`)", line)
        for at in range(0 if is_code else 1, len(parts), 2):
            parts[at] = TOOL.sub(lambda found: called.get(found[1], found[0]), parts[at])
        lines.append("".join(parts))
    if where == "README.md":
        lines[1:1] = ["\n", NOTE]
    return "".join(lines)
