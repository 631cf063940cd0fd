"""The manual pages, of docs/man and of the header, by scdoc."""

import os
import re
import shutil
import subprocess

from . import archive, tool_words
from .build_library import TOP
from .make_library import HEADER

PAGES = ("zkdump.1", "zkr.5", "libzk.3")


def missing():
    """The tool that is needed, if it isn't there."""
    return [] if shutil.which("scdoc") else ["scdoc"]


def escaped(text):
    """Text, escaped for scdoc."""
    return re.sub(r"([\\*_])", r"\\\1", " ".join(text.split()))


def calls():
    """Each function of the header, with its comment there."""
    for said, function in re.findall(r"/\* ((?:(?!\*/).)*?) \*/\n([a-z][\w ]*[ *]zk_\w+\([^)]*\);)",
                                     HEADER.read_text(), re.S):
        yield f"*{escaped(function)}*\n\t{escaped(said.replace(chr(10) + ' *', ' '))}\n"


def list_of(tools):
    """Each command, with the first paragraph of what it says of itself."""
    for tool in tools:
        yield f"*{tool.name}*(1)\n\t{escaped(tool.said.partition(chr(10) * 2)[0])}\n"


def paragraphs(said):
    """The paragraphs of a docstring; a block of it, which is further to the right, stays as it is."""
    for part in said.split("\n\n"):
        if part.startswith("    "):
            yield f"```\n{part}\n```"
        else:
            text = escaped(part)
            yield f"\\{text}" if text[0] in "-.#|[]`" else text


def options(tool):
    """Each option, and each other argument that has a help, with what its help says."""
    for each in (*tool.words, *tool.options):
        names = ", ".join(f"*{escaped(name)}*" for name in each.names)
        value = f"_{escaped(each.value)}_" if each.value else ""
        yield f"{' '.join(filter(None, (names, value)))}\n\t{escaped(each.help)}\n"


def text_of(tool, called):
    """The page of a command, for scdoc; `called` has the command that each script is."""
    said = re.sub(r"\b(\w+)\.py\b", lambda found: called.get(found[0], found[0]), tool.said)
    first, usage, rest = said.split("\n\n", 2)
    first = " ".join(first.split()).rstrip(".")
    values = {"NAME": tool.name, "DOES": escaped(first[0].lower() + first[1:]),
              "USAGE": " ++\n".join(escaped(line) for line in usage.splitlines()),
              "SAID": "\n\n".join(paragraphs(rest)), "OPTIONS": "\n".join(options(tool))}
    text = (TOP / "docs" / "man" / "tool.1.scd").read_text()
    return re.sub(r"@([A-Z]+)@", lambda found: values.get(found[1], found[0]), text)


def texts(commands):
    """Each page's name and its text."""
    tools = [tool_words.tool_of(*each) for each in commands]
    for page in PAGES:
        text = (TOP / "docs" / "man" / f"{page}.scd").read_text()
        yield page, text.replace("@CALLS@", "\n".join(calls())).replace("@TOOLS@", "\n".join(list_of(tools)))
    called = {script.name: name for name, script in commands}
    for tool in tools:
        yield f"{tool.name}.1", text_of(tool, called)


def make(folder, version, commands):
    """Makes the pages in the folder."""
    dated = {**os.environ, "SOURCE_DATE_EPOCH": str(archive.time())}
    for page, text in texts(commands):
        made = subprocess.run(["scdoc"], input=text.replace("@VERSION@", version), stdout=subprocess.PIPE, text=True,
                              check=True, env=dated)
        (folder / page).write_text(made.stdout)
