"""What a command of tools/ says of itself, of which its page and its completion are made."""

import argparse
import importlib
import inspect
import unittest.mock
from typing import NamedTuple

from tools.zkdump_tools import zkr

# The names of values that are files; --path is a path of ZooKeeper's.
FILES = ("FILE", "PATH", "RECORDING", "OTHER", "PREFIX", "DIR|LIST", "TRACE.json", "REPORT.html")
NO_FILE = ("--path",)


class Reached(Exception):
    """The arguments would be parsed now."""


class Option(NamedTuple):
    """An option, or a word that isn't one: `values` are those that it may have, `is_file` says that they are files."""
    names: list
    value: str
    help: str
    values: list
    is_file: bool


class Tool(NamedTuple):
    """A command, its docstring, and its options; `words` are the arguments that are no options, and have a help."""
    name: str
    said: str
    options: list
    words: list


def parser_of(module):
    """The parser that a tool's main function makes."""
    found = []

    def reach(parser, *_):
        found.append(parser)
        raise Reached
    with unittest.mock.patch.object(zkr.Words, "parse_args", reach):
        try:
            module.main()
        except Reached:
            pass
    return found[0]


def option_of(parser, action):
    choices = list(map(str, action.choices or ()))
    takes = action.nargs != 0
    value = (action.metavar or "|".join(choices) or action.dest.upper()) if takes else ""
    said = parser._get_formatter()._expand_help(action) if action.help else ""
    is_file = value in FILES and not set(NO_FILE).intersection(action.option_strings)
    return Option(action.option_strings, value, said, choices, is_file)


def tool_of(name, script):
    """What the command of this name says, whose code is in the module of the script's name."""
    module = importlib.import_module(f"tools.zkdump_tools.{script.stem}")
    parser = parser_of(module)
    shown = [option_of(parser, action) for action in parser._actions if action.help != argparse.SUPPRESS]
    return Tool(name, inspect.getdoc(module), [each for each in shown if each.names],
                [each for each in shown if not each.names and each.help])
