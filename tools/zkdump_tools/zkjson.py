"""Makes JSON of listings and recordings: one object a line, for jq and for programs.

    zkjson.py [--recording REC.zkr [--times FILE]] [CHOICE ..] [FILE ..]

It reads listings, and recordings, whose listings zkdump show makes; without a FILE it reads a listing from standard
input. A message has its connection and its number there, `connection` and `n`, then `side`, `xid` (connect messages and
events have none), `op`, and its fields under their names. Sessions and zxids are in hexadecimal, as ZooKeeper's logs
print them. Data is a text if it is UTF-8 that can be printed, else {"hex": DIGITS}; null is null. A number with a name
has that beside it: `err` and `errName`, `kind` and `kindName`. A reply has the number of its request, `of`, and that
request's path, `asked`. The last object of a connection is the ending line; its `waiting` lists the numbers of the
requests without a reply.

If the recording has times, a message has the time of its last byte, `at`, in milliseconds since 1970, and a reply has
how long it took, `ms`. A ZKR2 recording has times within; for others they are in FILE, or in REC.zkr.times.

If there are facts beside the recording (REC.facts.json), the ending has them, as `facts`. Where they say that bytes are
missing, the status is 1, and `notCaptured` lists the requests whose replies may be among them.
"""

import argparse
import gzip
import io
import json
import os
import re
import shutil
import sys
import tempfile

from . import columns, fleet, forms, inputs, listing, pythons, selection, zkr

FAILS = re.compile(rf" zxid={listing.NUMBER} err=", re.ASCII)
PART = re.compile(r"([{;])([A-Za-z]+)", re.ASCII)


def form_of(line, made):
    """The form of what follows the operation; a KeyError if there is none."""
    if not made.decoded:
        return forms.ASKED_BY_NUMBER if made.side == "C" else \
            forms.FAILED if made.error else forms.ANSWERED_BY_NUMBER
    if made.side == "C":
        return forms.REQUESTS[made.op]
    if made.error and made.op != listing.EVENT and FAILS.match(line, made.end):
        return forms.FAILED
    return forms.REPLIES[made.op]


def op_of(made):
    """A message's operation as JSON, and that it is not decoded."""
    return f'"{made.op}"' if made.decoded else f'"{made.op}", "decoded": false'


def short(line, made, asked):
    """A message as JSON, where its line is short and no multi. A reply has what its request asked for."""
    found, end = form_of(line, made).json(line, made.end)
    if end != len(line):
        raise forms.NoField(end)
    xid = f', "xid": {made.xid}' if made.xid else ""
    at = "" if made.at is None else f', "at": {made.at}'
    head = f'{made.connection.json}, "n": {made.n}, "side": "{made.side}"{xid}, "op": {op_of(made)}{found}{at}'
    if not asked:
        return head + "}\n"
    ms = "" if made.microseconds is None else f', "ms": {listing.milliseconds(made.microseconds)}'
    if not asked.path:
        return f'{head}{ms}, "of": {asked.n}}}\n'
    return f'{head}{ms}, "of": {asked.n}, "asked": {forms.text(asked.path)}}}\n'


def pieces(line, made, asked):
    """A message as pieces of JSON, none of them long."""
    xid = f', "xid": {made.xid}' if made.xid else ""
    yield f'{made.connection.json}, "n": {made.n}, "side": "{made.side}"{xid}, "op": {op_of(made)}'
    yield from fields(line, made, asked)
    if made.at is not None:
        yield f', "at": {made.at}'
    if asked:
        ms = "" if made.microseconds is None else f', "ms": {listing.milliseconds(made.microseconds)}'
        yield f'{ms}, "of": {asked.n}'
        if asked.path:
            yield ', "asked": '
            yield from forms.pieces_of_text(asked.path, 0, len(asked.path))
    yield "}\n"


def fields(line, made, asked):
    """The rest of a message's line as pieces of JSON."""
    at = made.end
    try:
        form = form_of(line, made)
        at = yield from form.pieces(line, at)
        if made.op == "multi" and made.decoded and form is not forms.FAILED:
            at = yield from parts(line, at, made, asked)
    except KeyError:
        raise listing.no_line(made.n, at) from None
    except forms.NoField as error:
        raise listing.no_line(made.n, error.at) from None
    if at != len(line):
        raise listing.no_line(made.n, at)


def parts(line, at, made, asked):
    """The parts of a multi, or their results, as pieces of JSON; returns the place after them. A failed part has the
    path that its request's part has."""
    if not line.startswith(" {", at):
        raise forms.NoField(at)
    yield ', "parts": ['
    known, sign, at = forms.PARTS if made.side == "C" else forms.RESULTS, "{", at + 1
    paths = iter(asked.parts if asked else ())
    while (found := PART.match(line, at)) and found[1] == sign and found[2] in known:
        name, form, comma = found[2], known[found[2]], ", " if sign == ";" else ""
        path = next(paths, None) if name == "fail" else next(paths, None) and None
        end = f', "asked": {forms.text(path)}}}' if path else "}"
        try:
            if len(line) > listing.BLOCK:
                raise ValueError("a long line")
            value, at = form.json(line, found.end())
            yield f'{comma}{{"op": "{name}"{value}{end}'
        except ValueError:      # it is parsed step by step
            yield f'{comma}{{"op": "{name}"'
            at = yield from form.pieces(line, found.end())
            yield end
        sign = ";"
    if not line.startswith("{}" if sign == "{" else "}", at):
        raise forms.NoField(at)
    if made.side == "C":
        made.parts = [path for path in listing.PATHS.findall(line, made.end) if path]
    yield "]"
    return at + (2 if sign == "{" else 1)


def write(line, made, asked, out):
    """Writes a message as JSON: all of it or, where its line is none, nothing."""
    if len(line) <= listing.BLOCK and not (asked and asked.path and len(asked.path) > listing.BLOCK):
        if made.op != "multi" or not made.decoded:
            try:
                out.write(short(line, made, asked))
                return
            except (KeyError, ValueError):
                pass    # the place is found step by step
        out.write("".join(pieces(line, made, asked)))
        return
    for _ in pieces(line, made, asked):
        pass
    out.writelines(pieces(line, made, asked))


def head_of(name):
    """How each object of a connection begins."""
    return f'{{"connection": {forms.readable(name)}'


def write_columns(talk, chosen, out):
    """Writes what is chosen of columns, whose JSON is there already."""
    out.flush()
    for block, array in chosen.arrays(talk):
        out.buffer.write(block.lines(array))


def ending_of(talk, chosen):
    """The ending of a connection, with the requests without a reply, and what is known of the recording."""
    connection, left = talk.connection, chosen.left(talk)
    made, fate = {**connection.ending, "waiting": []}, connection.fate()
    made["waiting" if fate == listing.UNANSWERED else fate] = [each.n for each in left]
    return {**made, "facts": connection.facts.to_object()} if connection.facts else made


def write_all(parser, words, progress, out):
    """Writes what the arguments choose. Whether a connection is incomplete, and what the choices left out."""
    chosen, incomplete, left_out = selection.Selection(words), False, selection.LeftOut()

    def fast(name):
        options = chosen.options(name)
        return None if options is None else [*options, "--json", head_of(name)]
    for talk in inputs.conversations(parser, words, False, progress, before_read=out.flush, fast=fast):
        head = talk.connection.json = head_of(talk.name)
        with talk.complaints():
            if isinstance(talk, columns.Columns):
                write_columns(talk, chosen, out)
            else:
                for line, made, asked in chosen.chosen(talk):
                    write(line, made, asked, out)
        incomplete |= talk.connection.is_incomplete()
        if talk.connection.ending:
            print(f"{head}, {json.dumps(ending_of(talk, chosen))[1:]}", file=out)
        left_out.merge(chosen.take_left_out())
    return incomplete, left_out


def words_of(arguments=None, kind=zkr.Words):
    parser = kind(__doc__)
    inputs.add_words(parser)
    selection.add_words(parser)
    fleet.add_words(parser)
    parser.add_argument("--parts", help=argparse.SUPPRESS)      # where processes write what is then put together
    return parser, parser.parse_args(arguments)


def partial(options, paths):
    """The JSON of one file, or an Unread."""
    return fleet.attempt(lambda path: part_of(options, path), *paths)


def part_of(options, path):
    """The JSON of one file: a file of it, or where it goes over a network its bytes, compressed. And what `write_all`
    returns."""
    parser, words = words_of(options, fleet.Strict)
    words.inputs, packed = [path], io.BytesIO()
    made = None if words.scheduler else tempfile.NamedTemporaryFile(dir=words.parts, delete=False)
    try:
        with io.TextIOWrapper(made or gzip.GzipFile(fileobj=packed, mode="wb", compresslevel=1), "utf-8") as out:
            more = write_all(parser, words, zkr.Progress("zkjson", False), out)
    except BaseException:
        if made:
            os.unlink(made.name)
        raise
    return (made.name if made else packed.getvalue(), *more)


def write_parts(parser, words, out):
    """Writes the JSON of many files, in their order; what can't be read has its line. Whether something is missing, and
    what the choices left out."""
    missing, left_out = False, selection.LeftOut()
    with tempfile.TemporaryDirectory(prefix="zkjson-") as folder:
        for (path,), result in fleet.of_inputs(parser, words, __name__, "--parts", folder):
            if isinstance(result, fleet.Unread):
                missing = True
                print(f'{head_of(path)}, "ending": "unread", "reason": {forms.readable(result.reason)}}}',
                      file=out, flush=True)
                continue
            part, incomplete, of_part = result
            missing = missing or incomplete
            left_out.merge(of_part)
            if isinstance(part, bytes):
                out.buffer.write(gzip.decompress(part))
            else:
                with open(part, "rb") as made:
                    shutil.copyfileobj(made, out.buffer, 1 << 20)
                os.unlink(part)
    return missing, left_out


def main():
    parser, words = words_of()
    pythons.continue_with_numpy(words)
    sys.stdout.reconfigure(encoding="utf-8")
    if fleet.is_asked(words):
        missing, left_out = write_parts(parser, words, sys.stdout)
    else:
        progress = zkr.Progress("zkjson", may=not sys.stdout.isatty())
        missing, left_out = write_all(parser, words, progress, sys.stdout)
    return 1 if left_out.complain() or missing else 0
