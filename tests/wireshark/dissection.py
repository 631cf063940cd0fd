"""Tests of the plugin for Wireshark: what tshark shows with it.

    wireshark.py [--install] [--libzk PATH] [--mutants N] [--seeds N] [--golden] [WORD ..]

It builds the plugin with the proved library of this repository, or with another libzk.a, and puts it into a home of its
own. With words it runs those tests whose names have one of them. --mutants says how many mutated connections are read
under the address sanitizer, --seeds how many lossy captures there are. --golden writes the files of
wireshark/tests/golden anew, for a person to read. --install installs Debian's packages first.

What is missing is reported in one line, and then nothing is tested. The last line is `N passed, M failed`.
"""

import argparse
import collections
import json
import pathlib
import random
import re
import shutil
import subprocess
import sys
import tempfile
import textwrap

from tools.zkdump_tools import resync
from . import expectations, installed_plugin, marked_bytes
from .. import left_out, unknown_operations
from ..stored_listings import listings_of
from .connections import WHOLE, Connections, listings, objects_of, refusals_of
from .installed_plugin import SOURCES, TOP, capture_of, joined, mutated, pieces_of, wire, zkr
from .shown_messages import Shown
from .unusual_captures import Odd

PACKAGES = ("tshark", "wireshark-dev", "gcc", "pkg-config", "cmake")
MUTANTS_A_RUN = 250
PLUGIN = "the plugin for Wireshark"         # in CHECKS of left_out.py


class Tests(Connections, Odd, Shown):
    """Each test_ gives pairs: whether it is as it should be, and what to print otherwise."""

    def __init__(self, plugin, folder, words):
        self.plugin, self.folder, self.words = plugin, folder, words

    def test_it_is_loaded_by_name(self):
        plugins = self.plugin.tshark("-G", "plugins")
        yield re.search(r"^zookeeper\.so\s", plugins, re.M), "tshark -G plugins has no zookeeper.so"

    def test_installed(self):
        """The page's lines build and install it, by the compiler and by CMake."""
        page = (SOURCES / "README.md").read_text()
        for tool, pattern, place in (("cc", r"cc .*|install .*", "wireshark"), ("cmake", r"cmake .*", ".")):
            if lacking := installed_plugin.missing_for_cmake() if tool == "cmake" else []:
                left_out.say("the plugin as CMake builds it", left_out.lacking(lacking), 1)
                continue
            top = pathlib.Path(self.folder, f"by_{tool}")
            for folder in (SOURCES, TOP / "include"):
                shutil.copytree(folder, top / folder.name)
            for line in re.findall(rf"^    \$ ({pattern})$", page, re.M):
                line = line.replace("/tmp/libzk.a", str(self.plugin.libzk)).replace("/4.0/", f"/{self.plugin.release}/")
                subprocess.run(["sh", "-c", line], cwd=top / place, env={**self.plugin.environment, "HOME": str(top)},
                               check=True, capture_output=True)
            plugins = self.plugin.tshark("-G", "plugins", home=top)
            yield re.search(r"^zookeeper\.so\s", plugins, re.M), f"by {tool}: tshark -G plugins has no zookeeper.so"

    def test_names(self):
        """Numbers have the names that zk.h has for them."""
        values = collections.defaultdict(dict)
        for line in self.plugin.tshark("-G", "values").splitlines():
            if line.startswith("V\tzookeeper."):
                _, field, number, name = line.split("\t")
                values[field.partition(".")[2]][(int(number, 0) + 2**31) % 2**32 - 2**31] = name
        for field, names in expectations.names_of_the_header().items():
            yield names and names.items() <= values[field].items(), f"{field}: {values[field]}, not {names}"

    def test_preferences(self):
        """Without the strict verdict nothing is judged; without desegmenting, what spans segments is cut, and noted."""
        capture = joined(list(wire.conversation(pieces_of(path))) for path in WHOLE)
        found = self.plugin.frames(capture, "-o", "zookeeper.strict:FALSE")
        yield found and all(each["verdict"] == ["2"] and not each["line"] for each in found if each["kind"]), "judged"
        told = self.plugin.read(capture_of(pieces_of(WHOLE[0])), "-o", "zookeeper.limit:16777217", "-O", "zookeeper")
        yield "can't be judged: memory is missing" in told, "a limit that no talk has"
        found = self.plugin.frames(capture, "-o", "zookeeper.desegment:FALSE")
        cut = [each for each in found if each["cut"]]
        yield cut and not any(each["refused"] for each in found), f"{len(cut)} cut"

    def test_lines(self):
        """The line of each message is that of the listing, up to its end, or to what the listing refuses."""
        for path, profile, listing in listings():
            found = [message["line"][0] for message in self.plugin.frames_of(path, profile) if message["line"]]
            *lines, ending = listing
            if ending.startswith(". refused"):
                found = found[:len(lines)]
            yield found == lines, f"{path.stem} under {profile}: {len(found)} lines, of {len(lines)}"

    def test_secrets_are_hidden(self):
        """No field but the bytes of the frame has a password or a credential."""
        for name in ("java_auth", "kazoo_auth"):
            capture = capture_of(pieces_of(TOP / "captures" / f"{name}.zkr"))
            shown = self.plugin.frames(capture)
            secrets = {value.replace(":", "") for each in shown for value in each["passwd"] + each["auth"]}
            secrets = {value for value in secrets if value.strip("0")}
            hidden = self.plugin.frames(capture, hide=True)
            yield len(hidden) == len(shown), f"{name}: {len(hidden)} messages, of {len(shown)}"
            for each in hidden:
                text = json.dumps({field: value for field, value in each.items() if field not in ("frame", "data")})
                found = [value for value in secrets if value in text.replace(":", "")]
                yield not found, f"{name}, packet {each['packet']}: {found} in {text}"
            yield len(secrets) > 1, f"{name} has {len(secrets)} secrets"

    def test_refusals(self):
        """A refusal is that of the listing's last line, and then those of what remains without what is refused, as the
        program says them. Operations that the profile lacks are left out, and not refused."""
        for path, profile, listing in listings():
            if not listing[-1].startswith(". refused"):
                continue
            found = self.plugin.frames_of(path, profile)
            told = self.plugin.read(capture_of(pieces_of(path)), "-O", "zookeeper", "-V", profile=profile)
            told = list(dict.fromkeys(re.findall(r"Refused: (side=.*?)\]", told)))
            if "UnknownOp" in listing[-1]:
                good = not told and any(each["newer"] for each in found) and len(found) >= len(listing) - 1
            elif "LengthRange" in listing[-1]:
                good = not told and not found[0]["kind"]  # the words of four letters, which are no frame
            else:
                good = told == refusals_of(path, profile) and told[0] == listing[-1].partition(" refused ")[2]
            yield good, f"{path.stem} under {profile}: {told}, and the listing {listing[-1]}"

    def test_what_the_profile_lacks(self):
        """It is left out with its reply: their headers are shown, and the rest is judged, by the streams' numbers."""
        pieces = [zkr.Piece(side.encode(), 0, len(data := bytes.fromhex(digits)).to_bytes(4, "big") + data)
                  for side, digits, *_ in (*expectations.CONNECTS, *expectations.NEWER)]
        found = self.plugin.frames(capture_of(pieces), "-2")
        for (*_, fields), each in zip(expectations.NEWER, found[2:]):
            shown = {name: each[name] for name in fields}
            yield shown == {name: [value] for name, value in fields.items()}, f"{shown}, not {fields}"
        yield len(found) == len(pieces), f"{len(found)} messages of {len(pieces)}"
        told = self.plugin.read(capture_of(pieces), "-2", "-O", "zookeeper", "-V")
        yield set(re.findall(r"Refused: (side=.*?)\]", told)) == {expectations.REFUSED}, f"{re.findall('Refused.*', told)}"
        note = f"{unknown_operations.NAMED.name} is not of the profile: its reply is not read"
        yield note in told, f"not said: {note}"
        java = self.plugin.frames_of(TOP / "captures" / "refused_java_ttl_node.zkr", "3.5")
        yield [each["verdict"] for each in java] == [[verdict] for verdict in "00333300"], "verdicts of Java's client"
        told = [each["line"] for each in java[2:]]
        yield told == [[], [], [], [], ["C 3 closeSession"], ["S 3 closeSession zxid=1949"]], f"{told}"

    def test_stored_cases(self):
        """Every stored case of the program, whose recording is whole, is refused where its last line says so."""
        for settings, cases in expectations.cases():
            limit, profile = settings
            capture = joined(list(wire.conversation(pieces)) for _, pieces, _ in cases)
            told = collections.defaultdict(list)
            for line in self.plugin.read(capture, "-o", f"zookeeper.limit:{limit}", "-Y", "zookeeper.refused", "-T",
                                         "fields", "-e", "tcp.srcport", "-e", "tcp.dstport", "-e",
                                         "_ws.expert.message", profile=profile).splitlines():
                *ports, text = line.split("\t")
                told[max(map(int, ports)) - 40_000] += re.findall(r"Refused: (side=[^,]*)", text)
            for at, (name, _, ending) in enumerate(cases):
                yield told[at][:1] == ending, f"{name}: {told[at]}, not {ending} first"

    def test_fields(self):
        """The fields of each message are those of zkjson's object."""
        for path, profile, _ in listings():
            objects = objects_of(path, profile)
            found = self.plugin.frames_of(path, profile)[:len(objects)]
            wrong = [(each, told) for each, shown in zip(objects, found) for told in expectations.differences(each, shown)]
            yield (not wrong and len(found) == len(objects),
                   f"{path.stem} under {profile}: {len(found)} of {len(objects)}, {wrong[:2]}")

    def test_marked_bytes(self):
        """Each field marks its bytes, those before a fault, too; the bytes after these are not read."""
        yield from marked_bytes.compare(self.plugin)

    def test_the_commands_of_the_page(self):
        """Each line of tshark ends well, and prints something where it has no filter."""
        capture = joined(list(wire.conversation(pieces_of(path))) for path in WHOLE)
        lines = re.findall(r"^    \$ (tshark .*)$", (SOURCES / "README.md").read_text(), re.M)
        folder = self.folder_of_the_page(capture)
        for line in lines:
            done = self.plugin.shell(re.sub(r" -r \S+", " -r F", line), folder)
            yield (done.returncode == 0 and not self.plugin.trouble() and (done.stdout or " -Y '" in line),
                   f"{line}: status {done.returncode}, {done.stderr[-300:]}")
        yield len(lines) > 8, f"{len(lines)} lines of tshark"

    def folder_of_the_page(self, capture):
        """A folder with the capture F and the script zkr_of.py of the page, in which its commands run."""
        folder = pathlib.Path(tempfile.mkdtemp(dir=self.folder))
        script = re.search(r"as `zkr_of\.py`\n(?:\n|<.*\n)*((?:    .*\n)+)", (SOURCES / "README.md").read_text())[1]
        (folder / "zkr_of.py").write_text(textwrap.dedent(script))
        (folder / "F").write_bytes(capture)
        folder.chmod(0o777)
        return folder

    def test_the_recipe_back(self):
        """Each side's bytes come back by the fields `side` and `frame`, as the page has it."""
        line, = re.findall(r"^    \$ (tshark .* > OUT\.zkr)$", (SOURCES / "README.md").read_text(), re.M)
        for path in WHOLE:
            folder = self.folder_of_the_page(capture_of(pieces_of(path)))
            done = self.plugin.shell(line, folder)
            yield done.returncode == 0, f"{path.stem}: status {done.returncode}, {done.stderr[-300:]}"
            said, whole = collections.defaultdict(bytes), collections.defaultdict(bytes)
            for recording, found in ((folder / "OUT.zkr", said), (path, whole)):
                for piece in pieces_of(recording):
                    found[piece.side] += piece.data
            yield said == whole, f"{path.stem}: other bytes"

    def test_the_recipe_for_json(self):
        """It has the packets with messages alone, and every field of a message once, lists where there are several."""
        path = TOP / "captures" / "kazoo_multi.zkr"
        page = (SOURCES / "README.md").read_text()
        words = re.search(r"^    \$ tshark (-2 -r F .*-T json.*)$", page, re.M)[1].replace(" -r F", "").split()
        found = json.loads(self.plugin.read(capture_of(pieces_of(path)), *words))
        layers = [each["_source"]["layers"].get("zookeeper") for each in found]
        messages = sum(len(each) if isinstance(each, list) else 1 for each in layers if each)
        yield found and all(layers), f"{layers.count(None)} of {len(layers)} packets have no message"
        yield messages == len(path.with_suffix(".show").read_text().splitlines()) - 1, f"{messages} messages"

    def test_preferences_of_tcp(self):
        """The numbers may be counted from 0 or not, and TCP's own analysis may be off."""
        capture = joined(list(wire.conversation(pieces_of(path))) for path in WHOLE)
        for preference in ("relative_sequence_numbers", "analyze_sequence_numbers"):
            found = self.plugin.frames(capture, "-o", f"tcp.{preference}:FALSE")
            well = sum(each["verdict"] == ["0"] for each in found)
            lines = sum(map(decoded, WHOLE))
            yield well == lines, f"without {preference}: {well} of {lines}"

    def test_holes(self):
        """hole.c says where frames begin again as resync.py does."""
        rule = expectations.hole_of(self.folder)
        texts = {side: b"".join(piece.data for path in WHOLE for piece in pieces_of(path) if piece.side == side)
                 for side in (zkr.CLIENT, zkr.SERVER)}
        chance, wrong = random.Random(1), []
        for _ in range(40_000):
            side = chance.choice((zkr.CLIENT, zkr.SERVER))
            at = chance.randrange(len(texts[side]))
            data = bytearray(texts[side][at:at + int(2 ** chance.uniform(0, 11))])
            for _ in range(chance.choice((0, 0, 1, 6))):
                data[chance.randrange(len(data))] = chance.choice((0, 1, 0x2F, 0xFE, 0xFF, chance.randrange(256)))
            place, keep = resync.resynchronise(side, bytes(data), zkr.USUAL_LIMIT)
            if rule(side, bytes(data)) != (place is not None, keep if place is None else place):
                wrong.append((side, data.hex(), place, keep))
        yield not wrong, f"{len(wrong)} of 40,000 differ: {wrong[:1]}"

    def test_golden(self):
        if self.plugin.release != "4.0":
            left_out.say("what Wireshark 4.0 shows", f"this is {self.plugin.release}", len(list(expectations.golden())))
            return
        for name, capture, words in expectations.golden():
            stored = SOURCES / "tests" / "golden" / f"{name}.txt"
            lines = self.plugin.read(capture, *words, profile="3.4", hide=True).splitlines()
            below = ("Frame ", "Ethernet", "Internet", "Transmission")
            found = "".join(f"{line.rstrip()}\n" for line in lines if not line.startswith(below))
            if self.words.golden:
                stored.parent.mkdir(exist_ok=True)
                stored.write_text(found)
            yield stored.read_text() == found, f"{name}: other than {stored.relative_to(TOP)}"

    def test_statistics(self):
        path = TOP / "captures" / "kazoo_basic.zkr"
        asked = collections.Counter(line.split()[2] for line in path.with_suffix(".show").read_text().splitlines()
                                    if re.match(r"C -?\d", line))
        answered = {**asked, "connect": 1}
        times = self.plugin.read(capture_of(pieces_of(path)), "-q", "-z", "zookeeper,srt")
        found = {name: int(calls) for name, calls in re.findall(r"^ +-?\d+ +(\w+) +(\d+) ", times, re.M)}
        yield found == answered, f"srt: {found}, not {answered}"
        counts = self.plugin.read(capture_of(pieces_of(path)), "-q", "-z", "zookeeper,tree")
        found = {name: int(count) for name, count in re.findall(r"^ +(\w+) +(\d+) ", counts, re.M)}
        yield all(found.get(name) == count for name, count in asked.items()), f"tree: {found}"

    def test_other_ports(self):
        path = TOP / "captures" / "kazoo_multi.zkr"
        capture = capture_of(pieces_of(path), server=9999)
        lines = path.with_suffix(".show").read_text().splitlines()[:-1]
        for words in ((), ("-d", "tcp.port==9999,zookeeper"), ("-o", "zookeeper.tcp.port:2181,9999"),
                      ("-d", "tcp.port==41822,zookeeper")):  # the client's
            found = [line for each in self.plugin.frames(capture, *words) for line in each["line"]]
            yield found == lines, f"{words}: {found[:2]}"

    def test_the_page_lists_the_fields(self):
        """wireshark/README.md has just the fields that tshark has."""
        row = re.compile(r"^\| `(zookeeper\.[\w.]+)` \| (FT_\w+) \| (.*?) \|", re.M)
        page = set(row.findall((SOURCES / "README.md").read_text()))
        fields = [line.split("\t") for line in self.plugin.tshark("-G", "fields").splitlines()]
        found = {(words[2], words[3], words[1]) for words in fields
                 if words[0] == "F" and words[2].startswith("zookeeper.")}
        yield page == found, f"the page lacks {sorted(found - page)[:3]}, tshark {sorted(page - found)[:3]}"

    def test_mutants(self):
        """Mutated connections, many in one capture, under the address sanitizer; and one that ends with empty texts."""
        plugin = installed_plugin.Plugin(self.folder, self.words.libzk, sanitized=True)
        out = plugin.read(self.ending_with_empty_texts(), "-V", "-O", "zookeeper")
        yield not plugin.trouble(out) and out.count("Path: ") == 3, f"empty texts: {plugin.trouble(out)}"
        sent = [list(wire.conversation(pieces_of(path))) for path in WHOLE if path.stat().st_size < 60_000]
        for first in range(0, self.words.mutants, MUTANTS_A_RUN):
            seeds = range(first, min(first + MUTANTS_A_RUN, self.words.mutants))
            capture = joined(mutated(sent[seed % len(sent)], seed) for seed in seeds)
            out = plugin.read(capture, "-2", "-V", "-O", "zookeeper")
            trouble = plugin.trouble(out)
            yield not trouble and "zookeeper" in out.lower(), f"mutants {seeds[0]} to {seeds[-1]}: {trouble}"


def decoded(path):
    """How many messages of a recording are decoded: those of its listing."""
    return listings_of(path)[-1][1].read_text().count("\n") - 1


def main():
    parser = argparse.ArgumentParser(description="Tests of the plugin for Wireshark.")
    parser.add_argument("--install", action="store_true")
    parser.add_argument("--libzk", type=lambda path: pathlib.Path(path).resolve())
    parser.add_argument("--mutants", type=int, default=1000)
    parser.add_argument("--seeds", type=int, default=3)
    parser.add_argument("--golden", action="store_true")
    parser.add_argument("words", nargs="*")
    words = parser.parse_args()
    names = [name for name in dir(Tests) if name.startswith("test_")
             and (not words.words or any(word in name for word in words.words))]
    for word in words.words:
        if not any(word in name for name in names):
            parser.error(f"no test has this word: {word}")
    if words.install:
        subprocess.run(["apt-get", "install", "-y", "--no-install-recommends", *PACKAGES], check=True)
    if missing := installed_plugin.missing(words.libzk):
        left_out.say(PLUGIN, left_out.lacking(missing))
        print("0 passed, 0 failed")
        return 0
    passed, failures = 0, []
    with tempfile.TemporaryDirectory() as folder:
        tests = Tests(installed_plugin.Plugin(folder, words.libzk), folder, words)
        for name in names:
            results = list(getattr(tests, name)())
            passed += sum(1 for good, _ in results if good)
            failures += [f"{name}: {told}" for good, told in results if not good]
    if not words.words:
        _, good, told = left_out.compared(PLUGIN, passed + len(failures))
        passed, failures = passed + good, failures + ([] if good else [told])
    print("\n".join(failures[:50]), end="\n" if failures else "")
    print(f"{passed} passed, {len(failures)} failed")
    return 1 if failures else 0


if __name__ == "__main__":
    sys.exit(main())
