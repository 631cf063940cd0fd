"""What dissection.py works with: the plugin, built and put into a home of its own, tshark as it runs there, and
captures."""

import collections
import os
import pathlib
import random
import re
import shutil
import subprocess
import xml.etree.ElementTree

from packaging import make_library
from packaging.build_library import PLAIN
from tools.zkdump_tools import zkr
from ..tools import wire

TOP = pathlib.Path(__file__).resolve().parents[2]
SOURCES = TOP / "wireshark"

NOBODY = 65534
PROFILES = dict(re.findall(r'\{"([\d.]+)", "([^"]*)", ZK_PROFILE', (SOURCES / "register.c").read_text()))
FLAGS = ("-std=gnu11", "-fPIC", "-shared", "-fvisibility=hidden", "-Wall", "-Wextra", "-Werror",
         f"-I{TOP / 'include'}", f"-I{SOURCES}")
SANITIZED = ("-O1", "-g", "-fsanitize=address,undefined", "-fno-sanitize=alignment")
BOOLEANS = ("zookeeper.watch", "zookeeper.read_only", "zookeeper.part.done", "zookeeper.flags.ephemeral",
            "zookeeper.flags.sequential", *(f"zookeeper.acl.perms.{each}" for each in
                                            ("read", "write", "create", "delete", "admin")))
# What no run may say.
BAD = ("AddressSanitizer", "runtime error", "Dissector bug", "Fatal", "ASSERT")


def missing(libzk=None):
    """What the tests need and isn't here."""
    found = [tool for tool in ("tshark", "cc", "pkg-config") if not shutil.which(tool)]
    if not found and subprocess.run(["pkg-config", "--exists", "wireshark"], check=False).returncode != 0:
        found = ["wireshark-dev"]
    if not (libzk or PLAIN).exists():
        found.append(f"the proved library {libzk or PLAIN.relative_to(TOP)}")
    return found


def missing_for_cmake():
    """What the build by CMake needs and isn't here. Debian's libwireshark-dev alone has the headers, and no file for
    CMake."""
    if not shutil.which("cmake"):
        return ["cmake"]
    library, = words_of_pkg("--variable=libdir")
    return [] if pathlib.Path(library, "wireshark/cmake/WiresharkConfig.cmake").exists() else ["wireshark-dev"]


def words_of_pkg(*words):
    return subprocess.run(["pkg-config", *words, "wireshark"], capture_output=True, text=True,
                          check=True).stdout.split()


class Plugin:
    """The plugin in a home of its own below a folder, with the proved library, or with another archive of it."""

    def __init__(self, folder, libzk=None, sanitized=False):
        self.home = pathlib.Path(folder, "sanitized" if sanitized else "home")
        self.release = ".".join(words_of_pkg("--modversion")[0].split(".")[:2])
        plugins = self.home / ".local/lib/wireshark/plugins" / self.release / "epan"
        plugins.mkdir(parents=True)
        self.libzk = libzk or make_library.make(folder)[0]
        subprocess.run(["cc", *FLAGS, *(SANITIZED if sanitized else ("-O2", "-Wl,-z,defs")), *words_of_pkg("--cflags"),
                        "-o", plugins / "zookeeper.so", *sorted(SOURCES.glob("*.c")), self.libzk,
                        "-Wl,--exclude-libs,ALL", *words_of_pkg("--libs")], check=True)
        # Wireshark loads no plugin out of the home of root.
        self.user = {"user": NOBODY, "group": NOBODY, "extra_groups": []} if os.geteuid() == 0 else {}
        self.environment = {"PATH": os.environ["PATH"], "HOME": str(self.home), "LC_ALL": "C.UTF-8",
                            "WIRESHARK_ABORT_ON_DISSECTOR_BUG": "1"}
        if sanitized:
            preloaded = [subprocess.run(["cc", f"-print-file-name={name}"], capture_output=True, text=True,
                                        check=True).stdout.strip() for name in ("libasan.so", "libubsan.so")]
            self.environment.update(LD_PRELOAD=" ".join(preloaded),
                                    ASAN_OPTIONS="detect_leaks=0:detect_odr_violation=0")
        for path in (pathlib.Path(folder), *pathlib.Path(folder).rglob("*")):
            path.chmod(0o755 if path.is_dir() or path.suffix == ".so" else 0o644)
        self.capture = pathlib.Path(folder, "capture.pcap")
        self.said, self.shown = "", {}

    def tshark(self, *words, profile=[*PROFILES][-1], hide=False, home=None):
        """What tshark writes with these words; its status and what it says on standard error are kept."""
        options = [] if words[0] == "-G" else ["-o", f"zookeeper.profile:{PROFILES[profile]}", "-o",
                                               f"zookeeper.hide_secrets:{str(hide).upper()}"]
        environment = {**self.environment, "HOME": str(home or self.home)}
        done = subprocess.run(["tshark", *options, *map(str, words)], env=environment, capture_output=True, cwd="/",
                              check=False, **self.user)
        self.status, self.said = done.returncode, done.stderr.decode(errors="replace")
        return done.stdout.decode(errors="replace")

    def shell(self, command, folder):
        """The run of a command with tshark in this folder, with the preferences as they come."""
        done = subprocess.run(["sh", "-c", command], cwd=folder, env=self.environment, capture_output=True, check=False,
                              **self.user)
        self.status, self.said = done.returncode, done.stderr.decode(errors="replace")
        return done

    def trouble(self, out=""):
        """What is wrong with the last run, or nothing."""
        found = [word for word in BAD if word in self.said or word in out]
        if self.status != 0 or found:
            return f"status {self.status}, {found}: {self.said[-300:]}"
        return ""

    def read(self, capture, *words, **more):
        """What tshark writes of this capture, given as bytes."""
        self.capture.write_bytes(capture)
        self.capture.chmod(0o644)
        return self.tshark("-r", self.capture, *words, **more)

    def frames(self, capture, *words, **more):
        """The messages of a capture, each a dict of its fields: of each name the values that it has, and under
        "packet" the number of its packet."""
        text = self.read(capture, *words, "-Y", "zookeeper.side", "-T", "pdml", "-J", "frame zookeeper", **more)
        if not text:
            return []
        found = []
        for packet in xml.etree.ElementTree.fromstring(text).iter("packet"):
            number = int(packet.find("proto[@name='geninfo']/field[@name='num']").get("show"))
            for message in packet.findall("proto[@name='zookeeper']"):
                fields = collections.defaultdict(list)
                fields["packet"] = number
                for field in message.iter("field"):
                    name = field.get("name", "")
                    if name.startswith("zookeeper."):
                        shown = field.get("show")
                        if name in BOOLEANS:  # of which 4.0 shows the number, and 4.4 the word
                            shown = {"True": "1", "False": "0"}.get(shown, shown)
                        fields[name.partition(".")[2]].append(shown)
                found.append(fields)
        return found

    def frames_of(self, path, profile):
        """The messages of a recording, by two passes; they are kept."""
        if (path, profile) not in self.shown:
            self.shown[path, profile] = self.frames(capture_of(pieces_of(path)), "-2", profile=profile)
        return self.shown[path, profile]


def pieces_of(path):
    with open(path, "rb") as file:
        return list(zkr.Reader(file))


def packed(sent, **more):
    return [(each.milliseconds, wire.packet(each, **more)) for each in sent]


def capture_of(pieces, **more):
    """The capture of a connection with these pieces."""
    return wire.pcap(packed(wire.conversation(pieces), **more))


def joined(connections):
    """The capture of these connections, each a list of segments, side by side."""
    packets = [packet for at, sent in enumerate(connections) for packet in packed(sent, client=40_000 + at)]
    return wire.pcap(sorted(packets, key=lambda packet: packet[0]))


def lossy(sent, chance, share):
    """These segments without some that have data."""
    return [each for each in sent if not each.data or chance.random() >= share]


def mutated(sent, seed):
    """These segments with some bytes changed, cut or lost."""
    chance = random.Random(seed)
    share, found = chance.choice((0.0005, 0.002, 0.02)), []
    for each in lossy(sent, chance, chance.choice((0, 0, 0.05))):
        data = bytearray(each.data)
        for at in range(len(data)):
            if chance.random() < share:
                data[at] = chance.choice((0, 1, 0x7F, 0x80, 0xFF, chance.randrange(256)))
        if data and chance.random() < share:
            del data[chance.randrange(len(data)):]
        found.append(each._replace(data=bytes(data)))
    return found
