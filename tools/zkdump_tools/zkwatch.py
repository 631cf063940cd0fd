"""Shows the messages of ZooKeeper connections as they pass: through a proxy, or in a capture.

    zkwatch.py [--zkdump PATH] [--profile RELEASE] [--limit N] [--once] [HOST:]PORT SERVER:PORT
    zkwatch.py [--zkdump PATH] [--profile RELEASE] [--limit N] [--port N] --capture FILE

As a proxy it listens on PORT (0 is any free one; the first line of standard output has it) and passes every connection
on to the server. Each has a process of its own, zkcolumns or else `zkdump show`, which gets every frame before it is
passed on; so a request is read before its reply can come. The lines of all are printed with the time at which the
message passed and the connection's number; a reply's ends with how long it took, ms=1.25. Requests that the release lacks
are left out with their replies, as zkskip leaves them out, and those of operations that no release has: each has a line
`left out`, in its place, and the numbers of the last line are those of the bytes as they came. Where a message is
refused, its line says how many bytes are passed over, and what follows is read as of a connection that is seen late:
replies to earlier requests are left out. Where a frame's length is refused, or a conversation can't be read any longer,
a line reports that, and its bytes are still passed on. Ctrl-C or SIGTERM ends it. The status is 1 if anything was
refused.

No connection waits for its process, or for the reader of the lines, and none ends with that reader: a connection of
which 64 MB wait to be read is no longer watched.

With --capture it reads a capture of tcpdump or Wireshark, as it comes and as pcap2zkr --late does; - is standard input:

    tcpdump -i any -U -w - port 2181 | zkwatch.py --capture -

Times are those of the packets, and the last line of a connection is that of pcap2zkr, with the same words. What follows
missing bytes has the number 1.2 in place of 1, and begins with the requests that waited for their replies. The status is
that of pcap2zkr: 1 if bytes are missing or left out. So it is after a refusal.
"""

import errno
import sys

from . import addresses, program, proxy, running, shows, zkr


class Watch(shows.Watching, proxy.Proxy):
    """Everything that is watched through a proxy."""

    descriptors = 8         # the pipes of a process, with those that are open only while it begins
    what_follows = "what follows is passed on, and not read"

    def __init__(self, server, words):
        super().__init__(words, running.name(), server)
        self.once, self.server_text = words.once, words.server

    def taken(self, connection):
        self.say_of(connection.number, f"from {connection.peer}")

    def observer_of(self, connection):
        return self.show_of(connection.number)

    def unreached(self, connection, reason):
        self.say_of(connection.number, f"not passed on: no connection to the server {self.server_text}: {reason}")
        self.over |= self.once

    def seen(self, show):
        super().seen(show)
        self.over |= self.once


def words_of():
    parser = zkr.Words(__doc__)
    parser.add_argument("listen", metavar="[HOST:]PORT", nargs="?")
    parser.add_argument("server", metavar="SERVER:PORT", nargs="?")
    parser.add_argument("--capture", metavar="FILE", help="show the connections of a capture, in place of a proxy; - is "
                        "standard input")
    parser.add_number("--port", range(1, 65536), help="the server's port in a capture (2181)")
    program.add_program(parser)
    parser.add_argument("--profile", choices=zkr.PROFILES, default=zkr.NEWEST,
                        help=f"the release to judge by ({zkr.NEWEST})")
    parser.add_number("--limit", zkr.LIMITS, default=zkr.LIMITS[-1],
                      help=f"the greatest payload of a frame ({zkr.LIMITS[-1]})")
    parser.add_argument("--once", action="store_true", help="end with the first connection")
    words = parser.parse_args()
    if words.capture is None:
        if words.server is None:
            parser.error("name the port to listen on and the server: [HOST:]PORT SERVER:PORT; or a capture: "
                         "--capture FILE")
        if words.port is not None:
            parser.error("--port is for --capture: leave it out")
        words.listen = addresses.address_word(parser, words.listen, "127.0.0.1")
        words.address = addresses.address_word(parser, words.server, None)
    elif words.listen or words.once:
        parser.error("--capture shows what was captured, and is no proxy: leave out the ports and --once")
    words.port = words.port or 2181
    return parser, words


def main():
    parser, words = words_of()
    if sys.stdout is None:
        raise OSError(errno.EBADF, "standard output is closed")
    program.prove_runs(parser, words.zkdump)
    zkr.allow_many_files()
    if words.capture is not None:
        from . import live      # which a proxy doesn't wait for
        with zkr.standard_input().detach() if words.capture == "-" else open(words.capture, "rb", 0) as file:
            return live.Watch(words).run(words.capture, file)
    watch = Watch(addresses.found(words.address), words)
    listeners = addresses.listen(words.listen)
    watch.say(f"listening on {addresses.address_text(listeners[0].getsockname())}")
    watch.run(listeners)
    return int(watch.has_refused)
