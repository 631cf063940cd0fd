"""Records the connections of ZooKeeper clients, one file each, as a proxy in front of a server.

    record.py [HOST:]PORT SERVER:PORT PREFIX

Point the client at PORT: it listens there on 127.0.0.1, or on HOST. An IPv6 address is written in brackets. The
connections become PREFIX-1.zkr, PREFIX-2.zkr and so on; a number whose file exists is skipped. When a connection begins
or ends, it prints a line with the client's address and the time. The line of the end says who ended it, as closed=C
(the client closed it first, by a FIN) or reset=S (the server reset it). Ctrl-C or SIGTERM ends the recorder.

Every piece is in its file before it is passed on, so in the recording no reply comes before its request. The end of one
direction is passed on, and so is a reset. Until its connection has ended, the facts beside a recording
(NAME.facts.json) say that it is unfinished. Only their owner may read the files: they have everything that was said,
including session passwords and the data of nodes.
"""

import time

from . import addresses, contents, facts, proxy, running, zkr


def now():
    return time.time() * 1000


class Recording:
    """The recording of a connection; `writer` is None if it can't be written, or no longer."""

    def __init__(self, recorder, connection):
        self.recorder, self.connection, self.writer, self.words = recorder, connection, None, []
        self.path, self.recorded, self.begun = "-", None, now()
        try:
            self.writer = self.recorded = recorder.series.next(self.known())
            self.path = self.writer.path
        except OSError as error:
            recorder.status = 3
            recorder.complaints.print_once(f"{recorder.series.prefix}: {error.strerror}; new connections go on without "
                                          "a recording")
        recorder.say(f"{self.path} {connection.peer} begun {zkr.clock(self.begun)}")

    def piece(self, side, data):
        if self.writer:
            try:
                self.writer.piece(side, now(), data)
            except OSError as error:
                self.recorder.status = 3
                self.recorder.complaints.print(f"{self.path}: {error.strerror}; the connection of "
                                              f"{self.connection.peer} goes on, and no more of it is recorded")
                self.close()

    def close(self):
        """Ends the recording, whether its connection ends or continues."""
        writer, self.writer = self.writer, None
        self.words = [f"client={writer.count[zkr.CLIENT]}", f"server={writer.count[zkr.SERVER]}"]
        try:
            writer.close()
        except OSError:
            pass

    def over(self):
        incomplete = ["incomplete"] if self.words else []
        if self.writer:
            self.close()
        ended, how = self.connection.ended * 1000, self.connection.ended_words()
        self.recorder.say(" ".join([self.path, self.connection.peer, "ended", zkr.clock(ended), *self.words, *how,
                                    *incomplete]))
        if self.recorded:
            self.write_facts(ended, how, incomplete)

    def known(self):
        """The facts that are known from the beginning on."""
        head = self.recorder.series.head
        return facts.Facts(
            tool="record", client=self.connection.peer, server=self.recorder.server_text, connected=self.begun,
            begun=self.begun, profile=zkr.RELEASES[head.profile] if head.form == "zkr2" else None)

    def write_facts(self, ended, how, incomplete):
        """Writes what is known of the connection beside its recording."""
        words = {word: value or True for word, _, value in (each.partition("=") for each in how)}
        try:
            self.recorded.write_facts(self.known()._replace(
                ended=ended, session=contents.session_of(self.path), hole=facts.SIDES if incomplete else (), **words))
        except OSError as error:
            self.recorder.status = 3
            self.recorder.complaints.print(f"{error.filename or self.path}: {error.strerror}; the session of "
                                           f"{self.path}, and who ended it, are not written")


class Recorder(proxy.Proxy):
    """Accepts clients' connections and records them; `status` is 3 if a recording could not be written."""

    def __init__(self, server, series, server_text):
        super().__init__(running.name(), server)
        self.series, self.status, self.descriptors = series, 0, 2 if series.times else 1
        self.server_text = server_text

    def observer_of(self, connection):
        return Recording(self, connection)

    def unreached(self, connection, reason):
        self.complaints.print(f"{connection.peer}: no connection to the server {self.server_text}: {reason}")


def words_of():
    parser = zkr.Words(__doc__)
    parser.add_argument("listen", metavar="[HOST:]PORT")
    parser.add_argument("server", metavar="SERVER:PORT")
    parser.add_argument("prefix", metavar="PREFIX")
    parser.add_format()
    words = parser.parse_args()
    words.listen = addresses.address_word(parser, words.listen, "127.0.0.1")
    words.server = addresses.address_word(parser, words.server, None)
    return words, parser.head_of(words)


def main():
    words, head = words_of()
    zkr.hold_standard_streams()
    zkr.allow_many_files()
    try:
        zkr.Series(words.prefix, head, words.times).next().remove()
        server, listeners = addresses.found(words.server), addresses.listen(words.listen)
    except OSError as error:
        zkr.complain(f"{error.filename or words.prefix}: {error.strerror}")
        return 3
    recorder = Recorder(server, zkr.Series(words.prefix, head, words.times), addresses.address_text(words.server))
    for listener in listeners:
        recorder.complaints.print(f"listens on {addresses.address_text(listener.getsockname())}; Ctrl-C ends it")
    recorder.complaints.wait()  # the first lines on a terminal
    recorder.run(listeners)
    return recorder.status
