"""Tests of zkplay: it plays to a client that says what was recorded, and refuses any other."""

import argparse
import contextlib
import errno
import io
import json
import select
import socket
import struct
import subprocess
import sys
import time
import unittest.mock

from .support import CAPTURES, TOOLS, TOP, ToolCase, pieces, receive, sides, zkr
from tools.zkdump_tools import playing, zkplay

RUN = TOP / "crates" / "zkdump" / "stdin"       # connect, exists, and their replies: 68 and 61 bytes
CONNECT, EXISTS = 49, 19                        # the bytes of the client's two frames
SECONDS = 20
PING, PONG = bytes.fromhex("00000008fffffffe0000000b"), bytes.fromhex("00000010fffffffe")     # PONG has 12 bytes more
CLOSE = bytes.fromhex("0000000800000002fffffff5")


class Zkplay(ToolCase):
    def play(self, recording, *words, address="0"):
        """Begins to play, and returns the process and, where it listens, its address."""
        player = subprocess.Popen([sys.executable, TOOLS / "zkplay.py", *words, address, recording],
                                  stdout=subprocess.PIPE, stderr=subprocess.PIPE, text=True)
        self.addCleanup(player.wait)
        self.addCleanup(player.kill)
        if "--client" in words:
            return player, None
        host, _, port = player.stdout.readline().removeprefix("listening on ").rpartition(":")
        return player, (host.strip("[]"), int(port))

    def ended(self, player):
        out, err = player.communicate(timeout=SECONDS)
        return player.returncode, out, err

    def refusal(self, said, *words, end=False, recording=RUN):
        """The message about a client that says this to the stored run, and waits or ends."""
        player, address = self.play(recording, *words)
        with socket.create_connection(address) as client:
            client.sendall(said)
            if end:
                client.shutdown(socket.SHUT_WR)
            status, out, err = self.ended(player)
        self.assertEqual((status, out, err.count("\n")), (1, "", 1))
        return err.removeprefix("zkplay.py: ").removesuffix("\n")

    def test_the_recorded_client(self):
        player, address = self.play(RUN)
        client_bytes, server_bytes = sides(RUN.read_bytes())
        with socket.create_connection(address, SECONDS) as client:
            self.assertTrue(client.getpeername()[0] == "127.0.0.1")
            for begin, end, answer in ((0, CONNECT, server_bytes[:41]), (CONNECT, 68, server_bytes[41:])):
                client.sendall(client_bytes[begin:end - 1])
                self.assertEqual(select.select([client], [], [], 0.2)[0], [])
                client.sendall(client_bytes[end - 1:end])
                self.assertEqual(receive(client, len(answer)), answer)
        self.assertEqual(self.ended(player), (0, "played: 68 bytes of the client, 61 of the server\n", ""))

    def test_a_recording_of_the_second_format(self):
        head, path = zkr.Head("zkr2"), self.folder / "two.zkr"
        path.write_bytes(head.to_bytes() + b"".join(head.piece(piece.side, 1000 + n, piece.data)
                                                    for n, piece in enumerate(pieces(RUN.read_bytes()))))
        player, address = self.play(path)
        client, _ = self.play(path, "--client", address=f"{address[0]}:{address[1]}")
        for process in (client, player):
            self.assertEqual(self.ended(process), (0, "played: 68 bytes of the client, 61 of the server\n", ""))

    def test_all_at_once_over_ipv6(self):
        if not socket.has_ipv6:
            self.skipTest("this machine has no IPv6")
        try:
            socket.create_server(("::1", 0), family=socket.AF_INET6).close()
        except OSError as error:
            self.skipTest(f"this machine has no IPv6: {error}")
        player, address = self.play(RUN, address="[::1]:0")
        with socket.create_connection(address, SECONDS) as client:
            client.sendall(sides(RUN.read_bytes())[0])
            client.shutdown(socket.SHUT_WR)
            self.assertEqual(receive(client, 100), sides(RUN.read_bytes())[1])
        self.assertEqual(self.ended(player)[0], 0)

    def test_the_first_other_byte(self):
        said = sides(RUN.read_bytes())[0]
        for other, told in (
                (said[:67] + b"\0", "client frame=1 offset=68 place=14: expected byte 0x01, got 0x00"),
                (said[:4] + b"\1" + said[5:], "client frame=0 offset=5 place=0: expected byte 0x00, got 0x01"),
                (said[:52] + b"\x10" + said[53:], "client frame=1 offset=53 place=0: expected byte 0x0f, got 0x10"),
                (b"ruok", "client frame=0 offset=1 place=0: expected byte 0x00, got 0x72"),
                (said + b"\7", "client frame=2 offset=69 place=0: expected the end of the connection, got byte 0x07")):
            with self.subTest(told):
                self.assertEqual(self.refusal(other), told)

    def test_an_end_and_silence_where_a_byte_is_due(self):
        said = sides(RUN.read_bytes())[0][:-1]
        self.assertEqual(self.refusal(said, end=True), "client frame=1 offset=68 place=14: expected byte 0x01: it has "
                         "closed its side")
        self.assertEqual(self.refusal(said, "--wait", "0.5"),
                         "client frame=1 offset=68 place=14: expected byte 0x01: nothing came for 0.5 s")

    def assert_played(self, said, heard, *played, words=(), cut=0):
        """That a client that says this, `cut` bytes of it a moment before the others, and ends once it has heard that,
        fits the stored run's connect messages with these pieces after them."""
        path, connect = self.folder / "pings.zkr", pieces(RUN.read_bytes())[:2]
        path.write_bytes(b"ZKR1" + b"".join(zkr.Head().piece(side, 0, data) for side, data in
                                            [*[piece[::2] for piece in connect], *played]))
        player, address = self.play(path, *words)
        with socket.create_connection(address, SECONDS) as client:
            client.setsockopt(socket.IPPROTO_TCP, socket.TCP_NODELAY, 1)
            client.sendall(connect[0].data + said[:cut])
            time.sleep(0.05 if cut else 0)
            client.sendall(said[cut:])
            self.assertEqual(receive(client, 41 + len(heard)), connect[1].data + heard)
            client.shutdown(socket.SHUT_WR)
            self.assertEqual(receive(client, 1), b"")
        status, out, err = self.ended(player)
        self.assertEqual((status, out[:7], err), (0, "played:", ""))

    def test_recorded_pings_that_do_not_come(self):
        """Also the last one, and those after which the client waits for the server."""
        pong, event = PONG + bytes(12), b"\0\0\0\4some"
        ping, both = (zkr.CLIENT, PING), [(zkr.CLIENT, PING), (zkr.SERVER, pong)]
        for played in ([ping], both, [(zkr.CLIENT, PING[:4]), (zkr.CLIENT, PING[4:]), both[1]]):
            self.assert_played(b"", b"", *played)
            self.assert_played(PING, pong, *both)
        self.assert_played(b"", event, *both, (zkr.SERVER, event), words=("--wait", "0.5"))

    def test_a_request_in_two_pieces_where_a_ping_does_not_come(self):
        """Its first bytes may be the ping's."""
        for cut in (1, 4):
            self.assert_played(CLOSE, b"", (zkr.CLIENT, PING), (zkr.SERVER, PONG + bytes(12)), (zkr.CLIENT, CLOSE),
                               cut=cut)

    def test_a_reply_in_two_pieces_to_a_ping_that_does_not_come(self):
        pong, other = PONG + bytes(12), PONG[:4] + bytes(16)
        for size in (3, 4, 7, 8, 19):
            for after in ((), ((zkr.SERVER, other),)):
                heard = b"".join(piece[1] for piece in after)
                cut = (zkr.SERVER, pong[:size]), (zkr.SERVER, pong[size:])
                self.assert_played(b"", heard, (zkr.CLIENT, PING), *cut, *after, words=("--wait", "0.5"))
                self.assert_played(PING, pong + heard, (zkr.CLIENT, PING), *cut, *after)
            self.assert_played(b"", other, (zkr.CLIENT, PING), (zkr.SERVER, other[:size]), (zkr.SERVER, other[size:]),
                               words=("--wait", "0.5"))

    def test_a_recording_that_ends_within_a_reply(self):
        """Its bytes are sent where they may begin another reply than that to a ping which doesn't come."""
        for size, heard in ((3, PONG[:3]), (7, PONG[:7]), (8, b""), (19, b"")):
            cut = (zkr.SERVER, (PONG + bytes(12))[:size])
            self.assert_played(b"", heard, (zkr.CLIENT, PING), cut, words=("--wait", "0.5"))

    def test_an_end_at_a_place_that_its_frame_does_not_have(self):
        """The server's frame 1 has the places 0 to 15, and is not the last."""
        path, answer = self.folder / "two.zkr", zkr.Piece(zkr.SERVER, None, pieces(RUN.read_bytes())[3].data)
        path.write_bytes(RUN.read_bytes() + zkr.Head().piece(zkr.SERVER, 0, answer.data))
        for place, told in ((16, ""), (17, "zkplay.py: the server's bytes ended before frame=1 place=17, so no fault "
                                           "was made there: choose an earlier place\n")):
            for option in ("--cut-at", "--reset-at"):
                player, address = self.play(path, option, f"1:{place}")
                with socket.create_connection(address, SECONDS) as client:
                    client.sendall(sides(RUN.read_bytes())[0])
                    with contextlib.suppress(ConnectionResetError):
                        receive(client, 81)
                status, _, err = self.ended(player)
                self.assertEqual((status, err), (int(bool(told)), told))

    def test_a_client_that_says_more_and_more_after_an_end(self):
        """It is waited for as long as for a byte, and no longer."""
        client = unittest.mock.Mock(recv=lambda size: bytes(size))
        playing.Play(None, zkr.SERVER, client, 0.2).end_here()
        client.shutdown.assert_called_once_with(socket.SHUT_WR)

    def test_a_listing_of_any_limits(self):
        """A newer one, and one with a frame of more than 4 MB: each is played by both ends."""
        newer, longer = TOP / "captures" / "java_create2.show35", self.folder / "long.show"
        connect = "".join(self.show(RUN.read_bytes()).splitlines(True)[:2])
        longer.write_text(f'{connect}C 1 setData path="/a" blob=#{"00" * 4_200_000} version=-1\n')
        for path, said, heard in ((newer, *map(len, sides(newer.with_suffix(".zkr").read_bytes()))),
                                  (longer, CONNECT + 26 + 4_200_000, 41)):
            player, address = self.play(path)
            client, _ = self.play(path, "--client", address=f"{address[0]}:{address[1]}")
            for process in (client, player):
                self.assertEqual(self.ended(process),
                                 (0, f"played: {said} bytes of the client, {heard} of the server\n", ""))

    def test_a_client_that_reads_slowly(self):
        """It is waited for as long as it takes some bytes."""
        path, data = self.folder / "long.zkr", bytes(16_000_000)
        path.write_bytes(b"ZKR1" + zkr.Head().piece(zkr.SERVER, 0, len(data).to_bytes(4, "big") + data))
        player, address = self.play(path, "--wait", "1")
        with socket.socket() as client:
            client.setsockopt(socket.SOL_SOCKET, socket.SO_RCVBUF, 1 << 16)
            client.connect(address)
            while receive(client, 400_000):
                time.sleep(0.05)
        self.assertEqual(self.ended(player), (0, "played: 0 bytes of the client, 16000004 of the server\n", ""))

    def test_a_client_that_resets_before_it_is_taken(self):
        player, address = self.play(RUN, "--record", self.folder / "r")
        with socket.create_connection(address, SECONDS) as client:
            peer = client.getsockname()
            client.setsockopt(socket.SOL_SOCKET, socket.SO_LINGER, struct.pack("ii", 1, 0))
        self.assertEqual(self.ended(player), (1, "", "zkplay.py: client frame=0 offset=1 place=0: expected byte 0x00: "
                                                     "Connection reset by peer\n"))
        found = json.loads((self.folder / "r-1.facts.json").read_text())
        self.assertEqual((found["client"], found["reset"]), (f"{peer[0]}:{peer[1]}", "C"))

    def test_a_server_that_resets_after_its_last_byte(self):
        recording = b"ZKR1" + zkr.Head().piece(zkr.SERVER, 0, b"last")
        with socket.create_server(("127.0.0.1", 0)) as listener, \
                socket.create_connection(listener.getsockname(), SECONDS) as client:
            with listener.accept()[0] as server:
                server.sendall(b"last")
                server.setsockopt(socket.SOL_SOCKET, socket.SO_LINGER, struct.pack("ii", 1, 0))
            reset = select.poll()
            reset.register(client, 0)
            reset.poll(SECONDS * 1000)
            play = playing.Play(lambda: io.BytesIO(recording), zkr.CLIENT, client, SECONDS)
            play.run()
        self.assertEqual(play.ended, {"reset": "S"})

    def test_connections_go_on_where_no_more_can_be_made(self):
        def connections():
            yield socket.create_connection(address, SECONDS), address
            raise OSError(errno.ECONNREFUSED, "Connection refused", "127.0.0.1:1")
        player, address = self.play(RUN, "--delay", "0.3")
        words = argparse.Namespace(client=True, connections=2, wait=SECONDS, record=None, delay=0, flip=(), cut_at=None,
                                   reset_at=None)
        with contextlib.redirect_stdout(io.StringIO()) as out, contextlib.redirect_stderr(io.StringIO()) as err, \
                unittest.mock.patch.object(sys, "argv", ["zkplay.py"]):
            status = zkplay.Bench([(RUN, lambda: open(RUN, "rb"))], words).run(connections())
        self.assertEqual((status, out.getvalue(), err.getvalue()),
                         (3, "#1 played: 68 bytes of the client, 61 of the server\n",
                          "zkplay.py: 127.0.0.1:1: Connection refused\n"))
        self.assertEqual(self.ended(player)[0], 0)

    def test_the_end_in_the_facts(self):
        """Its own, where it refuses the client or waits no longer; and the client's reset."""
        said, way = sides(RUN.read_bytes())[0], ("--record", self.folder / "r", "--wait", "0.5")
        for number, (bytes_said, linger, status, end) in enumerate((
                (said[:67] + b"\0", 0, 1, {"closed": "S"}), (said[:60], 0, 1, {"closed": "S"}),
                (said, 0, 0, {"closed": "S"}), (said[:60], 1, 1, {"reset": "C"})), 1):
            player, address = self.play(RUN, *way)
            with socket.create_connection(address, SECONDS) as client:
                client.sendall(bytes_said)
                receive(client, 41)
                if linger:
                    client.setsockopt(socket.SOL_SOCKET, socket.SO_LINGER, struct.pack("ii", 1, 0))
                    client.close()
                self.assertEqual(self.ended(player)[0], status)
            found = json.loads((self.folder / f"r-{number}.facts.json").read_text())
            self.assertEqual({name: found[name] for name in ("closed", "reset", "open") if name in found}, end)

    def test_the_facts_have_the_address_of_the_server(self):
        """Of a host with a name that is the one which it has there."""
        player, address = self.play(RUN)
        client, _ = self.play(RUN, "--client", "--record", self.folder / "r", address=f"127.1:{address[1]}")
        self.assertEqual([self.ended(each)[0] for each in (client, player)], [0, 0])
        found = json.loads((self.folder / "r-1.facts.json").read_text())
        self.assertEqual(found["server"], f"127.0.0.1:{address[1]}")

    def test_pings_before_a_frame_that_was_recorded_in_parts(self):
        for size in (1, 3, 4):
            self.assert_played(PING + CLOSE, PONG + bytes(12), (zkr.CLIENT, CLOSE[:size]), (zkr.CLIENT, CLOSE[size:]))

    def test_pings_within_a_frame_of_the_server(self):
        """They are answered after it, also where it is the last, or another comes in the same piece."""
        reply, pong = PONG[:4] + b"\0\0\0\1" + bytes(12), PONG + bytes(12)
        for size in (1, 10, 19):
            before, after = reply[:size], reply[size:]
            for more in (b"", reply, reply[:7]):
                self.assert_played(PING + PING + CLOSE, reply + pong + pong + more, (zkr.SERVER, before),
                                   (zkr.CLIENT, CLOSE), (zkr.SERVER, after + more))

    def test_a_damaged_recording(self):
        path = self.folder / "damaged.zkr"
        path.write_bytes(RUN.read_bytes() + b"X")
        self.assertEqual(self.refusal(sides(RUN.read_bytes())[0], recording=path),
                         f"{path}: the recording is damaged: a piece begins with neither C nor S "
                         "(offset=153 reason=BadSide)")

    def test_both_ends_of_every_capture(self):
        words = [word for capture in CAPTURES[1:] for word in ("--then", str(capture))]
        server, address = self.play(CAPTURES[0], *words)
        client, _ = self.play(CAPTURES[0], "--client", *words, address=f"{address[0]}:{address[1]}")
        told = {}
        for number, capture in enumerate(CAPTURES, 1):
            counts = [len(side) for side in sides(capture.read_bytes())]
            told[f"#{number} played: " + "{} bytes of the client, {} of the server".format(*counts)] = capture.name
        for end in (client, server):
            status, out, err = self.ended(end)
            self.assertEqual((status, set(out.splitlines()), err), (0, set(told), ""))

    def test_a_server_that_says_another_byte(self):
        data = bytearray(RUN.read_bytes())
        data[-1] ^= 1
        other = self.folder / "other.zkr"
        other.write_bytes(data)
        _, address = self.play(other)
        client, _ = self.play(RUN, "--client", address=f"{address[0]}:{address[1]}")
        self.assertEqual(self.ended(client),
                         (1, "", "zkplay.py: server frame=1 offset=61 place=15: expected byte 0x9b, got 0x9a\n"))

    def test_an_error_of_the_system_names_what_it_is_about(self):
        with socket.create_server(("127.0.0.1", 0)) as server:
            port = server.getsockname()[1]
        self.assertEqual(self.run_tool("zkplay.py", "--client", f"127.0.0.1:{port}", RUN),
                         (3, "", f"zkplay.py: 127.0.0.1:{port}: Connection refused\n"))
        player, address = self.play(RUN, "--record", self.folder / "none" / "r")
        with socket.create_connection(address, SECONDS):
            self.assertEqual(self.ended(player)[::2],
                             (3, f"zkplay.py: {self.folder}/none/r-1.zkr: No such file or directory\n"))

    def test_words(self):
        for words in ([], ["0"], ["0", str(RUN), "more"], ["port", str(RUN)], ["99999", str(RUN)],
                      ["--client", "0", str(RUN)],
                      ["--wait", "long", "0", str(RUN)], ["--wait", "0", "0", str(RUN)],
                      ["--nonsense", "0", str(RUN)]):
            self.assert_bad_words("zkplay.py", *words)
        self.assertEqual(self.run_tool("zkplay.py", "0", "/no/such/recording")[0], 3)
        with socket.create_server(("127.0.0.1", 0)) as taken:
            status, out, err = self.run_tool("zkplay.py", taken.getsockname()[1], RUN)
        self.assertEqual((status, out, err.count("\n")), (3, "", 1))

    def test_pieces_of_the_stored_run(self):
        self.assertEqual([(piece.side, len(piece.data)) for piece in pieces(RUN.read_bytes())],
                         [(zkr.CLIENT, CONNECT), (zkr.SERVER, 41), (zkr.CLIENT, EXISTS), (zkr.SERVER, 20)])
