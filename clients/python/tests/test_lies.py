"""What a lying peer sends closes the end towards it, and no other."""
import logging
import socket
import threading
import unittest

import nukwashe
from nukwashe import Node

from .support import PATIENCE, Peer, free_ports, listener, peers_world

GREETING, ROOT_ASK, END = "0d0000000102", "05000000020101", "0c00000000"


def frame(kind, *pieces):
    """A frame of a kind and payload in hexadecimal digits."""
    payload = "".join(pieces)
    return f"{kind:02x}{len(payload) // 2:08x}{payload}"


class Lies(unittest.TestCase):
    def setUp(self):
        self.ports = free_ports(4)
        self.world = peers_world(self.ports[:3])
        logging.getLogger("nukwashe").setLevel(logging.ERROR)
        self.addCleanup(logging.getLogger("nukwashe").setLevel, logging.NOTSET)

    def answers(self, hexes, closes=True):
        """What a node answers to these frames of a peer, behind its greeting and root. With
        `closes` it must close its end towards that peer, and else keep it open."""
        port, liar, other = self.ports[:3]
        with listener(liar) as sock, Node(port, self.world, Peer()) as node:
            out = socket.create_connection(("127.0.0.1", port))
            self.addCleanup(out.close)
            out.sendall(liar.to_bytes(2, "big") + bytes.fromhex(GREETING + ROOT_ASK))
            self.assertTrue(node.run(lambda: node.exports.held(), PATIENCE))
            stream, _ = sock.accept()
            self.addCleanup(stream.close)
            stream.settimeout(PATIENCE)
            stream.recv(1 << 16)
            out.sendall(bytes.fromhex(hexes))
            got = b""
            if closes:
                self.assertTrue(node.run(lambda: not node.is_open(liar), PATIENCE), hexes)
                while not got.endswith(bytes.fromhex(END)):
                    got += stream.recv(1 << 16)
                self.assertEqual(node.exports.held(), {})
            else:
                while not got:
                    node.poll(0.01)
                    stream.setblocking(False)
                    try:
                        got = stream.recv(1 << 16)
                    except BlockingIOError:
                        pass
                self.assertTrue(node.is_open(liar))
            self.assertTrue(node.is_open(other))
            return got.hex()

    def test_bytes_that_are_no_frame(self):
        for lie in ["ff00000000",  # no kind
                    "05ffffffff",  # too long
                    frame(5, "020001"),  # a zero in front
                    frame(6, "0101", "0101", "0400", "00", "00"),  # a place of an empty table
                    frame(1, "0102", "0101", "01056563686f3a", "00", "00", "0101", "05")]:
            self.answers(lie)

    def test_what_nothing_waits_for(self):
        for lie in [frame(10, "0101", "0102"),  # gives back more than was named
                    frame(11, "0101"),  # no such token
                    frame(3, "0101", "00", "00", "0101", "00"),  # no such call
                    frame(4, "0101", "0101"),
                    frame(6, "0101", "00", "00", "0101", "00"),
                    frame(8, "0101", "021b5b", "0101"),  # granted, and was not asked
                    frame(9, "0101", "021b5b", "0101")]:
            self.answers(lie)

    def test_an_answer_of_other_values(self):
        port, liar, _ = self.ports[:3]
        answers = {1: frame(6, "0101", "00", "00", "00"),
                   2: frame(6, "0102", "00", "00", "0102", "00", "00")}
        with listener(liar) as sock, Node(port, self.world, Peer()) as node:
            sender = threading.Thread(target=self.answer_asks, args=(sock, port, liar, answers))
            sender.start()
            for _ in answers:
                with self.assertRaises(nukwashe.Type):
                    node.root(liar, timeout=PATIENCE)
            self.assertTrue(node.is_open(liar))
            node.close()
            sender.join(PATIENCE)

    def answer_asks(self, sock, port, liar, answers):
        """Answers each ask for the root as it is given, by the numbers of calls."""
        stream, _ = sock.accept()
        with stream, socket.create_connection(("127.0.0.1", port)) as out:
            stream.settimeout(PATIENCE)
            out.sendall(liar.to_bytes(2, "big") + bytes.fromhex(GREETING))
            got = b""
            for number, answer in answers.items():
                while not got.endswith(bytes.fromhex(frame(5, f"01{number:02x}"))):
                    got += stream.recv(1)
                out.sendall(bytes.fromhex(answer))
            while stream.recv(1 << 16):
                pass

    def test_another_greeting(self):
        port, liar, _ = self.ports[:3]
        with Node(port, self.world, Peer()) as node:
            out = socket.create_connection(("127.0.0.1", port))
            self.addCleanup(out.close)
            out.sendall(liar.to_bytes(2, "big") + bytes.fromhex("0d0000000101"))
            with listener(liar):
                self.assertTrue(node.run(lambda: not node.is_open(liar), PATIENCE))

    def test_streams_that_say_no_peer_are_dropped(self):
        port, liar, _ = self.ports[:3]
        with Node(port, self.world, Peer()) as node:
            for said in (0, port, self.ports[3]):
                with socket.create_connection(("127.0.0.1", port)) as out:
                    out.sendall(said.to_bytes(2, "big"))
                    out.setblocking(False)
                    self.assertEqual(self.wait_for_end(node, out), b"")
            first = socket.create_connection(("127.0.0.1", port))
            self.addCleanup(first.close)
            first.sendall(liar.to_bytes(2, "big") + bytes.fromhex(GREETING))
            node.poll(0.2)
            node.poll(0.2)
            with socket.create_connection(("127.0.0.1", port)) as out:
                out.sendall(liar.to_bytes(2, "big"))
                out.setblocking(False)
                self.assertEqual(self.wait_for_end(node, out), b"")

    def wait_for_end(self, node, out):
        for _ in range(PATIENCE * 50):
            node.poll(0.02)
            try:
                return out.recv(1)
            except BlockingIOError:
                pass
        return None

    def test_calls_that_raise(self):
        got = self.answers(frame(1, "0102", "0109", "01056563686f3a", "00", "00", "0101", "00"),
                           closes=False)
        self.assertEqual(got, frame(4, "0102", "0106"))  # NotVended
        got = self.answers(frame(1, "0103", "0101", "01036c6965", "00", "00", "00"), closes=False)
        self.assertEqual(got, frame(4, "0103", "0104"))  # NotUnderstood
        got = self.answers(frame(1, "0104", "0101", "01056563686f3a", "00", "00", "00"),
                           closes=False)
        self.assertEqual(got, frame(4, "0104", "0101"))  # Type
        got = self.answers(frame(1, "0105", "0101", "01056563686f3a", "00", "00", "0101",
                                 "01012a"), closes=False)
        self.assertEqual(got, frame(3, "0105", "00", "00", "0101", "01012a"))


if __name__ == "__main__":
    unittest.main()
