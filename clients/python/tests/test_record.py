"""What a node writes of its inputs."""
import pathlib
import tempfile
import unittest

from nukwashe import Node, User
from nukwashe.frames import (Ask, Call, End, Gone, Granted, Oneway, Packet, Raise, Raised, Release,
                             Reply, RootAnswer, RootAsk, Settled)
from nukwashe.record import quoted, took

from .support import Peer, Served, free_ports, peers_world

NOTHING = Packet([], [], [])


class Took(unittest.TestCase):
    def test_each_frame(self):
        for frame, said in [
                (Call(1, 1, b"add:", NOTHING), "call add:"),
                (Oneway(1, b"note:", NOTHING), "oneway note:"), (Reply(1, NOTHING), "reply"),
                (Raised(1, Raise(6)), "raised NotVended"),
                (Raised(1, Raise(8, b'a"\n')), 'raised User "a\\22\\0a"'),
                (RootAsk(1), "rootask"), (RootAnswer(1, NOTHING), "rootanswer"),
                (Ask(2, 7002, 1), "ask #7001.2"), (Granted(2, 7003, 1), "granted #7002.2"),
                (Gone(2, 7003, 1), "gone #7002.2"), (Release(3, 1), "left #7001.3"),
                (Settled(1), "settled"), (End(), "end")]:
            self.assertEqual(took(frame, 7002, 7001), "took " + said)

    def test_texts_are_quoted(self):
        self.assertEqual(quoted(b' ~"\\\x7f\xff'), '" ~\\22\\5c\\7f\\ff"')


class Records(unittest.TestCase):
    def test_a_node_writes_what_it_took(self):
        ports = free_ports(2)
        world = peers_world(ports)
        with tempfile.TemporaryDirectory() as folder:
            path = pathlib.Path(folder) / "record"
            served = Served(ports[1], world)
            with Node(ports[0], world, Peer(), record=path) as node:
                peer = node.root(ports[1])
                with self.assertRaises(User):
                    peer.raise_("x")
                peer.note_(1)
                peer.down_from_(1, node.own_root)
                served.stop()
            a, b = ports
            self.assertEqual(path.read_text().splitlines(), [
                f"record 1 {a}", f"> take {a} {b}", "took rootanswer",
                f"> take {a} {b}", 'took raised User "x"', f"> take {a} {b}",
                "took call down:from:", f"> take {a} {b}", "took reply", *self.end(path, a, b),
                "> end"])

    def end(self, path, a, b):
        """What is left is that the other gave back this node's root, perhaps, and that one of the
        two closed first."""
        left = path.read_text().splitlines()[9:-1]
        gave_back = [f"> take {a} {b}", f"took left #{a}.1"]
        closes = ([f"> close {a} {b}"], [f"> take {a} {b}", "took end"])
        self.assertIn(left, [*closes, *(gave_back + each for each in closes)])
        return left


if __name__ == "__main__":
    unittest.main()
