"""Whatever peers send, a node raises nothing, counts right, and forgets all once they are gone."""
import gc
import logging
import random
import unittest

from nukwashe.frames import (Ask, Call, CopyAt, End, Gone, Granted, Lent, Mine, NameAt, Oneway,
                             Packet, Raise, Raised, Release, Reply, RootAnswer, RootAsk, Settled,
                             Yours)
from nukwashe.reading import read_frame
from nukwashe.site import Site
from nukwashe.table import Table
from nukwashe.taking import is_fault, take
from nukwashe.writing import frame_bytes

from .support import Item, Peer, peers_world

WORLD = peers_world([7001, 7002, 7003])
SELECTORS = [b"echo:", b"keep:", b"kept", b"copied:", b"copyBack", b"note:", b"fill:and:",
             b"small:", b"raise:", b"wrong", b"absent", b"other:"]


class Silent(Site):
    """A node that keeps what it sends. Every frame must be one that its peer can read."""

    def __init__(self):
        super().__init__(7001, WORLD, Peer(), [Item])
        self.sent = []
        self.tables = {peer: Table() for peer in self.peers}

    def transmit(self, peer, frame):
        data = frame_bytes(frame, peer.table)
        sides = type(peer.stream.sides)(WORLD.slot_counts, self.port, peer.port)
        assert read_frame(data[0], data[5:], self.tables[peer.port], sides) == frame
        self.sent.append((peer.port, frame))


class Draws:
    """Frames of a peer, drawn from few numbers so that many of them mean something."""

    def __init__(self, seed):
        self.draw = random.Random(seed)

    def small(self):
        return self.draw.randrange(1, 5)

    def name(self, sender):
        third = 7003 if sender == 7002 else 7002
        return self.draw.choice([Mine(self.small(), self.draw.randrange(2)), Yours(self.small()),
                                 Lent(third, self.small(), 1, self.small())])

    def packet(self, sender):
        names = [self.name(sender) for _ in range(self.draw.randrange(3))]
        copies = [(0, [1, CopyAt(0), None])] * self.draw.randrange(2)
        values = [self.draw.choice([None, 7, b"text", [1, [None]]]
                                   + [NameAt(at) for at in range(len(names))]
                                   + [CopyAt(0)] * len(copies))
                  for _ in range(self.draw.choice([0, 1, 1, 1, 2]))]
        return Packet(names, copies, values)

    def frame(self, sender):
        n, draw = self.small, self.draw
        if draw.random() < .1:  # an object of a third node, which comes back and so is lent
            third = 7003 if sender == 7002 else 7002
            return Call(n(), 1, b"echo:", Packet([Lent(third, n(), 1, n())], [], [NameAt(0)]))
        kind = draw.choice([Call, Call, Oneway, Reply, Raised, RootAsk, RootAsk, RootAnswer, Ask,
                            Ask, Granted, Gone, Release, Settled] + [End] * (draw.random() < .2))
        match kind.__name__:
            case "Call":
                return Call(n(), n(), draw.choice(SELECTORS), self.packet(sender))
            case "Oneway":
                return Oneway(n(), draw.choice(SELECTORS), self.packet(sender))
            case "Reply" | "RootAnswer":
                return kind(n(), self.packet(sender))
            case "Raised":
                return Raised(n(), draw.choice([Raise(5), Raise(8, b"x")]))
            case "RootAsk" | "Settled":
                return kind(n())
            case "Ask" | "Granted" | "Gone":
                return kind(n(), draw.choice([7002, 7003]), n())
            case "Release":
                return Release(n(), 1)
        return End()


class Drawn(unittest.TestCase):
    def setUp(self):
        logging.getLogger("nukwashe").setLevel(logging.CRITICAL)
        self.addCleanup(logging.getLogger("nukwashe").setLevel, logging.NOTSET)

    def test_nothing_is_raised_and_nothing_is_left(self):
        kinds = set()
        for seed in range(200):
            site, draws = Silent(), Draws(seed)
            for _ in range(40):
                peer = site.peers[draws.draw.choice([7002, 7003])]
                frame = draws.frame(peer.port)
                if peer.is_open and is_fault(site, peer.port, frame):
                    # A fault closes the end; here it is passed over, so that more is tried.
                    continue
                if peer.is_open and not (isinstance(frame, End) and draws.draw.random() < .7):
                    take(site, peer, frame)
                    kinds.add(type(frame))
                    site.give_back()
            self.counts(site)
            for peer in site.peers.values():
                site.close_end(peer)
            site.own_root.held, site.own_root.notes = None, []
            gc.collect(0)
            site.give_back()
            self.assertEqual(site.exports.held(), {})
            self.assertEqual((site.lends.lent, site.lends.asked), ({}, set()))
            self.assertEqual(len(site.imports), 0)
        self.assertLessEqual({Call, Oneway, RootAsk, Ask, Granted, Gone, Release, Settled, End},
                             kinds)

    def counts(self, site):
        """What each peer has of each object is what it was sent and did not give back, as long as
        the end is open."""
        given = {}
        for port, frame in site.sent:
            names = getattr(frame, "packet", Packet([], [], [])).names
            serials = [name.serial for name in names if isinstance(name, Mine)]
            serials += [frame.serial] if isinstance(frame, Granted) else []
            for serial in serials:
                given[port, serial] = given.get((port, serial), 0) + 1
        for port, peer in site.peers.items():
            for serial, count in site.exports.held().get(port, {}).items():
                self.assertTrue(peer.is_open)
                self.assertLessEqual(count, given[port, serial])


if __name__ == "__main__":
    unittest.main()
