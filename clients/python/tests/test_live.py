"""Python nodes beside nodes of the proved program."""
import gc
import unittest

import nukwashe
from nukwashe import Node, Object

from .live import Live
from .support import HERE, PATIENCE, TOP


class Client(Object):
    pass


class Counter(Object):
    value = 0

    def add_(self, number):
        self.value += number
        return self.value


class Counts(Live):
    def test_calls_and_exceptions(self):
        mine, other = self.ports
        self.serve(other, "until 1")
        with Node(mine, self.world, Client()) as node:
            counter = node.root(other)
            self.assertEqual(counter.add_(5), 5)
            self.assertEqual(counter.send("add:", -2), 3)
            for kind, call in [(nukwashe.Type, lambda: counter.add_("text")),
                               (nukwashe.NotUnderstood, lambda: counter.sub_(1)),
                               (nukwashe.Range, lambda: counter.add_(2**63 - 1))]:
                with self.assertRaises(kind):
                    call()
            for n in range(200):
                self.assertEqual(counter.add_(1), 4 + n)
        with self.assertRaises(nukwashe.ConnectionDied):
            counter.add_(1)
        self.ends(other)
        self.assertEqual(self.record(other).read_text().count("took call add:"), 203)

    def test_a_node_of_scripts_calls_a_python_object(self):
        other, mine = self.ports
        counter = Counter()
        with Node(mine, self.world, counter, record=self.record(mine)) as node:
            self.serve(other, "start go: 5", "start go: 7", "leave")
            self.assertTrue(node.run(lambda: not node.is_open(other), PATIENCE))
        self.ends(other)
        self.assertEqual(counter.value, 12)
        said = self.record(other).read_text()
        self.assertIn(f"say {other} 12", said)

    def woven(self, start):
        """What weave comes to over the records of both, where the other node starts so."""
        other, mine = self.ports
        with Node(mine, self.world, Counter(), record=self.record(mine)) as node:
            self.serve(other, start, "leave")
            self.assertTrue(node.run(lambda: not node.is_open(other), PATIENCE))
        self.ends(other)
        return self.run_program("weave", "world.toml", self.record(other).name,
                                self.record(mine).name)

    def test_weave_takes_a_record_of_a_program_that_was_sent_no_message(self):
        status, schedule, error = self.woven("start look")
        self.assertEqual((status, error), (0, ""))
        self.assertIn(f"take {self.ports[1]} {self.ports[0]}\n", schedule)

    def test_weave_cannot_know_what_a_program_did_with_a_message(self):
        status, _, error = self.woven("start go: 5")
        self.assertEqual(status, 14)
        self.assertIn("contradicts", error)


class OtherOrder(Live):
    def test_another_order_of_classes_makes_another_world(self):
        mine, other = self.ports
        first, counter, client, nodes = self.parts()
        self.serve(other, "until 1")
        world = nukwashe.World(first + client + counter + nodes)
        with Node(mine, world, Client()) as node:
            root = node.root(other)
            self.assertIn("Client", repr(root))
            with self.assertRaises(nukwashe.NotUnderstood):
                root.send("go:", 5)
        self.ends(other)

    def parts(self):
        text = self.world.read_text()
        first, counter, client = text.split("[[class]]")
        client, nodes = client.split("[[node]]", 1)
        return first, "[[class]]" + counter, "[[class]]" + client, "[[node]]" + nodes


class Item(Object):
    n = None

    def n_(self, value):
        self.n = value


class Peer(Object):
    a = None

    def echo_(self, value):
        return value

    def keep_(self, value):
        self.a = value


class Lends(Live):
    WORLD, PORTS = HERE / "worlds/lends.toml", (7001, 7002, 7003)

    def setUp(self):
        super().setUp()
        self.mine, self.second, self.third = self.ports
        for port in (self.second, self.third):
            self.serve(port, "until 1", "leave")

    def comes_true(self, node, holds):
        self.assertTrue(node.run(holds, PATIENCE))

    def test_as_home(self):
        with Node(self.mine, self.world, Peer(), [Item]) as node:
            item = Item()
            self.assertIs(node.root(self.second).pass_to_(item, self.third), item)
            self.comes_true(node, lambda: not node.exports.held())
        self.ends(self.second)

    def test_as_lender(self):
        with Node(self.mine, self.world, Peer(), [Item]) as node:
            second, third = map(node.root, (self.second, self.third))
            self.assertIs(third.echo_(second), second)
            self.comes_true(node, lambda: not node.lends.lent)
            third.keep_(second)
            self.comes_true(node, lambda: not node.lends.lent)
        self.ends(self.second, self.third)

    def test_as_borrower(self):
        peer = Peer()
        with Node(self.mine, self.world, peer, [Item]) as node:
            second = node.root(self.second)
            second.lend_port_(self.third, self.mine)
            self.comes_true(node, lambda: peer.a is not None)
            peer.a.n_("written through a borrowed name")
            self.comes_true(node, lambda: not node.lends.asked)
            self.assertEqual(node.imports.get(peer.a._id).received, 1)
            peer.a = None
            gc.collect()
            node.poll()
            self.assertEqual(len(node.imports), 1)
            del second
        self.ends(self.second, self.third)


class Owner(Object):
    """An application that copies, and hears notices."""
    count, asked, notes = 0, 0, ()

    def pasteboard_provideDataForType_(self, board, kind):
        self.asked += 1
        board.setData_forType_count_("made when asked", kind, self.count)

    def note_object_info_(self, name, thing, info):
        self.notes += ((name, thing, info),)


class Desk(Live):
    WORLD, PORTS = TOP / "examples/session/desk.toml", (7100, 7101, 7102, 7103, 7104)

    def test_registers_copies_lazily_and_hears_notices(self):
        names, board, owners, readers, center = self.ports
        for port in (names, board, center):
            self.serve(port, "until 1")
        owner = Owner()
        with Node(owners, self.world, owner) as node:
            self.assertEqual(node.root(names).register_port_("board", board), 1)
            self.assertEqual(node.root(names).lookup_("board"), board)
            pasteboard, centre = node.root(board), node.root(center)
            centre.addObserver_selector_name_object_suspensionBehavior_(
                owner, "note:object:info:", "pasted", None, 4)
            owner.count = pasteboard.declareTypes_owner_(["text", "html"], owner)
            self.assertEqual(pasteboard.setData_forType_count_("h\u00e9llo", "text", 1), 1)
            self.assertEqual(pasteboard.dataForType_("text"), "h\u00e9llo")
            owner.count = pasteboard.declareTypes_owner_(["text"], owner)
            for _ in range(2):
                self.assertEqual(pasteboard.dataForType_("text"), "made when asked")
            self.assertEqual(owner.asked, 1)
            self.assertEqual(pasteboard.availableTypeFromArray_(["rtf", "text"]), "text")
            centre.postNotificationName_object_userInfo_deliverImmediately_(
                "pasted", "reader", ["text", 2], True)
            self.assertTrue(node.run(lambda: owner.notes, PATIENCE))
            self.assertEqual(owner.notes, (("pasted", "reader", ["text", 2]),))
        self.ends(names, board, center)

    def test_forms_of_arguments(self):
        names, board, owners, _, center = self.ports
        for port in (names, board, center):
            self.serve(port, "until 1")
        owner = Owner()
        with Node(owners, self.world, owner) as node:
            pasteboard, centre, server = map(node.root, (board, center, names))
            observe = centre.addObserver_selector_name_object_suspensionBehavior_
            post = centre.postNotificationName_object_userInfo_deliverImmediately_
            for call in [
                    lambda: server.register_port_("", 1), lambda: server.register_port_("a", 0),
                    lambda: pasteboard.declareTypes_owner_(["a", "a"], None),
                    lambda: pasteboard.declareTypes_owner_([""], None),
                    lambda: pasteboard.declareTypes_owner_(["a" * 256], None),
                    lambda: pasteboard.declareTypes_owner_([str(n) for n in range(65)], None),
                    lambda: pasteboard.declareTypes_owner_(["a"], "owner"),
                    lambda: pasteboard.setData_forType_count_(5, "a", 0),
                    lambda: pasteboard.availableTypeFromArray_("a"),
                    lambda: observe(None, "a:b:c:", None, None, 0),
                    lambda: observe(owner, "a:", None, None, 0),
                    lambda: observe(owner, "a:b:c:", None, owner, 0),
                    lambda: observe(owner, "a:b:c:", None, None, 5),
                    lambda: post("a" * 256, None, None, True),
                    lambda: post("a", None, owner, True),
                    lambda: post("a", None, [[[[[]]]]], True)]:
                with self.assertRaises(nukwashe.Type):
                    call()
            self.assertEqual(pasteboard.declareTypes_owner_([], None), 1)
            self.assertEqual(pasteboard.setData_forType_count_("", "absent", 1), 0)
            self.assertIsNone(pasteboard.dataForType_(""))
            observe(owner, "a:b:c:", None, None, 3)
            post("a", None, [[[[]]]], True)
        self.ends(names, board, center)


if __name__ == "__main__":
    unittest.main()
