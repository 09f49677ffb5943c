"""Nodes that are Python programs speak to one another."""
import gc
import selectors
import threading
import unittest

import nukwashe
from nukwashe import Node

from .support import PATIENCE, Item, Peer, ThreeNodes, free_ports, peers_world


class Messages(ThreeNodes):
    def test_values_come_back_as_they_were_sent(self):
        deep = []
        for _ in range(7):
            deep = [deep]
        for value in (None, 0, -1, 2**63 - 1, -2**63, "", "text", "\u00e9", "\udcff", [],
                      [1, [None]], deep, "x" * 1_048_575):
            self.assertEqual(self.second.echo_(value), value)
        self.assertEqual(self.second.echo_(b"bytes"), "bytes")
        self.assertEqual(self.second.echo_((True, 2)), [1, 2])
        self.assertEqual(self.second.send("echo:", 5), 5)

    def test_objects_come_back_as_themselves(self):
        item = Item(3)
        self.assertIs(self.second.echo_(item), item)
        self.assertIs(self.second.echo_(self.second), self.second)
        self.second.keep_(item)
        self.assertIs(self.second.kept(), item)
        self.assertIn(item._serial, self.node.exports.held()[self.ports[1]])
        self.second.keep_(None)
        self.comes(lambda: not self.node.exports.held())

    def test_copies_keep_cycles(self):
        item, other = Item("a"), Item("b")
        item.next, other.next = other, item
        self.assertEqual(self.second.copied_(item), ["Item", "a", "b", True, None])
        back = self.second.copyBack()
        self.assertIsInstance(back, Item)
        self.assertEqual(back.n, "home")

    def test_a_slot_that_is_no_copy_names_its_object(self):
        item, friend = Item("a"), Item("b")
        item.next, item.friend = Item("c"), friend
        self.second.copied_(item)
        held = self.served[0].root.held
        self.assertIsInstance(held.friend, nukwashe.Proxy)
        self.assertEqual(held.friend._id, (self.node.port, friend._serial))

    def test_values_that_come_out(self):
        self.assertEqual(self.second.fill_and_(None, 4), (1, [None, "filled"], 5))

    def test_oneway_messages_keep_their_order(self):
        for n in range(3):
            self.assertIsNone(self.second.note_(n))
        self.second.kept()
        self.assertEqual(self.served[0].root.notes, [0, 1, 2])

    def test_a_peer_calls_back_while_its_answer_is_awaited(self):
        self.assertEqual(self.second.down_from_(200, self.root), 200)
        with self.assertRaises(nukwashe.Deep):
            self.second.down_from_(600, self.root)
        self.assertEqual(self.second.down_from_(9, self.root), 9)

    def test_what_is_wrong_with_a_call(self):
        with self.assertRaises(TypeError):
            self.second.echo_()
        with self.assertRaises(TypeError):
            self.second.echo_({})
        with self.assertRaises(TypeError):
            self.second.echo_(self.served[0].root)
        with self.assertRaises(AttributeError):
            self.second._echo


class Exceptions(ThreeNodes):
    def test_a_text_of_the_method_comes_with_it(self):
        with self.assertRaises(nukwashe.User) as raised:
            self.second.raise_("why")
        self.assertEqual(raised.exception.text, "why")

    def test_each_comes_as_itself(self):
        for kind, call in [
                (nukwashe.Type, lambda: self.second.small_(128)),
                (nukwashe.Type, lambda: self.second.small_(100)),
                (nukwashe.Type, lambda: self.second.wrong()),
                (nukwashe.NotUnderstood, lambda: self.second.absent()),
                (nukwashe.NotUnderstood, lambda: self.second.nothing_(1)),
                (nukwashe.TooLarge, lambda: self.second.echo_(["x" * 1_000_000] * 3)),
                (nukwashe.TooLarge, lambda: self.second.echo_([0] * 1_025)),
                (nukwashe.ConnectionDied, lambda: self.node.root(1))]:
            with self.assertRaises(kind):
                call()

    def test_an_answer_that_comes_too_late_is_dropped(self):
        with self.assertRaises(nukwashe.TimedOut):
            self.second.slow(timeout=0.05)
        self.assertEqual(self.second.echo_(1), 1)
        self.assertEqual(self.node.calls.late, {})

    def test_what_was_given_back_was_not_vended(self):
        lost = nukwashe.Proxy(self.node, self.second._id._replace(serial=99), self.second._class)
        with self.assertRaises(nukwashe.NotVended):
            lost.kept()


class Holding(ThreeNodes):
    def test_a_proxy_that_python_collects_is_given_back(self):
        self.served[0].root.held = Item(9)
        proxy = self.second.kept()
        self.assertIs(proxy, self.second.kept())
        oid = proxy._id
        self.assertEqual(self.node.imports.get(oid).received, 2)
        del proxy
        gc.collect()
        self.node.poll()
        self.assertIsNone(self.node.imports.get(oid))
        self.second.echo_(1)
        self.assertEqual(self.served[0].node.exports.held(), {self.node.port: {1: 1}})

    def test_an_object_goes_over_three_nodes(self):
        item = Item(1)
        self.assertIs(self.second.pass_to_(item, self.ports[2]), item)
        self.third.keep_(None)
        self.comes(lambda: not self.node.exports.held())

    def test_a_third_node_borrows_and_keeps(self):
        item = Item(1)
        self.second.keep_(item)
        self.third.keep_(self.second)
        self.comes(lambda: not self.node.lends.lent)
        self.assertIs(self.third.kept(), self.second)
        self.comes(lambda: not self.node.lends.lent and not self.node.lends.asked)
        self.assertIs(self.second.kept(), item)

    def test_what_is_lent_after_its_home_closed_is_none(self):
        self.served[0].stop()
        with self.assertRaises(nukwashe.ConnectionDied):
            self.second.echo_(1)
        self.assertIsNone(self.third.echo_(self.second))
        self.assertEqual(self.third.echo_(1), 1)
        with self.assertRaises(nukwashe.ConnectionDied):
            self.node.root(self.ports[1])


    def test_a_closed_node_does_nothing_more(self):
        self.node.close()
        self.node.close()
        self.assertFalse(self.node.poll())
        for call in (lambda: self.second.echo_(1), lambda: self.node.root(self.ports[3])):
            with self.assertRaises(nukwashe.ConnectionDied):
                call()


class Loops(unittest.TestCase):
    def test_another_event_loop_waits_for_the_fileno(self):
        ports = free_ports(2)
        world = peers_world(ports)
        root = Peer()
        with Node(ports[0], world, root) as node, selectors.DefaultSelector() as loop:
            loop.register(node.fileno(), selectors.EVENT_READ)
            caller = threading.Thread(target=self.note, args=(ports[1], world, node.port))
            caller.start()
            while len(root.notes) < 3:
                self.assertTrue(loop.select(PATIENCE))
                while node.poll():
                    pass
            caller.join(PATIENCE)
            self.assertEqual(root.notes, [0, 1, 2])

    def note(self, port, world, to):
        """Another node sends the loop's three notes, and awaits nothing but its root."""
        with Node(port, world) as node:
            proxy = node.root(to)
            for n in range(3):
                proxy.note_(n)

    def test_a_taken_port_is_told(self):
        ports = free_ports(2)
        world = peers_world(ports)
        with Node(ports[0], world), self.assertRaises(OSError):
            Node(ports[0], world)

    def test_a_port_that_is_not_in_the_world_is_told_with_those_that_are(self):
        ports = free_ports(2)
        with self.assertRaisesRegex(ValueError, str(ports[1])):
            Node(ports[1] + 1, peers_world(ports))

    def test_a_peer_that_is_not_there(self):
        ports = free_ports(2)
        with Node(ports[0], peers_world(ports), patience=0.1) as node:
            with self.assertRaises(nukwashe.ConnectionDied):
                node.root(ports[1])


if __name__ == "__main__":
    unittest.main()
