"""What the tests share: ports that are free, worlds at them, and nodes that serve in a thread."""
import atexit
import contextlib
import os
import pathlib
import random
import socket
import threading
import time
import unittest

import nukwashe
from nukwashe import Node, Object, World

HERE = pathlib.Path(__file__).parent
TOP = HERE.parents[2]
#: The proved program, where it was built.
PROGRAM = os.environ.get("NUKWASHE", str(TOP / "crates/nukwashe/out/nukwashe"))
#: Seconds in which what a test waits for must come, on however busy a machine.
PATIENCE = 40

#: The sockets that keep blocks of ports for this run.
_kept = contextlib.ExitStack()
atexit.register(_kept.close)


def _keep(port):
    """A socket bound to a port as long as this process runs; None where somebody has the port."""
    sock = socket.socket()
    try:
        sock.bind(("127.0.0.1", port))
    except OSError:
        sock.close()
        return None
    return _kept.enter_context(sock)


def _is_free(port):
    with socket.socket() as sock:
        sock.setsockopt(socket.SOL_SOCKET, socket.SO_REUSEADDR, 1)
        try:
            sock.bind(("127.0.0.1", port))
        except OSError:
            return False
    return True


def free_ports(count):
    """So many ports that nobody listens at, none of which the system gives out by itself. They are
    of a block of 16 whose last is kept bound, so that no other run of these tests takes it."""
    for first in random.sample(range(20_000, 32_000, 16), 200):
        ports = list(range(first, first + count))
        if _keep(first + 15) is not None and all(map(_is_free, ports)):
            return ports
    raise unittest.SkipTest("no free ports")


PEERS = """
version = 1

[[class]]
name = "Item"
slots = ["n", "next copy", "friend"]
method = [{ selector = "n", types = "@@:" }]

[[class]]
name = "Peer"
slots = ["kept"]
method = [
    { selector = "echo:", types = "@@:@" },
    { selector = "copied:", types = "@@:O@" },
    { selector = "copyBack", types = "O@@:" },
    { selector = "keep:", types = "v@:@" },
    { selector = "kept", types = "@@:" },
    { selector = "note:", types = "Vv@:@" },
    { selector = "fill:and:", types = "q@:o^@N^q" },
    { selector = "down:from:", types = "q@:q@" },
    { selector = "raise:", types = "v@:*" },
    { selector = "small:", types = "c@:c" },
    { selector = "slow", types = "q@:" },
    { selector = "pass:to:", types = "@@:@S" },
    { selector = "absent", types = "v@:" },
    { selector = "wrong", types = "q@:" },
]
"""


def peers_world(ports):
    """A world of peers at these ports."""
    return World(PEERS + "".join(f'[[node]]\nport = {port}\nroot = "Peer"\n' for port in ports))


class Item(Object):
    def __init__(self, n=None):
        self.n, self.next, self.friend = n, None, None


class Peer(Object):
    """The root of each node of these tests."""

    def __init__(self):
        self.node, self.held, self.notes = None, None, []

    def echo_(self, value):
        return value

    def copied_(self, value):
        self.held = value
        return [type(value).__name__, value.n, value.next.n, value.next.next is value,
                value.friend]

    def copyBack(self):
        return Item("home")

    def keep_(self, value):
        self.held = value

    def kept(self):
        return self.held

    def note_(self, value):
        self.notes.append(value)

    def fill_and_(self, nothing, number):
        return 1, [nothing, "filled"], number + 1

    def down_from_(self, n, other):
        return 0 if n == 0 else 1 + other.down_from_(n - 1, self)

    def raise_(self, text):
        raise nukwashe.User(text)

    def small_(self, n):
        return n * 2

    def slow(self):
        time.sleep(0.3)
        return 1

    def pass_to_(self, value, port):
        return self.node.root(port).echo_(value)

    def wrong(self):
        return "no number"


class Served:
    """A node with a Peer as its root, which serves in a thread of its own until it is stopped."""

    def __init__(self, port, world):
        self.port, self.root, self._is_over = port, Peer(), False
        self.node = self.root.node = Node(port, world, self.root, [Item])
        self._thread = threading.Thread(target=self._serve, daemon=True)
        self._thread.start()

    def _serve(self):
        while not self._is_over:
            self.node.poll(0.02)
        self.node.close()

    def stop(self):
        self._is_over = True
        self._thread.join(PATIENCE)


class ThreeNodes(unittest.TestCase):
    """This test's node, and two that serve: `second` and `third` are their roots."""

    def setUp(self):
        self.ports = free_ports(4)
        self.world = peers_world(self.ports)
        self.served = []
        for port in self.ports[1:3]:
            self.served.append(Served(port, self.world))
            self.addCleanup(self.served[-1].stop)
        self.root = Peer()
        self.node = self.root.node = Node(self.ports[0], self.world, self.root, [Item])
        self.addCleanup(self.node.close)
        self.second, self.third = map(self.node.root, self.ports[1:3])

    def comes(self, holds):
        """Serves until a condition holds, which it must."""
        self.assertTrue(self.node.run(holds, PATIENCE))


@contextlib.contextmanager
def listener(port):
    """A plain socket that listens where a node would."""
    with socket.create_server(("127.0.0.1", port)) as sock:
        sock.settimeout(PATIENCE)
        yield sock
