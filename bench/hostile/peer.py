"""Peers of a node, which speak over sockets: honest ones, and the means of others."""
import socket
import struct
import time

from formats import GREETING, call, number, root_ask, string, take_frame, values
from node import Broken, Late

# How many seconds an honest peer waits for an answer.
PATIENCE = 30


class Stream:
    """A stream that is read whole pieces at a time."""

    def __init__(self, socket_):
        self.socket = socket_
        self.socket.setsockopt(socket.IPPROTO_TCP, socket.TCP_NODELAY, 1)

    def read(self, count):
        parts = []
        while count:
            part = self.socket.recv(min(count, 1 << 20))
            if not part:
                raise EOFError
            parts.append(part)
            count -= len(part)
        return b"".join(parts)

    def reset(self):
        """Ends by a reset in place of an end."""
        self.socket.setsockopt(socket.SOL_SOCKET, socket.SO_LINGER, struct.pack("ii", 1, 0))
        self.socket.close()


class Peer:
    """One end of the connection between a node and a peer that this script plays."""

    def __init__(self, node, port, backlog=16):
        self.node, self.port = node, port
        self.listener = socket.socket()
        self.listener.setsockopt(socket.SOL_SOCKET, socket.SO_REUSEADDR, 1)
        self.listener.bind(("127.0.0.1", port))
        self.listener.listen(backlog)
        self.outgoing = self.incoming = None

    def open(self, said=None):
        """Opens the stream to the node, and says the peer's port or what is given."""
        self.outgoing = silent_stream(self.node.port)
        self.outgoing.socket.sendall(self.port.to_bytes(2, "big") if said is None else said)

    def send(self, piece):
        self.outgoing.socket.sendall(piece)

    def accept(self):
        """Accepts the node's stream, and takes its port and its greeting."""
        self.listener.settimeout(PATIENCE)
        accepted, _ = self.listener.accept()
        accepted.settimeout(PATIENCE)
        self.incoming = Stream(accepted)
        if self.incoming.read(8) != self.node.port.to_bytes(2, "big") + GREETING:
            raise Broken("the node's stream begins wrongly")

    def close(self):
        for stream in (self.outgoing, self.incoming):
            if stream:
                stream.socket.close()
        self.listener.close()


class Honest(Peer):
    """A peer that asks for the root and calls `echo:` of it, and tests each byte of the answers."""

    def __init__(self, node, port):
        super().__init__(node, port)
        self.calls = 0
        self.slowest = 0.0
        self.serial = None

    def _answer(self, sent, kind, patience):
        began = time.monotonic()
        try:
            self.send(sent)
            if self.incoming is None:
                self.accept()
            self.incoming.socket.settimeout(patience)
            found = take_frame(self.incoming)
        except TimeoutError as error:
            raise Late(f"an honest peer is not served: {error!r}") from None
        except (OSError, EOFError) as error:
            self.node.must_live()
            raise Broken(f"an honest peer is not served: {error!r}") from None
        self.slowest = max(self.slowest, time.monotonic() - began)
        self.calls += 1
        if found[0] != kind:
            raise Broken(f"an honest peer got a frame of kind {found[0]}")
        return found[1]

    def begin(self):
        self.open()
        answer = self._answer(GREETING + root_ask(1), 6, PATIENCE)
        # The call's number, and one name, which is of an object of the sender.
        front = number(1) + number(1) + b"\x01"
        if not answer.startswith(front):
            raise Broken("an honest peer got another root")
        digits = answer[len(front) + 1 :][: answer[len(front)]]
        self.serial = int.from_bytes(digits, "big")
        return self

    def ask(self, patience=PATIENCE):
        """Calls `echo:`, and gives how many seconds the answer took."""
        began = time.monotonic()
        at = self.calls + 1
        packet = values(string(b"call %d of %d" % (at, self.port)))
        answer = self._answer(call(at, self.serial, b"echo:", packet), 3, patience)
        if answer != number(at) + packet:
            raise Broken("an honest peer got a wrong answer")
        return time.monotonic() - began


def silent_stream(port):
    """A stream to a port that says nothing."""
    for _ in range(200):
        try:
            return Stream(socket.create_connection(("127.0.0.1", port), 5))
        except OSError:
            time.sleep(0.02)
    raise Late("the node does not listen")
