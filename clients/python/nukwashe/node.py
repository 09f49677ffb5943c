"""A node: one process of a world, whose objects are Python objects.

It has one thread. Messages of peers are taken while it waits for an answer, and in `poll` and
`run`. So a peer's call may come in while a call of one's own waits.
"""
import logging
import os
import sys
import time
from collections import deque
from collections.abc import Callable, Iterable, Sequence
from typing import Any

from .calls import Waiting
from .errors import ConnectionDied, Deep, NodeError, NotUnderstood, NotVended, TimedOut
from .frames import GREETING, Call, End, Frame, Oneway, RootAsk
from .link import Link
from .objects import Object, Proxy
from .packing import Packer
from .performing import MOST_DEPTH, require_fit
from .reading import Bad
from .record import Record
from .signatures import Place, Signature
from .site import Peer, Site
from .taking import is_fault, take
from .values import to_message
from .world import World
from .writing import frame_bytes

log = logging.getLogger("nukwashe")
#: How long one wait for sockets lasts at most, in seconds.
_LONGEST_WAIT = 0.5


class Node(Site):
    """A node of a world at a port of this machine.

        with Node(7001, ":counter") as node:
            counter = node.root(7002)
            print(counter.add_(5))
    """

    def __init__(self, port: int, world: World | str | os.PathLike[str],
                 root: Object | None = None, classes: Iterable[type[Object]] = (), *,
                 patience: float = 1.0, record: str | os.PathLike[str] | None = None) -> None:
        """Listens at a port of a world, with a root for those who ask for it.

        `classes` are those of the objects that peers may copy to this node, which are made without
        a call of `__init__`. For a class of the world that is not among them one without methods
        is made. A peer that does not listen yet is tried for `patience` seconds, and is closed
        then. What the node takes is written to the file `record`.
        Raises OSError where the port is taken or the file cannot be written. Raises ValueError
        where the world has no such node or its file no world.
        """
        super().__init__(port, world if isinstance(world, World) else World.read(world), root,
                         classes)
        # 256 invocations may stand, each of some 15 frames of Python.
        sys.setrecursionlimit(max(sys.getrecursionlimit(), 20 * MOST_DEPTH))
        self._link = Link(port, self.peers, patience)
        self._order = deque(self.peers.values())
        try:
            self._record = None if record is None else Record(record, port)
        except OSError:
            self._link.close()
            raise

    # ---- messages

    def root(self, port: int, timeout: float | None = None) -> Any:
        """The root of the node at a port, or None where it has none.

            counter = node.root(7002, timeout=5)

        Raises ConnectionDied where the connection is closed or no node of the world has the port.
        Raises Type where the peer answers with another number of values than one, and TimedOut
        after so many seconds.
        """
        if port == self.port:
            return self.own_root
        if not self.is_open(port):
            raise ConnectionDied(f"the connection to {port} is closed")
        answer = self._await(self.peers[port], RootAsk, True, timeout)
        require_fit(answer, [Place("@")])
        return answer[0]

    def vend(self, root: Object | None) -> None:
        """Makes an own object the root, or leaves the node without one.

            node.vend(Counter())
        """
        if root is not None:
            self.serial_of(root)
        self.own_root = root

    def send(self, proxy: Proxy, selector: str, values: Sequence[Any],
             timeout: float | None = None) -> Any:
        """Sends a message to a foreign object, and waits for the answer. That is the result, or a
        tuple of the result and each value that comes out. A oneway message gives None at once.

            node.send(counter, "add:", [5])  # or counter.add_(5)

        Raises what the receiver raised, and of its own ConnectionDied, NotVended, NotUnderstood,
        Type, TooLarge and Deep; TimedOut after so many seconds.
        """
        self.give_back()
        peer, signature = self._receiver(proxy, selector)
        packer = Packer(self, peer.port)
        packet = packer.pack(_places(selector, signature, values))
        serial, name = self.id_of(proxy).serial, selector.encode()
        if signature.is_oneway:
            packer.commit(packet)
            self.transmit(peer, Oneway(serial, name, packet))
            return None

        def frame(call: int) -> Frame:
            packer.commit(packet)
            return Call(call, serial, name, packet)

        answer = self._await(peer, frame, False, timeout)
        require_fit([to_message(each) for each in answer], signature.comes_out)
        return tuple(answer) if len(answer) > 1 else answer[0]

    def _receiver(self, proxy: Proxy, selector: str) -> tuple[Peer, Signature]:
        """Where a message to a proxy goes, and the method's signature."""
        oid = self.id_of(proxy)
        if not self.is_open(oid.port):
            raise ConnectionDied(f"the connection to {oid.port} is closed")
        if self.usable_class(oid) is None:
            raise NotVended(repr(proxy))
        signature = proxy._class.methods.get(selector)
        if signature is None:
            raise NotUnderstood(f"{proxy!r} {selector}")
        return self.peers[oid.port], signature

    def _await(self, peer: Peer, frame: Callable[[int], Frame], is_root: bool,
               timeout: float | None) -> list[Any]:
        """Sends a call, and takes what comes until its answer is there."""
        if self.depth >= MOST_DEPTH:
            raise Deep()
        number, waiting = self.calls.begin(peer.port, is_root)
        try:
            self.transmit(peer, frame(number))
            self._serve(waiting, timeout)
        finally:
            self.calls.end(peer.port, number)
        if isinstance(waiting.answer, NodeError):
            raise waiting.answer
        return waiting.answer

    def _serve(self, waiting: Waiting, timeout: float | None) -> None:
        if not self.run(lambda: waiting.answer is not None, timeout):
            raise TimedOut(f"no answer within {timeout} s")

    # ---- waiting

    def poll(self, timeout: float = 0) -> bool:
        """Takes one thing that came, and waits for it at most so many seconds. It says whether
        something was taken; then there may be more.

            while node.poll():
                pass
        """
        self.give_back()
        if self._take():
            return True
        self._link.move(timeout)
        return self._take()

    def run(self, until: Callable[[], bool] = lambda: False, timeout: float | None = None) -> bool:
        """Takes what comes until a condition holds, or for so many seconds. It says whether the
        condition holds.

            node.run(lambda: owner.notes == 3, timeout=60)
        """
        end = None if timeout is None else time.monotonic() + timeout
        while not until():
            left = _LONGEST_WAIT if end is None else end - time.monotonic()
            if left <= 0:
                return False
            self.poll(min(left, _LONGEST_WAIT))
        return True

    def fileno(self) -> int:
        """What another event loop may wait for before it calls `poll` until that gives False.

            loop.add_reader(node.fileno(), drain)
        """
        return self._link.fileno()

    # ---- ends

    def leave(self) -> None:
        """Closes each open connection over which something was sent or taken.

            node.leave()  # from now on calls raise ConnectionDied
        """
        for peer in self.peers.values():
            if peer.is_open and peer.is_used:
                self._close(peer)

    def close(self) -> None:
        """Leaves, closes all sockets, and ends the record. A closed node takes nothing, and its
        calls raise ConnectionDied."""
        self.leave()
        for peer in self.peers.values():
            self.close_end(peer)
        self._link.close()
        if self._record is not None:
            self._record.end()

    def __enter__(self) -> "Node":
        return self

    def __exit__(self, *_: object) -> None:
        self.close()

    # ---- frames

    def transmit(self, peer: Peer, frame: Frame) -> None:
        """Sends a frame to a peer, behind the greeting if it is the first."""
        if isinstance(frame, End) and not peer.is_used:
            return
        greeting = b"" if peer.is_greeted else GREETING
        peer.is_used = peer.is_greeted = True
        self._link.send(peer.port, greeting + frame_bytes(frame, peer.table))

    def _take(self) -> bool:
        """Takes the next frame or end of a peer, each peer in its turn."""
        for _ in range(len(self._order)):
            peer = self._order[0]
            self._order.rotate(-1)
            if self._take_from(peer):
                self.give_back()
                return True
        return False

    def _take_from(self, peer: Peer) -> bool:
        try:
            frame = self._next_frame(peer)
        except Bad as bad:
            log.warning("%d sent no frame: %s", peer.port, bad)
            peer.is_used = True
            self._close(peer)
            return True
        if frame is not None:
            self._do(peer, frame)
        elif peer.is_open and self._link.channels[peer.port].is_over:
            self._note(lambda record: record.ended(peer.port))
            self.close_end(peer)
        else:
            return False
        return True

    def _next_frame(self, peer: Peer) -> Frame | None:
        """The next frame of a peer that is whole. What a closed end still gets is dropped."""
        frame = peer.stream.next() if peer.is_open else None
        while frame is None:
            piece = self._link.take(peer.port)
            if piece is None:
                return None
            if peer.is_open:
                peer.stream.feed(piece)
                frame = peer.stream.next()
        return frame

    def _do(self, peer: Peer, frame: Frame) -> None:
        peer.is_used = True
        if is_fault(self, peer.port, frame):
            log.warning("%d may not send %s", peer.port, type(frame).__name__)
            self._close(peer)
            return
        self._note(lambda record: record.took(peer.port, frame))
        take(self, peer, frame)

    def _close(self, peer: Peer) -> None:
        self._note(lambda record: record.closed(peer.port))
        self.close_end(peer)

    def _note(self, write: Callable[[Record], None]) -> None:
        if self._record is not None:
            write(self._record)


def _places(selector: str, signature: Signature,
            values: Sequence[Any]) -> list[tuple[Any, Place]]:
    """The values of a message with their places, those that go in. Raises Type where one does not
    fit, and TypeError for another number of values."""
    if len(values) != len(signature.arguments):
        raise TypeError(f"{selector} takes {len(signature.arguments)} values")
    given = [to_message(value) if place.goes_in else None
             for value, place in zip(values, signature.arguments)]
    going = [each for each in zip(given, signature.arguments) if each[1].goes_in]
    require_fit([value for value, _ in going], [place for _, place in going])
    return list(zip(given, signature.arguments))
