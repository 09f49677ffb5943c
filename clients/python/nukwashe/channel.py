"""The two streams between a node and one peer."""
import socket
from collections import deque

#: The most bytes of a peer that are kept before they are taken; then it is read no more.
MOST_KEPT = 16_777_216


class Channel:
    """What comes from a peer, and what waits to be sent to it."""

    def __init__(self, port: int) -> None:
        self.port = port
        self.incoming: socket.socket | None = None
        self.outgoing: socket.socket | None = None
        self.was_named = False  # a stream of this port came, which may have ended since
        self.is_deaf = False  # the peer reads no more
        self.is_over = False  # the connection has ended
        self.waiting = bytearray()
        self._pieces: deque[bytes] = deque()
        self._kept = 0

    @property
    def is_full(self) -> bool:
        """Whether so much is kept that no more is read."""
        return self._kept >= MOST_KEPT

    def keep(self, piece: bytes) -> None:
        """Keeps bytes that came."""
        self._pieces.append(piece)
        self._kept += len(piece)

    def take(self) -> bytes | None:
        """The next bytes that came."""
        if not self._pieces:
            return None
        piece = self._pieces.popleft()
        self._kept -= len(piece)
        return piece

    def stop_sending(self) -> None:
        """Nothing more can be sent. What the peer sent before may still come."""
        self.waiting.clear()
        self.is_deaf = True
        self.is_over = self.is_over or self.incoming is None
