"""The streams of a node, as the section "Sockets" of docs/FORMATS.md says them."""
import selectors
import socket
import time
from collections.abc import Callable, Iterable

from .channel import Channel

HOST = "127.0.0.1"
#: How many bytes may wait for a peer before a send waits for it, and the seconds of that wait.
MOST_WAITING, SEND_TIME = 4_194_304, 60.0


class Link:
    """A listener at the node's port, and a channel for each peer."""

    def __init__(self, port: int, peers: Iterable[int], patience: float) -> None:
        """Listens at a port. Raises OSError where the port is taken."""
        self._port, self._patience, self._is_closed = port, patience, False
        self.channels = {peer: Channel(peer) for peer in peers}
        self._selector = selectors.DefaultSelector()
        self._listener = socket.create_server((HOST, port), backlog=128)
        self._listener.setblocking(False)
        self._watch(self._listener, self._accept)

    def _watch(self, sock: socket.socket, act: Callable[[], None],
               events: int = selectors.EVENT_READ) -> None:
        self._selector.register(sock, events, act)

    def _drop(self, sock: socket.socket) -> None:
        if sock in self._selector.get_map():
            self._selector.unregister(sock)
        sock.close()

    def fileno(self) -> int:
        """What becomes readable when the link has something to do."""
        return self._selector.fileno()

    def move(self, timeout: float) -> None:
        """Waits for sockets at most so many seconds, and moves what they have and take."""
        for key, _ in self._selector.select(timeout) if not self._is_closed else ():
            key.data()

    def close(self) -> None:
        """Sends what waits for a second at most, and closes all sockets. A closed link does
        nothing more."""
        if self._is_closed:
            return
        end = time.monotonic() + 1
        while any(each.waiting for each in self.channels.values()) and time.monotonic() < end:
            self.move(0.01)
        for key in list(self._selector.get_map().values()):
            self._drop(key.fileobj)
        for channel in self.channels.values():
            if channel.incoming is not None:
                channel.incoming.close()
        self._selector.close()
        self._is_closed = True

    # ---- sending

    def send(self, peer: int, data: bytes) -> None:
        """Sends bytes. A stream is opened with the first; a connection that ended drops them."""
        channel = self.channels[peer]
        if channel.outgoing is None and not channel.is_over:
            self._open(channel)
        channel.is_over = channel.is_over or channel.is_deaf
        if channel.is_over:
            return
        channel.waiting += data
        self._flush(channel)
        end = time.monotonic() + SEND_TIME
        while len(channel.waiting) > MOST_WAITING:
            if time.monotonic() > end:
                channel.stop_sending()
            self.move(0.5)

    def _open(self, channel: Channel) -> None:
        """Opens the stream to a peer, which says the own port first."""
        sock = self._connect(channel.port)
        if sock is None:
            channel.stop_sending()
            return
        sock.setsockopt(socket.IPPROTO_TCP, socket.TCP_NODELAY, 1)
        sock.setblocking(False)
        channel.outgoing = sock
        channel.waiting += self._port.to_bytes(2, "big")
        self._watch(sock, lambda: self._outgoing(channel))

    def _connect(self, peer: int) -> socket.socket | None:
        end = time.monotonic() + self._patience
        while True:
            try:
                sock = socket.create_connection((HOST, peer), timeout=0.1)
                if sock.getsockname() != sock.getpeername():
                    return sock
                sock.close()  # the system gave the very port that was asked for
            except OSError:
                pass
            if time.monotonic() > end:
                return None
            time.sleep(0.001)

    def _flush(self, channel: Channel) -> None:
        """Writes what waits, as far as the peer takes it."""
        try:
            while channel.waiting:
                del channel.waiting[:channel.outgoing.send(channel.waiting)]
        except BlockingIOError:
            pass
        except OSError:
            channel.stop_sending()
            return
        events = selectors.EVENT_READ | (selectors.EVENT_WRITE if channel.waiting else 0)
        if self._selector.get_key(channel.outgoing).events != events:
            self._selector.modify(channel.outgoing, events, lambda: self._outgoing(channel))

    def _outgoing(self, channel: Channel) -> None:
        """The stream to a peer takes more, or the peer closed it."""
        try:
            ended = channel.outgoing.recv(1) == b""
        except BlockingIOError:
            ended = False
        except OSError:
            ended = True
        if ended:
            channel.stop_sending()
            self._drop(channel.outgoing)
        elif not channel.is_deaf:
            self._flush(channel)

    # ---- receiving

    def _accept(self) -> None:
        try:
            sock, _ = self._listener.accept()
        except OSError:
            return
        sock.setblocking(False)
        said = bytearray()
        self._watch(sock, lambda: self._named(sock, said))

    def _named(self, sock: socket.socket, said: bytearray) -> None:
        """A new stream says its port, and is dropped where that is no peer's, or one's again."""
        try:
            piece = sock.recv(2 - len(said))
        except BlockingIOError:
            return
        except OSError:
            piece = b""
        said += piece
        if piece and len(said) < 2:
            return
        channel = self.channels.get(int.from_bytes(said, "big")) if len(said) == 2 else None
        if channel is None or channel.was_named:
            self._drop(sock)
            return
        channel.incoming, channel.was_named = sock, True
        self._selector.modify(sock, selectors.EVENT_READ, lambda: self._incoming(channel))
        self._incoming(channel)

    def _incoming(self, channel: Channel) -> None:
        """Reads what a peer sent. One of which too much is kept is read no more for now."""
        if channel.is_full:
            self._selector.unregister(channel.incoming)
            return
        try:
            piece = channel.incoming.recv(65_536)
        except BlockingIOError:
            return
        except OSError:
            piece = b""
        if piece:
            channel.keep(piece)
        else:
            channel.is_over = True
            self._drop(channel.incoming)

    def take(self, peer: int) -> bytes | None:
        """The next bytes that came from a peer."""
        channel = self.channels[peer]
        was_full, piece = channel.is_full, channel.take()
        sock = channel.incoming
        if was_full and not channel.is_full and not channel.is_over:
            if sock not in self._selector.get_map():
                self._watch(sock, lambda: self._incoming(channel))
        return piece
