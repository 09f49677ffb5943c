"""The socket of a session, and what is done of each request that comes over it."""
import os
import pathlib
import selectors
import socket
from collections.abc import Callable
from typing import Any

from ..node import Node
from . import lines
from .desk import Desk, Unable

#: How many seconds one who attached has to send a request.
_REQUEST_TIME = 5.0


def open_socket(path: pathlib.Path) -> socket.socket:
    """A socket at a path that its user alone can open. Raises FileExistsError where a session
    listens there already; what a session that ended left is removed."""
    with socket.socket(socket.AF_UNIX) as other:
        try:
            other.connect(str(path))
            raise FileExistsError(f"a session runs already at {path}")
        except (FileNotFoundError, ConnectionRefusedError):
            path.unlink(missing_ok=True)
    listener = socket.socket(socket.AF_UNIX)
    before = os.umask(0o177)
    try:
        listener.bind(str(path))
    finally:
        os.umask(before)
    listener.listen(16)
    return listener


class Broker:
    """Serves the peers of a node and those who attach, one request at a time."""

    def __init__(self, node: Node, desk: Desk, listener: socket.socket) -> None:
        self._node, self._listener = node, listener
        self._does: dict[str, Callable[..., Any]] = {
            "copy": desk.copy, "paste": desk.paste, "post": desk.post, "look": desk.look}

    def run(self, is_over: Callable[[], bool]) -> None:
        """Serves until a condition holds, which is looked at twice a second or more often."""
        with selectors.DefaultSelector() as selector:
            selector.register(self._node.fileno(), selectors.EVENT_READ)
            selector.register(self._listener, selectors.EVENT_READ)
            while not is_over():
                while self._node.poll():
                    pass
                ready = [key.fileobj for key, _ in selector.select(0.5)]
                if self._listener in ready:
                    self._attend()

    def _attend(self) -> None:
        sock, _ = self._listener.accept()
        with sock:
            sock.settimeout(_REQUEST_TIME)
            try:
                lines.send(sock, self.answer(lines.receive(sock)))
            except (OSError, ValueError):
                pass  # who attached went away, or sent no request

    def answer(self, request: dict[str, Any]) -> dict[str, Any]:
        """The answer to a request."""
        given = dict(request)
        does = self._does.get(given.pop("do", None))
        try:
            if does is not None:
                return {"value": does(**given)}
        except Unable as unable:
            return {"error": str(unable)}
        except TypeError:
            pass
        return {"error": "The session does not know this request."}
