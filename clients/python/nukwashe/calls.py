"""Calls of a node whose answers are awaited, and calls that it gave up."""
from typing import Any

from .errors import ConnectionDied, NodeError


class Waiting:
    """A call that waits for its answer: values, or an exception."""
    __slots__ = ("is_root", "answer")

    def __init__(self, is_root: bool) -> None:
        self.is_root = is_root
        self.answer: list[Any] | NodeError | None = None


class Calls:
    """Calls by their peers and numbers."""

    def __init__(self) -> None:
        self._next = 1
        self.waits: dict[tuple[int, int], Waiting] = {}
        self.late: dict[tuple[int, int], bool] = {}

    def begin(self, peer: int, is_root: bool) -> tuple[int, Waiting]:
        """A call to a peer, or an ask for its root: its number, and what waits."""
        number, self._next = self._next, self._next + 1
        waiting = self.waits[peer, number] = Waiting(is_root)
        return number, waiting

    def end(self, peer: int, number: int) -> None:
        """Nothing waits for a call any more. An answer that did not come yet will be late."""
        waiting = self.waits.pop((peer, number))
        if waiting.answer is None:
            self.late[peer, number] = waiting.is_root

    def is_awaited(self, peer: int, number: int, is_root: bool) -> bool:
        """Whether a peer may answer a call so: it waits, or is late."""
        waiting = self.waits.get((peer, number))
        if waiting is not None and waiting.answer is None:
            return waiting.is_root == is_root
        return self.late.get((peer, number)) == is_root

    def answer(self, peer: int, number: int, answer: list[Any] | NodeError) -> None:
        """Hands an answer that is awaited to what waits; a late one is dropped."""
        if (peer, number) in self.waits:
            self.waits[peer, number].answer = answer
        self.late.pop((peer, number), None)

    def forget(self, peer: int) -> None:
        """The connection to a peer is closed: what waits for it has ConnectionDied."""
        self.late = {key: is_root for key, is_root in self.late.items() if key[0] != peer}
        for (port, _), waiting in self.waits.items():
            if port == peer and waiting.answer is None:
                waiting.answer = ConnectionDied(f"the connection to {peer} is closed")
