"""The own objects of a node that peers can name."""
import weakref

from .objects import Object


class Exports:
    """Own objects by their serials, and how often each was named to each peer.

    An object that a peer has a name of is kept; any other is kept by the program alone.
    """

    def __init__(self) -> None:
        self._next = 1
        self._made: weakref.WeakValueDictionary[int, Object] = weakref.WeakValueDictionary()
        self._kept: dict[int, Object] = {}
        self._counts: dict[tuple[int, int], int] = {}

    def add(self, obj: Object) -> int:
        """Gives an object the next serial."""
        serial, self._next = self._next, self._next + 1
        self._made[serial] = obj
        return serial

    def stored(self, serial: int) -> Object | None:
        """The object of a serial, as long as anything keeps it."""
        return self._made.get(serial)

    def count(self, peer: int, serial: int) -> int:
        """How often an object was named to a peer and not given back."""
        return self._counts.get((peer, serial), 0)

    def entry(self, peer: int, serial: int) -> Object | None:
        """The object of a serial, where the peer has a name of it."""
        return self._kept[serial] if self.count(peer, serial) else None

    def name(self, peer: int, serial: int) -> None:
        """The object is named to a peer once more."""
        self._counts[peer, serial] = self.count(peer, serial) + 1
        self._kept[serial] = self._made[serial]

    def release(self, peer: int, serial: int, amount: int) -> bool:
        """A peer gives names back. It says whether it had so many; else nothing changes."""
        left = self.count(peer, serial) - amount
        if left < 0:
            return False
        self._counts[peer, serial] = left
        self._tidy(peer, serial)
        return True

    def forget(self, peer: int) -> None:
        """A peer has no name any more."""
        for port, serial in [key for key in self._counts if key[0] == peer]:
            self._counts[port, serial] = 0
            self._tidy(port, serial)

    def held(self) -> dict[int, dict[int, int]]:
        """How often each peer has each serial, by peers and serials."""
        by_peer: dict[int, dict[int, int]] = {}
        for (peer, serial), count in sorted(self._counts.items()):
            by_peer.setdefault(peer, {})[serial] = count
        return by_peer

    def _tidy(self, peer: int, serial: int) -> None:
        if not self._counts[peer, serial]:
            del self._counts[peer, serial]
            if not any(other == serial for _, other in self._counts):
                self._kept.pop(serial, None)
