"""The foreign objects of a node."""
import weakref
from collections import deque
from collections.abc import Callable, Iterator
from dataclasses import dataclass

from .objects import ObjectId, Proxy


@dataclass(slots=True)
class Import:
    """A foreign object: its class, how often its home named it, and what keeps it."""
    cls: int
    received: int = 0
    lends: int = 0
    asks: int = 0
    proxy: "weakref.ref[Proxy] | None" = None

    @property
    def is_known(self) -> bool:
        """Whether messages may be sent to it: it was named by its home, or is asked for."""
        return self.received > 0 or self.asks > 0

    @property
    def is_kept(self) -> bool:
        """Whether a proxy, a lend or an ask keeps it."""
        return self.lends > 0 or self.asks > 0 or (
            self.proxy is not None and self.proxy() is not None)


class Imports:
    """Foreign objects by their names, each with one proxy at a time."""

    def __init__(self, make: Callable[[ObjectId, int], Proxy]) -> None:
        """No foreign object. `make` makes a proxy of a name and a class."""
        self._make = make
        self._by_id: dict[ObjectId, Import] = {}
        self._dropped: deque[ObjectId] = deque()

    def __len__(self) -> int:
        return len(self._by_id)

    def get(self, oid: ObjectId) -> Import | None:
        """What is known of a foreign object."""
        return self._by_id.get(oid)

    def proxy(self, oid: ObjectId, cls: int) -> Proxy:
        """The proxy of an object. The first class that is told of it stays."""
        known = self._by_id.setdefault(oid, Import(cls))
        proxy = known.proxy() if known.proxy else None
        if proxy is None:
            proxy = self._make(oid, known.cls)
            known.proxy = weakref.ref(proxy, lambda _: self._dropped.append(oid))
        return proxy

    def may_go(self, oid: ObjectId) -> None:
        """A lend or an ask of the object is over."""
        self._dropped.append(oid)

    def unused(self) -> Iterator[tuple[ObjectId, int]]:
        """Takes out each object that nothing keeps, with how often its home named it."""
        while self._dropped:
            oid = self._dropped.popleft()
            known = self._by_id.get(oid)
            if known is not None and not known.is_kept:
                del self._by_id[oid]
                yield oid, known.received

    def forget(self, home: int) -> None:
        """The connection to a home is closed. Objects that are lent stay until the lend is over."""
        for oid in [oid for oid in self._by_id if oid.port == home]:
            self._by_id[oid].received = 0
            if not self._by_id[oid].lends:
                del self._by_id[oid]
