"""One node without its sockets: its objects, what peers have of them, and what it has of theirs."""
from collections.abc import Iterable
from typing import Any

from .calls import Calls
from .exports import Exports
from .frames import Ask, End, Frame, Lent, Mine, Name, Release, Settled
from .imports import Imports
from .lends import Lends, Wanted
from .objects import Object, ObjectId, Proxy
from .reading import Sides
from .stream import Stream
from .table import Table
from .world import Class, World


class Peer:
    """What a site keeps of a peer: whether its end is open, and the two streams."""

    def __init__(self, sides: Sides) -> None:
        self.port = sides.sender
        self.is_open, self.is_used, self.is_greeted = True, False, False
        self.stream, self.table = Stream(sides), Table()


class Site:
    """A node of a world. What it sends goes to `transmit`, which a subclass has."""

    def __init__(self, port: int, world: World, root: Object | None,
                 classes: Iterable[type[Object]]) -> None:
        if port not in world.roots:
            raise ValueError(f"the world has no node {port}, but "
                             + ", ".join(map(str, sorted(world.roots))))
        self.port, self.world, self.depth = port, world, 0
        self._python = {each.world_class or each.__name__: each for each in classes}
        self.peers = {peer: Peer(Sides(world.slot_counts, peer, port))
                      for peer in sorted(world.roots) if peer != port}
        self.exports, self.calls = Exports(), Calls()
        self.imports = Imports(lambda oid, cls: Proxy(self, oid, self.world.classes[cls]))
        self.lends = Lends(self.imports)
        self.own_root: Object | None = self.blank(world.roots[port]) if root is None else root
        self.serial_of(self.own_root)

    def transmit(self, peer: Peer, frame: Frame) -> None:
        """Sends a frame."""
        raise NotImplementedError

    # ---- own objects

    def blank(self, cls: Class) -> Object:
        """A new object of a class, whose slots are None."""
        kind = self._python.setdefault(cls.name, type(cls.name, (Object,), {}))
        obj = kind.__new__(kind)
        for slot in cls.slots:
            setattr(obj, slot.name, None)
        return obj

    def class_of(self, obj: Object) -> Class:
        """The class of an own object. Raises TypeError where the world has none of its name."""
        name = obj.world_class or type(obj).__name__
        if name not in self.world.by_name:
            raise TypeError(f"the world has no class {name}")
        return self.world.by_name[name]

    def serial_of(self, obj: Object) -> int:
        """The serial of an own object, which has one from its first use on. Raises TypeError for
        an object of another node."""
        if obj._node is None:
            self.class_of(obj)
            obj._node, obj._serial = self, self.exports.add(obj)
        elif obj._node is not self:
            raise TypeError("an object of another node")
        return obj._serial

    # ---- foreign objects

    def id_of(self, proxy: Proxy) -> ObjectId:
        """The name of a proxy's object. Raises TypeError for a proxy of another node."""
        if proxy._node is not self:
            raise TypeError("a proxy of another node")
        return proxy._id

    def is_open(self, port: int) -> bool:
        """Whether the end towards a node is open. The own port counts as closed."""
        return port in self.peers and self.peers[port].is_open

    def usable_class(self, oid: ObjectId) -> int | None:
        """The class of a foreign object that may be named now."""
        known = self.imports.get(oid)
        usable = known is not None and known.is_known and self.is_open(oid.port)
        return known.cls if usable else None

    def receive(self, peer: int, name: Name) -> Any:
        """The object of a name that a peer sent: a proxy, an own object, or None."""
        match name:
            case Mine(serial, cls):
                oid = ObjectId(peer, serial)
                proxy = self.imports.proxy(oid, cls)
                self.imports.get(oid).received += 1
                return proxy
            case Lent(port, serial, cls, token):
                return self._borrow(Wanted(ObjectId(port, serial), peer, token), cls)
        return self.exports.entry(peer, name.serial)

    def _borrow(self, wanted: Wanted, cls: int) -> Proxy | None:
        """A third node's object that a peer lent: its home is asked for it."""
        if not self.is_open(wanted.oid.port):
            self.settle(wanted)
            return None
        proxy = self.imports.proxy(wanted.oid, cls)
        if self.lends.ask(wanted):
            self.transmit(self.peers[wanted.oid.port],
                          Ask(wanted.oid.serial, wanted.lender, wanted.token))
        return proxy

    def settle(self, wanted: Wanted) -> None:
        """Tells a lender that a lend is over."""
        if self.is_open(wanted.lender):
            self.transmit(self.peers[wanted.lender], Settled(wanted.token))

    def give_back(self) -> None:
        """Gives back the foreign objects that nothing here refers to any more."""
        for oid, received in self.imports.unused():
            if received and self.is_open(oid.port):
                self.transmit(self.peers[oid.port], Release(oid.serial, received))

    # ---- ends

    def close_end(self, peer: Peer) -> None:
        """Closes the end towards a peer, and tells it so. What was between the two is over."""
        if not peer.is_open:
            return
        self.transmit(peer, End())
        peer.is_open = False
        self.exports.forget(peer.port)
        for wanted in self.lends.forget(peer.port):
            self.settle(wanted)
        self.imports.forget(peer.port)
        self.calls.forget(peer.port)
