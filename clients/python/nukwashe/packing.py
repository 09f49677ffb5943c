"""Values as packets, and packets as values."""
from collections.abc import Iterable
from typing import TYPE_CHECKING, Any

from .errors import TooLarge
from .frames import MOST_COPIES, CopyAt, Lent, Mine, Name, NameAt, Packet, Part, Yours
from .objects import Object, ObjectId, Proxy
from .signatures import Place
from .values import to_message, to_text, weight

if TYPE_CHECKING:
    from .site import Site

MOST_WEIGHT = 2_097_152


class Packer:
    """The values of one message to a peer: its names and copies, as they are met."""

    def __init__(self, site: "Site", peer: int) -> None:
        self._site, self._peer = site, peer
        self._names: dict[ObjectId, Name] = {}
        self._name_at: dict[ObjectId, int] = {}
        self._copies: list[Object] = []
        self._copy_at: dict[int, int] = {}
        self._weight = 0
        self.lends: list[ObjectId] = []

    def pack(self, values: Iterable[tuple[Any, Place]]) -> Packet:
        """The packet of values, each with its place. Raises TooLarge past a limit."""
        parts = [self._weighed(value, place.is_bycopy) for value, place in values]
        copies = []
        for obj in self._copies:  # which grows as slots name more
            cls = self._site.class_of(obj)
            self._weight += 16
            copies.append((cls.number, [
                self._weighed(to_message(getattr(obj, slot.name, None)), slot.is_copy)
                for slot in cls.slots]))
            if len(self._copies) > MOST_COPIES:
                raise TooLarge(f"more than {MOST_COPIES} copies")
        if self._weight > MOST_WEIGHT:
            raise TooLarge(f"a message of the weight {self._weight}")
        return Packet(list(self._names.values()), copies, parts)

    def commit(self, packet: Packet) -> None:
        """The packet is sent: its names count, and what it names of third nodes is lent."""
        for oid in self.lends:
            self._site.lends.lend(oid, self._peer)
        for name in packet.names:
            if isinstance(name, Mine):
                self._site.exports.name(self._peer, name.serial)

    def _weighed(self, value: Any, is_bycopy: bool) -> Part:
        self._weight += weight(value)
        return self._part(value, is_bycopy)

    def _part(self, value: Any, is_bycopy: bool) -> Part:
        match value:
            case list():
                return [self._part(item, is_bycopy) for item in value]
            case Object():
                return self._copied(value) if is_bycopy else self._own(value)
            case Proxy():
                return self._foreign(value)
        return value

    def _copied(self, obj: Object) -> CopyAt:
        serial = self._site.serial_of(obj)
        if serial not in self._copy_at:
            self._copy_at[serial] = len(self._copies)
            self._copies.append(obj)
        return CopyAt(self._copy_at[serial])

    def _own(self, obj: Object) -> NameAt:
        serial = self._site.serial_of(obj)
        return self._named(ObjectId(self._site.port, serial),
                           Mine(serial, self._site.class_of(obj).number))

    def _foreign(self, proxy: Proxy) -> NameAt | None:
        oid = self._site.id_of(proxy)
        cls = self._site.usable_class(oid)
        if cls is None:
            return None
        if oid.port == self._peer:
            return self._named(oid, Yours(oid.serial))
        if oid not in self._name_at:
            self.lends.append(oid)
        token = self._site.lends.next_token + len(self.lends) - 1
        return self._named(oid, Lent(oid.port, oid.serial, cls, token))

    def _named(self, oid: ObjectId, name: Name) -> NameAt:
        if oid not in self._name_at:
            self._name_at[oid] = len(self._names)
            self._names[oid] = name
        return NameAt(self._name_at[oid])


class _Unpacker:
    """The objects that a packet of a peer means: names are received, and copies are made."""

    def __init__(self, site: "Site", peer: int, packet: Packet) -> None:
        self._named = [site.receive(peer, name) for name in packet.names]
        self._copied = [site.blank(site.world.classes[number]) for number, _ in packet.copies]
        for obj, (number, parts) in zip(self._copied, packet.copies):
            for slot, part in zip(site.world.classes[number].slots, parts):
                setattr(obj, slot.name, self.value(part))

    def value(self, part: Part) -> Any:
        match part:
            case bytes():
                return to_text(part)
            case CopyAt(at):
                return self._copied[at]
            case NameAt(at):
                return self._named[at]
            case list():
                return [self.value(item) for item in part]
        return part


def unpack(site: "Site", peer: int, packet: Packet) -> list[Any]:
    """The values of a packet of a peer. Its copies are new objects, its names are received."""
    unpacker = _Unpacker(site, peer, packet)
    return [unpacker.value(part) for part in packet.values]
