"""Frames as bytes."""
from collections.abc import Callable

from .errors import USER
from .frames import KINDS, CopyAt, Frame, Lent, Mine, Name, NameAt, Packet, Part, Raise, Yours
from .table import Table

_BYTES = {kind: number for number, kind in KINDS.items()}


def number(n: int) -> bytes:
    """A number from 0: how many bytes it has, and these, the highest first."""
    body = n.to_bytes((n.bit_length() + 7) // 8, "big")
    return bytes((len(body),)) + body


def text(data: bytes) -> bytes:
    """A text: how many bytes it has, and these."""
    return number(len(data)) + data


def name_bytes(name: Name, table: Table) -> bytes:
    """A name. One that is new to the table is added to it."""
    match name:
        case Mine(serial, cls):
            at = table.find(name)
            if at is not None:
                return b"\4" + number(at)
            table.add(name)
            return b"\1" + number(serial) + number(cls)
        case Yours(serial):
            return b"\2" + number(serial)
        case Lent(port, serial, cls, token):
            return b"\3" + number(port) + number(serial) + number(cls) + number(token)


def value_bytes(value: Part) -> bytes:
    """A value."""
    match value:
        case None:
            return b"\0"
        case int():
            return b"\1" + number(2 * value if value >= 0 else -2 * value - 1)
        case bytes():
            return b"\2" + text(value)
        case CopyAt(at):
            return b"\3" + number(at)
        case NameAt(at):
            return b"\4" + number(at)
        case list():
            return b"\5" + number(len(value)) + b"".join(map(value_bytes, value))


def packet_bytes(packet: Packet, table: Table) -> bytes:
    """A packet. The table changes as its names are written."""
    out = [number(len(packet.names))]
    out += [name_bytes(name, table) for name in packet.names]
    out.append(number(len(packet.copies)))
    for cls, slots in packet.copies:
        out += [number(cls), number(len(slots)), *map(value_bytes, slots)]
    out += [number(len(packet.values)), *map(value_bytes, packet.values)]
    return b"".join(out)


def _error_bytes(error: Raise) -> bytes:
    return number(error.number) + (text(error.text or b"") if error.number == USER else b"")


_FIELDS: dict[str, Callable[..., bytes]] = {
    "call": number, "serial": number, "port": number, "token": number, "amount": number,
    "selector": text, "error": _error_bytes}


def frame_bytes(frame: Frame, table: Table) -> bytes:
    """A frame, with its kind and length. The table changes as its names are written.

        >>> from nukwashe.frames import RootAsk
        >>> frame_bytes(RootAsk(1), Table()).hex()
        '05000000020101'
    """
    body = b"".join(
        packet_bytes(frame.packet, table) if field == "packet"
        else _FIELDS[field](getattr(frame, field))
        for field in frame.__dataclass_fields__)
    return bytes((_BYTES[type(frame)],)) + len(body).to_bytes(4, "big") + body
