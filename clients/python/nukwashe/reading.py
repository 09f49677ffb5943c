"""Frames from bytes. A reader refuses all but the one spelling of each."""
from collections.abc import Sequence
from dataclasses import dataclass

from .errors import IN_ORDER, USER
from .frames import (KINDS, MOST_COPIES, MOST_ITEMS, MOST_NAMES, MOST_NESTED, MOST_SERIAL,
                     MOST_TEXT, MOST_VALUES, CopyAt, Frame, Lent, Mine, Name, NameAt, Packet, Part,
                     Raise, Yours)
from .table import Table
from .words import is_selector


class Bad(Exception):
    """Bytes that are no frame."""


@dataclass(frozen=True, slots=True)
class Sides:
    """What a packet is read for: how many slots each class has, the sender and the receiver."""
    slots: Sequence[int]
    sender: int
    receiver: int


class _Reader:
    """A payload, and how far it was read."""

    def __init__(self, data: bytes, table: Table, sides: Sides) -> None:
        self.data, self.at, self.table, self.sides = data, 0, table, sides

    def byte(self, most: int) -> int:
        if self.at >= len(self.data) or self.data[self.at] > most:
            raise Bad(f"byte {self.at}")
        self.at += 1
        return self.data[self.at - 1]

    def number(self, least: int, most: int) -> int:
        begin, count = self.at, self.byte(8)
        body = self.data[self.at:self.at + count]
        n = int.from_bytes(body, "big")
        if len(body) < count or body[:1] == b"\0" or not least <= n <= most:
            raise Bad(f"number at byte {begin}")
        self.at += count
        return n

    def text(self, most: int = MOST_TEXT) -> bytes:
        count = self.number(0, most)
        body = self.data[self.at:self.at + count]
        if len(body) < count:
            raise Bad(f"text at byte {self.at}")
        self.at += count
        return body

    def call(self) -> int:
        return self.number(1, MOST_SERIAL)

    serial = token = amount = call

    def port(self) -> int:
        return self.number(1, 65_535)

    def selector(self) -> bytes:
        begin, selector = self.at, self.text(255)
        if not is_selector(selector):
            raise Bad(f"selector at byte {begin}")
        return selector

    def error(self) -> Raise:
        number = self.number(1, len(IN_ORDER))
        return Raise(number, self.text() if number == USER else None)

    def cls(self) -> int:
        return self.number(0, len(self.sides.slots) - 1)

    def name(self) -> Name:
        begin, tag = self.at, self.byte(4)
        if tag == 1:
            name = Mine(self.serial(), self.cls())
            if self.table.find(name) is None:
                self.table.add(name)
                return name
        elif tag == 2:
            return Yours(self.serial())
        elif tag == 3:
            port = self.port()
            if port not in (self.sides.sender, self.sides.receiver):
                return Lent(port, self.serial(), self.cls(), self.token())
        elif tag == 4 and self.table.recent:
            return self.table.recent[self.number(0, len(self.table.recent) - 1)]
        raise Bad(f"name at byte {begin}")

    def value(self, copies: int, names: int, lists: int = MOST_NESTED) -> Part:
        begin, tag = self.at, self.byte(5)
        if tag == 0:
            return None
        if tag == 1:
            n = self.number(0, 2**64 - 1)
            return -(n + 1) // 2 if n & 1 else n // 2
        if tag == 2:
            return self.text()
        if tag == 3 and copies:
            return CopyAt(self.number(0, copies - 1))
        if tag == 4 and names:
            return NameAt(self.number(0, names - 1))
        if tag == 5 and lists:
            return [self.value(copies, names, lists - 1)
                    for _ in range(self.number(0, MOST_ITEMS))]
        raise Bad(f"value at byte {begin}")

    def packet(self) -> Packet:
        names = [self.name() for _ in range(self.number(0, MOST_NAMES))]
        count, copies = self.number(0, MOST_COPIES), []
        for _ in range(count):
            cls = self.cls()
            slots = self.number(self.sides.slots[cls], self.sides.slots[cls])
            copies.append((cls, [self.value(count, len(names)) for _ in range(slots)]))
        values = [self.value(count, len(names)) for _ in range(self.number(0, MOST_VALUES))]
        return Packet(names, copies, values)


def read_frame(kind: int, payload: bytes, table: Table, sides: Sides) -> Frame:
    """The frame with this payload. The table changes with its names. Raises Bad where the payload
    spells none."""
    reader, frame = _Reader(payload, table, sides), KINDS[kind]
    fields = [getattr(reader, field)() for field in frame.__dataclass_fields__]
    if reader.at != len(payload):
        raise Bad(f"byte {reader.at} behind the frame")
    return frame(*fields)
