"""What nodes send one another, as the section "Frames" of docs/FORMATS.md says it.

Texts are bytes here. A value is None, an int, bytes, a CopyAt, a NameAt or a list of values.
"""
from dataclasses import dataclass
from typing import TypeAlias, Union

GREETING = bytes.fromhex("0d0000000102")
#: The most bytes of a payload and of a text.
MOST_PAYLOAD, MOST_TEXT = 2_098_176, 1_048_575
#: The most names, copies and values of a packet.
MOST_NAMES, MOST_COPIES, MOST_VALUES = 65_536, 4_096, 9
#: The most items of a list, and the most lists within one another.
MOST_ITEMS, MOST_NESTED = 1_024, 8
#: The greatest serial, token, and number of a call.
MOST_SERIAL = 2**63 - 1
#: How many names lately sent each side remembers.
MOST_RECENT = 256


@dataclass(frozen=True, slots=True)
class Mine:
    """A name of an object of the sender, with its class."""
    serial: int
    cls: int


@dataclass(frozen=True, slots=True)
class Yours:
    """A name of an object of the receiver."""
    serial: int


@dataclass(frozen=True, slots=True)
class Lent:
    """A name of an object of a third node, under a token of the sender."""
    port: int
    serial: int
    cls: int
    token: int


Name: TypeAlias = Union[Mine, Yours, Lent]


@dataclass(frozen=True, slots=True)
class CopyAt:
    """A value that is a copied object: its place among the copies."""
    at: int


@dataclass(frozen=True, slots=True)
class NameAt:
    """A value that is a named object: its place among the names."""
    at: int


Part: TypeAlias = Union[None, int, bytes, CopyAt, NameAt, list]


@dataclass(frozen=True, slots=True)
class Packet:
    """The values of a message, with the objects that they mean. A copy is the place of its class
    and a value for each slot."""
    names: list[Name]
    copies: list[tuple[int, list[Part]]]
    values: list[Part]


@dataclass(frozen=True, slots=True)
class Raise:
    """An exception by its number; `User` has a text."""
    number: int
    text: bytes | None = None


@dataclass(frozen=True, slots=True)
class Call:
    """A message whose answer is awaited."""
    call: int
    serial: int
    selector: bytes
    packet: Packet


@dataclass(frozen=True, slots=True)
class Oneway:
    """A message that is not answered."""
    serial: int
    selector: bytes
    packet: Packet


@dataclass(frozen=True, slots=True)
class Reply:
    """The answer to a call."""
    call: int
    packet: Packet


@dataclass(frozen=True, slots=True)
class Raised:
    """The answer to a call that raised."""
    call: int
    error: Raise


@dataclass(frozen=True, slots=True)
class RootAsk:
    """An ask for the root."""
    call: int


@dataclass(frozen=True, slots=True)
class RootAnswer:
    """The answer to an ask for the root."""
    call: int
    packet: Packet


@dataclass(frozen=True, slots=True)
class Ask:
    """An ask of an object's home for an object that a third node lent."""
    serial: int
    port: int
    token: int


@dataclass(frozen=True, slots=True)
class Granted:
    """The home counts the object as named once more."""
    serial: int
    port: int
    token: int


@dataclass(frozen=True, slots=True)
class Gone:
    """The home stores no such object."""
    serial: int
    port: int
    token: int


@dataclass(frozen=True, slots=True)
class Release:
    """So many names of an object are given back."""
    serial: int
    amount: int


@dataclass(frozen=True, slots=True)
class Settled:
    """A lend is over."""
    token: int


@dataclass(frozen=True, slots=True)
class End:
    """The sender closes its end of the connection."""


Frame: TypeAlias = Union[Call, Oneway, Reply, Raised, RootAsk, RootAnswer, Ask, Granted, Gone,
                         Release, Settled, End]

#: The frames by the bytes of their kinds.
KINDS = dict(enumerate((Call, Oneway, Reply, Raised, RootAsk, RootAnswer, Ask, Granted, Gone,
                        Release, Settled, End), 1))
