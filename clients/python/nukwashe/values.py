"""Values of a program, and values of messages.

A message has None, int, bytes, list, Object and Proxy. A program may give `str`, which goes as
UTF-8, tuples and `bool` too. It gets texts as `str`, with surrogates for bytes that are no UTF-8.
"""
from typing import Any

from .errors import TooLarge, Type
from .frames import MOST_ITEMS, MOST_NESTED, MOST_TEXT
from .objects import Object, Proxy


def to_message(value: Any, lists: int = MOST_NESTED) -> Any:
    """A program's value as messages have it. Raises TooLarge past a limit on texts and lists, Type
    for a number that 64 bits cannot hold, and TypeError for what no message has.

        >>> to_message((True, "a"))
        [1, b'a']
    """
    match value:
        case None | Object() | Proxy():
            return value
        case int():
            if not -2**63 <= value < 2**63:
                raise Type(value)
            return int(value)
        case str():
            return to_message(value.encode("utf-8", "surrogateescape"))
        case bytes():
            if len(value) > MOST_TEXT:
                raise TooLarge(f"a text of {len(value)} bytes")
            return value
        case list() | tuple():
            if len(value) > MOST_ITEMS or not lists:
                raise TooLarge("a list")
            return [to_message(item, lists - 1) for item in value]
    raise TypeError(f"no value of a message: {value!r}")


def to_text(data: bytes) -> str:
    """A text of a message as a program has it."""
    return data.decode("utf-8", "surrogateescape")


def weight(value: Any) -> int:
    """What a value of a message weighs.

        >>> weight([None, b"ab"])
        35
    """
    match value:
        case None:
            return 1
        case bytes():
            return 16 + len(value)
        case list():
            return 16 + sum(map(weight, value))
        case Object() | Proxy():
            return 48
    return 16
