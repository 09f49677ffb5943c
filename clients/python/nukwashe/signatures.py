"""The types of methods, as the section "Type encodings" of docs/FORMATS.md says them."""
from dataclasses import dataclass
from typing import TypeAlias, Union

from .words import is_name, is_selector

_INTEGERS = {"c": (-2**7, 2**7 - 1), "s": (-2**15, 2**15 - 1), "i": (-2**31, 2**31 - 1),
             "l": (-2**63, 2**63 - 1), "q": (-2**63, 2**63 - 1), "C": (0, 2**8 - 1),
             "S": (0, 2**16 - 1), "I": (0, 2**32 - 1), "L": (0, 2**63 - 1), "Q": (0, 2**63 - 1),
             "B": (0, 1)}
_PLAIN = frozenset(_INTEGERS) | frozenset("v*#:@")


@dataclass(frozen=True, slots=True)
class Array:
    """A list of so many values of one type."""
    count: int
    item: "TypeOf"


@dataclass(frozen=True, slots=True)
class Structure:
    """A list of a value for each type."""
    items: tuple["TypeOf", ...]


@dataclass(frozen=True, slots=True)
class Pointer:
    """Nil, or what fits the type."""
    to: "TypeOf"


#: A plain type is its letter.
TypeOf: TypeAlias = Union[str, Array, Structure, Pointer]


@dataclass(frozen=True, slots=True)
class Place:
    """A result or an argument: its type, and how its value travels."""
    type: TypeOf
    goes_in: bool = True
    comes_out: bool = False
    is_bycopy: bool = False


@dataclass(frozen=True, slots=True)
class Signature:
    """A method's result and arguments."""
    result: Place
    arguments: tuple[Place, ...]
    is_oneway: bool

    @property
    def comes_out(self) -> list[Place]:
        """What an answer has, in order: the result, and each argument that comes out."""
        return [self.result] + [place for place in self.arguments if place.comes_out]


class _Reader:
    def __init__(self, types: str) -> None:
        self.types, self.at = types, 0

    def peek(self) -> str:
        return self.types[self.at:self.at + 1]

    def take(self, letters: str) -> str:
        """The letters of these that come next."""
        begin = self.at
        while self.peek() and self.peek() in letters:
            self.at += 1
        return self.types[begin:self.at]

    def expect(self, letter: str) -> None:
        if self.peek() != letter:
            raise ValueError(f"no {letter!r} at byte {self.at} of the types {self.types!r}")
        self.at += 1

    def type(self) -> TypeOf:
        letter = self.peek()
        if not letter or letter not in "[{^" and letter not in _PLAIN:
            raise ValueError(f"no type at byte {self.at} of the types {self.types!r}")
        self.at += 1
        if letter == "[":
            array = Array(int(self.take("0123456789") or "0"), self.type())
            self.expect("]")
            return array
        if letter == "{":
            return self.structure()
        return Pointer(self.type()) if letter == "^" else letter

    def structure(self) -> Structure:
        while self.peek() not in ("=", "}", ""):
            self.at += 1
        self.expect("=")
        items = []
        while self.peek() != "}":
            items.append(self.type())
        self.expect("}")
        return Structure(tuple(items))

    def place(self) -> tuple[Place, str]:
        """A place, and its qualifiers."""
        marks = self.take("rnNoORV")
        kind = self.type()
        self.take("+-")
        self.take("0123456789")
        is_pointer = isinstance(kind, Pointer)
        stays = "n" in marks or "r" in marks and not set("No") & set(marks)
        return Place(kind, goes_in="o" not in marks or not is_pointer,
                     comes_out=is_pointer and not stays, is_bycopy="O" in marks), marks


def read_signature(types: str) -> Signature:
    """The signature of a method's types. Raises ValueError where they are none.

        >>> read_signature("q@:q").arguments[0].type
        'q'
    """
    reader = _Reader(types)
    result, marks = reader.place()
    if [reader.place()[0].type, reader.place()[0].type] != ["@", ":"]:
        raise ValueError(f"no receiver in the types {types!r}")
    arguments = []
    while reader.peek():
        place, _ = reader.place()
        if "V" in marks:
            place = Place(place.type, place.goes_in, False, place.is_bycopy)
        arguments.append(place)
    return Signature(result, tuple(arguments), "V" in marks)


def fits(value: object, kind: TypeOf) -> bool:
    """Whether a value fits a type. A text is bytes; an object fits `@` alone.

        >>> fits(128, "c"), fits(None, "*"), fits([1, 2], Array(2, "c"))
        (False, True, True)
    """
    match kind:
        case Pointer(to):
            return value is None or fits(value, to)
        case Array(count, item):
            return (isinstance(value, list) and len(value) == count
                    and all(fits(each, item) for each in value))
        case Structure(items):
            return (isinstance(value, list) and len(value) == len(items)
                    and all(map(fits, value, items)))
        case "@":
            return True
        case "v":
            return value is None
        case "*" | "#" | ":":
            return value is None or isinstance(value, bytes) and _fits_text(value, kind)
    least, most = _INTEGERS[kind]
    return isinstance(value, int) and least <= value <= most


def _fits_text(text: bytes, letter: str) -> bool:
    if letter == "*":
        return b"\0" not in text
    return is_name(text) if letter == "#" else is_selector(text)
