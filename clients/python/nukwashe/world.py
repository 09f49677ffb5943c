"""Worlds: the classes of a network with their slots and methods, and its nodes."""
import os
import tomllib
from dataclasses import dataclass
from typing import Any

from .kinds import BUILT_IN, KINDS
from .signatures import Signature, read_signature


@dataclass(frozen=True)
class Slot:
    """A slot of a class. What a `copy` slot holds is copied with its object."""
    name: str
    is_copy: bool


@dataclass(frozen=True)
class Class:
    """A class of a world: its place there, its kind if it is native, slots, and methods by
    selector."""
    number: int
    name: str
    native: str | None
    slots: tuple[Slot, ...]
    methods: dict[str, Signature]


class World:
    """The classes in the order of the file, and the class of each node's root by its port.

        >>> World.read(":counter").roots[7002].name
        'Counter'
    """

    def __init__(self, text: str) -> None:
        """Reads a world's text. Raises ValueError where it is none; what code says is not read."""
        table = tomllib.loads(text)
        if table.get("version") != 1:
            raise ValueError("a world has the version 1")
        try:
            self.classes = [_class(number, each) for number, each in enumerate(table["class"])]
            self.by_name = {cls.name: cls for cls in self.classes}
            self.roots: dict[int, Class] = {
                node["port"]: self.by_name[node["root"]] for node in table["node"]}
        except (KeyError, TypeError) as missing:
            raise ValueError(f"the world lacks {missing}") from None
        self.slot_counts = [len(cls.slots) for cls in self.classes]

    @classmethod
    def read(cls, path: str | os.PathLike[str]) -> "World":
        """The world of a file, or one that is built in, `:counter` or `:mesh`."""
        if path in BUILT_IN:
            return cls(BUILT_IN[str(path)])
        with open(path, encoding="utf-8") as file:
            return cls(file.read())

    def ports_of(self, kind: str) -> list[int]:
        """The ports of the nodes whose roots are of a native kind, by rising port.

            board = node.root(node.world.ports_of("pasteboard")[0])
        """
        return sorted(port for port, cls in self.roots.items() if cls.native == kind)


def _class(number: int, table: dict[str, Any]) -> Class:
    native = table.get("native")
    slots, types = KINDS[native] if native else (table.get("slots", []), {})
    methods = {selector: read_signature(each) for selector, each in types.items()}
    for key in ("method", "allow", "deny"):
        for method in table.get(key, []):
            methods[method["selector"]] = read_signature(method["types"])
    parts = [slot.split(" ") for slot in slots]
    return Class(number, table["name"], native,
                 tuple(Slot(part[0], part[1:] == ["copy"]) for part in parts), methods)
