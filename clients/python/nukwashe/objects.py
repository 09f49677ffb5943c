"""Objects of a program that peers can name, and proxies of theirs."""
from collections.abc import Callable
from typing import TYPE_CHECKING, Any, NamedTuple

if TYPE_CHECKING:
    from .node import Node
    from .world import Class


class ObjectId(NamedTuple):
    """The name of an object: the port of its home, and its serial there."""
    port: int
    serial: int

    def __str__(self) -> str:
        return f"#{self.port}.{self.serial}"


class Object:
    """An object that can be named to peers.

    Its class in the world has the name of its Python class, or the one that `world_class` says.
    The method of a selector is spelled with `_` for each colon, and the slots are attributes. A
    method with values that come out returns a tuple of its result and these.

        class Counter(Object):
            value = 0

            def add_(self, number):
                self.value += number
                return self.value
    """
    world_class: str | None = None
    _node: "Node | None" = None
    _serial = 0


class Proxy:
    """What stands here for an object of a peer.

    `counter.add_(5)` sends it `add:` and waits for the answer. Every message takes `timeout`, the
    seconds after which it raises TimedOut.
    """
    __slots__ = ("_node", "_id", "_class", "__weakref__")

    def __init__(self, node: "Node", oid: ObjectId, cls: "Class") -> None:
        """Made by a node, where a peer names an object."""
        self._node, self._id, self._class = node, oid, cls

    def send(self, selector: str, *values: Any, timeout: float | None = None) -> Any:
        """Sends a message by its selector, and gives what Node.send does.

            counter.send("add:", 5, timeout=10)
        """
        return self._node.send(self, selector, values, timeout)

    def __getattr__(self, name: str) -> Callable[..., Any]:
        if name.startswith("_"):
            raise AttributeError(name)
        selector = name.replace("_", ":")
        return lambda *values, timeout=None: self._node.send(self, selector, values, timeout)

    def __repr__(self) -> str:
        return f"<{self._id} {self._class.name}>"
