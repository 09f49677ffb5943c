"""What a session does for those who attach: it copies, pastes, posts and looks names up."""
from typing import Any

from ..errors import ConnectionDied, NodeError
from ..node import Node
from ..objects import Object, Proxy
from ..world import World

#: What each native kind is called in sentences.
SERVERS = {"pasteboard": "pasteboard", "center": "notification centre", "names": "name server"}
_PROVIDES = "pasteboard:provideDataForType:"


class Unable(Exception):
    """A request that could not be done, as a sentence."""


class Owner(Object):
    """The root of a session's node, which owns what was copied last."""

    def __init__(self, class_name: str) -> None:
        self.world_class = class_name
        self.kept: tuple[str, str, int] | None = None

    def pasteboard_provideDataForType_(self, board: Proxy, kind: str) -> None:
        """Gives data that was kept back until somebody asks for it."""
        if self.kept is not None and self.kept[0] == kind:
            board.setData_forType_count_(self.kept[1], kind, self.kept[2])

    def pasteboardChangedOwner_(self, board: Proxy) -> None:
        """Somebody else copied."""
        self.kept = None


def usual_port(world: World) -> int:
    """The first node that can own what is on a pasteboard, else the first with a root of scripts.
    Raises ValueError where the world has none."""
    ports = sorted(port for port, cls in world.roots.items() if cls.native is None)
    owners = [port for port in ports if _PROVIDES in world.roots[port].methods]
    if not ports:
        raise ValueError("the world has no node for programs")
    return (owners or ports)[0]


class Desk:
    """The servers of a world, for one node and its owner."""

    def __init__(self, node: Node, owner: Owner, timeout: float) -> None:
        """A call of a server that takes longer than `timeout` seconds fails."""
        self._node, self._owner, self._timeout = node, owner, timeout
        self._roots: dict[str, Proxy] = {}

    def missing(self) -> list[str]:
        """Asks each server of the world for its root: a sentence for each that does not answer."""
        sentences = []
        for kind in SERVERS:
            if self._node.world.ports_of(kind):
                try:
                    self._server(kind)
                except Unable as unable:
                    sentences.append(str(unable))
        return sentences

    def _server(self, kind: str) -> Proxy:
        """The root of the first node of a native kind."""
        if kind not in self._roots:
            ports = self._node.world.ports_of(kind)
            if not ports:
                raise Unable(f"The world has no {SERVERS[kind]}.")
            try:
                self._roots[kind] = self._node.root(ports[0], self._timeout)
            except NodeError:
                raise Unable(f"The {SERVERS[kind]} at port {ports[0]} does not answer. Start it, "
                             "and then the session anew.") from None
        return self._roots[kind]

    def _send(self, kind: str, selector: str, *values: Any) -> Any:
        server = self._server(kind)
        try:
            return server.send(selector, *values, timeout=self._timeout)
        except ConnectionDied:
            raise Unable(f"The {SERVERS[kind]} has ended. Start it, and then the session anew."
                         ) from None
        except NodeError as error:
            raise Unable(f"The {SERVERS[kind]} refuses this: {type(error).__name__}.") from None

    def copy(self, kind: str, data: str, is_lazy: bool) -> None:
        """Puts data of a type on the pasteboard; a lazy copy is kept here until it is pasted."""
        count = self._send("pasteboard", "declareTypes:owner:", [kind], self._owner)
        self._owner.kept = (kind, data, count) if is_lazy else None
        if not is_lazy:
            self._send("pasteboard", "setData:forType:count:", data, kind, count)

    def paste(self, kind: str) -> str | None:
        """The data of a type on the pasteboard."""
        return self._send("pasteboard", "dataForType:", kind)

    def post(self, name: str, about: str | None, info: list[str]) -> None:
        """Posts a notification."""
        self._send("center", "postNotificationName:object:userInfo:deliverImmediately:",
                   name, about, info, True)

    def look(self, name: str) -> int | None:
        """The port of a name, if somebody registered it."""
        return self._send("names", "lookup:", name) or None
