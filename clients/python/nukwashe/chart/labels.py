"""What the frames of a chart say, in words."""
from ..frames import (Call, CopyAt, Frame, Mine, NameAt, Oneway, Packet, Part, Reply, RootAnswer,
                      Yours)
from ..world import World

#: How many letters of a text are shown.
_SHOWN = 24


class Labels:
    """The words of frames from one node to another."""

    def __init__(self, sender: int, receiver: int, world: World) -> None:
        self._sender, self._receiver, self._world = sender, receiver, world

    def frame(self, frame: Frame) -> str | None:
        """What a frame says with its values; None where the transcript says as much."""
        match frame:
            case Call(serial=serial, selector=selector, packet=packet) | Oneway(
                    serial=serial, selector=selector, packet=packet):
                return f"#{self._receiver}.{serial} {self._message(selector.decode(), packet)}"
            case Reply(packet=packet):
                return "reply " + ", ".join(self._values(packet))
            case RootAnswer(packet=packet):
                return "the root is " + self._values(packet)[0]
        return None

    def _message(self, selector: str, packet: Packet) -> str:
        """A selector with a value behind each colon."""
        parts = [f"{part}: {value}"
                 for part, value in zip(selector.split(":"), self._values(packet))]
        return " ".join(parts) or selector

    def _values(self, packet: Packet) -> list[str]:
        return [self._value(part, packet) for part in packet.values]

    def _value(self, part: Part, packet: Packet) -> str:
        match part:
            case None:
                return "nil"
            case bytes():
                text = part.decode("utf-8", "replace")
                return f'"{text if len(text) <= _SHOWN else text[:_SHOWN - 1] + chr(0x2026)}"'
            case CopyAt(at):
                number, slots = packet.copies[at]
                return f"a copy of {self._world.classes[number].name}"
            case NameAt(at):
                return self._object(packet.names[at])
            case list():
                return "[" + " ".join(self._value(each, packet) for each in part) + "]"
        return str(part)

    def _object(self, name: object) -> str:
        match name:
            case Mine(serial=serial):
                return f"#{self._sender}.{serial}"
            case Yours(serial):
                return f"#{self._receiver}.{serial}"
        return f"#{name.port}.{name.serial} (lent)"
