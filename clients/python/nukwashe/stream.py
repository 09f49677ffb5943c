"""What comes from one peer, in pieces: first the greeting, then frames."""
from .frames import GREETING, KINDS, MOST_PAYLOAD, Frame
from .reading import Bad, Sides, read_frame
from .table import Table


class Stream:
    """The bytes of one peer that are not read yet, and the names that it used lately."""

    def __init__(self, sides: Sides) -> None:
        self.sides, self.table = sides, Table()
        self._rest, self._is_greeted = bytearray(), False

    def feed(self, piece: bytes) -> None:
        """Adds bytes that came."""
        self._rest += piece

    def next(self) -> Frame | None:
        """The next frame; None where it is not whole yet. Raises Bad where no frame goes on so."""
        if not self._is_greeted and not self._take_greeting():
            return None
        rest = self._rest
        if rest and rest[0] not in KINDS:
            raise Bad("the kind of a frame")
        length = int.from_bytes(rest[1:5], "big")
        if len(rest) >= 5 and length > MOST_PAYLOAD:
            raise Bad("the length of a frame")
        if len(rest) < 5 or len(rest) < 5 + length:
            return None
        kind, payload = rest[0], bytes(rest[5:5 + length])
        del rest[:5 + length]
        return read_frame(kind, payload, self.table, self.sides)

    def _take_greeting(self) -> bool:
        begin = bytes(self._rest[:len(GREETING)])
        if not GREETING.startswith(begin):
            raise Bad("the greeting")
        self._is_greeted = begin == GREETING
        if self._is_greeted:
            del self._rest[:len(GREETING)]
        return self._is_greeted
