"""The record of a node: what it took and how its connections ended.

It has the form of the section "Records" of docs/FORMATS.md. What a program does between its inputs
has no form there, so its own calls and returns are missing. `nukwashe weave` takes the record of a
node that nobody sent a message to and that sent none. Else it says at which block it cannot go on.
"""
import os
from typing import IO

from .errors import IN_ORDER, USER
from .frames import (Ask, Call, End, Frame, Gone, Granted, Oneway, Raised, Release, Reply,
                     RootAnswer, RootAsk, Settled)

MOST_BYTES = 16_777_216
_END = "> end\n"


def quoted(text: bytes) -> str:
    """A text as schedules and transcripts write it.

        >>> print(quoted(b'a"'))
        "a\\22"
    """
    return '"' + "".join(chr(byte) if 32 <= byte <= 126 and byte not in b'"\\'
                         else f"\\{byte:02x}" for byte in text) + '"'


def took(frame: Frame, peer: int, port: int) -> str:
    """What a transcript says where the node of a port takes a frame of a peer.

        >>> took(Release(2, 1), 7001, 7002)
        'took left #7002.2'
    """
    match frame:
        case Call(selector=selector):
            return f"took call {selector.decode()}"
        case Oneway(selector=selector):
            return f"took oneway {selector.decode()}"
        case Raised(error=error):
            text = f" {quoted(error.text or b'')}" if error.number == USER else ""
            return f"took raised {IN_ORDER[error.number - 1].__name__}{text}"
        case Ask(serial=serial):
            return f"took ask #{port}.{serial}"
        case Granted(serial=serial) | Gone(serial=serial):
            return f"took {type(frame).__name__.lower()} #{peer}.{serial}"
        case Release(serial=serial):
            return f"took left #{port}.{serial}"
    return "took " + {Reply: "reply", RootAsk: "rootask", RootAnswer: "rootanswer",
                      Settled: "settled", End: "end"}[type(frame)]


class Record:
    """A record that is written to a file as the node goes on. One that would pass 16,777,216 bytes
    is cut off."""

    def __init__(self, path: str | os.PathLike[str], port: int) -> None:
        self._port, self._room = port, MOST_BYTES - len(_END)
        self._file: IO[str] | None = open(path, "w", encoding="ascii")
        self._write(f"record 1 {port}\n")

    def _write(self, block: str) -> None:
        self._room -= len(block)
        if self._file is not None and self._room >= 0:
            self._file.write(block)
            self._file.flush()

    def took(self, peer: int, frame: Frame) -> None:
        """The node takes a frame of a peer."""
        self._write(f"> take {self._port} {peer}\n{took(frame, peer, self._port)}\n")

    def closed(self, peer: int) -> None:
        """The node closes its end towards a peer."""
        self._write(f"> close {self._port} {peer}\n")

    def ended(self, peer: int) -> None:
        """The connection to a peer ended without notice."""
        self._write(f"> ended {self._port} {peer}\ntook end\n")

    def end(self) -> None:
        """The node is done."""
        if self._file is not None:
            if self._room >= 0:
                self._file.write(_END)
            self._file.close()
            self._file = None
