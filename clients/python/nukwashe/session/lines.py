"""What a session and the programs that attach to it send each other: one line of JSON each way.

A request has `do`, one of `copy`, `paste`, `post` and `look`, and what that takes. An answer has
`value`, or `error`, a sentence.
"""
import json
import socket
from typing import Any

#: The most bytes of a line: a text of 1,048,575 bytes, each written as six, and some words.
MOST_BYTES = 8_388_608


def send(sock: socket.socket, message: dict[str, Any]) -> None:
    """Sends a message."""
    sock.sendall(json.dumps(message).encode("ascii") + b"\n")


def receive(sock: socket.socket) -> dict[str, Any]:
    """The message that comes. Raises ValueError where it is none, or longer than a line may be."""
    line = bytearray()
    while not line.endswith(b"\n"):
        piece = sock.recv(65_536)
        line += piece
        if not piece or len(line) > MOST_BYTES:
            raise ValueError("no message")
    message = json.loads(line)
    if not isinstance(message, dict):
        raise ValueError("no message")
    return message
