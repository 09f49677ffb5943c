"""The short programs that attach to a session: copy, paste, post and look.

Each ends with 0 where it did what it was asked. It ends with 1 where nothing is there to paste or
to look up, and with 2 where its words are wrong. It ends with 3 where there is no session or the
session could not do it. Then it writes a sentence to standard error.
"""
import argparse
import socket
import sys
from typing import Any

from ..frames import MOST_TEXT
from . import lines
from .place import socket_path

NOTHING, WRONG_WORDS, FAILED = 1, 2, 3


def _words(name: str, description: str) -> argparse.ArgumentParser:
    words = argparse.ArgumentParser(prog=f"nukwashe-{name}", description=description)
    words.add_argument("--session", metavar="PATH", help="where the session's socket stands")
    return words


def _end(name: str, status: int, sentence: str) -> None:
    print(f"nukwashe-{name}: {sentence}", file=sys.stderr)
    sys.exit(status)


def _ask(do: str, session: str | None, request: dict[str, Any]) -> Any:
    """What a session answers to a request. Where it cannot, the program ends with a sentence."""
    try:
        path = socket_path(session)
        with socket.socket(socket.AF_UNIX) as sock:
            sock.connect(str(path))
            lines.send(sock, {"do": do, **request})
            answer = lines.receive(sock)
    except (FileNotFoundError, ConnectionRefusedError):
        _end(do, FAILED, f"There is no session at {path}. Start one by "
                           "`nukwashe-session WORLD`.")
    except (OSError, ValueError) as fault:
        _end(do, FAILED, f"The session does not answer: {fault}.")
    if "error" in answer:
        _end(do, FAILED, answer["error"])
    return answer["value"]


def copy() -> None:
    """`nukwashe-copy` puts standard input on the pasteboard."""
    words = _words("copy", "Puts standard input on the pasteboard.")
    words.add_argument("--type", default="text", help="the type of the data; text if none is given")
    words.add_argument("--lazy", action="store_true",
                       help="keep the data with the session until somebody pastes it")
    given = words.parse_args()
    data = sys.stdin.buffer.read(MOST_TEXT + 1)
    if len(data) > MOST_TEXT:
        _end("copy", WRONG_WORDS, f"A text has at most {MOST_TEXT} bytes.")
    _ask("copy", given.session, {
        "kind": given.type, "data": data.decode("utf-8", "surrogateescape"),
        "is_lazy": given.lazy})


def paste() -> None:
    """`nukwashe-paste` writes what is on the pasteboard to standard output."""
    words = _words("paste", "Writes what is on the pasteboard to standard output.")
    words.add_argument("--type", default="text", help="the type of the data; text if none is given")
    given = words.parse_args()
    data = _ask("paste", given.session, {"kind": given.type})
    if data is None:
        _end("paste", NOTHING, f"There is nothing of the type {given.type}.")
    sys.stdout.buffer.write(data.encode("utf-8", "surrogateescape"))


def post() -> None:
    """`nukwashe-post` posts a notification."""
    words = _words("post", "Posts a notification, with words as its information.")
    words.add_argument("--about", metavar="TEXT", help="the object that it is about")
    words.add_argument("name", metavar="NAME")
    words.add_argument("info", metavar="WORD", nargs="*")
    given = words.parse_intermixed_args()
    _ask("post", given.session, {"name": given.name, "about": given.about, "info": given.info})


def look() -> None:
    """`nukwashe-look` writes the port that a name is registered with."""
    words = _words("look", "Writes the port that a name is registered with.")
    words.add_argument("name", metavar="NAME")
    given = words.parse_args()
    port = _ask("look", given.session, {"name": given.name})
    if port is None:
        _end("look", NOTHING, f"Nobody registered the name {given.name}.")
    print(port)
