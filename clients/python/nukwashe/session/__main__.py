"""`nukwashe-session WORLD` keeps a node until it is ended by INT or TERM."""
import argparse
import signal
import sys

from ..node import Node
from ..world import World
from .broker import Broker, open_socket
from .desk import SERVERS, Desk, Owner, usual_port
from .place import socket_path


def _words() -> argparse.Namespace:
    words = argparse.ArgumentParser(
        prog="nukwashe-session",
        description="Keeps one node of a world, for nukwashe-copy and its fellows.")
    words.add_argument("--port", type=int, help="the node's port; else the first for programs")
    words.add_argument("--session", metavar="PATH", help="where the session's socket stands")
    words.add_argument("--patience", type=float, default=5.0, metavar="SECONDS",
                       help="how long a server may take to answer or to be there")
    words.add_argument("world", metavar="WORLD", help="the world's file")
    return words.parse_args()


def _keep(given: argparse.Namespace) -> None:
    world = World.read(given.world)
    port = given.port or usual_port(world)
    if port not in world.roots:
        raise ValueError(f"the world has no node {port}")
    path, ended = socket_path(given.session), []
    for each in (signal.SIGINT, signal.SIGTERM):
        signal.signal(each, lambda *_: ended.append(True))
    owner = Owner(world.roots[port].name)
    with open_socket(path) as listener:
        try:
            with Node(port, world, owner, patience=given.patience) as node:
                desk = Desk(node, owner, given.patience)
                for sentence in desk.missing():
                    print(f"session: {sentence}", file=sys.stderr)
                print(f"session: node {port} at {path}, with "
                      + ", ".join(kind for kind in SERVERS if world.ports_of(kind)), flush=True)
                Broker(node, desk, listener).run(lambda: bool(ended))
        finally:
            path.unlink(missing_ok=True)


def main() -> int:
    """Keeps a session: 0 once it was ended, 1 where it could not begin."""
    try:
        _keep(_words())
    except (OSError, ValueError) as fault:
        print(f"session: {fault}", file=sys.stderr)
        return 1
    return 0


if __name__ == "__main__":
    sys.exit(main())
