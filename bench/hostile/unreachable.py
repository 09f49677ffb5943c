"""Peers that a node cannot reach."""
import socket
import subprocess
import sys
import time

from formats import GREETING, root_ask, take_frame
from node import Broken, Node
from peer import Honest, PATIENCE, Peer, Stream, silent_stream
from places import SERVER, nodes
from strangers import served


def full_queue(program):
    """A peer that listens and accepts nothing, whose queue of streams is full."""
    node, (full, honest) = served(program, 2)
    with node:
        good = Honest(node, honest).begin()
        peer = Peer(node, full, backlog=0)
        fillers = []
        for _ in range(4):
            filler = socket.socket()
            filler.setblocking(False)
            filler.connect_ex(("127.0.0.1", full))
            fillers.append(filler)
        time.sleep(0.3)
        peer.open()
        peer.send(GREETING + root_ask(1))
        time.sleep(0.1)
        good.ask()
        if good.slowest > 20:
            raise Broken(f"another peer answered after {good.slowest:.1f} s")
        return f"another peer answered after {good.slowest:.1f} s"


def asks_for_the_root(node, port):
    """A stream of a peer that asks for the root, and listens nowhere for the answer."""
    stream = silent_stream(node.port)
    stream.socket.sendall(port.to_bytes(2, "big") + GREETING + root_ask(1))
    stream.socket.settimeout(PATIENCE)
    return stream


def ends(stream):
    """Whether a stream has nothing more."""
    try:
        return not stream.socket.recv(1)
    except ConnectionResetError:
        return True


def deaf(program):
    """A peer that asks for the root, and never listens for the answer."""
    node, (never, honest) = served(program, 2)
    with node:
        good = Honest(node, honest).begin()
        began = time.monotonic()
        stream = asks_for_the_root(node, never)
        slowest = 0.0
        while time.monotonic() - began < 0.5:
            slowest = max(slowest, good.ask())
        if not ends(stream):
            raise Broken("a peer that never listened was answered")
        given_up = time.monotonic() - began
        slowest = max(slowest, good.ask())
        return (
            f"another peer answered after {slowest * 1000:.1f} ms at most, "
            f"the peer given up after {given_up:.1f} s"
        )


def late(program):
    """A peer that asks for the root, and listens half a second later."""
    node, (port, honest) = served(program, 2)
    with node:
        good = Honest(node, honest).begin()
        stream = asks_for_the_root(node, port)
        time.sleep(0.5)
        good.ask()
        began = time.monotonic()
        with socket.create_server(("127.0.0.1", port)) as listener:
            listener.settimeout(PATIENCE)
            incoming = Stream(listener.accept()[0])
            incoming.socket.settimeout(PATIENCE)
            if incoming.read(8) != node.port.to_bytes(2, "big") + GREETING:
                raise Broken("the node's stream begins wrongly")
            if take_frame(incoming)[0] != 6:
                raise Broken("the answer that waited is another one")
            waited = time.monotonic() - began
            incoming.socket.close()
        stream.socket.close()
        return f"answered {waited * 1000:.1f} ms after it listened"


CLIENT = '''
[[class]]
name = "Client"

[[class.method]]
selector = "ask:"
types = "v@:q"
code = """
root l1 l0
"""
'''


def itself(program):
    """A node that asks a port for its root where nobody listens, and that the system may give it.

    It needs a network whose free ports are few, so it runs this file in one of its own.
    """
    inside = subprocess.run(
        ["unshare", "-n", sys.executable, __file__, program],
        capture_output=True,
        text=True,
        timeout=90,
    )
    if inside.returncode == 1:
        raise Broken(inside.stdout.strip())
    if inside.returncode:
        raise OSError(f"there is no network of its own: {inside.stderr.strip()[-80:]}")
    return inside.stdout.strip()


def speaks_to_itself(program, tries=5):
    """So many nodes in this network, whose free ports are 33,000 to 33,020."""
    slowest = 0.0
    for near in range(tries):
        port, far = 20_000 + near, 33_000 + 4 * near
        world = "version = 1\n" + SERVER + CLIENT + nodes([port], "Client") + nodes([far], "Server")
        starts = f"starts 1\nstart ask: {far}\nleave\nend\n"
        with Node(program, port, world, starts, wait=False) as node:
            began = time.monotonic()
            status = node.ended(12)
            if status != 0 or b"raise" not in node.record():
                raise Broken(f"a node ended with status {status}: {node.record()[-80:]!r}")
            slowest = max(slowest, time.monotonic() - began)
    return f"{tries} calls answered by an exception, the slowest after {slowest:.1f} s"


CASES = {
    "a full queue of streams": full_queue,
    "a peer that never listens": deaf,
    "a peer that listens late": late,
    "a stream to itself": itself,
}


if __name__ == "__main__":
    subprocess.run(["ip", "link", "set", "lo", "up"], check=True)
    with open("/proc/sys/net/ipv4/ip_local_port_range", "w") as given:
        given.write("33000 33020")
    try:
        print(speaks_to_itself(sys.argv[1]))
    except Broken as error:
        print(error)
        sys.exit(1)
    except Exception as error:
        print(repr(error), file=sys.stderr)
        sys.exit(2)

