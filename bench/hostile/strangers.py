"""Streams that do not say whose they are."""
import threading

from node import Broken, Node
from peer import Honest, silent_stream
from places import free_ports, server_world

STARTS = "starts 1\nuntil 1000\nend\n"


def served(program, peers):
    """A node with so many peers, and their ports."""
    port, *others = free_ports(1 + peers)
    return Node(program, port, server_world(port, others), STARTS), others


def idle_streams(program):
    """1,000 streams that say nothing."""
    node, (first, second) = served(program, 2)
    with node:
        old = Honest(node, first).begin()
        silent = [silent_stream(node.port) for _ in range(1_000)]
        old.ask()
        new = Honest(node, second).begin()
        new.ask()
        return (
            f"an old peer answered after {ms(old)} ms, a new one after {ms(new)} ms; "
            f"{node.most_memory():.0f} MB; {len(silent)} streams"
        )


def half_names(program):
    """400 streams that say half a port, or one of no peer; half of them end by a reset."""
    node, (first, second) = served(program, 2)
    with node:
        old = Honest(node, first).begin()
        for turn in range(400):
            stream = silent_stream(node.port)
            said = (b"\x01", b"\0\0", b"\xff\xff", first.to_bytes(2, "big"))[turn % 4]
            stream.socket.sendall(said)
            if turn % 2:
                stream.reset()
            else:
                stream.socket.close()
        old.ask()
        new = Honest(node, second).begin()
        new.ask()
        return f"an old peer answered after {ms(old)} ms, a new one after {ms(new)} ms"


def crowds(program):
    """Four threads that connect without a pause and say nothing, while 40 peers connect."""
    node, others = served(program, 40)
    ended = threading.Event()
    crowd = []

    def press():
        while not ended.is_set():
            try:
                stream = silent_stream(node.port)
            except (OSError, Broken):
                continue
            crowd.append(1)
            stream.reset()

    with node:
        threads = [threading.Thread(target=press) for _ in range(4)]
        for thread in threads:
            thread.start()
        try:
            slowest = 0.0
            for port in others:
                peer = Honest(node, port).begin()
                peer.ask()
                slowest = max(slowest, peer.slowest)
                peer.close()
        finally:
            ended.set()
            for thread in threads:
                thread.join()
        return (
            f"all of 40 peers served, the slowest after {slowest * 1000:.0f} ms, "
            f"among {len(crowd)} streams"
        )


def ms(peer):
    return f"{peer.slowest * 1000:.1f}"


CASES = {
    "1,000 idle streams": idle_streams,
    "400 half names": half_names,
    "a crowd that connects": crowds,
}
