"""Valid streams that are cut, changed or reset."""
import time

from formats import GREETING, call, root_ask, string, values
from node import Broken
from peer import Honest, Peer
from strangers import served

# The most peers that a world has beside the node, of which one is honest.
MANY = 62


def whole_stream(port):
    """What a peer sends for one call with a text."""
    sent = call(2, 1, b"echo:", values(string(b"a text to and fro")))
    return port.to_bytes(2, "big") + GREETING + root_ask(1) + sent


def changes_of(length):
    """At each byte: nothing from there on, or another byte there, or none, or one more."""
    for at in range(length):
        yield at, lambda s, at: s[:at]
        for mask in (0x01, 0x02, 0x08, 0x40, 0x80, 0xFF):
            yield at, lambda s, at, mask=mask: s[:at] + bytes([s[at] ^ mask]) + s[at + 1 :]
        yield at, lambda s, at: s[:at] + s[at + 1 :]
        yield at, lambda s, at: s[:at] + s[at : at + 1] + s[at:]


def changed(program):
    """Each frame of a valid call cut and changed at each byte, each from a peer of its own."""
    cases = list(changes_of(len(whole_stream(1))))
    slowest, most = 0.0, 0.0
    for first in range(0, len(cases), MANY - 1):
        node, (honest, *others) = served(program, MANY)
        with node:
            good = Honest(node, honest).begin()
            peers = []
            for (at, change), port in zip(cases[first:], others):
                peer = Peer(node, port)
                peers.append(peer)
                peer.open(change(whole_stream(port), at))
                if len(peers) % 2:
                    peer.outgoing.socket.close()
                try:
                    good.ask()
                except Broken as error:
                    number = first + len(peers) - 1
                    raise type(error)(f"byte {at}, change {number}: {error}") from None
            slowest, most = max(slowest, good.slowest), max(most, node.most_memory())
            for peer in [good, *peers]:
                peer.close()
    answered = f"an honest peer answered after {slowest * 1000:.1f} ms at most"
    return f"{len(cases)} changes; {answered}; {most:.0f} MB"


def reset_in_frames(program):
    """40 peers that end by a reset in the middle of a frame, with answers that wait."""
    node, (honest, *others) = served(program, 41)
    with node:
        good = Honest(node, honest).begin()
        for port in others:
            peer = Peer(node, port)
            peer.open()
            long = values(string(b"x" * 200_000))
            peer.send(GREETING + root_ask(1) + call(2, 1, b"echo:", long))
            peer.send(call(3, 1, b"echo:", long)[:100_000])
            time.sleep(0.01)
            peer.outgoing.reset()
            good.ask()
            peer.listener.close()
        slowest = good.slowest * 1000
        answered = f"an honest peer answered after {slowest:.1f} ms at most"
        return f"{answered}; {node.most_memory():.0f} MB"


CASES = {
    "frames cut and changed": changed,
    "resets in mid-frame": reset_in_frames,
}
