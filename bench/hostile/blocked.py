"""Peers that take nothing, or little, while the node sends to them."""
import itertools
import threading
import time

from formats import GREETING, call, root_ask, string, values
from node import Broken
from peer import Honest, Peer
from strangers import served

# Each text that is sent to and fro, and how many: more than sockets and a queue hold.
TEXT = b"x" * 1_000_000
MANY = 40

# A peer that takes nothing is given up after a minute; this is how long the bench waits for that.
LATE = 95


# How many MB a node may have at most that keeps and owes what these cases send.
MOST_MEMORY = 256


def ask_much(peer, count):
    """Sends so many calls of `echo:` in a thread, and takes no answer."""
    peer.open()

    def send():
        try:
            peer.send(GREETING + root_ask(1))
            for at in range(count):
                peer.send(call(at + 2, 1, b"echo:", values(string(TEXT))))
        except OSError:
            pass

    threading.Thread(target=send, daemon=True).start()


def flood_by(size):
    def flood(program):
        node, (mute, noisy, honest) = served(program, 3)
        ended = threading.Event()
        with node:
            good = Honest(node, honest).begin()
            mute_peer, noisy_peer = Peer(node, mute), Peer(node, noisy)
            ask_much(mute_peer, MANY)
            noisy_peer.open()
            # The front of a frame of 2 MB, over and over.
            piece = (GREETING + b"\x01\x00\x20\x00\x00" + b"\0" * size)[:size]
            sent = flood_from(noisy_peer, piece, ended)
            found = outlast(node, good)
            ended.set()
            return f"{found}; {sent[0] / 1e6:.1f} MB of the flood taken"

    flood.__doc__ = f"A send that is blocked, and a flood by pieces of {size} bytes."
    return flood


def outlast(node, good):
    """Asks until an answer is late, since the node waits for room, or twenty seconds have passed."""
    began, slowest = time.monotonic(), 0.0
    while slowest < 5 and time.monotonic() - began < 20:
        slowest = max(slowest, good.ask(patience=LATE))
        time.sleep(0.3)
    most = node.most_memory()
    if most > MOST_MEMORY:
        raise Broken(f"{most:.0f} MB")
    return f"another peer answered after {slowest:.1f} s at most; {most:.0f} MB"


def flood_from(peer, piece, ended):
    sent = [0]
    peer.outgoing.socket.settimeout(1)

    def write():
        for turn in itertools.count():
            # A node that takes far too much is found so, and need not take more.
            if ended.is_set() or turn % 256 == 0 and peer.node.most_memory() > 2 * MOST_MEMORY:
                return
            try:
                sent[0] += peer.outgoing.socket.send(piece)
            except TimeoutError:
                pass
            except OSError:
                return

    threading.Thread(target=write, daemon=True).start()
    return sent


def slow_reader(program):
    """A peer that takes 4 KiB each half second, and owes less than a queue holds."""
    node, (slow, honest) = served(program, 2)
    ended = threading.Event()
    with node:
        good = Honest(node, honest).begin()
        peer = Peer(node, slow)
        ask_much(peer, 12)
        peer.accept()
        threading.Thread(target=sip, args=(peer, ended), daemon=True).start()
        times = []
        for _ in range(20):
            times.append(good.ask())
            time.sleep(0.1)
        ended.set()
        slowest = max(times) * 1000
        return f"another peer answered after {slowest:.1f} ms at most; {node.most_memory():.0f} MB"


def slow_and_full(program):
    """The same, of a peer that owes 40 MB."""
    node, (slow, honest) = served(program, 2)
    ended = threading.Event()
    with node:
        good = Honest(node, honest).begin()
        peer = Peer(node, slow)
        ask_much(peer, MANY)
        peer.accept()
        threading.Thread(target=sip, args=(peer, ended), daemon=True).start()
        found = outlast(node, good)
        ended.set()
        return found


def sip(peer, ended):
    try:
        while not ended.is_set() and peer.incoming.socket.recv(4096):
            time.sleep(0.5)
    except OSError:
        pass


CASES = {
    "a flood of single bytes": flood_by(1),
    "a flood by 4 KiB": flood_by(4096),
    "a slow reader": slow_reader,
    "a slow reader of 40 MB": slow_and_full,
}
