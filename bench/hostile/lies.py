"""Peers whose frames are well formed and say what is not so."""
from formats import GREETING, call, frame, integer, number, reply, root_ask, string, text, values
from peer import Honest, Peer
from strangers import served

HUGE = (1 << 63) - 1


def packet_with(names, packed):
    """A packet of names and values, without copies."""
    return number(len(names)) + b"".join(names) + number(0) + number(len(packed)) + b"".join(packed)


LIES = [
    reply(1, values(integer(1))),
    reply(HUGE, values()),
    frame(4, number(7) + number(1)),
    frame(6, number(9) + values(integer(1))),
    frame(7, number(1) + number(1) + number(1)),
    frame(8, number(1) + number(1) + number(1)),
    frame(9, number(1) + number(1) + number(1)),
    frame(10, number(1) + number(1)),
    frame(10, number(1) + number(HUGE)),
    frame(11, number(1)),
    frame(11, number(HUGE)),
    frame(12) + root_ask(2),
    root_ask(1) + root_ask(1),
    call(1, HUGE, b"add:", values(integer(1))),
    call(1, 1, b"add:", values(integer(1))),
    call(2, 1, b"nothing:like:this:", values(integer(1), integer(1), integer(1))),
    call(2, 1, b"add:", values(string(b"no number"))),
    call(2, 1, b"add:", values()),
    call(2, 1, b"add:", values(*[integer(1)] * 9)),
    call(2, 1, b"echo:", packet_with([b"\x02" + number(77)], [b"\x04" + number(0)])),
    call(2, 1, b"echo:", packet_with([b"\x04" + number(3)], [b"\x04" + number(0)])),
    call(2, 1, b"echo:", packet_with([b"\x01" + number(5) + number(0)], [b"\x04" + number(0)])),
    call(2, 1, b"echo:", values(b"\x03" + number(4))),
    call(2, 1, b"echo:", values(b"\x05" + number(1) + b"\x05" + number(1) + b"\x00")),
    frame(2, number(1) + text(b"echo:") + values(string(b"for nobody"))),
    b"\x01\xff\xff\xff\xff",
    b"\x01\x00\x20\x04\x00" + b"\0" * 100_000,
    b"\x00\x00\x00\x00\x00",
    b"\x0d\x00\x00\x00\x01\x02",
    b"\xff" * 64,
]


def lying_peers(program):
    """Peers that answer what was not asked, give back what they do not hold, and the like."""
    node, (honest, *others) = served(program, 1 + 2 * len(LIES))
    with node:
        good = Honest(node, honest).begin()
        peers = []
        for at, port in enumerate(others):
            peer = Peer(node, port)
            peers.append(peer)
            peer.open()
            # Every second peer is known before it lies.
            known = root_ask(1) if at % 2 else b""
            peer.send(GREETING + known + LIES[at // 2])
            good.ask()
        slowest = good.slowest * 1000
        found = f"{len(peers)} lies; an honest peer answered after {slowest:.1f} ms at most"
        for peer in [good, *peers]:
            peer.close()
        return found


CASES = {"lying peers": lying_peers}
