"""Peers that send one legal call whose value weighs much, which the node keeps.

    python3 heavy_call.py PROGRAM      (these cases alone)
"""
import sys

from formats import GREETING, call, frame, integer, number, reply, root_ask, string, take_frame
from node import Broken, Node
from peer import PATIENCE, Peer
from places import free_ports, nodes

KEEPER = '''version = 1
[[class]]
name = "Keeper"
slots = ["kept"]

[[class.method]]
selector = "keep:"
types = "v@:@"
code = """
set kept l0
"""

[[class.method]]
selector = "kept"
types = "@@:"
code = """
get l0 kept
return l0
"""
'''

STARTS = "starts 1\nserve 3\nend\n"

# The most bytes of a payload, and the most that a message weighs.
PAYLOAD, WEIGHT = 2_098_176, 2_097_152

TOO_LARGE, RELEASE = 7, 10


class Value:
    """A value as a packet spells it, and what it weighs."""

    def __init__(self, spelled, weight):
        self.spelled, self.weight = spelled, weight


NIL = Value(b"\x00", 1)
ZERO = Value(integer(0), 16)
# The first object that the packet names.
NAMED = Value(b"\x04" + number(0), 48)


def listed(items):
    """A list."""
    spelled = b"".join(item.spelled for item in items)
    return Value(b"\x05" + number(len(items)) + spelled, 16 + sum(item.weight for item in items))


def zeros(count):
    """So many lists of 1,024 zeros."""
    return listed([listed([ZERO] * 1_024)] * count)


def at_the_limit(more):
    """A value that weighs as much as a message may, and so much more, at most 1,024."""
    last = [Value(string(b"x" * more), 16 + more)] + [ZERO] * 894
    return listed([listed([ZERO] * 1_024)] * 127 + [listed(last)])


def keeping(value):
    """The call that gives the root a value, with a name of an object of the caller's."""
    name = b"\x01" + number(9) + number(0)
    return call(2, 1, b"keep:", number(1) + name + number(0) + number(1) + value.spelled)


def heaviest():
    """The heaviest value of such a call: lists of one object, up to the last byte of a payload.

    The node makes room to count the object at each place at which it stands, and takes 280 MB.
    """
    room = PAYLOAD - (len(keeping(listed([NIL] * 1_023))) - 1_023 - 5)
    full = listed([NAMED] * 1_024)
    count, left = divmod(room, len(full.spelled))
    last = listed([NAMED] * ((left - 4) // 2))
    return listed([full] * count + [last])


def packet_of(value):
    """A packet of one value that names no object."""
    return number(0) + number(0) + number(1) + value.spelled


def answers(peer, count):
    """The next answers of the node. Names that it gives back meanwhile are passed over."""
    found = []
    while len(found) < count:
        kind, payload = take_frame(peer.incoming)
        if kind != RELEASE:
            found.append(frame(kind, payload))
    return found


def calls(value):
    """The root is given a value, asked for it, and given nil."""
    asking = call(3, 1, b"kept", number(0) + number(0) + number(0))
    return keeping(value) + asking + call(4, 1, b"keep:", packet_of(NIL))


def expected(value):
    """The answers of these calls: what is over the limit of a message is told so."""
    given = reply(3, packet_of(value))
    if value.weight > WEIGHT:
        given = frame(4, number(3) + number(TOO_LARGE))
    return [reply(2, packet_of(NIL)), given, reply(4, packet_of(NIL))]


def answered(peer, value):
    """The node answers the calls of one value."""
    peer.open()
    peer.send(GREETING + root_ask(1) + calls(value))
    peer.accept()
    found = answers(peer, 4)[1:]
    if found != expected(value):
        raise Broken(f"other answers: {[it[:40].hex() for it in found]}")


def kept_by(program, value):
    """A node that keeps a value serves on, and ends as its starts say."""
    port, other = free_ports(2)
    with Node(program, port, KEEPER + nodes([port, other], "Keeper"), STARTS) as node:
        peer = Peer(node, other)
        try:
            answered(peer, value)
        except TimeoutError:
            node.must_live()
            raise
        except (OSError, EOFError) as error:
            raise Broken(f"{error!r}, and the status is {node.ended(PATIENCE)}") from None
        if status := node.ended(PATIENCE):
            raise Broken(f"all was answered, and the status is {status}")
        peer.close()
    return f"{len(keeping(value)) - 5:,} bytes weigh {value.weight:,}: all answered, status 0"


def case(value):
    return lambda program: kept_by(program, value())


CASES = {
    "a call with nil": case(lambda: NIL),
    "a call at the limit of a message": case(lambda: at_the_limit(0)),
    "a call one over that limit": case(lambda: at_the_limit(1)),
    "a call with 250 lists": case(lambda: zeros(250)),
    "a call with 256 lists": case(lambda: zeros(256)),
    "a call with 1,000 lists": case(lambda: zeros(1_000)),
    "a call of the heaviest frame": case(heaviest),
}


def main(program):
    failed = 0
    for name, run in CASES.items():
        try:
            found = run(program)
        except Broken as error:
            failed, found = 1, f"FAILED: {error}"
        except OSError as error:
            found = f"skipped: {error!r}"
        print(f"{name}: {found}", flush=True)
    return failed


if __name__ == "__main__":
    sys.exit(main(*sys.argv[1:]))
