"""Honest nodes: two that both send much, and one that has nothing to do."""
import time

from node import Broken, Node
from places import free_ports, pourer_world
from strangers import served

# How many texts of a million bytes each of two nodes sends the other before it polls.
TEXTS = 24


def both_send(program):
    """Two nodes that each send the other 24 MB by oneway messages before they poll."""
    ports = free_ports(2)
    world = pourer_world(ports)
    began = time.monotonic()
    text = "x" * 1_000_000
    both = []
    for port, other in (ports, reversed(ports)):
        start = f'start pour:to:text: {TEXTS} {other} "{text}"'
        starts = f"starts 1\n{start}\nserve {TEXTS}\nleave\nend\n"
        both.append(Node(program, port, world, starts, wait=False))
    with both[0], both[1]:
        for node in both:
            status = node.ended(80)
            if status != 0:
                raise Broken(f"a node ended with status {status}")
        took = [node.record().count(b"took oneway") for node in both]
        if took != [TEXTS, TEXTS]:
            raise Broken(f"{took} messages of {TEXTS} came")
        return f"both were done after {time.monotonic() - began:.1f} s"


def nothing_to_do(program):
    """A node with two peers to which nothing comes."""
    node, _ = served(program, 2)
    with node:
        time.sleep(0.5)
        before = node.processor_time()
        time.sleep(5)
        spent = (node.processor_time() - before) / 5
        if spent > 0.5:
            raise Broken(f"{spent * 1000:.0f} ms of a processor a second")
        return f"{spent * 1000:.0f} ms of a processor a second; {node.most_memory():.0f} MB"


CASES = {"two nodes that both send": both_send, "nothing to do": nothing_to_do}
