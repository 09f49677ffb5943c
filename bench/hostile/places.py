"""Ports that are free, and the worlds of the bench."""
import random
import socket
import threading

_lock = threading.Lock()
_given = set()


def _is_free(port):
    with socket.socket() as probe:
        try:
            probe.bind(("127.0.0.1", port))
            return True
        except OSError:
            return False


def free_ports(count):
    """Ports of this machine that are free, below those that the system gives to streams."""
    with _lock:
        found = []
        while len(found) < count:
            port = random.randrange(10_000, 30_000)
            if port not in _given and _is_free(port):
                _given.add(port)
                found.append(port)
        return sorted(found)


SERVER = '''
[[class]]
name = "Server"
slots = ["value"]

[[class.method]]
selector = "add:"
types = "q@:q"
code = """
get l1 value
add l1 l1 l0
set value l1
return l1
"""

[[class.method]]
selector = "echo:"
types = "*@:*"
code = """
return l0
"""
'''

POURER = '''
[[class]]
name = "Pourer"
slots = ["got"]

[[class.method]]
selector = "pour:to:text:"
types = "v@:qS*"
code = """
root l3 l1
num l4 0
num l5 1
@again
less l6 l4 l0
ifnot l6 @done
send l7 l3 pour: l2
add l4 l4 l5
jump @again
@done
"""

[[class.method]]
selector = "pour:"
types = "Vv@:*"
code = """
get l1 got
num l2 1
add l1 l1 l2
set got l1
"""
'''


def nodes(ports, root):
    return "".join(f'[[node]]\nport = {port}\nroot = "{root}"\n' for port in ports)


def server_world(server, peers):
    """A world whose nodes all have a `Server` as their root."""
    return "version = 1\n" + SERVER + nodes([server, *peers], "Server")


def pourer_world(ports):
    return "version = 1\n" + POURER + nodes(ports, "Pourer")
