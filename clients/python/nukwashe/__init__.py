"""Nodes of Nukwashe whose objects are Python objects.

    from nukwashe import Node

    with Node(7001, ":counter") as node:
        print(node.root(7002).add_(5))
"""
from .errors import (ConnectionDied, Deep, NodeError, NotUnderstood, NotVended, Range, TimedOut,
                     TooLarge, Type, User)
from .node import Node
from .objects import Object, Proxy
from .world import World

__all__ = ["ConnectionDied", "Deep", "Node", "NodeError", "NotUnderstood", "NotVended", "Object",
           "Proxy", "Range", "TimedOut", "TooLarge", "Type", "User", "World"]
__version__ = "1.0"
