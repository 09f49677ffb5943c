"""The exceptions of a network of nodes, as Python exceptions.

    try:
        counter.add_("text")
    except nukwashe.Type:
        print("no number")
"""


class NodeError(Exception):
    """What a message between nodes can raise."""


class Type(NodeError):
    """A value does not fit the type of its place."""


class Range(NodeError):
    """A number or an index is out of range, or a limit would be passed."""


class Deep(NodeError):
    """256 invocations stand at the node already."""


class NotUnderstood(NodeError):
    """The class of the object has no such method."""


class ConnectionDied(NodeError):
    """The connection to the object's node is closed."""


class NotVended(NodeError):
    """The object was never named to this node, or was given back, or is gone."""


class TooLarge(NodeError):
    """A message, or its answer, is heavier than a packet may be."""


class User(NodeError):
    """What a method raised, with its text."""

    @property
    def text(self) -> str:
        """The text that the method raised, or an empty one."""
        return str(self.args[0]) if self.args else ""


class TimedOut(NodeError):
    """The answer did not come in the time that the caller gave."""


#: The exceptions in the order of their numbers in frames, from 1.
IN_ORDER = (Type, Range, Deep, NotUnderstood, ConnectionDied, NotVended, TooLarge, User, TimedOut)
#: The number of `User`, the one exception that has a text.
USER = 8


def error_of(number: int, text: str | None) -> NodeError:
    """The exception of a number, with the text of `User`.

        >>> error_of(8, "broken").text
        'broken'
    """
    kind = IN_ORDER[number - 1]
    return kind() if text is None else kind(text)


def number_of(error: NodeError) -> int:
    """The number of an exception; one that a program made of its own counts as `User`."""
    return IN_ORDER.index(type(error)) + 1 if type(error) in IN_ORDER else USER
