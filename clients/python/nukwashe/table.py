"""The names that one direction of a link used lately."""
from collections import deque

from .frames import MOST_RECENT, Mine


class Table:
    """The last 256 objects of the sender that were named as new. It begins empty."""

    def __init__(self) -> None:
        self.recent: deque[Mine] = deque(maxlen=MOST_RECENT)

    def find(self, name: Mine) -> int | None:
        """The place of a name, from 0 at the oldest; None where it is not there."""
        for at, other in enumerate(self.recent):
            if other == name:
                return at
        return None

    def add(self, name: Mine) -> None:
        """Adds a name, the newest. Of more than 256 the oldest is forgotten."""
        self.recent.append(name)
