"""Objects of third nodes on their way: what a node lent, and what it asks homes for."""
from collections.abc import Iterator
from typing import NamedTuple

from .imports import Imports
from .objects import ObjectId


class Wanted(NamedTuple):
    """An object that a lender named under a token, and that its home is asked for."""
    oid: ObjectId
    lender: int
    token: int


class Lends:
    """The lends of a node by their tokens, and its asks."""

    def __init__(self, imports: Imports) -> None:
        self._imports = imports
        self.next_token = 1
        self.lent: dict[int, tuple[ObjectId, int]] = {}
        self.asked: set[Wanted] = set()

    def lend(self, oid: ObjectId, borrower: int) -> None:
        """An object was named to a borrower under the next token. It is kept until that is over."""
        self.lent[self.next_token] = oid, borrower
        self._imports.get(oid).lends += 1
        self.next_token += 1

    def settle(self, borrower: int, token: int) -> bool:
        """A lend is over. It says whether there was one of this borrower."""
        if self.lent.get(token, (None, None))[1] != borrower:
            return False
        oid, _ = self.lent.pop(token)
        known = self._imports.get(oid)
        if known is not None:
            known.lends -= 1
            self._imports.may_go(oid)
        return True

    def ask(self, wanted: Wanted) -> bool:
        """A home is to be asked. It says whether it was not asked so already."""
        if wanted in self.asked:
            return False
        self.asked.add(wanted)
        self._imports.get(wanted.oid).asks += 1
        return True

    def answered(self, wanted: Wanted, is_granted: bool) -> bool:
        """A home answered. It says whether it had been asked."""
        if wanted not in self.asked:
            return False
        self.asked.discard(wanted)
        known = self._imports.get(wanted.oid)
        if known is not None:
            known.received += is_granted
            known.asks -= 1
            self._imports.may_go(wanted.oid)
        return True

    def forget(self, peer: int) -> Iterator[Wanted]:
        """The connection to a peer is closed: its lends are over, and so is each ask of it. The
        asks are given, so that their lenders are told."""
        for token in [token for token, (_, borrower) in self.lent.items() if borrower == peer]:
            self.settle(peer, token)
        for wanted in sorted(wanted for wanted in self.asked if wanted.oid.port == peer):
            self.answered(wanted, False)
            yield wanted
