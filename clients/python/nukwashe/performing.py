"""What a node does with a message of a peer."""
import reprlib
from typing import Any

from .errors import USER, Deep, NodeError, NotUnderstood, NotVended, Type, User, number_of
from .frames import Call, Oneway, Raise
from .objects import Object
from .signatures import Place, Signature, fits
from .site import Peer, Site
from .values import to_message

#: How many invocations may stand at a node.
MOST_DEPTH = 256


def require_fit(values: list[Any], places: list[Place]) -> None:
    """Raises Type where values do not fit their places, one each."""
    if len(values) != len(places):
        raise Type(f"{len(values)} values for {len(places)}")
    for value, place in zip(values, places):
        if not fits(value, place.type):
            raise Type(f"{reprlib.repr(value)} does not fit")


def _method(site: Site, peer: Peer, frame: Call | Oneway) -> tuple[Object, Signature]:
    """The object that a message is for, and the method's signature."""
    obj = site.exports.entry(peer.port, frame.serial)
    if obj is None:
        raise NotVended(f"#{site.port}.{frame.serial}")
    signature = site.class_of(obj).methods.get(frame.selector.decode())
    if signature is None:
        raise NotUnderstood(frame.selector.decode())
    return obj, signature


def _results(signature: Signature, result: Any) -> list[Any]:
    """The values of an answer, of what a Python method returned."""
    places = signature.comes_out
    if len(places) == 1:
        results = [result]
    elif isinstance(result, (tuple, list)) and len(result) == len(places):
        results = list(result)
    else:
        raise Type(f"a tuple of {len(places)} values is to be returned")
    if signature.result.type == "v":
        results[0] = None
    results = [to_message(each) for each in results]
    require_fit(results, places)
    return results


def perform(site: Site, peer: Peer, frame: Call | Oneway,
            values: list[Any]) -> list[tuple[Any, Place]]:
    """Does a message of a peer: the values of the answer, each with its place. Raises NodeError,
    or what the method raised."""
    obj, signature = _method(site, peer, frame)
    require_fit([to_message(each) for each in values], list(signature.arguments))
    if site.depth >= MOST_DEPTH:
        raise Deep()
    method = getattr(obj, frame.selector.decode().replace(":", "_"), None)
    if not callable(method):
        raise NotUnderstood(frame.selector.decode())
    site.depth += 1
    try:
        results = _results(signature, method(*values))
    finally:
        site.depth -= 1
    return list(zip(results, signature.comes_out))


def raise_of(error: Exception) -> Raise:
    """An exception as frames have it. What is none of a network's goes as `User`, with its text."""
    if not isinstance(error, NodeError):
        error = User(f"{type(error).__name__}: {error}")
    number = number_of(error)
    text = error.text if isinstance(error, User) else str(error)
    return Raise(number, text.encode("utf-8", "surrogateescape") if number == USER else None)
