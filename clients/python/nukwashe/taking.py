"""Frames of peers, each with what the node does, as docs/FORMATS.md lists it under "What a frame
asks of its reader"."""
import logging
from typing import Any

from .errors import error_of
from .frames import (Ask, Call, End, Frame, Gone, Granted, Oneway, Packet, Raised, Release,
                     Reply, RootAnswer, RootAsk, Settled)
from .lends import Wanted
from .objects import ObjectId
from .packing import Packer, unpack
from .performing import perform, raise_of
from .signatures import Place
from .site import Peer, Site
from .values import to_text

log = logging.getLogger("nukwashe")
_ROOT = Place("@")


def pack(site: Site, peer: Peer, values: list[tuple[Any, Place]]) -> Packet:
    """The packet of values, each with its place. Its names count from now on."""
    packer = Packer(site, peer.port)
    packet = packer.pack(values)
    packer.commit(packet)
    return packet


def is_fault(site: Site, peer: int, frame: Frame) -> bool:
    """Whether a peer may not send a frame, since nothing waits for it or it gives back too much."""
    match frame:
        case Reply(call) | Raised(call):
            return not site.calls.is_awaited(peer, call, False)
        case RootAnswer(call):
            return not site.calls.is_awaited(peer, call, True)
        case Granted(serial, lender, token) | Gone(serial, lender, token):
            return Wanted(ObjectId(peer, serial), lender, token) not in site.lends.asked
        case Release(serial, amount):
            return site.exports.count(peer, serial) < amount
        case Settled(token):
            return site.lends.lent.get(token, (None, None))[1] != peer
    return False


def take(site: Site, peer: Peer, frame: Frame) -> None:
    """Does what a frame of a peer asks for, which is no fault."""
    match frame:
        case Call():
            _call(site, peer, frame)
        case Oneway():
            _oneway(site, peer, frame)
        case Reply(call, packet) | RootAnswer(call, packet):
            site.calls.answer(peer.port, call, unpack(site, peer.port, packet))
        case Raised(call, error):
            text = None if error.text is None else to_text(error.text)
            site.calls.answer(peer.port, call, error_of(error.number, text))
        case RootAsk(call):
            packet = pack(site, peer, [(site.own_root, _ROOT)])
            site.transmit(peer, RootAnswer(call, packet))
        case Ask(serial, lender, token):
            _ask(site, peer, frame)
        case Granted(serial, lender, token) | Gone(serial, lender, token):
            wanted = Wanted(ObjectId(peer.port, serial), lender, token)
            site.lends.answered(wanted, isinstance(frame, Granted))
            site.settle(wanted)
        case Release(serial, amount):
            site.exports.release(peer.port, serial, amount)
        case Settled(token):
            site.lends.settle(peer.port, token)
        case End():
            site.close_end(peer)


def _call(site: Site, peer: Peer, frame: Call) -> None:
    try:
        places = perform(site, peer, frame, unpack(site, peer.port, frame.packet))
        if peer.is_open:
            site.transmit(peer, Reply(frame.call, pack(site, peer, places)))
    except Exception as error:
        log.info("%s raised", frame.selector.decode(), exc_info=True)
        if peer.is_open:
            site.transmit(peer, Raised(frame.call, raise_of(error)))


def _oneway(site: Site, peer: Peer, frame: Oneway) -> None:
    try:
        perform(site, peer, frame, unpack(site, peer.port, frame.packet))
    except Exception:
        log.warning("the oneway message %s raised", frame.selector.decode(), exc_info=True)


def _ask(site: Site, peer: Peer, ask: Ask) -> None:
    obj = site.exports.stored(ask.serial)
    if obj is not None:
        site.exports.name(peer.port, ask.serial)
    answer = Gone if obj is None else Granted
    site.transmit(peer, answer(ask.serial, ask.port, ask.token))
