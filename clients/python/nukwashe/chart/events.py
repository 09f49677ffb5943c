"""The events of a transcript: notes at nodes, and arrows between them."""
from collections import deque
from dataclasses import dataclass
from typing import TypeAlias, Union

from ..frames import Frame
from ..reading import Sides
from ..stream import Stream
from ..world import World
from .labels import Labels

#: The kinds of messages that only say who holds what.
HOLDING = ("ask", "granted", "gone", "left", "settled")
#: What an arrow says where the transcript has one word.
_SAID = {"rootask": "asks for the root", "rootanswer": "the root", "end": "closes",
         "settled": "settled: the lend is over"}
_SHOWS = {"say": "says", "return": "returns", "raise": "raises"}


@dataclass(frozen=True)
class Note:
    """What happens at one node, by a line of the schedule, counted from 1."""
    line: int
    port: int
    text: str


@dataclass(frozen=True)
class Arrow:
    """A message of a kind that was taken, by a line of the schedule."""
    line: int
    kind: str
    sender: int
    receiver: int
    text: str


Event: TypeAlias = Union[Note, Arrow]


class _Transcript:
    """A transcript that is read line by line, with the frames under way at each place."""

    def __init__(self, world: World | None) -> None:
        self.world, self.events = world, []
        self._line, self._words = 0, []
        self._streams: dict[tuple[int, int], Stream] = {}
        self._sent: dict[tuple[int, int], deque[Frame | None]] = {}

    def read(self, row: str) -> None:
        word, _, rest = row.partition(" ")
        if word == ">":
            self._line, self._words = self._line + 1, rest.split(" ")
            self._schedule_line()
        elif word == "wire":
            sender, receiver, data = rest.split(" ")
            self._wire(int(sender), int(receiver), bytes.fromhex(data))
        elif word == "took":
            self._took(rest)
        elif word == "free":
            self._note(rest[1:].partition(".")[0], f"frees {rest}")
        elif word in _SHOWS:
            port, _, value = rest.partition(" ")
            self._note(port, f"{_SHOWS[word]} {value}")

    def _note(self, port: str, text: str) -> None:
        self.events.append(Note(self._line, int(port), text))

    def _schedule_line(self) -> None:
        """What a line of the schedule says by itself."""
        match self._words:
            case ["start", port, *rest]:
                self._note(port, "start " + " ".join(rest))
            case ["timeout", port]:
                self._note(port, "waits no longer")
            case ["close", port, peer]:
                self._note(port, f"closes towards {peer}")
            case ["lose", sender, receiver, count]:
                self._note(receiver, f"loses what waits from {sender}")
                sent = self._sent.get((int(sender), int(receiver)), deque())
                while len(sent) > int(count):
                    sent.pop()
                sent.append(None)

    def _wire(self, sender: int, receiver: int, data: bytes) -> None:
        """Keeps a frame that is sent, until it is taken."""
        if self.world is None:
            return
        way = sender, receiver
        if way not in self._streams:
            self._streams[way] = Stream(Sides(self.world.slot_counts, *way))
            self._sent.setdefault(way, deque())
        self._streams[way].feed(data)
        frame = self._streams[way].next()
        if frame is not None:
            self._sent[way].append(frame)

    def _took(self, said: str) -> None:
        receiver, sender = int(self._words[1]), int(self._words[2])
        sent = self._sent.get((sender, receiver))
        frame = sent.popleft() if sent else None
        text = Labels(sender, receiver, self.world).frame(frame) if frame else None
        kind = said.partition(" ")[0]
        self.events.append(Arrow(self._line, kind, sender, receiver,
                                 text or _SAID.get(kind) or said))


def events_of(text: str, world: World | None = None, brief: bool = False,
              lines: range | None = None) -> list[Event]:
    """The events of a transcript. With its world arrows say the values of its `wire` lines too.
    `brief` leaves out who holds what, and `lines` all but these lines of the schedule."""
    transcript = _Transcript(world)
    for row in text.splitlines():
        transcript.read(row)
    return [event for event in transcript.events
            if not (brief and isinstance(event, Arrow) and event.kind in HOLDING)
            and (lines is None or event.line in lines)]


def ports_of(events: list[Event]) -> list[int]:
    """The nodes that take part, by rising port."""
    ports = {event.port for event in events if isinstance(event, Note)}
    for event in events:
        if isinstance(event, Arrow):
            ports |= {event.sender, event.receiver}
    return sorted(ports)


def title(port: int, world: World | None) -> str:
    """What stands above a node: its port, and the class of its root."""
    return f"{port} {world.roots[port].name}" if world and port in world.roots else str(port)
