"""Charts in Mermaid."""
import textwrap

from ..world import World
from .events import Event, Note, ports_of, title

#: The arrow of each kind; the others are those of who holds what.
_ARROWS = {"call": "->>", "oneway": "-)", "reply": "-->>", "raised": "--x", "rootask": "->>",
           "rootanswer": "-->>", "end": "-x"}
_HOLDING = "--)"
_WIDTH = 44


def label(text: str) -> str:
    """A label. `#`, `;` and `<` mean something to Mermaid; a long one has several lines."""
    lines = textwrap.wrap(text, _WIDTH, break_on_hyphens=False) or [""]
    marks = {ord("#"): "#35;", ord(";"): "#59;", ord("<"): "#lt;", ord(">"): "#gt;"}
    return "<br/>".join(line.translate(marks) for line in lines)


def mermaid(events: list[Event], world: World | None = None) -> str:
    """A sequence diagram. A node is drawn as busy from a call to its answer."""
    ports = ports_of(events)
    out = ["sequenceDiagram"]
    out += [f"    participant n{port} as {title(port, world)}" for port in ports]
    busy = dict.fromkeys(ports, 0)
    for event in events:
        if isinstance(event, Note):
            out.append(f"    Note over n{event.port}: {label(event.text)}")
            continue
        mark = ""
        if event.kind == "call":
            mark, busy[event.receiver] = "+", busy[event.receiver] + 1
        elif event.kind in ("reply", "raised") and busy[event.sender]:
            mark, busy[event.sender] = "-", busy[event.sender] - 1
        arrow = _ARROWS.get(event.kind, _HOLDING)
        out.append(f"    n{event.sender}{arrow}{mark}n{event.receiver}: {label(event.text)}")
    return "\n".join(out) + "\n"
