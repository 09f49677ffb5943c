"""Charts for mscgen."""
import textwrap

from ..world import World
from .events import HOLDING, Event, Note, ports_of, title

_ARROWS = {"call": "=>", "oneway": "->", "reply": ">>", "raised": "-x", "rootask": "=>",
           "rootanswer": ">>", "end": "-x"}
_GREY = ', linecolour="#999999", textcolour="#777777"'
_WIDTH = 44


def label(text: str) -> str:
    """A label between quotes."""
    lines = textwrap.wrap(text, _WIDTH, break_on_hyphens=False) or [""]
    return "\\n".join(line.replace("\\", "\\\\").replace('"', '\\"') for line in lines)


def msc(events: list[Event], world: World | None = None) -> str:
    """A message sequence chart. Arrows of who holds what are grey."""
    heads = ", ".join(f'"{port}" [label="{title(port, world)}"]' for port in ports_of(events))
    out = ["msc {", '  hscale = "1.6", arcgradient = "0";', f"  {heads};"]
    for event in events:
        if isinstance(event, Note):
            out.append(f'  "{event.port}" note "{event.port}" [label="{label(event.text)}"];')
            continue
        grey = _GREY if event.kind in HOLDING else ""
        out.append(f'  "{event.sender}" {_ARROWS.get(event.kind, "->")} "{event.receiver}" '
                   f'[label="{label(event.text)}"{grey}];')
    return "\n".join(out + ["}"]) + "\n"
