"""The program `nukwashe-chart`."""
import argparse
import sys

from ..reading import Bad
from ..world import World
from .events import events_of
from .legend import legend
from .mermaid import mermaid
from .msc import msc


def lines(text: str) -> range:
    """The lines `A..B` of a schedule, counted from 1, both among them."""
    first, dots, last = text.partition("..")
    if not dots or not first.isdigit() or not last.isdigit():
        raise argparse.ArgumentTypeError("lines are written as A..B")
    return range(int(first), int(last) + 1)


def words() -> argparse.ArgumentParser:
    """The words that say what is drawn."""
    parser = argparse.ArgumentParser(prog="nukwashe-chart",
                                     description="Draws a transcript as a sequence chart.")
    parser.add_argument("--world", help="the transcript's world: arrows then say values")
    parser.add_argument("--msc", action="store_true", help="write it for mscgen, not for Mermaid")
    parser.add_argument("--brief", action="store_true", help="leave out who holds what")
    parser.add_argument("--lines", type=lines, metavar="A..B", help="these lines of the schedule")
    parser.add_argument("--legend", action="store_true", help="write what the arrows mean")
    parser.add_argument("transcript")
    return parser


def drawn(given: argparse.Namespace) -> str:
    """What these words ask for."""
    world = World.read(given.world) if given.world else None
    with open(given.transcript, encoding="utf-8") as file:
        events = events_of(file.read(), world, given.brief, given.lines)
    if given.legend:
        return legend(events)
    return msc(events, world) if given.msc else mermaid(events, world)


def main() -> None:
    """Writes a chart to standard output; 1 and a sentence where a file is none."""
    try:
        sys.stdout.write(drawn(words().parse_args()))
    except (OSError, ValueError, Bad) as fault:
        sys.exit(f"nukwashe-chart: {fault}")
