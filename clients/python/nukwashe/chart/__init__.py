"""Transcripts as sequence charts, for Mermaid, which Git hosting sites draw, and for mscgen.

An arrow stands where a message was taken. `nukwashe-chart --world WORLD TRANSCRIPT` writes one.
"""
from .events import Arrow, Note, events_of
from .mermaid import mermaid
from .msc import msc

__all__ = ["Arrow", "Note", "events_of", "mermaid", "msc"]
