"""What the arrows of a chart mean."""
import textwrap

from .events import Arrow, Event

#: For kinds of arrows, what one that has any of them says.
_MEANS = [
    (("call", "rootask"), "A solid arrow asks: it is a message, or asks for the root. Who was sent "
                          "a message is drawn as busy until it answers."),
    (("oneway",), "A solid arrow with an open head is a message that is not answered."),
    (("reply", "rootanswer"), "A dashed arrow answers."),
    (("raised",), "A dashed arrow with a cross is an answer that raises an exception."),
    (("end",), "A solid arrow with a cross closes the connection."),
    (("ask", "granted", "gone", "settled", "left"),
     "A dashed arrow with an open head says who holds what:"),
]
_HOLDING = {
    "ask": "`ask`: who was lent an object asks its home to name it.",
    "granted": "`granted`: the home does.",
    "gone": "`gone`: the home has the object no more.",
    "settled": "`settled`: the lender need not keep what it lent any longer.",
    "left": "`left`: nothing at the sender refers to the object any more.",
}


def legend(events: list[Event]) -> str:
    """A list in Markdown of what the arrows of a chart mean, of those kinds that it has."""
    arrows = [event for event in events if isinstance(event, Arrow)]
    kinds = {arrow.kind for arrow in arrows}
    lines = ["An arrow stands where a message was taken, a note where a node did something alone."]
    lines += [text for some, text in _MEANS if kinds & set(some)]
    lines += [f"  {text}" for kind, text in _HOLDING.items() if kind in kinds]
    if any("(lent)" in arrow.text for arrow in arrows):
        lines.append("`(lent)` marks an object of a third node.")
    return "".join(_item(line) for line in lines)


def _item(line: str) -> str:
    """An item of a list in Markdown, as deep as the line is indented."""
    deep = line[:len(line) - len(line.lstrip())]
    return textwrap.fill(line.strip(), 100, initial_indent=f"{deep}- ",
                         subsequent_indent=f"{deep}  ") + "\n"
