"""Charts of transcripts."""
import contextlib
import io
import unittest
from unittest import mock

from nukwashe import World
from nukwashe.chart import Arrow, Note, command, events_of, mermaid, msc
from nukwashe.chart.embed import embedded
from nukwashe.chart.legend import legend

from .support import TOP

TOUR = TOP / "examples/tour"
LEND = World.read(TOUR / "lend.world")


def tour(name):
    return (TOUR / f"{name}.transcript").read_text()


class Events(unittest.TestCase):
    def test_arrows_say_values_where_frames_are_there(self):
        events = events_of(tour("lend"), LEND)
        self.assertEqual(events[0], Note(1, 7001, "start lend"))
        self.assertIn(Arrow(11, "call", 7002, 7003, "#7003.1 keep: #7001.2 (lent)"), events)
        self.assertIn(Arrow(12, "ask", 7003, 7001, "ask #7001.2"), events)

    def test_without_a_world_they_say_what_the_transcript_does(self):
        without = "".join(line for line in tour("lend").splitlines(True)
                          if not line.startswith("wire "))
        for events in (events_of(without), events_of(tour("lend")), events_of(without, LEND)):
            self.assertIn(Arrow(11, "call", 7002, 7003, "call keep:"), events)

    def test_brief_leaves_out_who_holds_what(self):
        kinds = {event.kind for event in events_of(tour("lend"), LEND, brief=True)
                 if isinstance(event, Arrow)}
        self.assertEqual(kinds, {"rootask", "rootanswer", "call", "reply"})

    def test_lines_of_the_schedule(self):
        events = events_of(tour("lend"), LEND, lines=range(12, 15))
        self.assertEqual([event.kind for event in events], ["ask", "granted"])

    def test_what_was_lost_is_not_taken(self):
        text = ("transcript 1\n> start 7001 lend\n> run 7001 9\n"
                "wire 7001 7002 0d0000000102\nwire 7001 7002 05000000020101\n"
                "> lose 7001 7002 0\n> take 7002 7001\ntook end\n> end\n")
        self.assertEqual(events_of(text, LEND)[1:], [
            Note(3, 7002, "loses what waits from 7001"),
            Arrow(4, "end", 7001, 7002, "closes")])


class Drawn(unittest.TestCase):
    def test_mermaid(self):
        events = [Note(1, 7001, "says \"a; #b\""), Arrow(2, "call", 7001, 7002, "#7002.1 go"),
                  Arrow(3, "left", 7001, 7002, "left <x>"), Arrow(4, "raised", 7002, 7001, "no"),
                  Arrow(5, "reply", 7002, 7001, "late")]
        self.assertEqual(mermaid(events).splitlines(), [
            "sequenceDiagram", "    participant n7001 as 7001", "    participant n7002 as 7002",
            '    Note over n7001: says "a#59; #35;b"', "    n7001->>+n7002: #35;7002.1 go",
            "    n7001--)n7002: left #lt;x#gt;", "    n7002--x-n7001: no",
            "    n7002-->>n7001: late"])

    def test_long_labels_have_several_lines(self):
        arrow = Arrow(1, "call", 1, 2, " ".join(["word"] * 20))
        self.assertEqual(mermaid([arrow]).count("<br/>"), 2)
        self.assertEqual(msc([arrow]).count("\\n"), 2)

    def test_msc(self):
        events = [Note(1, 7001, 'says "a"'), Arrow(2, "settled", 7001, 7002, "settled")]
        self.assertEqual(msc(events, LEND).splitlines(), [
            "msc {", '  hscale = "1.6", arcgradient = "0";',
            '  "7001" [label="7001 Peer"], "7002" [label="7002 Peer"];',
            '  "7001" note "7001" [label="says \\"a\\""];',
            '  "7001" -> "7002" [label="settled", linecolour="#999999", '
            'textcolour="#777777"];', "}"])

    def test_the_legend_has_the_kinds_of_the_chart(self):
        self.assertNotIn("cross", legend(events_of(tour("lend"), LEND)))
        self.assertIn("cross closes", legend([Arrow(1, "end", 1, 2, "closes")]))


class Command(unittest.TestCase):
    def run_with(self, *words):
        out = io.StringIO()
        with mock.patch("sys.argv", ["nukwashe-chart", *map(str, words)]), \
                contextlib.redirect_stdout(out):
            command.main()
        return out.getvalue()

    def test_words(self):
        path = TOUR / "lend.transcript"
        self.assertTrue(self.run_with("--msc", path).startswith("msc {"))
        self.assertEqual(self.run_with("--lines", "12..14", path).count("n7001"), 3)
        with self.assertRaises(SystemExit) as ended:
            self.run_with(TOUR / "absent")
        self.assertIn("absent", str(ended.exception.code))

    def test_a_chart_in_markdown_is_replaced(self):
        mark = f"<!-- chart --brief {TOUR / 'lend.transcript'} -->\n"
        first = embedded(f"before\n{mark}\nbehind\n")
        self.assertIn("```mermaid\nsequenceDiagram", first)
        self.assertTrue(first.endswith("```\n\nbehind\n"))
        self.assertEqual(embedded(first.replace("reply", "other")), first)


if __name__ == "__main__":
    unittest.main()
