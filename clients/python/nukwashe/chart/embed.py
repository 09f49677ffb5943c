"""Charts that stand in Markdown.

    python3 -m nukwashe.chart.embed [--check] FILE..

Behind a line `<!-- chart WORDS -->`, with the words of nukwashe-chart, it writes the chart. Behind
one with `--legend` among its words it writes the legend. Names of files are those from the folder
in which it is run. `--check` changes nothing, and ends with 1 where a file would change.
"""
import argparse
import pathlib
import re
import sys

from .command import drawn, words

_MARK = re.compile(r"<!-- chart (.*) -->\n(?:```mermaid\n(?:.*\n)*?```\n|(?: *- .*\n|  .*\n)*)")


def _block(mark: re.Match[str]) -> str:
    given = words().parse_args(mark[1].split(" "))
    text = drawn(given)
    if not given.legend:
        text = f"```mermaid\n{text}```\n"
    return f"<!-- chart {mark[1]} -->\n{text}"


def embedded(text: str) -> str:
    """A text in Markdown with its charts as they are now."""
    return _MARK.sub(_block, text)


def main() -> int:
    """Writes the charts of files: 1 where `--check` finds one that is another."""
    parser = argparse.ArgumentParser(prog="python3 -m nukwashe.chart.embed")
    parser.add_argument("--check", action="store_true")
    parser.add_argument("files", nargs="+", type=pathlib.Path)
    given, status = parser.parse_args(), 0
    for path in given.files:
        text = path.read_text(encoding="utf-8")
        if embedded(text) == text:
            continue
        if given.check:
            print(f"{path}: a chart is not as it would be drawn", file=sys.stderr)
            status = 1
        else:
            path.write_text(embedded(text), encoding="utf-8")
    return status


if __name__ == "__main__":
    sys.exit(main())
