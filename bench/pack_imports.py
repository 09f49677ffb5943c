"""Puts the imports of one library together, many modules a line.

    python3 bench/pack_imports.py [--check] [CRATE..]

It is run at the top of the repository, and works on all crates where none is named. The lines
`use Rattle.low.specs.A.{x}` and `use Rattle.low.specs.b.B.{y, z}`, one below the other, become
`use Rattle.low.specs.{A.x, b.B.{y, z}}`. So do the lines of `ghost use` in .rt files. Names keep
their order, a line has at most 100 characters, and a line that brings a whole module stays as it
is, in front. It takes the fewest lines, and a second run changes nothing.

--check writes nothing. It prints the files that would change, and its status is 1 if there is one.
"""
import re
import sys
from itertools import groupby
from pathlib import Path
from typing import NamedTuple

WIDTH = 100
# A line brings modules of one library, and so its paths begin with the same two words.
LIBRARY = 2
IMPORT = re.compile(r"^(\s*)((?:ghost )?use )(.+?)(;?)\s*$")
WORD = {".antt": "use ", ".rt": "ghost use "}


class Name(NamedTuple):
    """A name that an import brings, with its `as`, and the words of its module's path."""

    path: tuple
    name: str


class Way(NamedTuple):
    """The best lines for the first names of a list: the last of them, and what all cost."""

    lines: int
    modules_cut: int
    shortness: int
    start: int
    last: str

    def cost(self):
        return self.lines, self.modules_cut, self.shortness


def name_of(below, text):
    """The name that this text says below a path."""
    head, word, alias = text.strip().partition(" as ")
    *path, name = head.split(".")
    return Name(below + tuple(path), name + word + alias)


def names_of(text):
    """The names that the text behind `use` brings, or None if it brings a whole module."""
    if "{" not in text:
        return None
    names, paths = [], [()]
    for word, mark in re.findall(r"([^{},]*)([{},])", text):
        if mark == "{":
            paths.append(paths[-1] + tuple(word.strip().rstrip(".").split(".")))
            continue
        if word.strip():
            names.append(name_of(paths[-1], word))
        if mark == "}":
            paths.pop()
    return names


def common(paths):
    """The words with which all these paths begin."""
    words = []
    for at in zip(*paths):
        if len(set(at)) > 1:
            break
        words.append(at[0])
    return tuple(words)


def within(names, depth):
    """The texts for these names within braces, behind so many words of their paths."""
    texts = []
    for word, group in groupby(names, lambda it: it.path[depth : depth + 1]):
        group = list(group)
        if not word:
            texts += [it.name for it in group]
            continue
        path = common([it.path for it in group])
        below = within(group, len(path))
        said = below[0] if len(below) == 1 else "{" + ", ".join(below) + "}"
        texts.append(".".join(path[depth:]) + "." + said)
    return texts


def line_of(before, names, after):
    path = common([it.path for it in names])
    return f"{before}{'.'.join(path)}.{{{', '.join(within(names, len(path)))}}}{after}"


def together(names):
    """Each name once, those of one module at the place of the first of them."""
    modules = {}
    for it in names:
        modules.setdefault(it.path, {})[it] = None
    return [it for module in modules.values() for it in module]


def packed(before, names, after):
    """The fewest lines for these names. Of equally few it takes those that cut fewer modules in
    two, and then those whose modules have more of their paths in common."""
    names = together(names)
    best = [Way(0, 0, 0, 0, "")]
    for end in range(1, len(names) + 1):
        found = None
        for start in range(end - 1, -1, -1):
            group = names[start:end]
            path = common([it.path for it in group])
            line = line_of(before, group, after)
            if len(path) < min(LIBRARY, *(len(it.path) for it in group)):
                break
            if len(line) > WIDTH and len(group) > 1:
                break
            cut = start > 0 and names[start - 1].path == names[start].path
            so_far = best[start]
            shortness = so_far.shortness - min(3, len(path))
            way = Way(so_far.lines + 1, so_far.modules_cut + cut, shortness, start, line)
            if found is None or way.cost() < found.cost():
                found = way
        best.append(found)
    lines, end = [], len(names)
    while end > 0:
        lines.append(best[end].last)
        end = best[end].start
    return lines[::-1]


def import_of(line, word):
    """The spaces before an import with this word, what it brings, and its end; else None."""
    match = IMPORT.match(line)
    return match and match[2] == word and (match[1], match[3], match[4])


def run_packed(run, word):
    """These imports, which stand one below the other with the same space and the same end."""
    space, _, after = run[0]
    modules, names = [], []
    for _, text, _ in run:
        brought = names_of(text)
        if brought is None:
            modules.append(f"{space}{word}{text}{after}")
        else:
            names += brought
    return modules + packed(space + word, names, after)


def text_packed(text, word):
    """The text of a file, with each of its runs of imports packed."""
    lines = []

    def shape(line):
        it = import_of(line, word)
        return it and (it[0], it[2])

    for is_run, group in groupby(text.split("\n"), shape):
        group = list(group)
        lines += run_packed([import_of(it, word) for it in group], word) if is_run else group
    return "\n".join(lines)


def main(words):
    checks = "--check" in words
    crates = [it for it in words if it != "--check"]
    folders = [Path("crates") / it for it in crates] or sorted(Path("crates").iterdir())
    changed = 0
    for folder in folders:
        for path in sorted(folder.rglob("*")):
            if path.suffix not in WORD or "out" in path.relative_to(folder).parts:
                continue
            text = path.read_text(encoding="utf-8")
            new = text_packed(text, WORD[path.suffix])
            if new == text:
                continue
            changed += 1
            if checks:
                print(path)
            else:
                path.write_text(new, encoding="utf-8")
    print(f"{changed} files {'would change' if checks else 'changed'}")
    return 1 if checks and changed else 0


if __name__ == "__main__":
    sys.exit(main(sys.argv[1:]))
