"""What documents show is what comes out: charts, transcripts, and the tour's commands."""
import contextlib
import os
import pathlib
import shutil
import subprocess
import tempfile
import unittest

from nukwashe.chart.embed import embedded

from .support import PATIENCE, PROGRAM, TOP, free_ports

DOCUMENTS = [TOP / "README.md", *sorted((TOP / "docs").glob("*.md"))]


class Charts(unittest.TestCase):
    def test_charts_are_as_they_are_drawn_now(self):
        with contextlib.chdir(TOP):
            for path in DOCUMENTS:
                text = path.read_text(encoding="utf-8")
                self.assertEqual(embedded(text), text,
                                 f"python3 -m nukwashe.chart.embed {path.name} draws it anew")


def blocks(text):
    """The sections of a document that have commands: each command with the lines behind it."""
    for section in text.split("\n## "):
        found, is_shown = [], False
        for line in section.splitlines():
            if line.startswith("    $ "):
                found.append((line[6:], []))
            elif line.startswith("    ") and is_shown:
                found[-1][1].append(line[4:])
            is_shown = line.startswith("    $ ") or is_shown and line.startswith("    ")
        if found:
            yield section.partition("\n")[0], found


@unittest.skipUnless(os.access(PROGRAM, os.X_OK), f"there is no program {PROGRAM}")
class Followed(unittest.TestCase):
    def test_transcripts_are_what_the_program_writes(self):
        for path in sorted((TOP / "examples").rglob("*.transcript")):
            done = subprocess.run([PROGRAM, "replay", f"{path.stem}.world",
                                   f"{path.stem}.schedule"], cwd=path.parent,
                                  capture_output=True, timeout=PATIENCE, check=True)
            self.assertEqual(done.stdout, path.read_bytes(), path.name)

    def test_the_tour(self):
        sections = list(blocks((TOP / "docs/TOUR.md").read_text(encoding="utf-8")))
        self.assertEqual(len(sections), 8)
        for title, commands in sections:
            with self.subTest(title), tempfile.TemporaryDirectory() as name:
                self.follow(pathlib.Path(name) / "tour", commands)

    def follow(self, folder, commands):
        """Runs the commands of a section in a copy of the folder, as one script. Where a node is
        served the ports become free ones."""
        shutil.copytree(TOP / "examples/tour", folder)
        (folder / "nukwashe").symlink_to(os.path.abspath(PROGRAM))
        script = "\n".join(command for command, _ in commands)
        shown = [line for _, lines in commands for line in lines]
        ports = dict(zip(("7001", "7002", "7003"), map(str, free_ports(3))))
        if "nukwashe node " in script:
            for path in [*folder.glob("*.world"), *folder.glob("*.starts")]:
                path.write_text(exchanged(path.read_text(), ports))
            script = exchanged(script, ports)
            shown = [exchanged(line, ports) for line in shown]
        done = subprocess.run(["sh", "-c", script], cwd=folder, capture_output=True, check=False,
                              timeout=2 * PATIENCE,
                              env={**os.environ, "PATH": f"{folder}:{os.environ['PATH']}"})
        self.assertEqual(done.stdout.decode().splitlines(), shown, done.stderr.decode())


def exchanged(text, ports):
    for old, new in ports.items():
        text = text.replace(old, new)
    return text


if __name__ == "__main__":
    unittest.main()
