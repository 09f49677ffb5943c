"""The man page says what program and documents say, and `./replay` reads its words first."""
import os
import pathlib
import re
import shutil
import subprocess
import tempfile
import unittest

from .support import PATIENCE, PROGRAM, TOP

PAGE = TOP / "docs/nukwashe.1"


def section(name):
    """The tagged paragraphs of a section of the man page, and the text behind them."""
    text = re.search(rf"^\.SH {name}\n(.*?)(?=^\.SH |\Z)", PAGE.read_text(), re.M | re.S)[1]
    text, _, rest = text.partition(".PP\n")
    pairs = re.findall(r"\.TP\n\.B (.*)\n(.*)\n", text.replace("\\-", "-"))
    return dict(pairs), rest


class ManPage(unittest.TestCase):
    @unittest.skipUnless(os.access(PROGRAM, os.X_OK), f"there is no program {PROGRAM}")
    def test_its_forms_are_those_of_help(self):
        shown = subprocess.run([PROGRAM, "--help"], capture_output=True, timeout=PATIENCE,
                               check=True).stdout.decode()
        forms = dict(re.findall(r"^  (\S.*)\n      (\S.*)\n", shown, re.M))
        self.assertEqual(forms.pop("--help"), "writes this text")
        said, rest = section("FORMS")
        said.pop("--help")
        self.assertEqual(said, forms)
        self.assertTrue(shown.endswith("\n\n" + rest))

    def test_its_statuses_are_those_of_the_formats(self):
        formats = (TOP / "docs/FORMATS.md").read_text(encoding="utf-8")
        table = formats[formats.index("| Status | Line |"):].split("\n\n")[0]
        self.assertEqual(list(section("EXIT STATUS")[0]), re.findall(r"^\| (\d+) ", table, re.M))

    @unittest.skipUnless(shutil.which("groff"), "there is no groff")
    def test_it_is_set_without_a_warning(self):
        done = subprocess.run(["groff", "-man", "-Tascii", "-ww", PAGE], capture_output=True,
                              timeout=PATIENCE, check=False)
        self.assertEqual((done.returncode, done.stderr), (0, b""))


class Replay(unittest.TestCase):
    """`./replay` in a tree where nothing was built, and no toolchain is found."""

    def setUp(self):
        folder = tempfile.TemporaryDirectory()
        self.addCleanup(folder.cleanup)
        self.top = pathlib.Path(folder.name)
        shutil.copy(TOP / "replay", self.top)
        self.schedule = TOP / "examples/double.schedule"

    def ends(self, *words):
        """The status, and what was written to both outputs."""
        done = subprocess.run([self.top / "replay", *map(str, words)], capture_output=True,
                              timeout=PATIENCE, check=False, text=True)
        return done.returncode, done.stdout, done.stderr

    def test_words_and_files_are_looked_at_before_anything_is_built(self):
        for words, status, said in [
                ((), 2, "WORLD SCHEDULE is wanted"), ((":counter",), 2, "WORLD SCHEDULE"),
                (("a", "b", "c"), 2, "WORLD SCHEDULE"), ((":other", "b"), 2, ":other is no world"),
                (("absent", self.schedule), 3, "absent cannot be read"),
                ((":counter", "absent"), 3, "absent cannot be read"),
                (("--first", ":counter"), 2, "WORLD SCHEDULE"),
                (("--first", "absent", self.schedule), 3, "absent cannot be read"),
                (("--where", "x"), 2, "stands alone")]:
            ended = self.ends(*words)
            self.assertEqual(ended[:2], (status, ""), words)
            self.assertIn(said, ended[2])

    def test_where(self):
        self.assertEqual(self.ends("--where")[:2], (1, ""))
        program = self.top / "crates/nukwashe/out/nukwashe"
        program.parent.mkdir(parents=True)
        program.write_text("#!/bin/sh\n")
        program.chmod(0o700)
        self.assertEqual(self.ends("--where"), (0, f"{program}\n", ""))

    def test_help_shows_the_forms(self):
        status, shown, _ = self.ends("--help")
        self.assertEqual(status, 0)
        for word in ("--first", "--where", "WORLD SCHEDULE", "PATH="):
            self.assertIn(word, shown)


if __name__ == "__main__":
    unittest.main()
