"""The Debian package, unpacked into an empty root and used from there."""
import os
import pathlib
import shutil
import subprocess
import tempfile
import unittest

from .support import PATIENCE, PROGRAM, TOP


@unittest.skipUnless(os.access(PROGRAM, os.X_OK), f"there is no program {PROGRAM}")
@unittest.skipUnless(shutil.which("dpkg-deb") and shutil.which("dpkg"), "there is no dpkg-deb")
class Package(unittest.TestCase):
    def run_in(self, folder, *words):
        """Runs a program of the package in a folder: what it writes, having ended with 0."""
        root = self.root / "usr"
        done = subprocess.run(
            list(map(str, words)), cwd=folder, capture_output=True, check=False,
            timeout=4 * PATIENCE, text=True,
            env={**os.environ, "PATH": f"{root}/bin:{os.environ['PATH']}",
                 "PYTHONPATH": str(root / "lib/python3/dist-packages")})
        self.assertEqual(done.returncode, 0, done.stderr)
        return done.stdout

    def setUp(self):
        folder = tempfile.TemporaryDirectory()
        self.addCleanup(folder.cleanup)
        self.folder, self.root = pathlib.Path(folder.name), pathlib.Path(folder.name) / "root"

    def test_what_it_holds_works(self):
        file = self.run_in(TOP, "sh", TOP / "package/deb.sh", PROGRAM, self.folder).strip()
        self.assertIn("Package: nukwashe\n", self.run_in(TOP, "dpkg-deb", "-I", file)
                      .replace(" Package", "Package"))
        self.run_in(TOP, "dpkg-deb", "-x", file, self.root)
        share = self.root / "usr/share/doc/nukwashe"
        words = "--world", "double.world", "double.transcript"
        transcript = self.run_in(share / "examples", "nukwashe", "replay", "double.world",
                                 "double.schedule")
        self.assertEqual(transcript, (share / "examples/double.transcript").read_text())
        chart = self.run_in(share / "examples", "nukwashe-chart", *words)
        self.assertTrue(chart.startswith("sequenceDiagram\n"))
        for name in ("copy", "paste", "post", "look", "session"):
            self.assertIn(f"nukwashe-{name}", self.run_in(self.root, f"nukwashe-{name}", "--help"))
        for name in ("usr/share/man/man1/nukwashe.1.gz", "usr/share/doc/nukwashe/docs/TOUR.md",
                     "usr/share/doc/nukwashe/README.md"):
            self.assertTrue((self.root / name).is_file(), name)
        self.assertEqual(list(self.root.rglob("__pycache__")), [])

    def test_without_a_program_it_says_so(self):
        done = subprocess.run(["sh", TOP / "package/deb.sh", self.folder / "absent"],
                              capture_output=True, check=False, text=True, timeout=PATIENCE)
        self.assertEqual(done.returncode, 1)
        self.assertIn("there is no program", done.stderr)


if __name__ == "__main__":
    unittest.main()
