"""`pip install` of the package in an environment of its own, without a network."""
import os
import pathlib
import subprocess
import sys
import tempfile
import unittest

from .support import HERE

PACKAGE = HERE.parent


def run(*words):
    environment = {**os.environ, "PIP_NO_INDEX": "1", "PIP_DISABLE_PIP_VERSION_CHECK": "1"}
    environment.pop("PYTHONPATH", None)
    return subprocess.run(list(map(str, words)), capture_output=True, text=True, check=False,
                          env=environment, cwd="/", timeout=300)


class Install(unittest.TestCase):
    def test_the_package_and_its_programs(self):
        with tempfile.TemporaryDirectory() as name:
            folder = pathlib.Path(name)
            if run(sys.executable, "-m", "venv", "--without-pip", folder).returncode:
                self.skipTest("this python3 makes no environments")
            if run(sys.executable, "-m", "pip", "--python", folder, "list").returncode:
                self.skipTest("there is no pip that installs into another environment")
            pip = run(sys.executable, "-m", "pip", "--python", folder, "install", PACKAGE)
            self.assertEqual(pip.returncode, 0, pip.stderr)
            script = "import nukwashe; print(nukwashe.World.read(':counter').slot_counts)"
            self.assertEqual(run(folder / "bin/python3", "-c", script).stdout, "[1, 0]\n")
            for program in ("copy", "paste", "post", "look", "session", "chart"):
                shown = run(folder / f"bin/nukwashe-{program}", "--help")
                self.assertIn(f"usage: nukwashe-{program}", shown.stdout)
            paste = run(folder / "bin/nukwashe-paste", "--session", folder / "absent")
            self.assertEqual(paste.returncode, 3)
            self.assertIn("There is no session", paste.stderr)


if __name__ == "__main__":
    unittest.main()
