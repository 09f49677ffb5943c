"""The worlds that are built in, as files, in the program, and in the package."""
import os
import subprocess
import unittest

from nukwashe import World

from .support import PATIENCE, PROGRAM, TOP

EXAMPLES = TOP / "examples"
#: A schedule over the mesh in which each of its messages is sent.
MESH = "schedule 2\nstart 7001 go: 7002\n" + "run 7001 9\ntake 7002 7001\nrun 7002 9\n" \
    "take 7001 7002\n" * 5 + "check\nend\n"


class BuiltIn(unittest.TestCase):
    def test_the_package_has_the_files_classes(self):
        for name in ("counter", "mesh"):
            file, known = World.read(EXAMPLES / f"{name}.world"), World.read(f":{name}")
            self.assertEqual(file.classes, known.classes)
            self.assertEqual(file.roots, known.roots)

    @unittest.skipUnless(os.access(PROGRAM, os.X_OK), f"there is no program {PROGRAM}")
    def test_the_program_s_do_what_the_files_say(self):
        counter = (TOP / "crates/nukwashe/data/counter.schedule").read_text()
        for name, schedule, said in [("counter", counter, "took call add:"),
                                     ("mesh", MESH, "took call copy:")]:
            shown = [subprocess.run(
                [PROGRAM, "replay", world, "/dev/stdin"], input=schedule, text=True, check=True,
                capture_output=True, timeout=PATIENCE).stdout
                for world in (f":{name}", EXAMPLES / f"{name}.world")]
            self.assertIn(said, shown[0])
            self.assertEqual(shown[0], shown[1])


if __name__ == "__main__":
    unittest.main()
