"""Signatures, types and worlds."""
import tempfile
import unittest

from nukwashe import World
from nukwashe.signatures import fits, read_signature

from .support import TOP


class Signatures(unittest.TestCase):
    def test_how_values_travel(self):
        for types, comes_out, goes_in in [
                ("v@:^q", True, True), ("v@:n^q", False, True), ("v@:o^q", True, False),
                ("v@:r^q", False, True), ("v@:rN^q", True, True), ("v@:ro^q", True, False),
                ("Vv@:^q", False, True), ("v@:o@", False, True), ("v@:q", False, True)]:
            place, = read_signature(types).arguments
            self.assertEqual((place.comes_out, place.goes_in), (comes_out, goes_in), types)

    def test_sizes_and_offsets_are_passed_over(self):
        signature = read_signature("q24@0:8i16O@20")
        self.assertEqual([place.type for place in signature.arguments], ["i", "@"])
        self.assertTrue(signature.arguments[1].is_bycopy)

    def test_what_is_no_signature(self):
        for types in ("", "v", "v@", "v:@", "f@:", "v@:[2i", "v@:{a", "q@:z"):
            with self.assertRaises(ValueError, msg=types):
                read_signature(types)

    def test_fits(self):
        for types, value, does in [
                ("c", 127, True), ("c", 128, False), ("c", None, False), ("Q", -1, False),
                ("B", 2, False), ("*", b"a", True), ("*", b"\0", False), ("*", None, True),
                ("#", b"A", True), ("#", b"a:", False), ("#", b"a" * 65, False),
                (":", b"a:", True), (":", b":a", False), (":", b"a:b", False), ("@", [1], True),
                ("[2c]", [1, 2], True), ("[2c]", [1], False), ("{p=cc}", [1, 2], True),
                ("{?=}", [], True), ("^c", None, True), ("^c", 200, False), ("[0c]", [], True)]:
            place, = read_signature("v@:" + types).arguments
            self.assertIs(fits(value, place.type), does, (types, value))


class Worlds(unittest.TestCase):
    def test_a_session(self):
        desk = World.read(TOP / "examples/session/desk.toml")
        self.assertEqual([cls.name for cls in desk.classes],
                         ["Names", "Board", "Owner", "Reader", "Center"])
        self.assertEqual(desk.slot_counts, [1, 5, 2, 0, 3])
        self.assertEqual(desk.ports_of("pasteboard"), [7101])

    def test_those_that_are_built_in(self):
        self.assertEqual(World.read(":counter").slot_counts, [1, 0])
        self.assertEqual(World.read(":mesh").slot_counts, [1, 2])
        self.assertEqual(sorted(World.read(":mesh").roots), [7001, 7002, 7003, 7004])

    def test_what_is_none(self):
        for text in ("", "version = 2", "version = 1", "version = 1\nclass = []", "a ="):
            with self.assertRaises(ValueError, msg=text):
                World(text)
        with tempfile.TemporaryDirectory() as folder, self.assertRaises(FileNotFoundError):
            World.read(folder + "/absent")


if __name__ == "__main__":
    unittest.main()
