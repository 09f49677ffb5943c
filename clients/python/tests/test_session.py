"""The console programs, beside servers of the proved program."""
import os
import pathlib
import signal
import stat
import subprocess
import sys
import tempfile
import unittest

from nukwashe import Node, Object

from .live import Live
from .support import HERE, PATIENCE, TOP


class Reader(Object):
    notes = ()

    def note_object_info_(self, name, thing, info):
        self.notes += ((name, thing, info),)


class Session(Live):
    WORLD, PORTS = TOP / "examples/session/desk.toml", (7100, 7101, 7102, 7103, 7104)

    def setUp(self):
        super().setUp()
        self.names, self.board, self.owner, self.reader, self.center = self.ports
        # The path of a socket has 107 bytes at most, and the folder for tests may have a long one.
        short = tempfile.TemporaryDirectory(dir="/tmp")
        self.addCleanup(short.cleanup)
        self.socket = pathlib.Path(short.name) / "session"
        self.environment = {**os.environ, "PYTHONPATH": str(HERE.parent),
                            "NUKWASHE_SESSION": str(self.socket)}

    def begin(self, *ports, patience="20"):
        """Starts the servers at these ports, all three if none is given, and a session."""
        for port in ports or (self.names, self.board, self.center):
            self.serve(port, "until 1")
        self.session = subprocess.Popen(
            [sys.executable, "-m", "nukwashe.session", "--patience", patience, "world.toml"],
            cwd=self.folder, env=self.environment, stdout=subprocess.PIPE, stderr=subprocess.PIPE)
        self.addCleanup(self.session.stdout.close)
        self.addCleanup(self.kill, self.session)
        self.said = self.session.stdout.readline().decode()

    def command(self, name, *words, data=b""):
        """A console program's status, and what it wrote."""
        code = f"from nukwashe.session.commands import {name}; {name}()"
        done = subprocess.run([sys.executable, "-c", code, *words], input=data,
                              env=self.environment, capture_output=True, timeout=PATIENCE,
                              check=False)
        return done.returncode, done.stdout, done.stderr.decode()

    def end(self):
        self.session.send_signal(signal.SIGTERM)
        self.assertEqual(self.session.wait(PATIENCE), 0)
        self.assertFalse(self.socket.exists())
        self.ends(self.names, self.board, self.center)

    def test_copies_and_pastes(self):
        self.begin()
        self.assertIn(f"node {self.owner} at {self.socket}", self.said)
        self.assertEqual(stat.S_IMODE(self.socket.stat().st_mode), 0o600)
        self.assertEqual(self.command("paste")[:2], (1, b""))
        data = "h\u00e9llo\n".encode() + bytes(range(256))
        self.assertEqual(self.command("copy", data=data), (0, b"", ""))
        self.assertEqual(self.command("paste"), (0, data, ""))
        self.assertEqual(self.command("paste", "--type", "html"),
                         (1, b"", "nukwashe-paste: There is nothing of the type html.\n"))
        self.assertEqual(self.command("copy", "--lazy", "--type", "html", data=b"<p>")[0], 0)
        self.assertEqual(self.command("paste", "--type", "html"), (0, b"<p>", ""))
        self.assertEqual(self.command("copy", data=b"")[0], 0)
        self.assertEqual(self.command("paste"), (0, b"", ""))
        self.end()
        self.assertEqual(self.record(self.board).read_text().count("took call declareTypes"), 3)

    def test_another_program_pastes_what_is_kept_with_the_session(self):
        self.begin()
        self.assertEqual(self.command("copy", "--lazy", data=b"kept")[0], 0)
        with Node(self.reader, self.world, Reader()) as node:
            self.assertEqual(node.root(self.board).dataForType_("text"), "kept")
        self.ends(self.board)

    def test_posts_and_looks(self):
        self.begin()
        reader = Reader()
        reader.world_class = "Owner"
        with Node(self.reader, self.world, reader) as node:
            node.root(self.center).addObserver_selector_name_object_suspensionBehavior_(
                reader, "note:object:info:", "saved", None, 4)
            node.root(self.names).register_port_("note", self.reader)
            self.assertEqual(self.command("post", "saved", "--about", "a.txt", "one", "two")[0], 0)
            self.assertTrue(node.run(lambda: reader.notes, PATIENCE))
            self.assertEqual(reader.notes, (("saved", "a.txt", ["one", "two"]),))
            self.assertEqual(self.command("look", "note"), (0, b"%d\n" % self.reader, ""))
            self.assertEqual(self.command("look", "absent")[0], 1)

    def test_a_server_that_is_not_there_is_told_and_the_others_work(self):
        self.begin(self.board, patience="2")
        self.assertEqual(self.command("copy", data=b"hi")[0], 0)
        self.assertEqual(self.command("paste"), (0, b"hi", ""))
        status, _, error = self.command("post", "saved")
        self.assertEqual(status, 3)
        self.assertIn(f"The notification centre at port {self.center} does not answer.", error)
        self.session.send_signal(signal.SIGTERM)
        self.assertEqual(self.session.wait(PATIENCE), 0)
        told = self.session.stderr.read().decode()
        for name, port in (("name server", self.names), ("notification centre", self.center)):
            self.assertIn(f"The {name} at port {port} does not answer.", told)

    def test_what_is_wrong_is_said_in_a_sentence(self):
        status, _, error = self.command("paste")
        self.assertEqual(status, 3)
        self.assertIn("There is no session", error)
        self.begin()
        self.assertEqual(self.command("paste", "--wrong")[0], 2)
        self.assertEqual(self.command("copy", data=b"x" * 1_048_576)[0], 2)
        status, _, error = self.command("post", "x" * 256)
        self.assertEqual((status, error), (
            3, "nukwashe-post: The notification centre refuses this: Type.\n"))
        again = subprocess.run([sys.executable, "-m", "nukwashe.session", "world.toml"],
                               cwd=self.folder, env=self.environment, capture_output=True,
                               timeout=PATIENCE, check=False)
        self.assertEqual(again.returncode, 1)
        self.assertIn(b"a session runs already", again.stderr)
        self.kill(self.children[self.board])
        status, _, error = self.command("paste")
        self.assertEqual(status, 3)
        self.assertIn("The pasteboard has ended", error)


if __name__ == "__main__":
    unittest.main()
