"""What the program tells a person on standard error, where a node does not do what was asked."""
import socket
import subprocess

from .live import Live, TURNS
from .support import PATIENCE, PROGRAM

#: Each case: the words behind the program, the status, what is written and what is told. A name in
#: braces stands for a port or a file of the test.
CASES = [
    ("a port that another program has",
     "node {taken} world.toml end.starts " + TURNS, 11, "",
     "link fault\nport {taken} is taken: another program of this machine listens at it\n"),
    ("a plan with such a port: the other child runs, and is waited for",
     "lab taken.plan", 9, "lab 1\nnode {taken} 11\nnode {free} 0\nend\n",
     "link fault\nport {taken} is taken: another program of this machine listens at it\n"
     "child 1 failed\nthe output has the status of each child, and what it told stands above\n"),
    ("a port of no node of the world",
     "node 9 world.toml end.starts " + TURNS, 5, "",
     "bad world\nfile world.toml\nnode is wrong\n"
     "the world has no node of port 9; its nodes are of {free} {taken}\n"),
    ("a port of no node of a world that is built in",
     "node 9 :counter end.starts " + TURNS, 5, "",
     "bad world\nnode is wrong\nthe world has no node of port 9; its nodes are of 7001 7002\n"),
    ("starts of which none was ended by an exception",
     "node {free} world.toml end.starts " + TURNS, 0, "record 1 {free}\n> end\n", ""),
]

FILES = {
    "end.starts": "starts 1\nend\n",
    "asking.toml": """
version = 1

[[class]]
name = "Client"

[[class.method]]
selector = "ask:"
types = "v@:q"
code = "root l1 l0"

[[node]]
port = {free}
root = "Client"
""",
    "asking.starts": "starts 1\nstart ask: 9\nstart ask: 9\nend\n",
    "taken.plan": "plan 1\nnode {taken} world.toml end.starts " + TURNS + "\n"
                  "node {free} world.toml end.starts " + TURNS + "\nend\n",
}


class Told(Live):
    def setUp(self):
        super().setUp()
        self.names = dict(zip(("free", "taken"), self.ports))
        for name, text in FILES.items():
            (self.folder / name).write_text(text.format(**self.names))

    def ends_with(self, words):
        """The status, and what was written to both outputs."""
        done = subprocess.run([PROGRAM, *words.format(**self.names).split()], cwd=self.folder,
                              text=True, capture_output=True, timeout=PATIENCE, check=False)
        return done.returncode, done.stdout, done.stderr

    def test_each_case(self):
        with socket.create_server(("127.0.0.1", self.names["taken"])):
            for what, words, status, written, told in CASES:
                with self.subTest(what):
                    self.assertEqual(self.ends_with(words), (
                        status, written.format(**self.names), told.format(**self.names)))

    def test_starts_that_an_exception_ended(self):
        status, written, told = self.ends_with("node {free} asking.toml asking.starts " + TURNS)
        raised = [line for line in written.splitlines() if line.startswith("raise ")]
        self.assertEqual(raised, [f"raise {self.names['free']} ConnectionDied"] * 2)
        self.assertEqual((status, told), (
            0, "starts that an exception ended: 2; each is a line `raise` of the record\n"))
