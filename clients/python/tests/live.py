"""Nodes of the proved program as processes, for tests that speak to them."""
import os
import pathlib
import signal
import socket
import subprocess
import tempfile
import time
import unittest

from .support import HERE, PATIENCE, PROGRAM, free_ports

#: How many turns a node takes at most: some minutes of silence.
TURNS = "1000000"


@unittest.skipUnless(os.access(PROGRAM, os.X_OK), f"there is no program {PROGRAM}")
class Live(unittest.TestCase):
    """A folder with a world at free ports, and nodes of it that are processes."""

    #: The world's file, and the ports that stand in it.
    WORLD, PORTS = HERE / "worlds/counter.toml", (7001, 7002)

    def setUp(self):
        folder = tempfile.TemporaryDirectory()
        self.addCleanup(folder.cleanup)
        self.folder = pathlib.Path(folder.name)
        self.ports = free_ports(len(self.PORTS))
        text = self.WORLD.read_text()
        for old, new in zip(self.PORTS, self.ports):
            text = text.replace(str(old), str(new))
        self.world = self.folder / "world.toml"
        self.world.write_text(text)
        self.children = {}

    def serve(self, port, *starts):
        """Starts the node of a port with these lines of starts, and waits until it listens."""
        (self.folder / f"{port}.starts").write_text("\n".join(["starts 1", *starts, "end\n"]))
        with open(self.record(port), "wb") as out:
            child = self.children[port] = subprocess.Popen(
                [PROGRAM, "node", str(port), "world.toml", f"{port}.starts", TURNS],
                cwd=self.folder, stdout=out, stderr=subprocess.PIPE)
        self.addCleanup(self.kill, child)
        self.assertTrue(self.comes(lambda: self.listens(port) or child.poll() is not None))
        if child.poll() == 11:
            self.skipTest(f"the port {port} was taken meanwhile")

    def record(self, port):
        return self.folder / f"{port}.record"

    @staticmethod
    def listens(port):
        """Whether a stream to a port can be opened. This one says no port, so the node drops it."""
        try:
            socket.create_connection(("127.0.0.1", port)).close()
        except OSError:
            return False
        return True

    @staticmethod
    def comes(holds):
        end = time.monotonic() + PATIENCE
        while not holds() and time.monotonic() < end:
            time.sleep(0.01)
        return holds()

    @staticmethod
    def kill(child):
        if child.poll() is None:
            child.send_signal(signal.SIGKILL)
        child.wait()
        child.stderr.close()

    def ends(self, *ports):
        """Each node ends by itself, with 0 and a whole record."""
        for port in ports:
            child = self.children[port]
            self.assertEqual(child.wait(PATIENCE), 0, child.stderr.read())
            self.assertTrue(self.record(port).read_text().endswith("> end\n"))

    def run_program(self, *words):
        """Runs the program to its end: its status, and what it wrote."""
        done = subprocess.run([PROGRAM, *map(str, words)], cwd=self.folder, capture_output=True,
                              timeout=PATIENCE, check=False)
        return done.returncode, done.stdout.decode(), done.stderr.decode()
