"""A node that is served by the program."""
import os
import socket
import subprocess
import tempfile
import time

TURNS = "1000000000"

# The processes that have not been ended.
_running = set()


def end_all():
    """Ends the nodes of cases that are cut off."""
    for process in list(_running):
        process.kill()


class Broken(Exception):
    """The program did what it must not do."""


class Late(Broken):
    """The program did not do in time what it must do."""


class Node:
    """The program, as `node PORT WORLD STARTS TURNS` in a folder of its own."""

    def __init__(self, program, port, world, starts, wait=True):
        self.port = port
        self.folder = tempfile.TemporaryDirectory(prefix="hostile-")
        for name, content in (("world", world), ("starts", starts)):
            with open(f"{self.folder.name}/{name}", "w") as file:
                file.write(content)
        with open(f"{self.folder.name}/record", "wb") as record:
            self.process = subprocess.Popen(
                [program, "node", str(port), "world", "starts", TURNS],
                cwd=self.folder.name,
                stdout=record,
                stderr=subprocess.PIPE,
            )
        _running.add(self.process)
        if wait:
            self._await_port()

    def __enter__(self):
        return self

    def __exit__(self, *_):
        self.process.kill()
        self.process.wait()
        _running.discard(self.process)
        self.process.stderr.close()
        self.folder.cleanup()

    def _await_port(self):
        for _ in range(1_000):
            if self.process.poll() is not None:
                raise Broken(f"the node ended with status {self.process.returncode}")
            try:
                socket.create_connection(("127.0.0.1", self.port), 5).close()
                return
            except OSError:
                time.sleep(0.01)
        raise Late("the node does not listen")

    def must_live(self):
        if self.process.poll() is not None:
            raise Broken(f"the node ended with status {self.process.returncode}")

    def ended(self, seconds):
        """The status that the node ends with within so many seconds."""
        try:
            return self.process.wait(seconds)
        except subprocess.TimeoutExpired:
            raise Late(f"the node did not end within {seconds} s") from None

    def most_memory(self):
        """The greatest memory so far, in MB."""
        with open(f"/proc/{self.process.pid}/status") as status:
            for line in status:
                if line.startswith("VmHWM"):
                    return int(line.split()[1]) / 1024
        return 0.0

    def processor_time(self):
        """The processor time so far, in seconds."""
        with open(f"/proc/{self.process.pid}/stat") as stat:
            user, system = stat.read().rsplit(")", 1)[1].split()[11:13]
        return (int(user) + int(system)) / os.sysconf("SC_CLK_TCK")

    def record(self):
        with open(f"{self.folder.name}/record", "rb") as record:
            return record.read()
