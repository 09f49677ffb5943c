"""The examples of processes, at free ports: each node ends with 0, and the records weave."""
import pathlib
import re
import shutil
import unittest

from .live import Live
from .support import HERE, TOP

EXAMPLES = TOP / "examples"


def shown_records(text):
    """The records in the indented blocks of a document."""
    blocks = re.findall(r"(?:^    .*\n)+", text, re.M)
    records = [re.sub("^    ", "", block, flags=re.M) for block in blocks]
    return [record for record in records if record.startswith("record 1 ")]


class Pair(Live):
    """examples/pair, over a world of a file in place of the built-in one of the same classes."""
    WORLD, PORTS = HERE / "worlds/counter.toml", (7001, 7002)

    def test_both_write_the_records_that_the_document_shows(self):
        client, counter = self.ports
        self.serve(counter, *self.starts("counter"))
        self.serve(client, *self.starts("client"))
        self.ends(counter, client)
        document = (EXAMPLES / "pair/README.md").read_text(encoding="utf-8")
        for port, record in zip(self.ports, shown_records(document), strict=True):
            for old, new in zip(self.PORTS, self.ports):
                record = record.replace(str(old), str(new))
            self.assertEqual(self.record(port).read_text(), record)
        status, schedule, error = self.run_program(
            "weave", "world.toml", *(self.record(port).name for port in self.ports))
        self.assertEqual((status, error), (0, ""))
        self.assertTrue(schedule.endswith("end\n"))

    @staticmethod
    def starts(name):
        """The lines of a file of starts, without the first and the last."""
        return (EXAMPLES / f"pair/{name}.starts").read_text().splitlines()[1:-1]


class Session(Live):
    """examples/session, as its script starts it."""
    WORLD, PORTS = EXAMPLES / "session/desk.toml", (7100, 7101, 7102, 7103, 7104)

    def test_five_processes_copy_and_paste_and_are_woven(self):
        for path in [*(EXAMPLES / "session").glob("*.starts"), EXAMPLES / "session/session.plan"]:
            shutil.copy(path, self.folder)
        plan = self.folder / "session.plan"
        text = plan.read_text().replace("desk.toml", "world.toml")
        for old, new in zip(self.PORTS, self.ports):
            text = text.replace(str(old), str(new))
        plan.write_text(text)
        status, shown, error = self.run_program("lab", "session.plan")
        self.assertEqual((status, shown.count(" 0\n")), (0, 5), shown + error)
        reader = pathlib.Path(self.folder, f"{self.ports[3]}.record").read_text()
        self.assertEqual(reader.count(f'say {self.ports[3]} "hi"\n'), 100)
        status, schedule, error = self.run_program(
            "weave", "world.toml", *(f"{port}.record" for port in self.ports))
        self.assertEqual((status, error), (0, ""))
        (self.folder / "woven.schedule").write_text(schedule)
        status, transcript, _ = self.run_program("replay", "world.toml", "woven.schedule")
        self.assertEqual(status, 0)
        self.assertEqual(transcript.count(f'say {self.ports[3]} "hi"\n'), 100)


if __name__ == "__main__":
    unittest.main()
