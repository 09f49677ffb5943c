"""Every frame that worked schedules send is read, and written again as the same bytes."""
import random
import unittest

from nukwashe.errors import USER
from nukwashe.frames import (GREETING, KINDS, Call, CopyAt, Lent, Mine, NameAt, Packet, Raise,
                             Raised, RootAnswer, RootAsk, Yours)
from nukwashe.reading import Bad, Sides, read_frame
from nukwashe.stream import Stream
from nukwashe.table import Table
from nukwashe.writing import frame_bytes

from .support import HERE

FILES = sorted((HERE / "frames").iterdir())


def frames_of(path):
    """The slots of the classes, and what was sent: from, to, bytes."""
    first, *lines = path.read_text().splitlines()
    sent = [line.split(" ") for line in lines]
    return (list(map(int, first.split(" ")[1:])),
            [(int(sender), int(receiver), bytes.fromhex(data)) for sender, receiver, data in sent])


class Worked(unittest.TestCase):
    def test_reads_and_writes_each_frame(self):
        kinds, count = set(), 0
        for path in FILES:
            slots, sent = frames_of(path)
            streams = {}
            for sender, receiver, data in sent:
                way = sender, receiver
                if way not in streams:
                    self.assertEqual(data, GREETING)
                    streams[way] = Stream(Sides(slots, *way)), Table()
                    streams[way][0].feed(data)
                    self.assertIsNone(streams[way][0].next())
                    continue
                stream, table = streams[way]
                stream.feed(data[:3])
                self.assertIsNone(stream.next())
                stream.feed(data[3:])
                frame = stream.next()
                self.assertIsNotNone(frame, (path.name, data.hex()))
                self.assertEqual(frame_bytes(frame, table), data, path.name)
                self.assertEqual(stream.table.recent, table.recent)
                kinds.add(type(frame))
                count += 1
        self.assertEqual(kinds, set(KINDS.values()))
        self.assertEqual(len(FILES), 22)
        self.assertGreater(count, 1_200)

    def test_the_examples_of_the_document(self):
        table, sides = Table(), Sides([1, 0], 7002, 7001)
        self.assertEqual(frame_bytes(RootAsk(1), table).hex(), "05000000020101")
        answer = RootAnswer(1, Packet([Mine(1, 0)], [], [NameAt(0)]))
        data = frame_bytes(answer, table)
        self.assertEqual(data.hex(), "060000000d" "0101" "0101" "01" "0101" "00" "00" "0101"
                         "04" "00")
        self.assertEqual(read_frame(6, data[5:], Table(), sides), answer)


class Drawn(unittest.TestCase):
    SIDES = Sides([2, 0, 3], 7001, 7002)

    def value(self, draw, copies, names, lists=8):
        match draw.randrange(7):
            case 1:
                return draw.choice([0, 1, -1, 2**63 - 1, -2**63, draw.randrange(-300, 300)])
            case 2:
                return draw.randbytes(draw.randrange(5))
            case 3 if copies:
                return CopyAt(draw.randrange(copies))
            case 4 if names:
                return NameAt(draw.randrange(names))
            case 5 if lists:
                return [self.value(draw, copies, names, lists - 1)
                        for _ in range(draw.randrange(4))]
        return None

    def packet(self, draw):
        names = [draw.choice([Mine(draw.randrange(1, 400), 0), Yours(draw.randrange(1, 9)),
                              Lent(7003, draw.randrange(1, 9), 2, draw.randrange(1, 9))])
                 for _ in range(draw.randrange(4))]
        classes = [draw.randrange(3) for _ in range(draw.randrange(3))]
        sizes = len(classes), len(names)
        copies = [(cls, [self.value(draw, *sizes) for _ in range(self.SIDES.slots[cls])])
                  for cls in classes]
        values = [self.value(draw, *sizes) for _ in range(draw.randrange(9))]
        return Packet(names, copies, values)

    def test_reads_what_it_writes(self):
        draw, write, read = random.Random(7), Table(), Table()
        for _ in range(2_000):
            frame = Call(draw.randrange(1, 2**63), 1, b"a:b:", self.packet(draw))
            data = frame_bytes(frame, write)
            self.assertEqual(read_frame(1, data[5:], read, self.SIDES), frame)

    def test_one_byte_more_or_less_or_other_is_no_frame_or_another(self):
        draw = random.Random(8)
        for _ in range(500):
            frame = Call(draw.randrange(1, 300), 1, b"a:", self.packet(draw))
            data = frame_bytes(frame, Table())[5:]
            at = draw.randrange(len(data))
            other = data[:at] + bytes((data[at] ^ 1 << draw.randrange(8),)) + data[at + 1:]
            for bad in (data[:-1], data + b"\0", other):
                try:
                    self.assertNotEqual(read_frame(1, bad, Table(), self.SIDES), frame)
                except Bad:
                    pass


class Refused(unittest.TestCase):
    SIDES = Sides([0], 7001, 7002)

    def test_other_spellings(self):
        for kind, payload in [
                (5, "020001"),  # a zero in front
                (5, "00"),  # call 0
                (5, "010100"),  # a byte behind
                (5, "08ffffffffffffffff"),  # a call over 2^63 - 1
                (4, "01010110"),  # no exception 16
                (1, "0101010101310000" "00"),  # a selector that begins with a digit
                (6, "0101" "0101" "0400" "00" "00"),  # a place of an empty table
                (6, "0101" "0102" "01010100" "01010100" "00" "00"),  # new, but in the table
                (6, "0101" "00" "00" "0101" "0400"),  # a name that is not there
                (6, "0101" "0101" "03" "021b59" "0101" "00" "0101" "00" "00"),  # the sender's port
                (6, "0101" "00" "00" "0101" + "050101" * 8 + "0500")]:  # nine lists
            with self.assertRaises(Bad, msg=payload):
                read_frame(kind, bytes.fromhex(payload), Table(), self.SIDES)

    def test_streams(self):
        for data in ("0d0000000101", "0e", "0d0000000102" "0d", "0d0000000102" "05" "ffffffff"):
            stream = Stream(self.SIDES)
            stream.feed(bytes.fromhex(data))
            with self.assertRaises(Bad, msg=data):
                stream.next()

    def test_a_frame_that_is_not_whole_is_awaited(self):
        stream = Stream(self.SIDES)
        for byte in bytes.fromhex("0d0000000102" "050000000201"):
            stream.feed(bytes((byte,)))
            self.assertIsNone(stream.next())
        stream.feed(b"\1")
        self.assertEqual(stream.next(), RootAsk(1))

    def test_exceptions_have_a_text_where_they_are_the_user_s(self):
        for frame in (Raised(1, Raise(1)), Raised(2, Raise(USER, b"why"))):
            data = frame_bytes(frame, Table())
            self.assertEqual(read_frame(4, data[5:], Table(), self.SIDES), frame)


if __name__ == "__main__":
    unittest.main()
