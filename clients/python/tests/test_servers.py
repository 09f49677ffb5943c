"""What servers of services and pasteboards want and send, as docs/FORMATS.md lists it."""
import nukwashe
from nukwashe import Node, Object

from .live import Live
from .support import HERE


class Provider(Object):
    """A program that offers a service, and that owns what is on a pasteboard."""
    changed = 0

    def upper_userData_error_(self, board, user, error):
        text = board.dataForType_("text")
        if user == "fail":
            return None, "cannot"
        if user == "raise":
            raise nukwashe.User("broken")
        count = board.declareTypes_owner_(["text"], None)
        board.setData_forType_count_(text.upper(), "text", count)
        return None, None

    def pasteboardChangedOwner_(self, board):
        self.changed += 1


class Services(Live):
    WORLD, PORTS = HERE / "worlds/services.toml", (7001, 7002, 7003, 7004)

    def setUp(self):
        super().setUp()
        self.services, self.board, self.mine, self.other = self.ports
        self.serve(self.services, "until 2")  # one port of a service has no node
        self.serve(self.board, "until 1")
        self.provider = Provider()
        self.node = Node(self.mine, self.world, self.provider)
        self.addCleanup(self.node.close)
        self.server, self.pasteboard = map(self.node.root, (self.services, self.board))

    def copy(self, text, owner=None):
        count = self.pasteboard.declareTypes_owner_(["text"], owner)
        self.assertEqual(self.pasteboard.setData_forType_count_(text, "text", count), 1)

    def perform(self, item):
        return self.server.performService_pasteboard_error_(item, self.pasteboard, None)

    def offer(self, item, user=None, port=None, types=("text",)):
        return self.server.addService_([item, "upper", port or self.mine, types, types, user])

    def test_a_program_does_a_service(self):
        self.assertEqual(self.offer("Upper"), 1)
        self.assertEqual(self.offer("Upper"), 0)
        self.assertEqual(self.server.serviceNamed_("Upper"),
                         ["Upper", "upper", self.mine, ["text"], ["text"], None])
        self.copy("hi")
        self.assertEqual(self.perform("Upper"), (1, None))
        self.assertEqual(self.pasteboard.dataForType_("text"), "HI")

    def test_what_goes_wrong_is_the_error(self):
        self.copy("hi")
        for item, user, port, types, error in [
                ("fails", "fail", None, ("text",), "cannot"),
                ("raises", "raise", None, ("text",), "broken"),
                ("absent", None, self.other, ("text",), "ConnectionDied"),
                ("html", None, None, ("html",), "no type")]:
            self.assertEqual(self.offer(item, user, port, types), 1)
            self.assertEqual(self.perform(item), (0, error), item)
        self.assertEqual(self.perform("unknown"), (0, "unknown item"))

    def test_forms_of_a_service(self):
        good = ["Upper", "upper", self.mine, ["text"], ["text"], None]
        for at, wrong in [(0, 5), (1, "upper:"), (1, "u" * 41), (2, 0), (2, 65_536),
                          (3, "text"), (3, ["a", "a"]), (4, [""])]:
            with self.assertRaises(nukwashe.Type, msg=(at, wrong)):
                self.server.addService_(good[:at] + [wrong] + good[at + 1:])
        for wrong in (good[:5], good + [None], "Upper"):
            with self.assertRaises(nukwashe.Type):
                self.server.addService_(wrong)
        with self.assertRaises(nukwashe.Type):
            self.server.performService_pasteboard_error_("Upper", "no object", None)

    def test_a_former_owner_is_told_where_another_declares(self):
        self.copy("a", self.provider)
        self.copy("b", self.provider)
        self.assertEqual(self.provider.changed, 0)
        self.copy("c")
        self.assertEqual(self.provider.changed, 1)
        self.assertEqual(self.pasteboard.dataForType_("text"), "c")
