"""What every node knows: the native kinds of classes, and the worlds that are built in."""

#: The slots of each native kind, and the types of its methods.
KINDS: dict[str, tuple[list[str], dict[str, str]]] = {
    "names": (["names"], {
        "register:port:": "B@:*S", "lookup:": "S@:*", "unregister:": "B@:*"}),
    "pasteboard": (["count", "owner", "types", "data", "boards"], {
        "declareTypes:owner:": "q@:@@", "addTypes:owner:": "q@:@@",
        "setData:forType:count:": "B@:@*q", "dataForType:": "@@:*", "types": "@@:",
        "changeCount": "q@:", "availableTypeFromArray:": "@@:@", "pasteboardNamed:": "@@:*"}),
    "services": (["services"], {
        "addService:": "B@:@", "removeService:": "B@:*", "services": "@@:",
        "serviceNamed:": "@@:*", "performService:pasteboard:error:": "B@:*@o^@"}),
    "center": (["regs", "suspended", "queues"], {
        "addObserver:selector:name:object:suspensionBehavior:": "v@:@*@@q",
        "removeObserver:name:object:": "v@:@@@", "setSuspended:for:": "v@:B@",
        "postNotificationName:object:userInfo:deliverImmediately:": "v@:*@@B"}),
    "checker": (["target"], {"guard:": "v@:@"}),
}

#: The built-in worlds, without their code.
BUILT_IN = {
    ":counter": """
version = 1
class = [
    { name = "Counter", slots = ["value"], method = [{ selector = "add:", types = "q@:q" }] },
    { name = "Client", method = [{ selector = "go:", types = "q@:q" }] },
]
node = [{ port = 7001, root = "Client" }, { port = 7002, root = "Counter" }]
""",
    ":mesh": """
version = 1

[[class]]
name = "Item"
slots = ["link copy"]

[[class]]
name = "Peer"
slots = ["a", "b"]
method = [
    { selector = "go:", types = "v@:S" },
    { selector = "hold:", types = "v@:@" },
    { selector = "pass:", types = "v@:@" },
    { selector = "copy:", types = "v@:O@" },
]

[[node]]
port = 7001
root = "Peer"
[[node]]
port = 7002
root = "Peer"
[[node]]
port = 7003
root = "Peer"
[[node]]
port = 7004
root = "Peer"
""",
}
