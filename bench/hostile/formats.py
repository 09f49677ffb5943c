"""Frames, by docs/FORMATS.md alone."""

GREETING = bytes.fromhex("0d0000000102")


def number(n):
    """A byte that counts the bytes of n, and these, the highest first."""
    body = n.to_bytes((n.bit_length() + 7) // 8, "big")
    return bytes([len(body)]) + body


def text(body):
    return number(len(body)) + body


def frame(kind, payload=b""):
    return bytes([kind]) + len(payload).to_bytes(4, "big") + payload


def values(*spelled):
    """A packet that names no object and has no copy."""
    return number(0) + number(0) + number(len(spelled)) + b"".join(spelled)


def integer(z):
    return b"\x01" + number(2 * z if z >= 0 else -2 * z - 1)


def string(body):
    return b"\x02" + text(body)


def call(number_of_call, serial, selector, packet):
    return frame(1, number(number_of_call) + number(serial) + text(selector) + packet)


def reply(number_of_call, packet):
    return frame(3, number(number_of_call) + packet)


def root_ask(number_of_call):
    return frame(5, number(number_of_call))


def take_frame(stream):
    """The next frame of a stream that `recv_into`s by `stream.read`: its kind and its payload."""
    head = stream.read(5)
    return head[0], stream.read(int.from_bytes(head[1:], "big"))
