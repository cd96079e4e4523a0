"""A client of the protocol (docs/PROTOCOL.md): what the daemon itself says of its objects, to compare with what tools say."""
import collections, socket, struct

OPEN_SESSION, LOGIN, GET_ATTRIBUTE_VALUE, FIND_OBJECTS_INIT, FIND_OBJECTS, FIND_OBJECTS_FINAL = 7, 11, 17, 19, 20, 21
CKU_USER, CKO_SECRET_KEY = 1, 4
NUMBERS = {"class_": 0x0, "key_type": 0x100, "length": 0x161}
TRUTHS = {"private": 0x2, "sensitive": 0x103, "extractable": 0x162, "local": 0x163}
BYTES = {"label": 0x3, "application": 0x10, "value": 0x11, "id": 0x102}
ATTRIBUTES = {**NUMBERS, **TRUTHS, **BYTES}
Object = collections.namedtuple("Object", ATTRIBUTES)


def number(value):
    return struct.pack(">Q", value)


def data(value):
    return struct.pack(">I", len(value)) + value


def meaning(name, value):
    """An attribute's value in Python's types: a number, a truth value, a label, or an identifier in hexadecimal."""
    if value is None or name == "value":
        return value
    if name in NUMBERS:
        return int.from_bytes(value, "big")
    if name in TRUTHS:
        return value != b"\0"
    return value.hex() if name == "id" else value.decode()


class Connection:
    """A connection with a session, in which the user is logged in where there is a PIN."""

    def __init__(self, path, pin=None):
        self.stream = socket.socket(socket.AF_UNIX)
        self.stream.connect(path)
        self.session = self.must(OPEN_SESSION, number(0), number(6))
        if pin:
            self.must(LOGIN, self.session, number(CKU_USER), data(pin))

    def read(self, length):
        found = b""
        while len(found) < length:
            part = self.stream.recv(length - len(found))
            if not part:
                raise EOFError("the daemon closed the connection")
            found += part
        return found

    def call(self, function, *fields):
        """The code of a reply, and its fields."""
        self.stream.sendall(data(struct.pack(">H", function) + b"".join(fields)))
        reply = self.read(struct.unpack(">I", self.read(4))[0])
        return struct.unpack(">Q", reply[:8])[0], reply[8:]

    def must(self, function, *fields):
        code, found = self.call(function, *fields)
        if code:
            raise RuntimeError(f"function {function} returned {code:#x}")
        return found

    def attribute(self, handle, kind):
        """The attribute's bytes, or None where the object has none, or doesn't show it."""
        code, found = self.call(GET_ATTRIBUTE_VALUE, self.session, handle, struct.pack(">I", 1) + number(kind) + b"\1" + number(1024))
        return found[13:] if code == 0 else None

    def objects(self):
        """What this application sees."""
        self.must(FIND_OBJECTS_INIT, self.session, struct.pack(">I", 0))
        found = self.must(FIND_OBJECTS, self.session, number(1024))[4:]
        self.must(FIND_OBJECTS_FINAL, self.session)
        handles = [found[at : at + 8] for at in range(0, len(found), 8)]
        return [Object(**{name: meaning(name, self.attribute(it, kind)) for name, kind in ATTRIBUTES.items()}) for it in handles]


CONNECTIONS = {}


def objects(path, pin=None):
    """What an application sees of the token's objects that is logged in by the PIN, or isn't."""
    if pin is None:
        return Connection(path).objects()
    # (a check of a PIN takes long)
    if path not in CONNECTIONS:
        CONNECTIONS[path] = Connection(path, pin)
    return CONNECTIONS[path].objects()


def forget():
    """Closes all connections, so that they have no session."""
    while CONNECTIONS:
        CONNECTIONS.popitem()[1].stream.close()
