"""The bytes of fields and of requests (docs/PROTOCOL.md), for the scripts that speak the protocol."""
import struct


def number(n):
    """N."""
    return struct.pack(">Q", n)


def data(bytes_):
    """B. A payload becomes a frame so, too."""
    return struct.pack(">I", len(bytes_)) + bytes_


def template(*entries):
    """T, of pairs of a type and a value."""
    return struct.pack(">I", len(entries)) + b"".join(number(n) + data(value) for n, value in entries)


def mechanism(n, parameter=b""):
    """M."""
    return number(n) + data(parameter)


def buffer(length):
    """R, of a buffer that is there."""
    return b"\x01" + number(length)


def output(bytes_):
    """O, of bytes that are there."""
    return b"\x01" + data(bytes_)


def call(function, *fields):
    """A request's payload."""
    return struct.pack(">H", function) + b"".join(fields)


def parts(payload):
    """The code of a reply's payload, and its fields."""
    return struct.unpack(">Q", payload[:8])[0], payload[8:]
