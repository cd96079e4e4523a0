#!/usr/bin/env python3
"""Encrypts a block by tokend's protocol (docs/PROTOCOL.md): encrypt.py SOCKET prints it in hexadecimal."""
import socket
import struct
import sys

OPEN_SESSION, CREATE_OBJECT, ENCRYPT_INIT, ENCRYPT = 7, 13, 22, 23
CKA_CLASS, CKA_PRIVATE, CKA_VALUE, CKA_KEY_TYPE = 0x0, 0x2, 0x11, 0x100
CKO_SECRET_KEY, CKK_AES, CKM_AES_ECB = 4, 0x1F, 0x1081
CKF_RW_SESSION, CKF_SERIAL_SESSION = 2, 4


def number(value):
    return struct.pack(">Q", value)


def data(value):
    return struct.pack(">I", len(value)) + value


def template(entries):
    return struct.pack(">I", len(entries)) + b"".join(number(kind) + data(value) for kind, value in entries)


class Token:
    def __init__(self, path):
        self.stream = socket.socket(socket.AF_UNIX)
        self.stream.connect(path)

    def read(self, length):
        found = b""
        while len(found) < length:
            part = self.stream.recv(length - len(found))
            if not part:
                raise EOFError("the daemon closed the connection")
            found += part
        return found

    def call(self, function, *fields):
        """Sends a request, and returns the fields of its reply."""
        self.stream.sendall(data(struct.pack(">H", function) + b"".join(fields)))
        reply = self.read(struct.unpack(">I", self.read(4))[0])
        code = struct.unpack(">Q", reply[:8])[0]
        if code:
            raise RuntimeError(f"function {function} returned {code:#x}")
        return reply[8:]


token = Token(sys.argv[1])
session = token.call(OPEN_SESSION, number(0), number(CKF_SERIAL_SESSION | CKF_RW_SESSION))
key = token.call(CREATE_OBJECT, session, template([
    (CKA_CLASS, number(CKO_SECRET_KEY)), (CKA_KEY_TYPE, number(CKK_AES)), (CKA_PRIVATE, b"\0"), (CKA_VALUE, bytes(range(16)))]))
token.call(ENCRYPT_INIT, session, b"\1" + number(CKM_AES_ECB) + data(b""), key)
output = token.call(ENCRYPT, session, data(bytes(range(0, 256, 17))), b"\1" + number(16))
print(output[5:].hex(" "))
