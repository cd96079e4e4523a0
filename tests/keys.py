#!/usr/bin/env python3
"""Tries the daemon with many random keys: that no call on one is refused for memory or for the store, and that no code and no length of a
reply depends on a key's bytes. No clause says so of CKR_HOST_MEMORY (docs/ISOLATION.md).

Takes the program's path, and prints as `daemon.py` does, whose client and daemon it uses.
"""
import os
import sys

sys.dont_write_bytecode = True

import daemon as base
from daemon import OPEN_SESSION, SESSION, Daemon, call, check, data, number, see, template

HOST_MEMORY, DEVICE_ERROR = 2, 0x30
ECB, CBC_PAD, AES_CMAC, AES_KEY_WRAP = 0x1081, 0x1085, 0x108A, 0x2109
TEXT = bytes(range(16))
# (its own checks alone)
base.CHECKS.clear()


def mechanism(mech_type, parameter=b""):
    return number(mech_type) + data(parameter)


def init(function, key, *given):
    return call(function, SESSION, b"\x01" + mechanism(*given), key)


def room(count):
    return b"\x01" + number(count)


def masked_key(value, token):
    return call(13, SESSION, template(
        (0x0, number(4)), (0x100, number(0x1F)), (0x1, token), (0x2, b"\x00"), (0x103, b"\x01"), (0x106, b"\x01"), (0x107, b"\x01"),
        (0x162, b"\x01"), (0x11, value)))


def calls_on(key, wrapping):
    """Each call that reads a key, or goes over it."""
    yield call(16, SESSION, key)
    yield call(17, SESSION, key, b"\x00\x00\x00\x02" + number(0x11) + room(64) + number(0x161) + room(8))
    yield call(18, SESSION, key, template((0x3, b"a label")))
    yield call(19, SESSION, template((0x11, TEXT)))
    yield call(20, SESSION, number(9))
    yield call(21, SESSION)
    yield call(19, SESSION, template((0x3, b"a label")))
    yield call(20, SESSION, number(9))
    yield call(21, SESSION)
    yield init(22, key, ECB)
    yield call(23, SESSION, data(TEXT), room(16))
    yield init(22, key, CBC_PAD, TEXT)
    yield call(23, SESSION, data(TEXT), room(32))
    yield init(26, key, ECB)
    yield call(27, SESSION, data(TEXT), room(16))
    yield init(30, key, AES_CMAC)
    yield call(31, SESSION, data(TEXT), room(16))
    yield init(34, key, AES_CMAC)
    yield call(35, SESSION, data(TEXT), data(TEXT))
    yield call(39, SESSION, mechanism(AES_KEY_WRAP), wrapping, key, room(64))
    yield call(39, SESSION, mechanism(AES_KEY_WRAP), key, wrapping, room(64))
    yield call(40, SESSION, mechanism(AES_KEY_WRAP), key, data(bytes(24)), template((0x0, number(4)), (0x100, number(0x1F)), (0x2, b"\x00")))
    yield call(10, SESSION)
    yield call(14, SESSION, key, template((0x3, b"a copy"), (0x1, b"\x00")))
    yield call(15, SESSION, key)


def codes_and_lengths(client, value, token, wrapping):
    key = client.expect(masked_key(value, token))
    replies = [client.ask(payload) for payload in calls_on(key, wrapping)]
    for place, (code, _) in enumerate(replies):
        see(code not in (HOST_MEMORY, DEVICE_ERROR), "call", place, "on key", value.hex(), "is answered", hex(code))
    client.expect(call(15, SESSION, replies[-2][1]))
    return [(code, len(fields)) for code, fields in replies]


@check
def no_code_and_no_length_depends_on_a_keys_bytes(folder):
    for store, step in (":memory:", 1), ("token.db", 16):
        with Daemon(folder, store=store) as daemon:
            client = daemon.client()
            client.expect(OPEN_SESSION)
            wrapping = client.expect(masked_key(TEXT, b"\x01"))
            for token in b"\x00", b"\x01":
                first = None
                for byte in range(0, 256, step):
                    got = codes_and_lengths(client, bytes([byte]) + os.urandom(15), token, wrapping)
                    first = first or got
                    see(got == first, "replies of key", byte, got, "and not", first)
            client.close()


if __name__ == "__main__":
    base.main()
