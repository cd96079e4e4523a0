#!/usr/bin/env python3
"""Tries a store that an older daemon left, whose bodies have format 1.

Takes the program's path, and prints as `daemon.py` does, whose client and daemon it uses.
"""
import hashlib
import os
import struct
import sys

sys.dont_write_bytecode = True

import daemon as base
import stores
from daemon import (OPEN_SESSION, PIN_INCORRECT, SESSION, Daemon, aes_key, call, check, contents, data, data_object, found, number, ran, refused,
                    see, template)

# (its own checks alone)
base.CHECKS.clear()

PIN, LABEL, OLD_ROUNDS = b"secret", b"a label of thirty-two characters", 10_000


def verifier(salt, pin):
    return b"\x01" + salt + hashlib.pbkdf2_hmac("sha256", pin, salt, OLD_ROUNDS)


def old_record():
    """The record of a token with both PINs, each with a try."""
    return b"\x01\x01" + LABEL + verifier(b"s" * 16, b"officer") + b"\x01" + verifier(b"u" * 16, PIN) + b"\x01"


def old_body(body):
    """What an older daemon stored of an object. It had no keys that are trusted, or that wrap with trusted ones."""
    attributes = stores.entries(body)
    if attributes[stores.CLASS] == stores.SECRET_KEY:
        del attributes[stores.TRUSTED], attributes[stores.WRAP_WITH_TRUSTED]
    return stores.body_of(1, attributes)


def older(folder, changed=lambda record, objects: (record, objects)):
    """Makes token.db as an older daemon left it, with two data objects and a key. Their bodies in format 2 are returned."""
    with Daemon(folder, store="new.db", path="n") as daemon:
        client = daemon.client()
        for payload in (OPEN_SESSION, data_object(b"one"), data_object(b"two"), aes_key(b"a sixteen-byte k")):
            client.expect(payload)
        see(ran(folder, "backup", "--store", "new.db", "--to", "copy") == (0, b"", b""), "no copy")
    tables, _, objects = stores.rows(os.path.join(folder, "copy"))
    for name in os.listdir(folder):
        os.remove(os.path.join(folder, name))
    record, old = changed(old_record(), [(id_, old_body(body)) for id_, body in objects])
    stores.write(os.path.join(folder, "token.db"), tables, record, old)
    os.chmod(os.path.join(folder, "token.db"), 0o600)
    return objects


@check
def a_store_of_format_1_is_looked_through_and_stays(folder):
    older(folder)
    path = os.path.join(folder, "token.db")
    before = contents(path)
    status, output, errors = ran(folder, "check", "--store", "token.db")
    see((status, errors) == (0, b""), status, output, errors)
    see(b"format: 1\npage sums: no\ndata objects: 2\nsecret keys: 1\n" in output, output)
    see(contents(path) == before and os.listdir(folder) == ["token.db"], "it was changed")


@check
def a_store_of_format_1_is_taken_over(folder):
    objects = older(folder)
    for _ in range(2):
        with Daemon(folder) as daemon:
            see(found(daemon) == 3, "other objects")
            client = daemon.client()
            client.expect(OPEN_SESSION)
            client.expect(call(11, SESSION, number(1), data(b"wrong")), PIN_INCORRECT)
            client.expect(call(11, SESSION, number(1), data(PIN)))
            info = client.expect(call(1, number(0)))
            see(info[:32] == LABEL, "label", info[:32])
            client.expect(call(12, SESSION))
            # (the key's value, and what an older daemon didn't know of it)
            client.expect(call(19, SESSION, template((0x0, number(4)))))
            handle = client.expect(call(20, SESSION, number(1)))[4:]
            client.expect(call(21, SESSION))
            client.expect(call(22, SESSION, b"\x01", number(0x1081), data(b""), handle))
    see(ran(folder, "backup", "--store", "token.db", "--to", "copy") == (0, b"", b""), "no copy")
    _, record, now = stores.rows(os.path.join(folder, "copy"))
    see(now == objects, "other bodies:", now)
    see(record[0] == 2 and record[2:34] == LABEL, "record", record)
    at = 34
    for salt, pin in ((b"s" * 16, b"officer"), (b"u" * 16, PIN)):
        see(record[at:at + 21] == b"\x01" + salt + struct.pack(">I", OLD_ROUNDS), "salt and rounds", record[at:at + 21])
        see(record[at + 21:at + 53] == hashlib.pbkdf2_hmac("sha256", pin, salt, OLD_ROUNDS), "another verifier")
        at += 54
    status, output, _ = ran(folder, "check", "--store", "token.db")
    see(status == 0 and b"format: 2\n" in output, status, output)


def spoilt(at, change):
    """The store with one object's body changed."""
    def of(record, objects):
        id_, body = objects[at]
        return record, [*objects[:at], (id_, change(body)), *objects[at + 1:]]
    return of


DAMAGE = {
    "a record a byte short": lambda record, objects: (record[:-1], objects),
    "a record of format 3": lambda record, objects: (b"\x03" + record[1:], objects),
    "data a byte short": spoilt(0, lambda body: body[:-1]),
    "data of format 3": spoilt(1, lambda body: b"\x03" + body[1:]),
    "a key a byte longer": spoilt(2, lambda body: body + b"\x00"),
    "a key of format 2 without its new attributes": spoilt(2, lambda body: b"\x02" + body[1:]),
    "an id below 1": lambda record, objects: (record, [(-1, objects[0][1]), *objects[1:]]),
}


@check
def a_damaged_store_of_format_1_is_refused_and_stays_byte_for_byte(folder):
    for name, changed in DAMAGE.items():
        older(folder, changed)
        path = os.path.join(folder, "token.db")
        before = contents(path)
        refused(folder, 3, b"cannot open the store", b"token.db: ")
        see(contents(path) == before, name, "changed the file")
        see(set(os.listdir(folder)) <= {"token.db", "token.db-wal"}, name, os.listdir(folder))
        for it in os.listdir(folder):
            os.remove(os.path.join(folder, it))


if __name__ == "__main__":
    base.main()
