#!/usr/bin/env python3
"""Plays worked rows over the daemon's socket, byte for byte: first runs, ciphers, MACs, wrapped keys, objects, searches, random bytes, bad
frames, PINs and handles of several applications.

Takes the program's path, and prints as `daemon.py` does, whose client and daemon it uses. The values are those of the standards (FIPS 197,
SP 800-38A and 38B, RFC 3394, 4231 and 8439) or were made by OpenSSL.
"""
import hashlib
import os
import struct
import sys

sys.dont_write_bytecode = True

import daemon as base
import stores
from daemon import OK, OPEN_SESSION, PIN_LOCKED, SESSION, Daemon, call, check, data, number, ran, see, template
from frames import buffer, output

# (its own checks alone)
base.CHECKS.clear()

CONNECTIONS = 256
ECB, CBC, CBC_PAD, CTR, CMAC, SHA256_HMAC, KEY_WRAP = 0x1081, 0x1082, 0x1085, 0x1086, 0x108A, 0x251, 0x2109
CLASS, TOKEN, PRIVATE, LABEL, UNIQUE_ID, VALUE, KEY_TYPE = 0x0, 0x1, 0x2, 0x3, 0x4, 0x11, 0x100
SENSITIVE, WRAP, UNWRAP, EXTRACTABLE = 0x103, 0x106, 0x107, 0x162
AES, GENERIC_SECRET = 0x1F, 0x10
TRUE, FALSE, NO_BUFFER, NO_VALUE = b"\x01", b"\x00", b"\x00", b"\xff" * 8 + b"\x00"
ARGUMENTS_BAD, ATTRIBUTE_SENSITIVE, DATA_LEN, ENCRYPTED_DATA, ENCRYPTED_LEN = 0x07, 0x11, 0x21, 0x40, 0x41
FUNCTION_UNKNOWN, UNEXTRACTABLE, MECHANISM_PARAMETER, OBJECT_HANDLE, NO_OPERATION = 0x54, 0x6A, 0x71, 0x82, 0x91
PIN_INCORRECT, SESSION_COUNT, SESSION_FLAGS, SESSION_EXISTS = 0xA0, 0xB1, 0xB4, 0xB6
WRAPPED_KEY, WRAPPED_KEY_LEN, SIGNATURE, SIGNATURE_LEN, TOO_SMALL = 0x110, 0x112, 0xC0, 0xC1, 0x150

FIPS_KEY, FIPS_TEXT = bytes(range(16)), bytes.fromhex("00112233445566778899aabbccddeeff")
NIST_KEY, IV = bytes.fromhex("2b7e151628aed2a6abf7158809cf4f3c"), bytes(range(16))
NIST_TEXT = bytes.fromhex("6bc1bee22e409f96e93d7e117393172a")
CBC_TEXT, PADDING = bytes.fromhex("7649abac8119b246cee98e9b12e9197d"), bytes.fromhex("c84af0b613435d5d9182801a9bd9320b")
COUNTERS = bytes.fromhex("57127d4034b1bebfaef466b9c7726fc6973f2ef34879e2027f1734303ff21f89469c7fcb75d5d9a1b418cb997b09a185")
TAG = bytes.fromhex("b0344c61d8db38535ca8afceaf0bf12b881dc200c9833da726e9376c2e32cff7")
WRAPPED = bytes.fromhex("1fa68b0a8112b447aef34bd8fb5a7b829d3e862371d2cfe5")
HIDDEN, SHOWN = b"a hidden value..", b"a shown value..."


# ---- random bytes

def chacha20(stream, block):
    """A block of ChaCha20 under a key of zeros, with 64 bits of counter and a number of a stream in 64 more (RFC 8439, 2.3)."""
    begin = [*struct.unpack("<4I", b"expand 32-byte k"), *[0] * 8, *struct.unpack("<4I", struct.pack("<QQ", block, stream))]
    x = begin[:]

    def quarter(a, b, c, d):
        for p, q, r, turn in ((a, b, d, 16), (c, d, b, 12), (a, b, d, 8), (c, d, b, 7)):
            x[p] = (x[p] + x[q]) & 0xFFFFFFFF
            x[r] ^= x[p]
            x[r] = (x[r] << turn | x[r] >> 32 - turn) & 0xFFFFFFFF

    for _ in range(10):
        for at in range(4):
            quarter(at, at + 4, at + 8, at + 12)
        for at in range(4):
            quarter(at, (at + 1) % 4 + 4, (at + 2) % 4 + 8, (at + 3) % 4 + 12)
    return struct.pack("<16I", *((one + other) & 0xFFFFFFFF for one, other in zip(x, begin)))


class Words:
    """An application's random bytes, in their order. Each call takes whole words of four bytes."""

    def __init__(self, stream):
        self.stream, self.at, self.blocks = stream, 0, []

    def take(self, count):
        while len(self.blocks) * 64 < self.at + count:
            self.blocks.append(chacha20(self.stream, len(self.blocks)))
        bytes_ = b"".join(self.blocks)[self.at:self.at + count]
        self.at += (count + 3) // 4 * 4
        return bytes_


# ---- calls, and rows: a payload, the code that is returned, and the fields

def create(*entries):
    return call(13, SESSION, template(*entries))


def key(value, kind=AES, *more):
    return create((CLASS, number(4)), (KEY_TYPE, number(kind)), (PRIVATE, FALSE), (VALUE, value), *more)


def began(function, mechanism, handle, parameter=b""):
    return call(function, SESSION, b"\x01", number(mechanism), data(parameter), number(handle))


def worked(function, bytes_, room=16):
    return call(function, SESSION, data(bytes_), buffer(room))


def attributes(handle, *kinds):
    return call(17, SESSION, number(handle), struct.pack(">I", len(kinds)), *(number(it) + buffer(64) for it in kinds))


def values(*found):
    return struct.pack(">I", len(found)) + b"".join(NO_VALUE if it is None else number(len(it)) + b"\x01" + it for it in found)


def handles(*found):
    return struct.pack(">I", len(found)) + b"".join(map(number, found))


def search(*entries):
    return (call(19, SESSION, template(*entries)), OK, b"")


def wrap(handle, room=64):
    return call(39, SESSION, number(KEY_WRAP), data(b""), number(5), number(handle), buffer(room))


def unwrap(wrapped):
    return call(40, SESSION, number(KEY_WRAP), data(b""), number(5), data(wrapped),
                template((CLASS, number(4)), (KEY_TYPE, number(AES)), (PRIVATE, FALSE)))


def counter(bits, block):
    return number(bits) + block


def changed(bytes_, at, bits):
    return bytes_[:at] + bytes([bytes_[at] ^ bits]) + bytes_[at + 1:]


LENGTH_16 = b"\x00" + number(16)

FIRST_RUN = (
    (OPEN_SESSION, OK, SESSION),
    (key(FIPS_KEY), OK, number(1)),
    (began(22, ECB, 1), OK, b""),
    (worked(23, FIPS_TEXT), OK, output(bytes.fromhex("69c4e0d86a7b0430d8cdb78070b4c55a"))),
    (call(16, SESSION, number(1)), OK, number(309)),
)
BLOCKS = (
    (key(bytes(range(32))), OK, number(2)),
    (began(26, ECB, 2), OK, b""),
    (worked(27, bytes.fromhex("8ea2b7ca516745bfeafc49904b496089")), OK, output(FIPS_TEXT)),
)
CHAINS = (
    (key(NIST_KEY), OK, number(3)),
    (began(22, CBC, 3, IV), OK, b""),
    (worked(23, NIST_TEXT), OK, output(CBC_TEXT)),
    (began(22, CBC, 3, IV), OK, b""),
    (worked(24, NIST_TEXT[:1]), OK, output(b"")),
    (worked(24, NIST_TEXT[1:15]), OK, output(b"")),
    (worked(24, NIST_TEXT[15:]), OK, output(CBC_TEXT)),
    (call(25, SESSION, buffer(16)), OK, output(b"")),
    (began(22, CBC, 3, IV), OK, b""),
    (worked(24, NIST_TEXT[:15]), OK, output(b"")),
    (call(25, SESSION, buffer(16)), DATA_LEN, b""),
)
PADDINGS = (
    (began(22, CBC_PAD, 3, IV), OK, b""),
    (worked(23, b""), OK, output(PADDING)),
    (began(26, CBC_PAD, 3, IV), OK, b""),
    (worked(27, PADDING), OK, output(b"")),
    *(row for at, bits in ((15, 0x10), (15, 0x01), (0, 0x01))
      for row in ((began(26, CBC_PAD, 3, changed(IV, at, bits)), OK, b""), (worked(27, PADDING), ENCRYPTED_DATA, b""))),
    (began(26, CBC_PAD, 3, changed(IV, 15, 0x11)), OK, b""),
    (worked(27, PADDING), OK, output(b"\x10" * 15)),
    (began(26, CBC_PAD, 3, IV), OK, b""),
    (worked(27, b""), ENCRYPTED_LEN, b""),
)
COUNTED = (
    (began(22, CTR, 3, counter(2, bytes(15) + b"\x01")), OK, b""),
    (worked(23, bytes(48), 48), OK, output(COUNTERS)),
    (began(22, CTR, 3, counter(2, bytes(15) + b"\x01")), OK, b""),
    (worked(23, bytes(49), 49), DATA_LEN, b""),
    (worked(23, bytes(1), 1), NO_OPERATION, b""),
    (began(22, CTR, 3, counter(0, bytes(16))), MECHANISM_PARAMETER, b""),
    (began(22, CTR, 3, counter(129, bytes(16))), MECHANISM_PARAMETER, b""),
    (began(22, CTR, 3, counter(128, bytes(range(0xF0, 0x100)))), OK, b""),
    (worked(23, NIST_TEXT), OK, output(bytes.fromhex("874d6191b620e3261bef6864990db6ce"))),
)
CODES = (
    (began(30, CMAC, 3), OK, b""),
    (worked(31, b""), OK, output(bytes.fromhex("bb1d6929e95937287fa37d129b756746"))),
    (key(b"\x0b" * 20, GENERIC_SECRET), OK, number(4)),
    (began(30, SHA256_HMAC, 4), OK, b""),
    (worked(31, b"Hi There", 32), OK, output(TAG)),
    (began(34, SHA256_HMAC, 4), OK, b""),
    (call(35, SESSION, data(b"Hi There"), data(TAG[:31])), SIGNATURE_LEN, b""),
    (began(34, SHA256_HMAC, 4), OK, b""),
    (call(35, SESSION, data(b"Hi There"), data(changed(TAG, 31, 0x01))), SIGNATURE, b""),
    (began(34, SHA256_HMAC, 4), OK, b""),
    (call(35, SESSION, data(b"Hi There"), data(TAG)), OK, b""),
)
WRAPPED_KEYS = (
    (key(FIPS_KEY, AES, (WRAP, TRUE), (UNWRAP, TRUE)), OK, number(5)),
    (key(FIPS_TEXT, AES, (EXTRACTABLE, TRUE)), OK, number(6)),
    (wrap(6), OK, output(WRAPPED)),
    (unwrap(WRAPPED[:23]), WRAPPED_KEY_LEN, b""),
    (unwrap(changed(WRAPPED, 5, 0x10)), WRAPPED_KEY, b""),
    (key(FIPS_TEXT, AES, (EXTRACTABLE, FALSE)), OK, number(7)),
    (wrap(7), UNEXTRACTABLE, b""),
)
BUFFERS = (
    (began(22, ECB, 1), OK, b""),
    (worked(23, FIPS_TEXT, 15), TOO_SMALL, LENGTH_16),
    (call(23, SESSION, data(FIPS_TEXT), NO_BUFFER), OK, LENGTH_16),
    (worked(23, FIPS_TEXT, 16), OK, output(bytes.fromhex("69c4e0d86a7b0430d8cdb78070b4c55a"))),
    (worked(23, FIPS_TEXT, 16), NO_OPERATION, b""),
)
VALUES = (
    (key(HIDDEN, AES, (LABEL, b"k1"), (SENSITIVE, TRUE)), OK, number(8)),
    (attributes(8, LABEL, VALUE, 0x99999999), ATTRIBUTE_SENSITIVE, values(b"k1", None, None)),
    search((VALUE, HIDDEN)),
    (call(20, SESSION, number(9)), OK, handles()),
    (call(21, SESSION), OK, b""),
    (key(SHOWN, AES, (SENSITIVE, FALSE), (EXTRACTABLE, TRUE)), OK, number(9)),
    search((VALUE, SHOWN)),
    (call(20, SESSION, number(9)), OK, handles(9)),
    (call(21, SESSION), OK, b""),
)
NO_CALLS = (
    (b"\x00\x01" + bytes(65_534), ARGUMENTS_BAD, b""),
    (b"\x00\x63", FUNCTION_UNKNOWN, b""),
    (b"\x07", ARGUMENTS_BAD, b""),
    (b"", ARGUMENTS_BAD, b""),
)
SESSIONS = (
    (call(7, number(0), number(2)), SESSION_FLAGS, b""),
    *((OPEN_SESSION, OK, number(it)) for it in range(2, 65)),
    (OPEN_SESSION, SESSION_COUNT, b""),
)
ALONE = (*FIRST_RUN, *BLOCKS, *CHAINS, *PADDINGS, *COUNTED, *CODES, *WRAPPED_KEYS, *BUFFERS, *VALUES, *NO_CALLS, *SESSIONS)

# How many random bytes C_CreateObject and C_UnwrapKey take, also where they are refused.
TAKES = {13: 16, 40: 16}


def play_all(clients, rows):
    """Each row is sent by all clients, and then heard by each."""
    for at, (payload, code, fields) in enumerate(rows):
        for client in clients:
            client.send(payload)
        for client in clients:
            got = client.hear()
            see(got == (code, fields), "row", at, payload.hex()[:60], "is answered", hex(got[0]), got[1].hex()[:100])


def random_row(count, bytes_):
    return ((call(41, SESSION, number(count)), OK, data(bytes_)),)


@check
def rows_of_an_application_alone_are_answered_in_256_connections_at_once(folder):
    with open(os.path.join(folder, "seed"), "wb") as it:
        it.write(bytes(32))
    with Daemon(folder, "--clients", "64", "--seed-file", "seed") as daemon:
        clients = [daemon.client() for _ in range(CONNECTIONS)]
        play_all(clients, ALONE)
        # Each has random bytes of a stream of its own: the identifier of its first object, and those that it asks for.
        streams = {chacha20(number_, 0)[:16].hex().encode(): number_ for number_ in range(CONNECTIONS)}
        taken = sum(TAKES.get(int.from_bytes(payload[:2], "big"), 0) for payload, *_ in ALONE)
        for client in clients:
            code, fields = client.ask(attributes(1, UNIQUE_ID))
            see(code == OK and fields[:13] == values(bytes(32))[:13], "identifier", hex(code), fields.hex())
            stream = streams.pop(fields[13:], None)
            see(stream is not None, "an identifier that is of no stream, or of two:", fields[13:])
            words = Words(stream)
            words.take(taken)
            for count in (16, 5, 4):
                play_all([client], random_row(count, words.take(count)))
        see(not streams, "streams that are of nobody:", len(streams))
        play_all(clients, ((call(41, SESSION, number(32_769)), ARGUMENTS_BAD, b""),))
        # (a length above the limit ends the connection, without a reply)
        for client in clients:
            client.stream.sendall(struct.pack(">I", 1_048_577))
        for client in clients:
            see(client.stream.recv(1) == b"", "something is answered")


@check
def the_longest_text_is_encrypted_byte_for_byte(folder):
    text = (bytes(range(251)) * 4178)[:1_048_553]
    with Daemon(folder, store=":memory:") as daemon:
        client = daemon.client()
        play_all([client], (*FIRST_RUN, (began(22, CBC_PAD, 1, IV), OK, b"")))
        code, fields = client.ask(worked(23, text, 1_048_576))
        see(code == OK and fields[:5] == b"\x01" + struct.pack(">I", 1_048_560), hex(code), fields[:5].hex())
        # (as OpenSSL makes it)
        see(hashlib.sha256(fields[5:]).hexdigest() == "5d12dfce16ec99147d1fbd0839791946a43f508ffd41c8c4d8452e598d37ba17", "another text")


# ---- applications that share objects and PINs

OFFICER, USER = b"officer", b"secret"


def login(who, pin):
    return call(11, SESSION, number(who), data(pin))


def with_pins(client):
    """Makes a token with both PINs."""
    for payload in (call(4, number(0), data(OFFICER), data(b" " * 32)), OPEN_SESSION, login(0, OFFICER), call(5, SESSION, data(USER)), call(12, SESSION)):
        client.expect(payload)


def flags_of(client):
    return struct.unpack(">Q", client.expect(call(1, number(0)))[32:40])[0]


def found_by(client, *entries):
    client.expect(call(19, SESSION, template(*entries)))
    fields = client.expect(call(20, SESSION, number(1024)))
    client.expect(call(21, SESSION))
    return list(struct.unpack(f">{(len(fields) - 4) // 8}Q", fields[4:]))


@check
def an_operation_outlives_its_key(folder):
    with Daemon(folder) as daemon:
        one, other = daemon.client(), daemon.client()
        play_all([one, other], FIRST_RUN[:1])
        play_all([one], ((key(FIPS_KEY, AES, (TOKEN, TRUE)), OK, number(1)), (began(22, ECB, 1), OK, b"")))
        (handle,) = found_by(other)
        play_all([other], ((call(15, SESSION, number(handle)), OK, b""),))
        play_all([one], (FIRST_RUN[3], (call(16, SESSION, number(1)), OBJECT_HANDLE, b"")))


@check
def of_two_checks_at_the_tenth_try_one_is_locked_out(folder):
    with Daemon(folder, store=":memory:") as daemon:
        one, other = daemon.client(), daemon.client()
        with_pins(one)
        play_all([other], FIRST_RUN[:1])
        for _ in range(40):
            for _ in range(9):
                one.expect(login(1, b"wrong"), PIN_INCORRECT)
            see(flags_of(one) & 0x70000 == 0x30000, "flags", hex(flags_of(one)))
            for client in (one, other):
                client.send(login(1, USER))
            codes = [client.hear()[0] for client in (one, other)]
            see(flags_of(one) & 0x70000 == 0, "flags", hex(flags_of(one)))
            if sorted(codes) == [OK, PIN_LOCKED]:
                return
            see(codes == [OK, OK], "codes", codes)
            for client in (one, other):
                client.expect(call(12, SESSION))
        see(False, "no two checks were at once")


@check
def a_token_is_not_initialised_beside_a_session_that_came_meanwhile(folder):
    with Daemon(folder) as daemon:
        one, other = daemon.client(), daemon.client()
        with_pins(one)
        one.expect(create((CLASS, number(0)), (TOKEN, TRUE), (PRIVATE, FALSE)))
        for _ in range(40):
            one.expect(call(9, number(0)))
            one.send(call(4, number(0), data(OFFICER), data(b"another label".ljust(32))))
            other.send(OPEN_SESSION)
            initialised, opened = one.hear(), other.hear()
            see(opened[0] == OK, "no session", opened)
            if initialised[0] == SESSION_EXISTS:
                info = other.expect(call(1, number(0)))
                see(info[:32] == b" " * 32 and struct.unpack(">Q", info[32:40])[0] & 0x700000 == 0, "label, or tries of the SO's PIN", info)
                session = number(struct.unpack(">Q", opened[1])[0])
                other.expect(call(19, session, template()))
                see(struct.unpack(">I", other.expect(call(20, session, number(9)))[:4])[0] == 1, "no object")
                return
            see(initialised == (OK, b""), "another code", initialised)
            # (it was initialised before the session came: all begins again)
            other.expect(call(9, number(0)))
            one.close()
            other.close()
            one, other = daemon.client(), daemon.client()
            with_pins(one)
            one.expect(create((CLASS, number(0)), (TOKEN, TRUE), (PRIVATE, FALSE)))
        see(False, "no session came meanwhile")


@check
def a_private_object_has_a_new_handle_after_a_logout(folder):
    with Daemon(folder) as daemon:
        client = daemon.client()
        with_pins(client)
        client.expect(login(1, USER))
        (old,) = struct.unpack(">Q", client.expect(create((CLASS, number(0)), (TOKEN, TRUE), (PRIVATE, TRUE))))
        client.expect(call(12, SESSION))
        client.expect(call(16, SESSION, number(old)), OBJECT_HANDLE)
        client.expect(login(1, USER))
        (new,) = found_by(client)
        see(new > old, "handles", old, new)
        client.expect(call(16, SESSION, number(old)), OBJECT_HANDLE)
        client.expect(call(16, SESSION, number(new)))


# ---- two worlds

SECRET, OTHER_SECRET = b"the value of one", b"that of the next"


def first_world(folder):
    """A token with both PINs, public objects, a sensitive key and a private object."""
    with Daemon(folder, store="first.db") as daemon:
        client = daemon.client()
        with_pins(client)
        client.expect(login(1, USER))
        client.expect(create((CLASS, number(0)), (TOKEN, TRUE), (PRIVATE, FALSE), (LABEL, b"shown"), (VALUE, b"to all")))
        client.expect(create((CLASS, number(0)), (TOKEN, TRUE), (PRIVATE, TRUE), (VALUE, b"a private one")))
        client.expect(key(SECRET, AES, (TOKEN, TRUE), (LABEL, b"a key"), (SENSITIVE, TRUE)))
        see(ran(folder, "backup", "--store", "first.db", "--to", "copy") == (0, b"", b""), "no copy")


def other_world(folder):
    """The same, but for the key's value, the private objects, and rows' ids."""
    tables, record, objects = stores.rows(os.path.join(folder, "copy"))
    kept = []
    for id_, body in objects:
        entries = stores.entries(body)
        if entries[PRIVATE] == TRUE:
            continue
        if entries[VALUE] == SECRET:
            entries[VALUE] = OTHER_SECRET
        kept.append((id_ + 40, stores.body_of(2, entries)))
    see(len(kept) == 2 and kept[1][1] != objects[2][1], "another store")
    stores.write(os.path.join(folder, "other.db"), tables, record, kept)
    os.chmod(os.path.join(folder, "other.db"), 0o600)


def asked_in(folder, store, beside):
    """What an application is answered, in bytes, beside one that does something else."""
    with Daemon(folder, store=store, path=store + ".s") as daemon:
        neighbour = daemon.client()
        beside(neighbour)
        client = daemon.client()
        told = []

        def ask(payload):
            told.append(client.ask(payload))
            return told[-1][1]

        ask(OPEN_SESSION)
        ask(call(10, SESSION))
        ask(call(1, number(0)))
        ask(call(19, SESSION, template()))
        found = ask(call(20, SESSION, number(1024)))
        ask(call(21, SESSION))
        see(found == handles(1, 2), "found", found.hex())
        ask(attributes(2, LABEL, VALUE, UNIQUE_ID))
        ask(call(16, SESSION, number(2)))
        for value in (SECRET, OTHER_SECRET):
            ask(call(19, SESSION, template((VALUE, value))))
            see(ask(call(20, SESSION, number(1024))) == handles(), "a sensitive key is found by its value")
            ask(call(21, SESSION))
        ask(call(18, SESSION, number(1), template((LABEL, b"another"))))
        ask(attributes(1, LABEL, VALUE))
        ask(call(14, SESSION, number(2), template((LABEL, b"a copy"))))
        ask(call(8, SESSION))
        return told


def idle(client):
    client.expect(OPEN_SESSION)


def busy(client):
    """Has sessions, is logged in, and makes and destroys private objects."""
    for _ in range(5):
        client.expect(OPEN_SESSION)
    client.expect(login(1, USER))
    for _ in range(3):
        made = client.expect(create((CLASS, number(0)), (TOKEN, TRUE), (PRIVATE, TRUE), (VALUE, b"mine")))
        client.expect(create((CLASS, number(0)), (PRIVATE, FALSE), (VALUE, b"of a session")))
    client.expect(call(15, SESSION, made))
    client.expect(began(30, CMAC, found_by(client, (CLASS, number(4)))[0]))


@check
def an_application_is_told_the_same_in_two_worlds_that_differ_where_it_may_not_see(folder):
    first_world(folder)
    other_world(folder)
    one, other = asked_in(folder, "first.db", idle), asked_in(folder, "other.db", busy)
    see(all(code in (OK, ATTRIBUTE_SENSITIVE) for code, _ in one), "codes", [hex(code) for code, _ in one])
    see(one == other, "it is told other bytes:", *(pair for pair in zip(one, other) if pair[0] != pair[1]))


if __name__ == "__main__":
    base.main()
