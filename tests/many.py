#!/usr/bin/env python3
"""Tries the daemon with many connections at once: which are answered, what memory they take, when they are ended.

Takes the program's path, and prints as `daemon.py` does, whose client and daemon it uses.
"""
import contextlib
import os
import re
import select
import socket
import struct
import subprocess
import sys
import time

sys.dont_write_bytecode = True

import daemon as base
from daemon import OK, OPEN_SESSION, PIN_LOCKED, SECONDS, SESSION, Daemon, call, check, data, number, ran, see, template

FUNCTION_NOT_SUPPORTED = 0x54
# (its own checks alone)
base.CHECKS.clear()

# The calls of a first run, which encrypts the block of FIPS 197, C.1, and the fields of their replies.
ENCRYPTING = (
    (call(22, SESSION, b"\x01", number(0x1081), data(b""), number(1)), b""),
    (call(23, SESSION, data(bytes.fromhex("00112233445566778899aabbccddeeff")), b"\x01", number(16)),
     b"\x01" + data(bytes.fromhex("69c4e0d86a7b0430d8cdb78070b4c55a"))),
)
FIRST_RUN = (
    (OPEN_SESSION, SESSION),
    (call(13, SESSION, template((0x0, number(4)), (0x100, number(0x1F)), (0x2, b"\x00"), (0x11, bytes(range(16))))), number(1)),
    *ENCRYPTING,
)


def play_all(clients, rows):
    """Each row is sent by all clients, and then heard by each."""
    for payload, fields in rows:
        for client in clients:
            client.send(payload)
        for client in clients:
            got = client.hear()
            see(got == (OK, fields), "another reply:", got)


def memory_of(daemon):
    """How many bytes of memory the daemon has now."""
    with open(f"/proc/{daemon.run.pid}/status", encoding="ascii") as it:
        found = re.search(r"^VmRSS:\s+(\d+) kB$", it.read(), re.M)
    return int(found.group(1)) * 1024


@check
def connections_at_once_are_each_answered(folder):
    with Daemon(folder, "--clients", "64") as daemon:
        clients = [daemon.client() for _ in range(256)]
        play_all(clients, FIRST_RUN)
        more = daemon.client()
        more.send(OPEN_SESSION)
        see(not select.select([more.stream], [], [], 0.5)[0], "the connection after the last place is answered")
        play_all(clients, ENCRYPTING)
        clients.pop().close()
        see(more.hear() == (OK, SESSION), "the place of one that left is not taken")
        play_all(clients, ENCRYPTING)


@check
def a_connection_that_ends_behind_its_call_is_answered_and_ended(folder):
    for words in (), ("--clients", "2"):
        with Daemon(folder, *words, store=":memory:") as daemon:
            for _ in range(200):
                client = daemon.client()
                client.send(OPEN_SESSION)
                client.stream.shutdown(socket.SHUT_WR)
                see(client.hear() == (OK, SESSION), "another reply")
                see(client.stream.recv(1) == b"", "more than a reply")
                client.close()


@contextlib.contextmanager
def busy_processors():
    """Meanwhile each processor has a process that only computes."""
    others = [subprocess.Popen([sys.executable, "-c", "while True: pass"]) for _ in os.sched_getaffinity(0)]
    try:
        yield
    finally:
        for it in others:
            it.kill()
            it.wait()


@check
def calls_stay_quick_beside_processes_that_only_compute(folder):
    # A daemon that gave away its turn at each call would take five milliseconds or more for it.
    with Daemon(folder, store=":memory:") as daemon:
        client = daemon.client()
        play_all([client], FIRST_RUN)
        with busy_processors():
            time.sleep(0.2)
            begun = time.monotonic()
            for _ in range(1000):
                play_all([client], ENCRYPTING)
            took = time.monotonic() - begun
        see(took < 2, "two thousand calls take", took, "seconds")


@check
def connections_that_read_nothing_take_little_memory(folder):
    # By the daemon's account a connection without long frames takes less than 1/2 MiB.
    count, calls, each = 252, 16, 2**19
    with Daemon(folder, "--clients", "64", store=":memory:") as daemon:
        others = [daemon.client() for _ in range(4)]
        play_all(others, FIRST_RUN)
        before = memory_of(daemon)
        silent = [daemon.client() for _ in range(count)]
        play_all(silent, FIRST_RUN[:1])
        for client in silent:
            client.stream.sendall(b"".join(data(call(41, SESSION, number(32768 - it))) for it in range(calls)))
        for _ in range(10):
            play_all(others, ENCRYPTING)
        grown = memory_of(daemon) - before
        see(grown < count * each, "it has grown by", grown)
        for client in silent:
            for it in range(calls):
                code, fields = client.hear()
                see(code == OK and len(fields) == 4 + 32768 - it, "reply", it, "has", len(fields))
        play_all(others, ENCRYPTING)
        grown = memory_of(daemon) - before
        see(grown < count * each, "at last it has grown by", grown)


@check
def memory_of_long_frames_is_given_back(folder):
    # By the daemon's account a connection takes at most 4 MiB for what it reads and 2 MiB for a reply.
    count, each, left = 64, 6 * 2**20, 32 * 2**20
    with Daemon(folder, "--clients", "17", store=":memory:") as daemon:
        others = [daemon.client() for _ in range(4)]
        play_all(others, FIRST_RUN)
        before = memory_of(daemon)
        long = [daemon.client() for _ in range(count)]
        for client in long:
            client.expect(OPEN_SESSION)
            # (a frame at the limit, of which the last byte is missing)
            client.stream.sendall(struct.pack(">I", 2**20) + bytes(2**20 - 1))
        play_all(others, ENCRYPTING)
        grown = memory_of(daemon) - before
        see(grown < count * each, "it has grown by", grown)
        for client in long:
            client.stream.sendall(b"\x00")
            see(client.hear() == (FUNCTION_NOT_SUPPORTED, b""), "another reply to a long frame of no function")
            client.expect(call(10, SESSION))
        grown = memory_of(daemon) - before
        see(grown < left, "it keeps", grown)
        play_all(others, ENCRYPTING)


@check
def a_connection_that_is_idle_is_ended_with_a_line(folder):
    with Daemon(folder, "--clients", "2", "--idle", "2", "--log", "info", store=":memory:") as daemon:
        idle = [daemon.client() for _ in range(4)]
        play_all(idle, FIRST_RUN[:1])
        busy = [daemon.client() for _ in range(4)]
        play_all(busy, FIRST_RUN)
        begun, over = time.monotonic(), set()
        while len(over) < len(idle) and time.monotonic() < begun + SECONDS:
            play_all(busy, ENCRYPTING)
            for it in select.select([client.stream for client in idle if client not in over], [], [], 0.1)[0]:
                see(it.recv(1) == b"", "an idle connection is answered")
                over.add(next(client for client in idle if client.stream is it))
        see(len(over) == len(idle), "only", len(over), "are ended")
        see(time.monotonic() > begun + 1, "they are ended at once")
        play_all(busy, ENCRYPTING)
        see(daemon.errors(b"nothing came").count(b"is ended: nothing came of it for too long\n") == len(idle), daemon.said)


@check
def a_connection_that_reads_nothing_is_idle_too(folder):
    with Daemon(folder, "--idle", "2", "--log", "info", store=":memory:") as daemon:
        client = daemon.client()
        client.expect(OPEN_SESSION)
        client.stream.sendall(b"".join(data(call(41, SESSION, number(32768))) for _ in range(256)))
        said = daemon.errors(b"nothing came", SECONDS)
        see(b"is ended: nothing came of it for too long\n" in said, said)
        # (what it had not read yet is there, and no more)
        got = 0
        while more := client.stream.recv(65536):
            got += len(more)
        see(got < 256 * 32768, "it was answered", got, "bytes")


def login(pin):
    """C_Login of the user in session 1."""
    return call(11, SESSION, number(1), data(pin))


def flags_of(client):
    """The flags of the user's PIN in the token's: tries, the last try, locked."""
    return struct.unpack(">Q", client.expect(call(1, number(0)))[32:40])[0] & 0x70000


@contextlib.contextmanager
def with_one_place(folder):
    """A daemon of a token with both PINs. Three of its four places are taken. So others come to the fourth one after the other."""
    with Daemon(folder, store=":memory:") as daemon:
        staying = [daemon.client() for _ in range(3)]
        staying[0].expect(call(4, number(0), data(b"officer"), data(b" " * 32)))
        play_all(staying, FIRST_RUN[:1])
        for payload in (call(11, SESSION, number(0), data(b"officer")), call(5, SESSION, data(b"secret")), call(12, SESSION)):
            staying[0].expect(payload)
        yield daemon


def lose(daemon, pin):
    """A connection that has a PIN checked, and is gone before the reply."""
    lost = daemon.client()
    lost.expect(OPEN_SESSION)
    lost.send(login(pin))
    lost.close()


@check
def checks_of_connections_that_are_lost_stay_tries(folder):
    with with_one_place(folder) as daemon:
        for count, flags, code, left in ((1, 0x10000, OK, 0), (9, 0x30000, OK, 0), (10, 0x50000, PIN_LOCKED, 0x50000)):
            for _ in range(count):
                lose(daemon, b"wrong")
            client = daemon.client()
            see(flags_of(client) == flags, "after", count, "flags", hex(flags_of(client)))
            client.expect(OPEN_SESSION)
            client.expect(login(b"secret"), code)
            see(flags_of(client) == left, "after the right PIN flags", hex(flags_of(client)))
            client.close()


@check
def a_right_check_of_a_connection_that_is_lost_ends_and_sets_the_tries(folder):
    with with_one_place(folder) as daemon:
        for _ in range(9):
            lose(daemon, b"wrong")
        client = daemon.client()
        see(flags_of(client) == 0x30000, "flags", hex(flags_of(client)))
        client.close()
        lose(daemon, b"secret")
        client = daemon.client()
        see(flags_of(client) == 0, "after the right PIN flags", hex(flags_of(client)))
        # (nobody is logged in by it)
        client.expect(OPEN_SESSION)
        state = struct.unpack(">Q", client.expect(call(10, SESSION))[8:16])[0]
        see(state == 2, "state", state)


def logins_before_short_calls(slow, quick):
    """How many of the slow clients' logins are answered before the last short call, which comes after all of them. Then they log out."""
    for client in slow:
        client.send(login(b"secret"))
    for client in quick:
        client.send(call(10, SESSION))
    waiting, logins = {client.stream: client for client in slow + quick}, 0
    while any(client in quick for client in waiting.values()):
        for stream in select.select(list(waiting), [], [], SECONDS)[0]:
            client = waiting.pop(stream)
            see(client.hear()[0] == OK, "a call is refused")
            logins += client in slow
    for client in waiting.values():
        see(client.hear()[0] == OK, "a login is refused")
    for client in slow:
        client.expect(call(12, SESSION))
    return logins


@check
def short_calls_are_answered_before_logins_that_came_first(folder):
    with Daemon(folder, "--clients", "8", store=":memory:") as daemon:
        clients = [daemon.client() for _ in range(32)]
        clients[0].expect(call(4, number(0), data(b"officer"), data(b" " * 32)))
        play_all(clients, FIRST_RUN[:1])
        for payload in (call(11, SESSION, number(0), data(b"officer")), call(5, SESSION, data(b"secret")), call(12, SESSION)):
            clients[0].expect(payload)
        # (each of the four workers has four of each kind, and at least three logins wait; on a busy machine some wait too long and begin)
        fewest, rounds = 16, 0
        while fewest > 10 and rounds < 8:
            fewest, rounds = min(fewest, logins_before_short_calls(clients[:16], clients[16:])), rounds + 1
        see(fewest <= 10, "logins that were answered before the last short call, the fewest of", rounds, "rounds:", fewest)


@check
def numbers_of_clients_and_seconds_that_are_none_are_refused(folder):
    for words in (("--clients", "0"), ("--clients", "65"), ("--clients", "x"), ("--idle", "0"), ("--idle", "x")):
        status, output, errors = ran(folder, "serve", "--store", ":memory:", "--socket", "s", *words)
        see((status, output) == (2, b"") and errors, words, status, output, errors)


if __name__ == "__main__":
    base.main()
