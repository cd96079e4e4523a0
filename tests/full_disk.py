#!/usr/bin/env python3
"""Tries a disk that is full: PINs and removals go on, objects come back with the space, and a restart is no refusal.

Takes the program's path, and prints as `daemon.py` does, whose client and daemon it uses. It mounts small file systems, so it is root's.
"""
import contextlib
import os
import sys

sys.dont_write_bytecode = True

import daemon as base
from daemon import DEVICE_ERROR, OK, OPEN_SESSION, PIN_INCORRECT, SESSION, Daemon, call, check, data, data_object, found, number, see, small_disk
from record import destroy, init_token, login, logout

# (its own checks alone)
base.CHECKS.clear()

RESERVE = "token.db-reserve"


def fill(disk):
    """Takes what space there is, down to the last block."""
    with open(os.path.join(disk, "filler"), "ab", 0) as file, contextlib.suppress(OSError):
        for size in (1 << 16, 1 << 12, 1):
            with contextlib.suppress(OSError):
                while True:
                    file.write(bytes(size))


def empty(disk):
    os.remove(os.path.join(disk, "filler"))


def set_up(client):
    client.expect(init_token())
    client.expect(OPEN_SESSION)
    client.expect(login(0, b"officer"))
    client.expect(call(5, SESSION, data(b"secret")))
    client.expect(logout())


def make_until_full(daemon, client):
    """The handles of what could be made. What is logged meanwhile is read, so that the daemon can go on with it."""
    handles = []
    for at in range(5000):
        if at % 100 == 0:
            daemon.errors()
        code, fields = client.ask(data_object(bytes(1000)))
        if code == DEVICE_ERROR:
            return handles
        see(code == OK, hex(code))
        handles.append(fields)
    see(False, "the disk has no end")
    return handles


def pins_and_removals(daemon, client, handles):
    """What goes on, many times more than a log has room for."""
    for turn in range(60):
        daemon.errors()
        client.expect(login(1, b"wrong"), PIN_INCORRECT)
        client.expect(login(1, b"secret"))
        client.expect(call(6, SESSION, data(b"secret"), data(b"another")))
        client.expect(call(6, SESSION, data(b"another"), data(b"secret")))
        client.expect(logout())
        client.expect(login(0, b"officer"))
        client.expect(call(5, SESSION, data(b"secret")))
        client.expect(logout())
        client.expect(destroy(handles[turn]))


@check
def whoever_fills_the_disk_locks_nobody_out(folder):
    with small_disk(folder, "2m") as disk, Daemon(disk) as daemon:
        client = daemon.client()
        set_up(client)
        handles = make_until_full(daemon, client)
        see(len(handles) > 100, len(handles))
        fill(disk)
        pins_and_removals(daemon, client, handles)
        see(found(daemon) == len(handles) - 60, "other objects")
        said = daemon.errors(b"is removed")
        see(said.count(b"the disk is full: ") == 1 and f"{RESERVE} is removed".encode() in said, said)


@check
def what_fills_the_disk_beside_the_store_locks_nobody_out(folder):
    with small_disk(folder, "2m") as disk, Daemon(disk) as daemon:
        client = daemon.client()
        set_up(client)
        handles = [client.expect(data_object(bytes(1000))) for _ in range(100)]
        fill(disk)
        pins_and_removals(daemon, client, handles)
        see(found(daemon) == 40, "other objects")


@check
def no_object_is_made_or_changed_without_the_reserve(folder):
    with small_disk(folder, "3m") as disk, Daemon(disk, "--log", "info") as daemon:
        client = daemon.client()
        set_up(client)
        with open(os.path.join(disk, "filler"), "wb") as file:
            file.write(bytes(700_000))
        handles = make_until_full(daemon, client)
        fill(disk)
        pins_and_removals(daemon, client, handles)
        see(not os.path.exists(os.path.join(disk, RESERVE)), "the reserve was not used")
        label = call(18, SESSION, handles[100], base.template((0x3, b"a label")))
        for _ in range(20):
            client.expect(data_object(b"one more"), DEVICE_ERROR)
            client.expect(label, DEVICE_ERROR)
        see(not os.path.exists(os.path.join(disk, RESERVE)), "a reserve in part is left")
        said = daemon.errors(b"there is no room for")
        see(said.count(b"no object is made or changed, since there is no room for") == 1, said)
        client.expect(login(1, b"secret"))
        empty(disk)
        client.expect(data_object(b"one more"))
        client.expect(label)
        see(os.path.getsize(os.path.join(disk, RESERVE)) == 1 << 19, "no reserve")
        daemon.errors(b"there is room again")
        see(daemon.said.count(b"there is room again") == 1, daemon.said)


@check
def a_daemon_starts_on_a_full_disk(folder):
    with small_disk(folder, "2m") as disk:
        with Daemon(disk) as daemon:
            client = daemon.client()
            set_up(client)
            handles = make_until_full(daemon, client)
            fill(disk)
        for start in range(5):
            # (killed each time, so that the log has what the file hasn't)
            with Daemon(disk) as daemon:
                client = daemon.client()
                client.expect(OPEN_SESSION)
                client.expect(login(1, b"wrong"), PIN_INCORRECT)
                client.expect(login(1, b"secret"))
                see(found(daemon) == len(handles), "other objects")
                fill(disk)


@check
def a_log_that_cannot_be_copied_is_no_refusal(folder):
    with small_disk(folder, "2m") as disk:
        with Daemon(disk) as daemon:
            client = daemon.client()
            set_up(client)
            handles = make_until_full(daemon, client)
        # (neither the reserve nor any other space is left for the copying of the log)
        os.remove(os.path.join(disk, RESERVE))
        fill(disk)
        for _ in range(3):
            with Daemon(disk) as daemon:
                see(found(daemon) == len(handles), "other objects")
                said = daemon.errors(b"no room for")
                see(b"no object is made or changed, since there is no room for" in said, said)
                client = daemon.client()
                client.expect(OPEN_SESSION)
                client.expect(data_object(b"one more"), DEVICE_ERROR)
        empty(disk)
        with Daemon(disk) as daemon:
            client = daemon.client()
            client.expect(OPEN_SESSION)
            client.expect(login(1, b"secret"))
            client.expect(data_object(b"one more"))
            see(found(daemon) == len(handles) + 1, "other objects")


if __name__ == "__main__":
    base.main()
