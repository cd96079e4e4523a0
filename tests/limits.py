#!/usr/bin/env python3
"""Tries what the daemon lets nobody have too much of: objects of a store, and memory in a core dump.

Takes the program's path, and prints as `daemon.py` does, whose client and daemon it uses.
"""
import glob
import os
import resource
import signal
import sys
import time

sys.dont_write_bytecode = True

import daemon as base
from daemon import (DEVICE_ERROR, OK, OPEN_SESSION, PUBLIC_TOKEN_OBJECT, SESSION, Daemon, Skipped, aes_key, call, check, data, data_object,
                    found, number, ran, see, small_disk, template)

# (its own checks alone)
base.CHECKS.clear()

MANY = b"objects, as many as --max-objects allows: a new one is refused until one is destroyed\n"


def destroy(handle):
    """C_DestroyObject in session 1."""
    return call(15, SESSION, number(handle))


@check
def an_object_beyond_the_limit_is_refused_and_all_else_goes_on(folder):
    with Daemon(folder, "--max-objects", "3") as daemon:
        client = daemon.client()
        client.expect(call(4, number(0), data(b"officer"), data(b" " * 32)))
        client.expect(OPEN_SESSION)
        for _ in range(3):
            client.expect(data_object())
        client.expect(data_object(), DEVICE_ERROR)
        client.expect(aes_key(bytes(16)), DEVICE_ERROR)
        # (a session object is none of the store's)
        client.expect(call(13, SESSION, template((0x0, number(0)), (0x1, b"\x00"))))
        client.expect(call(11, SESSION, number(0), data(b"officer")))
        client.expect(call(5, SESSION, data(b"secret")))
        client.expect(call(12, SESSION))
        said = daemon.errors(MANY).splitlines(True)
        see(said[1:] == [b"<4>tokend: there are 3 " + MANY] and b"C_InitToken" in said[0], said)
        client.expect(destroy(1))
        client.expect(data_object())
        client.expect(data_object(), DEVICE_ERROR)
    # A store that has more already.
    with Daemon(folder, "--max-objects", "2") as daemon:
        see(found(daemon) == 3, "other objects")
        client = daemon.client()
        client.expect(OPEN_SESSION)
        client.expect(call(19, SESSION, template()))
        client.expect(call(20, SESSION, number(9)))
        for handle in 1, 2:
            client.expect(data_object(), DEVICE_ERROR)
            client.expect(destroy(handle))
        client.expect(data_object())
        client.expect(data_object(), DEVICE_ERROR)
    with Daemon(folder, "--max-objects", "0") as daemon:
        client = daemon.client()
        client.expect(OPEN_SESSION)
        client.expect(data_object(), DEVICE_ERROR)


@check
def a_limit_keeps_the_disk_from_being_full(folder):
    with small_disk(folder, "2m") as disk, Daemon(disk, "--max-objects", "100") as daemon:
        client = daemon.client()
        client.expect(OPEN_SESSION)
        codes = [client.ask(data_object(bytes(1000)))[0] for _ in range(200)]
        see(codes == [OK] * 100 + [DEVICE_ERROR] * 100, codes)
        for handle in range(1, 101):
            client.expect(destroy(handle))
        client.expect(data_object(bytes(1000)))


@check
def a_limit_that_is_none_is_refused(folder):
    for words in (("--max-objects", "x"), ("--max-objects", "-1")):
        status, output, errors = ran(folder, "serve", "--store", "token.db", "--socket", "s", *words)
        see((status, output) == (2, b"") and errors, words, status, output, errors)
    status, _, errors = ran(folder, "serve", "--store", ":memory:", "--socket", "s", "--max-objects", "9")
    see(status == 2 and b"because --max-objects goes with a store in a file\n" in errors, status, errors)


@check
def a_core_dump_has_no_key(folder):
    with open("/proc/sys/kernel/core_pattern", encoding="ascii") as it:
        pattern = it.read().strip()
    if "/" in pattern or pattern.startswith("|"):
        raise Skipped(f"cores go elsewhere: {pattern}")
    # (longer than what a register may have of it)
    value = os.urandom(512)

    def before():
        resource.setrlimit(resource.RLIMIT_CORE, (resource.RLIM_INFINITY, resource.RLIM_INFINITY))

    with Daemon(folder, before=before) as daemon:
        client = daemon.client()
        client.expect(OPEN_SESSION)
        client.expect(call(13, SESSION, template((0x0, number(4)), (0x100, number(0x10)), *PUBLIC_TOKEN_OBJECT, (0x11, value))))
        daemon.run.send_signal(signal.SIGABRT)
        daemon.run.wait()
    time.sleep(0.1)
    cores = glob.glob(os.path.join(folder, "core*"))
    if not cores:
        raise Skipped("no core is written here")
    for core in cores:
        with open(core, "rb") as it:
            see(value not in it.read(), "a core dump has a key")


if __name__ == "__main__":
    base.main()
