#!/usr/bin/env python3
"""Tries what the daemon logs of its applications: who did what, by which socket, and what anybody may cause.

Takes the program's path, and prints as `daemon.py` does, whose client and daemon it uses.
"""
import os
import re
import socket
import sys
import time

sys.dont_write_bytecode = True

import daemon as base
from daemon import (OK, OPEN_SESSION, PIN_INCORRECT, PIN_LOCKED, PROGRAM, SESSION, Client, Daemon, aes_key, call, check, data,
                    data_object, number, see)

# (its own checks alone)
base.CHECKS.clear()


def init_token(pin=b"officer", label=b"a label of the token".ljust(32)):
    return call(4, number(0), data(pin), data(label))


def login(user, pin):
    return call(11, SESSION, number(user), data(pin))


def logout():
    return call(12, SESSION)


def destroy(handle):
    return call(15, SESSION, handle)


def lines_of(daemon, until=None):
    """What was logged, without the first line, that the daemon serves, and what a slow machine adds."""
    return [it for it in daemon.errors(until).decode().splitlines() if " serves the store " not in it and " had no turn " not in it]


@check
def who_did_what_stands_in_the_record(folder):
    with Daemon(folder, "--log", "info") as daemon:
        client = daemon.client()
        client.expect(init_token())
        client.expect(OPEN_SESSION)
        client.expect(login(0, b"officer"))
        client.expect(call(5, SESSION, data(b"secret")))
        client.expect(call(6, SESSION, data(b"officer"), data(b"another")))
        client.expect(logout())
        client.expect(login(1, b"wrong"), PIN_INCORRECT)
        client.expect(login(1, b"secret"))
        first, second = (client.expect(it) for it in (data_object(b"a value of it"), aes_key(b"a sixteen-byte k")))
        client.expect(destroy(first))
        client.expect(destroy(second))
        client.close()
        said = lines_of(daemon, b" ends\n")
        app = re.fullmatch(r"<6>tokend: connection (\d+) begins", said[0])
        see(app, said)
        who = "connection " + app.group(1)
        see(said == [
            f"<6>tokend: {who} begins",
            f"<4>tokend: {who}: C_InitToken: the token is initialised, and the objects that it had are destroyed",
            f"<6>tokend: {who}: C_InitPIN: the user's PIN is set",
            f"<6>tokend: {who}: C_SetPIN: a PIN is changed",
            f"<6>tokend: {who}: C_Login: a wrong PIN",
            f"<6>tokend: {who}: object 1 is made",
            f"<6>tokend: {who}: object 2 is made",
            f"<6>tokend: {who}: object 1 is destroyed",
            f"<6>tokend: {who}: object 2 is destroyed",
            f"<6>tokend: {who} ends",
        ], said)
        text = "".join(said)
        see(not any(it in text for it in ("officer", "secret", "another", "label of", "value of", "sixteen")), "it names a secret")


@check
def a_pin_that_is_wrong_until_it_is_locked_stands_there(folder):
    with Daemon(folder, "--log", "info") as daemon:
        client = daemon.client()
        client.expect(init_token())
        client.expect(OPEN_SESSION)
        for _ in range(10):
            client.expect(login(0, b"wrong"), PIN_INCORRECT)
        client.expect(login(0, b"officer"), PIN_LOCKED)
        said = lines_of(daemon, b"is locked\n")
        see(sum(it.endswith(": C_Login: a wrong PIN") for it in said) == 10, said)
        see(sum(it.startswith("<4>tokend: connection ") and "the security officer's PIN had its tenth check" in it for it in said) == 1, said)
        see(sum(it.endswith(": C_Login: the PIN is locked") for it in said) == 1, said)


@check
def the_token_that_is_initialised_is_told_at_warn_and_the_rest_is_not(folder):
    with Daemon(folder) as daemon:
        client = daemon.client()
        client.expect(init_token())
        client.expect(OPEN_SESSION)
        client.expect(data_object())
        client.close()
        said = lines_of(daemon, b"C_InitToken")
        see(len(said) == 1 and ": C_InitToken: " in said[0] and said[0].startswith("<4>"), said)


@check
def calls_of_several_connections_have_each_its_own_number(folder):
    with Daemon(folder, "--log", "info", "--clients", "8") as daemon:
        clients = [daemon.client() for _ in range(24)]
        for client in clients:
            client.expect(OPEN_SESSION)
        made = {}
        for client in clients:
            for _ in range(3):
                client.expect(data_object())
        begun = [int(it) for it in re.findall(r"connection (\d+) begins", daemon.errors(b"object 72 is made").decode())]
        for app, id_ in re.findall(r"connection (\d+): object (\d+) is made", daemon.said.decode()):
            made.setdefault(int(app), []).append(int(id_))
        see(len(set(begun)) == 24 and sorted(made) == sorted(begun), begun, made)
        # (one after the other made three)
        see(sorted(made.values()) == [[3 * i + 1, 3 * i + 2, 3 * i + 3] for i in range(24)], made)


@check
def each_of_several_sockets_has_its_name_in_the_record(folder):
    with Daemon(folder, "--socket", "web.sock", "--log", "info") as daemon:
        for path in "s", "web.sock":
            see(f"on {path}\n".encode() in daemon.errors(b"on web.sock\n"), daemon.said)
        web, other = Client(os.path.join(folder, "web.sock")), daemon.client()
        for client in web, other:
            client.expect(OPEN_SESSION)
        first, second = web.expect(data_object()), other.expect(data_object())
        other.expect(destroy(number(1)) if first == second else destroy(second))
        web.close()
        text = daemon.errors(b" ends\n").decode()
        for name, what in (("web.sock", "begins"), ("s", "begins"), ("web.sock", "ends")):
            see(re.search(rf"<6>tokend: connection \d+ on {name} {what}\n", text), name, what, text)
        see(re.search(r"connection \d+ on web.sock: object 1 is made\n", text), text)
        see(re.search(r"connection \d+ on s: object 2 is made\n", text), text)


@check
def many_connections_at_three_sockets_are_all_served(folder):
    names = ["s", "b.sock", "c.sock"]
    with Daemon(folder, "--socket", "b.sock", "--socket", "c.sock", "--clients", "64") as daemon:
        clients = []
        for round_ in range(30):
            clients += [Client(os.path.join(folder, name)) for name in names]
        for client in clients:
            client.expect(OPEN_SESSION)
        for client in clients:
            client.close()
        again = [Client(os.path.join(folder, name)) for name in names]
        for client in again:
            see(client.expect(OPEN_SESSION) == SESSION, "another reply")
        see(daemon.run.poll() is None, "the daemon ended")


def handed_over(folder, names, fdnames=None, **how):
    """A daemon to which a service manager hands several sockets over."""
    listeners = []
    for name in names:
        listener = socket.socket(socket.AF_UNIX)
        listener.bind(os.path.join(folder, name))
        listener.listen()
        listeners.append(listener)
    fds = [it.fileno() for it in listeners]

    def before():
        for at, fd in enumerate(os.dup(it) for it in fds):
            os.dup2(fd, 200 + at)
        for at in range(len(fds)):
            os.dup2(200 + at, 3 + at)
        os.closerange(3 + len(fds), 400)

    given = f"LISTEN_FDNAMES={fdnames} " if fdnames else ""

    def argv(words):
        return ["sh", "-c", f'{given}LISTEN_FDS={len(fds)} LISTEN_PID=$$ exec "$0" "$@"', PROGRAM, *words]

    return Daemon(folder, "--log", "info", store=":memory:", path="nowhere/s", argv=argv, before=before, close_fds=False, **how)


@check
def several_sockets_that_are_handed_over_have_the_names_that_they_have_there(folder):
    with handed_over(folder, ["one", "two"], "backup:web") as daemon:
        for name, shown in ("one", "backup"), ("two", "web"):
            client = Client(os.path.join(folder, name))
            see(client.expect(OPEN_SESSION) == SESSION, "another reply")
            see(f"on {shown} begins\n".encode() in daemon.errors(f"on {shown} begins\n".encode()), daemon.said)
            client.close()


@check
def what_anybody_may_cause_is_counted_and_told_once_a_minute(folder):
    with Daemon(folder, "--clients", "64", store=":memory:") as daemon:
        begun = time.monotonic()
        for _ in range(500):
            client = daemon.client()
            client.stream.sendall(b"\xff\xff\xff\xff")
            see(client.stream.recv(1) == b"", "it goes on")
            client.close()
        see(daemon.errors(b"too long").count(b"\n") == 1, daemon.said)
        said = daemon.errors(b"more connections", 75).decode().splitlines()
        see(said[1:] == ["<4>tokend: 499 more connections were refused for their frames"], said)
        see(time.monotonic() - begun >= 58, "after", time.monotonic() - begun)


if __name__ == "__main__":
    base.main()
