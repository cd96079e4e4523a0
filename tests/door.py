#!/usr/bin/env python3
"""Tries who gets in: connections beside clients that never pause, what `tokend status` prints, what a service manager hears.

Takes the program's path, and prints as `daemon.py` does, whose client and daemon it uses.
"""
import contextlib
import os
import shutil
import socket
import statistics
import subprocess
import sys
import time

sys.dont_write_bytecode = True

import daemon as base
from daemon import (DEVICE_ERROR, FAILING_SYNC, NOBODY, OK, OPEN_SESSION, SECONDS, SESSION, TOP, Client, Daemon, Failed, Skipped, as_root,
                    call, check, data, data_object, number, ran, see)

TOKEN_INFO = call(1, number(0))
# (its own checks alone)
base.CHECKS.clear()

# A library whose fdatasync waits as long as a file is there.
WAITING_SYNC = FAILING_SYNC.replace('if (access(getenv("FAIL_SYNC"), F_OK) == 0) { errno = EIO; return -1; }',
                                    'while (access(getenv("FAIL_SYNC"), F_OK) == 0) usleep(10000);')


def compiled(folder, source, name, *flags):
    """A C program or library in a folder."""
    cc = shutil.which("cc")
    if not cc:
        raise Skipped("there is no C compiler")
    made = os.path.join(folder, name)
    subprocess.run([cc, "-O2", *flags, "-o", made, source], check=True)
    return made


def library(folder, text, name):
    source = os.path.join(folder, name + ".c")
    with open(source, "w", encoding="utf-8") as it:
        it.write(text)
    return compiled(folder, source, name + ".so", "-shared", "-fPIC", "-ldl")


@contextlib.contextmanager
def clients_without_pause(load, daemon, count, cores):
    """Meanwhile so many connections call without pause, on these processors."""
    with subprocess.Popen([load, daemon.path, "0", str(count), "20000000"], stdout=subprocess.DEVNULL, stderr=subprocess.PIPE,
                          preexec_fn=lambda: os.sched_setaffinity(0, cores)) as it:
        try:
            time.sleep(1)
            see(it.poll() is None, "they ended:", it.stderr.read() if it.poll() is not None else "")
            yield
        finally:
            it.kill()
            it.wait()


def waits(daemon, count):
    """How long new connections wait for their first answer, one after the other, in seconds."""
    seconds = []
    for _ in range(count):
        begun = time.monotonic()
        client = daemon.client()
        client.stream.settimeout(10)
        client.expect(TOKEN_INFO)
        seconds.append(time.monotonic() - begun)
        client.close()
    return seconds


@check
def a_new_connection_is_served_beside_clients_that_never_pause(folder):
    load = compiled(folder, os.path.join(TOP, "tests/measure/load.c"), "load", "-pthread")
    everywhere = os.sched_getaffinity(0)
    for cores in ({min(everywhere)}, everywhere):
        for clients in 16, 64:
            with Daemon(folder, "--clients", "64", store=":memory:", before=lambda cores=cores: os.sched_setaffinity(0, cores)) as daemon:
                with clients_without_pause(load, daemon, clients, cores):
                    seconds = waits(daemon, 100)
            half, most = statistics.median(seconds), max(seconds)
            print(f"beside {clients} on {len(cores)}: half within {half * 1000:.1f} ms, all within {most * 1000:.1f} ms", flush=True)
            see(half <= 0.1 and most <= 1, "beside", clients, "on", len(cores), "processors:", half, most)


@check
def connections_that_come_at_once_are_spread_and_served(folder):
    with Daemon(folder, "--clients", "64", store=":memory:") as daemon:
        clients = [daemon.client() for _ in range(256)]
        for client in clients:
            client.send(OPEN_SESSION)
        for client in clients:
            see(client.hear() == (OK, SESSION), "another reply")


@check
def an_idle_connection_is_ended_beside_one_that_never_pauses(folder):
    load = compiled(folder, os.path.join(TOP, "tests/measure/load.c"), "load", "-pthread")
    with Daemon(folder, "--clients", "2", "--idle", "2", store=":memory:") as daemon:
        idle = [daemon.client() for _ in range(4)]
        for client in idle:
            client.expect(OPEN_SESSION)
        with clients_without_pause(load, daemon, 4, os.sched_getaffinity(0)):
            for client in idle:
                client.stream.settimeout(10)
                see(client.stream.recv(1) == b"", "an idle connection is answered")


@check
def that_all_connections_are_taken_is_a_line_a_minute(folder):
    with Daemon(folder, store=":memory:") as daemon:
        clients = [daemon.client() for _ in range(4)]
        for client in clients:
            client.expect(OPEN_SESSION)
        time.sleep(4)
        said = daemon.errors()
        see(said == b"<4>tokend: all 4 connections are taken: who connects now waits until one ends\n", said)


def stands(folder, path, status, text, **how):
    """What `tokend status` prints of a socket: one line, within a second."""
    begun = time.monotonic()
    found = ran(folder, "status", "--socket", path, **how)
    took = time.monotonic() - begun
    see(found[0] == status and found[2] == b"" and found[1] == f"{path}: {text}\n".encode(), "status", found)
    see(took < 1.2, "it took", took, "seconds")


@check
def the_status_of_a_daemon_that_serves_is_its_tokens(folder):
    with Daemon(folder, store=":memory:") as daemon:
        stands(folder, "s", 0, "serves, and its token is not initialised")
        client = daemon.client()
        client.expect(call(4, number(0), data(b"officer"), data(b'a "token"'.ljust(32))))
        start = 'serves the token "a \\"token\\""; the user\'s PIN '
        stands(folder, "s", 0, start + "is not set, the security officer's is set; 0 sessions of this connection")
        client.expect(OPEN_SESSION)
        client.expect(call(11, SESSION, number(0), data(b"officer")))
        client.expect(call(5, SESSION, data(b"secret")))
        client.expect(call(12, SESSION))
        stands(folder, "s", 0, start + "is set, the security officer's is set; 0 sessions of this connection")
        for _ in range(10):
            client.ask(call(11, SESSION, number(1), data(b"wrong")))
        stands(folder, "s", 0, start + "is locked, the security officer's is set; 0 sessions of this connection")


@check
def the_status_of_a_daemon_that_cannot_be_reached_has_its_cause(folder):
    stands(folder, "s", 4, "there is no such file")
    with open(os.path.join(folder, "file"), "wb"):
        pass
    stands(folder, "file", 4, "it is no socket")
    with Daemon(folder, store=":memory:"):
        pass
    stands(folder, "s", 4, "nobody listens")


@check
def the_status_of_a_daemon_whose_connections_are_taken_says_so(folder):
    with Daemon(folder, store=":memory:") as daemon:
        clients = [daemon.client() for _ in range(4)]
        for client in clients:
            client.expect(OPEN_SESSION)
        stands(folder, "s", 8, "no answer in a second: all connections are taken, or the daemon hangs")
    # (a socket that nobody accepts from, whose queue is full)
    with socket.socket(socket.AF_UNIX) as listener:
        listener.bind(os.path.join(folder, "full"))
        listener.listen(0)
        with contextlib.ExitStack() as waiting:
            for _ in range(2):
                client = waiting.enter_context(socket.socket(socket.AF_UNIX))
                client.setblocking(False)
                with contextlib.suppress(BlockingIOError):
                    client.connect(os.path.join(folder, "full"))
            stands(folder, "full", 8, "no answer in a second: all connections are taken, or the daemon hangs")


@check
def the_status_without_permission_names_who_has_it(folder):
    as_root()
    os.chmod(folder, 0o755)
    as_nobody = {"user": NOBODY, "group": NOBODY, "extra_groups": []}
    with Daemon(folder, "--socket-mode", "660", store=":memory:") as daemon:
        os.chown(daemon.path, 0, 1)
        stands(folder, "s", 9, "no permission: members of the group daemon (1) may connect", **as_nobody)
        os.chown(daemon.path, 0, 54321)
        stands(folder, "s", 9, "no permission: members of the group 54321 may connect", **as_nobody)
        os.chmod(daemon.path, 0o600)
        stands(folder, "s", 9, "no permission: the user 0 alone may connect", **as_nobody)
        os.chmod(folder, 0o700)
        path = os.path.join(folder, "s")
        stands("/", path, 9, "no permission: a folder above it cannot be entered", **as_nobody)
        os.chmod(folder, 0o755)


class Manager:
    """A service manager's socket."""

    def __init__(self, folder):
        self.path = os.path.join(folder, "notify")
        self.stream = socket.socket(socket.AF_UNIX, socket.SOCK_DGRAM)
        self.stream.bind(self.path)

    def until(self, line, seconds=SECONDS):
        """The lines of the datagrams up to one that has this line. None where none comes."""
        end, heard = time.monotonic() + seconds, []
        while time.monotonic() < end:
            self.stream.settimeout(max(0.01, end - time.monotonic()))
            try:
                lines = self.stream.recv(4096).decode().splitlines()
            except TimeoutError:
                return None
            heard += lines
            if line in lines:
                return heard
        return None

    def __enter__(self):
        return self

    def __exit__(self, *_):
        self.stream.close()


@check
def a_service_manager_hears_of_objects_and_connections(folder):
    with Manager(folder) as manager:
        with Daemon(folder, "--clients", "2", "--connections", "1", env={"NOTIFY_SOCKET": manager.path}) as daemon:
            see(manager.until("STATUS=0 objects, 0 of 8 connections"), "nothing of the start")
            clients = [daemon.client() for _ in range(2)]
            for client in clients:
                client.expect(OPEN_SESSION)
            for _ in range(3):
                clients[0].expect(data_object())
            see(manager.until("STATUS=3 objects, 2 of 8 connections"), "nothing of what came")
            clients[0].expect(call(15, SESSION, number(1)))
            clients[1].close()
            heard = manager.until("STATUS=2 objects, 1 of 8 connections")
            see(heard and "WATCHDOG=1" not in heard, "nothing of what is gone", heard)
            clients[0].close()
            for _ in range(2):
                daemon.client().close()
            see(manager.until("STOPPING=1"), "nothing of the end")
            see(daemon.end()[0] == 0, daemon.said)
        with Daemon(folder, env={"NOTIFY_SOCKET": manager.path}):
            see(manager.until("STATUS=2 objects, 0 of 4 connections"), "nothing of a later start")


@check
def a_service_manager_hears_that_the_store_failed(folder):
    with base.small_disk(folder, "300k") as disk, Manager(folder) as manager:
        with Daemon(disk, env={"NOTIFY_SOCKET": manager.path}) as daemon:
            client, made = daemon.client(), 0
            client.expect(OPEN_SESSION)
            while (code := client.ask(data_object(bytes(1000)))[0]) == OK:
                made += 1
            see(code == DEVICE_ERROR, "code", hex(code))
            see(manager.until(f"STATUS=the store failed; {made} objects, 1 of 4 connections"), "nothing of the failure")


@check
def a_watchdog_hears_of_a_daemon_until_its_token_hangs(folder):
    waiting, sign = library(folder, WAITING_SYNC, "waiting"), os.path.join(folder, "wait")
    with Manager(folder) as manager:
        env = {"NOTIFY_SOCKET": manager.path, "WATCHDOG_USEC": "10000000", "LD_PRELOAD": waiting, "FAIL_SYNC": sign}
        with Daemon(folder, env=env) as daemon:
            for _ in range(3):
                see(manager.until("WATCHDOG=1", 10), "nothing")
            client, other = daemon.client(), daemon.client()
            client.expect(OPEN_SESSION)
            other.expect(OPEN_SESSION)
            with open(sign, "wb"):
                pass
            client.send(data_object())
            see(b"<3>tokend: a worker had no turn for 5 seconds: " in daemon.errors(b"no turn", 20), daemon.said)
            # (what was sent before that)
            time.sleep(0.5)
            while manager.until("WATCHDOG=1", 0.05):
                pass
            see(manager.until("WATCHDOG=1", 4) is None, "it says that it lives")
            os.remove(sign)
            see(client.hear()[0] == OK, "another reply")
            see(manager.until("WATCHDOG=1", 10), "it says nothing any more")
        env["WATCHDOG_PID"] = "1"
        with Daemon(folder, env=env):
            see(manager.until("WATCHDOG=1", 4) is None, "it speaks for another process")


if __name__ == "__main__":
    base.main()
