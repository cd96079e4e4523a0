#!/usr/bin/env python3
"""Tries the daemon from outside: modes, other users, other programs, a service manager, a disk that is full or fails.

Takes the program's path. Prints a line for each check, `ok NAME`, `FAILED NAME: why` or `skipped NAME: why`, and last how many of each.
"""
import contextlib
import os
import re
import select
import shutil
import socket
import sqlite3
import stat
import struct
import subprocess
import sys
import tempfile
import threading
import time

sys.dont_write_bytecode = True

from frames import call, data, number, parts, template

PROGRAM = os.path.abspath(sys.argv[1]) if len(sys.argv) == 2 else sys.exit(__doc__)
if not os.access(PROGRAM, os.X_OK):
    sys.exit(f"daemon.py: no program: {PROGRAM}")
TOP = os.path.dirname(os.path.dirname(os.path.abspath(__file__)))
NOBODY = 65534
SECONDS = 60
OK, DEVICE_ERROR, PIN_INCORRECT, PIN_LOCKED = 0, 0x30, 0xA0, 0xA4
CHECKS = []

# A library that fails each fdatasync once a file is there.
FAILING_SYNC = r"""
#define _GNU_SOURCE
#include <dlfcn.h>
#include <errno.h>
#include <stdlib.h>
#include <unistd.h>

int fdatasync(int fd) {
    static int (*real)(int);
    if (access(getenv("FAIL_SYNC"), F_OK) == 0) { errno = EIO; return -1; }
    if (!real) real = dlsym(RTLD_NEXT, "fdatasync");
    return real(fd);
}
"""


class Failed(Exception):
    pass


class Skipped(Exception):
    pass


def check(function):
    CHECKS.append(function)
    return function


def see(is_so, *why):
    if not is_so:
        raise Failed(" ".join(str(it) for it in why))


SESSION = number(1)
OPEN_SESSION = call(7, number(0), number(6))
PUBLIC_TOKEN_OBJECT = ((0x1, b"\x01"), (0x2, b"\x00"))


def data_object(value=b""):
    return call(13, SESSION, template((0x0, number(0)), *PUBLIC_TOKEN_OBJECT, (0x11, value)))


def aes_key(value):
    return call(13, SESSION, template((0x0, number(4)), (0x100, number(0x1F)), *PUBLIC_TOKEN_OBJECT, (0x11, value)))


class Client:
    """A connection: an application."""

    def __init__(self, path):
        self.stream = socket.socket(socket.AF_UNIX)
        self.stream.settimeout(SECONDS)
        self.stream.connect(path)

    def ask(self, payload):
        """The code of the reply, and its fields."""
        self.send(payload)
        return self.hear()

    def send(self, payload):
        self.stream.sendall(data(payload))

    def hear(self):
        """The code of the next reply, and its fields."""
        return parts(self.take(struct.unpack(">I", self.take(4))[0]))

    def take(self, count):
        got = b""
        while len(got) < count:
            more = self.stream.recv(count - len(got))
            see(more, "the daemon ended the connection")
            got += more
        return got

    def expect(self, payload, code=OK):
        got, fields = self.ask(payload)
        see(got == code, "code", hex(got), "and not", hex(code))
        return fields

    def close(self):
        self.stream.close()


class Daemon:
    """A running daemon in a folder."""

    def __init__(self, folder, *words, store="token.db", path="s", env=None, before=None, argv=None, seconds=SECONDS, **how):
        self.folder, self.path = folder, os.path.join(folder, path)
        words = ["serve", "--store", store, "--socket", path, *words]
        self.run = subprocess.Popen(
            argv(words) if argv else [PROGRAM, *words], cwd=folder, env={**os.environ, **(env or {})}, preexec_fn=before,
            stdin=subprocess.DEVNULL, stdout=subprocess.PIPE, stderr=subprocess.PIPE, **how)
        os.set_blocking(self.run.stderr.fileno(), False)
        self.said = b""
        self.first = self.run.stdout.readline() if select.select([self.run.stdout], [], [], seconds)[0] else b""

    def client(self):
        return Client(self.path)

    def errors(self, until=None, seconds=10):
        """What stands on standard error, once it has a text or the time is over."""
        end = time.monotonic() + seconds
        while True:
            with contextlib.suppress(BlockingIOError):
                self.said += self.run.stderr.read() or b""
            if until is None or until in self.said or time.monotonic() > end or self.run.poll() is not None:
                break
            time.sleep(0.02)
        with contextlib.suppress(BlockingIOError):
            self.said += self.run.stderr.read() or b""
        return self.said

    def stop(self):
        """Kills it, and returns what it logged."""
        self.run.kill()
        self.run.wait()
        return self.errors()

    def end(self, seconds=SECONDS):
        """Its status and what it logged, once it has ended by itself."""
        status = self.run.wait(seconds)
        return status, self.errors()

    def __enter__(self):
        see(self.first == b"ready\n", "not ready:", self.first, self.errors())
        return self

    def __exit__(self, *_):
        self.stop()
        self.run.stdout.close()
        self.run.stderr.close()


def refused(folder, status, line, because, *words, **how):
    """A daemon that ends before it is ready, with this status and these lines."""
    daemon = Daemon(folder, *words, **how)
    try:
        ended = daemon.end()
    finally:
        daemon.stop()
    lines = ended[1].split(b"\n")
    see(ended[0] == status and lines[0] == b"tokend: " + line and lines[1].startswith(b"tokend: because ") and because in lines[1], "ended with", ended)
    return lines


def ran(folder, *words, seconds=SECONDS, **how):
    """The status of a run, its output and its errors."""
    it = subprocess.run([PROGRAM, *words], cwd=folder, stdin=subprocess.DEVNULL, capture_output=True, timeout=seconds, check=False, **how)
    return it.returncode, it.stdout, it.stderr


def mode_of(*path):
    return stat.S_IMODE(os.stat(os.path.join(*path)).st_mode)


def contents(*paths):
    return [open(it, "rb").read() for it in paths]


def filled(folder, *words):
    """Makes a store with two data objects and a key."""
    with Daemon(folder, *words) as daemon:
        client = daemon.client()
        for it in (OPEN_SESSION, data_object(b"one"), data_object(b"two"), aes_key(b"a sixteen-byte k")):
            client.expect(it)


def found(daemon):
    """How many objects an application finds."""
    client = daemon.client()
    client.expect(OPEN_SESSION)
    client.expect(call(19, SESSION, template()))
    count = struct.unpack(">I", client.expect(call(20, SESSION, number(1024)))[:4])[0]
    client.close()
    return count


@check
def a_store_and_its_log_are_made_for_their_owner_alone(folder):
    with Daemon(folder, before=lambda: os.umask(0)) as daemon:
        client = daemon.client()
        client.expect(OPEN_SESSION)
        client.expect(data_object())
        modes = mode_of(folder, "token.db"), mode_of(folder, "token.db-wal")
        see(modes == (0o600, 0o600), "modes", *map(oct, modes))


@check
def a_store_that_others_could_read_is_narrowed_with_a_line(folder):
    filled(folder)
    for name in ("token.db", "token.db-wal"):
        os.chmod(os.path.join(folder, name), 0o664)
    with Daemon(folder) as daemon:
        modes = mode_of(folder, "token.db"), mode_of(folder, "token.db-wal")
        see(modes == (0o600, 0o600), "modes", *map(oct, modes))
        said = daemon.errors()
        see(said.startswith(b"<4>tokend: other users could read the store"), said)
        see(found(daemon) == 3, "other objects")


@check
def a_file_that_is_no_store_is_refused_and_left_as_it_is(folder):
    path = os.path.join(folder, "token.db")
    with open(path, "wb") as it:
        it.write(b"no store of a token")
    os.chmod(path, 0o644)
    refused(folder, 3, b"cannot open the store", b"sqlite refuses the store")
    see(contents(path) == [b"no store of a token"] and mode_of(path) == 0o644, "it was changed")


@check
def a_folder_as_store_is_refused(folder):
    os.mkdir(os.path.join(folder, "token.db"), 0o755)
    refused(folder, 3, b"cannot open the store", b"")
    see(mode_of(folder, "token.db") == 0o755, "its mode was changed")


@check
def the_socket_has_its_mode_from_its_first_moment(folder):
    for words, mask, wanted in (((), 0, 0o600), (("--socket-mode", "660"), 0o077, 0o660), (("--socket-mode", "0600"), 0o177, 0o600)):
        seen, is_over = set(), threading.Event()

        def watch(path=os.path.join(folder, "s"), seen=seen, is_over=is_over):
            while not is_over.is_set():
                with contextlib.suppress(FileNotFoundError):
                    seen.add(mode_of(path))

        with contextlib.suppress(FileNotFoundError):
            os.remove(os.path.join(folder, "s"))
        watcher = threading.Thread(target=watch)
        watcher.start()
        try:
            with Daemon(folder, *words, store=":memory:", before=lambda mask=mask: os.umask(mask)):
                time.sleep(0.1)
                see(mode_of(folder, "s") == wanted, "mode", oct(mode_of(folder, "s")))
        finally:
            is_over.set()
            watcher.join()
        see(all(it & ~wanted == 0 for it in seen), "it had the modes", *map(oct, seen))


@check
def a_mode_that_is_no_octal_number_is_refused(folder):
    for text in ("1000", "8", "rw", "", "-1"):
        status, output, errors = ran(folder, "serve", "--store", ":memory:", "--socket", "s", "--socket-mode=" + text)
        see((status, output) == (2, b"") and errors, text, status, output, errors)


def as_root():
    if os.geteuid() != 0:
        raise Skipped("this run is not root's")


def as_another(function):
    """Whether a child of another user is refused, as by its mode."""
    child = os.fork()
    if child == 0:
        try:
            os.setgroups([])
            os.setgid(NOBODY)
            os.setuid(NOBODY)
            function()
        except PermissionError:
            os._exit(1)
        except BaseException:
            os._exit(2)
        os._exit(0)
    return os.waitstatus_to_exitcode(os.waitpid(child, 0)[1]) == 1


@check
def another_user_reads_nothing_and_locks_nothing_and_cannot_connect(folder):
    as_root()
    os.chmod(folder, 0o755)
    with Daemon(folder, before=lambda: os.umask(0)) as daemon:
        client = daemon.client()
        client.expect(OPEN_SESSION)
        client.expect(data_object())
        for name in ("token.db", "token.db-wal"):
            path = os.path.join(folder, name)
            for flags in (os.O_RDONLY, os.O_WRONLY, os.O_RDWR):
                # (a lock wants an open file)
                see(as_another(lambda path=path, flags=flags: os.open(path, flags)), "another user opens", name)
        see(as_another(lambda: Client(daemon.path)), "another user connects")


@check
def a_folder_that_cannot_be_written_is_said(folder):
    as_root()
    os.chmod(folder, 0o555)
    refused(folder, 3, b"cannot open the store", b"Permission denied", user=NOBODY, group=NOBODY)


@check
def a_second_daemon_is_refused_with_its_reason(folder):
    filled(folder)
    with Daemon(folder) as daemon:
        refused(folder, 3, b"cannot open the store", b"another program has the store open", path="t")
        see(found(daemon) == 3, "the first one lost its store")


@check
def a_socket_that_is_taken_is_said(folder):
    with Daemon(folder, store=":memory:"):
        refused(folder, 4, b"cannot use the socket", b"another program listens on --socket", store=":memory:")
    refused(folder, 4, b"cannot use the socket", b"No such file", store=":memory:", path="nowhere/s")


@check
def a_seed_file_that_is_none_is_said(folder):
    refused(folder, 5, b"bad input", b"--seed-file cannot be read: No such file", "--seed-file", "none")
    with open(os.path.join(folder, "short"), "wb") as it:
        it.write(bytes(31))
    refused(folder, 5, b"bad input", b"--seed-file has fewer than 32 bytes", "--seed-file", "short")


def random_bytes(folder, *words):
    """The random bytes of the first connection of each seat, in no order of theirs, and what was logged."""
    with Daemon(folder, *words, store=":memory:") as daemon:
        clients = [daemon.client() for _ in range(4)]
        for client in clients:
            client.expect(OPEN_SESSION)
        return sorted(client.expect(call(41, SESSION, number(16))) for client in clients), daemon.errors()


@check
def without_a_seed_file_no_two_starts_have_the_same_random_bytes(folder):
    first, second = random_bytes(folder)[0], random_bytes(folder)[0]
    see(len(set(first + second)) == 8, "the same bytes came twice")


@check
def a_regular_seed_file_is_warned_of(folder):
    with open(os.path.join(folder, "seed"), "wb") as it:
        it.write(bytes(32))
    words = "--seed-file", "seed"
    first, second = random_bytes(folder, *words), random_bytes(folder, *words)
    see(first[0] == second[0], "other bytes came of the same seed")
    for said in first[1], second[1]:
        see(b"<4>tokend: --seed-file is a regular file: each start with it makes the same keys" in said, said)
    see(not random_bytes(folder, *words, "--log", "error")[1], "at error too")
    see(b"regular" not in random_bytes(folder, "--seed-file", "/dev/urandom", "--log", "info")[1], "of a device too")


@check
def a_run_without_trouble_prints_ready_alone(folder):
    daemon = Daemon(folder, "--connections", "1")
    for _ in range(4):
        client = daemon.client()
        client.expect(OPEN_SESSION)
        client.close()
    see((daemon.first, *daemon.end(), daemon.run.stdout.read()) == (b"ready\n", 0, b"", b""), daemon.first, daemon.run.returncode, daemon.said)


@check
def the_start_is_said_on_demand(folder):
    with Daemon(folder, "--log", "info") as daemon:
        said = daemon.errors(b"serves")
        see(said.startswith(b"<6>tokend: version ") and b"store token.db" in said and b"on s" in said, said)
    for level, count in (("off", 0), ("error", 0), ("warn", 0)):
        with Daemon(folder, "--log", level) as daemon:
            see(daemon.errors().count(b"\n") == count, level, daemon.said)


@check
def a_connection_refused_for_its_frames_is_said(folder):
    with Daemon(folder, store=":memory:") as daemon:
        client = daemon.client()
        client.stream.sendall(b"\xff\xff\xff\xff")
        see(client.stream.recv(1) == b"", "it goes on")
        said = daemon.errors(b"too long")
        see(said.startswith(b"<4>tokend: connection ") and said.endswith(b"is refused: a frame is too long\n"), said)
    with Daemon(folder, store=":memory:") as daemon:
        client = daemon.client()
        client.stream.sendall(b"\x00\x00\x00\x12\x00")
        client.close()
        see(b"is refused: it ended within a frame\n" in daemon.errors(b"within"), daemon.said)
    with Daemon(folder, "--log", "error", store=":memory:") as daemon:
        client = daemon.client()
        client.stream.sendall(b"\xff\xff\xff\xff")
        see(client.stream.recv(1) == b"" and daemon.errors() == b"", daemon.said)


@check
def a_pin_that_had_its_tenth_check_is_said(folder):
    with Daemon(folder) as daemon:
        client = daemon.client()
        client.expect(call(4, number(0), data(b"officer"), data(b" " * 32)))
        client.expect(OPEN_SESSION)
        client.expect(call(11, SESSION, number(0), data(b"officer")))
        client.expect(call(5, SESSION, data(b"secret")))
        client.expect(call(12, SESSION))
        for _ in range(9):
            client.expect(call(11, SESSION, number(1), data(b"wrong")), PIN_INCORRECT)
        see(b"PIN" not in daemon.errors(), daemon.said)
        begun = len(daemon.said)
        client.expect(call(11, SESSION, number(1), data(b"wrong")), PIN_INCORRECT)
        client.expect(call(11, SESSION, number(1), data(b"secret")), PIN_LOCKED)
        said = daemon.errors(b"PIN")[begun:]
        see(said.count(b"\n") == 1 and re.match(rb"<4>tokend: connection \d+: the user's PIN", said) and b"wrong" not in said and b"secret" not in said, said)


def handing_over(folder, listener, fds="1", pid="$$", path="nowhere/s", **how):
    """A daemon to which a service manager hands a socket over."""
    def argv(words):
        return ["sh", "-c", f'LISTEN_FDS={fds} LISTEN_PID={pid} exec "$0" "$@"', PROGRAM, *words]

    return Daemon(folder, store=":memory:", path=path, argv=argv, before=lambda: os.dup2(listener.fileno(), 3), pass_fds=(3,), **how)


def listening(folder):
    listener = socket.socket(socket.AF_UNIX)
    listener.bind(os.path.join(folder, "handed"))
    listener.listen()
    return listener


@check
def a_socket_that_is_handed_over_is_used(folder):
    with listening(folder) as listener, handing_over(folder, listener) as daemon:
        client = Client(os.path.join(folder, "handed"))
        see(client.expect(OPEN_SESSION) == SESSION, "another reply")
        see(not os.path.exists(daemon.path), "a socket was made too")


@check
def a_socket_for_another_process_is_not_used(folder):
    with listening(folder) as listener, handing_over(folder, listener, pid="1", path="s") as daemon:
        daemon.client().expect(OPEN_SESSION)


@check
def what_is_handed_over_wrongly_is_said(folder):
    for fds, because in (("65", b"LISTEN_FDS hands over 65 sockets, more than 64"), ("2", b"what LISTEN_FDS hands over is no Unix socket")):
        with listening(folder) as listener:
            daemon = handing_over(folder, listener, fds=fds)
            status, said = daemon.end()
            see(status == 4 and said.startswith(b"tokend: cannot use the socket\ntokend: because " + because), status, said)
        os.remove(os.path.join(folder, "handed"))
    with open(os.path.join(folder, "file"), "wb") as file:
        daemon = handing_over(folder, file)
        status, said = daemon.end()
        see(status == 4 and b"because what LISTEN_FDS hands over is no Unix socket" in said, status, said)


@check
def a_service_manager_is_notified_that_it_is_ready(folder):
    for name in (os.path.join(folder, "notify"), "@tokend-test-%d" % os.getpid()):
        with socket.socket(socket.AF_UNIX, socket.SOCK_DGRAM) as manager:
            manager.bind("\0" + name[1:] if name[0] == "@" else name)
            manager.settimeout(SECONDS)
            with Daemon(folder, store=":memory:", env={"NOTIFY_SOCKET": name}):
                lines = manager.recv(4096).split(b"\n")
                see(b"READY=1" in lines and any(it.startswith(b"STATUS=") for it in lines), lines)
    with Daemon(folder, store=":memory:", env={"NOTIFY_SOCKET": os.path.join(folder, "nobody")}) as daemon:
        see(b"<4>tokend: NOTIFY_SOCKET cannot be used" in daemon.errors(b"NOTIFY"), daemon.said)


@check
def a_store_is_looked_through_and_left_as_it_is(folder):
    filled(folder)
    paths = [os.path.join(folder, it) for it in ("token.db", "token.db-wal")]
    before = contents(*paths), sorted(os.listdir(folder)), [os.stat(it).st_mtime_ns for it in paths]
    status, output, errors = ran(folder, "check", "--store", "token.db")
    see((status, errors) == (0, b""), status, errors)
    lines = output.decode().splitlines()
    see({"format: 2", "data objects: 2", "secret keys: 1", "rows that are no token object's: 0"} <= set(lines), lines)
    see((contents(*paths), sorted(os.listdir(folder)), [os.stat(it).st_mtime_ns for it in paths]) == before, "it was changed")
    status, output, errors = ran(folder, "check", "--store", "none")
    see(status == 3 and errors.startswith(b"tokend: cannot open the store\ntokend: because none: --store cannot be used: No such file"), status, errors)
    see(not os.path.exists(os.path.join(folder, "none")), "it was made")


PAGE_LEN, SUM_LEN = 4096, 8


def page_sum(page):
    """The sum at a page's end, as SQLite's cksumvfs has it."""
    words = struct.unpack(f"<{(PAGE_LEN - SUM_LEN) // 4}I", page[:-SUM_LEN])
    first = second = 0
    for even, odd in zip(words[::2], words[1::2]):
        first = (first + even + second) % 2**32
        second = (second + odd + first) % 2**32
    return struct.pack("<II", first, second)


def damage(folder, statement):
    """Changes a store by another program, copies its log into it, and writes the new sums of its pages."""
    path = os.path.join(folder, "token.db")
    with contextlib.closing(sqlite3.connect(path)) as it:
        it.execute(statement)
        it.commit()
        it.execute("PRAGMA wal_checkpoint(TRUNCATE)")
    # (sqlite3 removes a log that it has copied, and a store in use is refused without one)
    with open(path + "-wal", "ab"):
        pass
    pages = bytearray(contents(path)[0])
    see(pages[20] == SUM_LEN, "a new store has no sums")
    for start in range(0, len(pages), PAGE_LEN):
        end = start + PAGE_LEN
        pages[end - SUM_LEN:end] = page_sum(bytes(pages[start:end]))
    with open(path, "wb") as it:
        it.write(pages)


@check
def a_damaged_body_is_named_by_its_id(folder):
    for statement, because in (
        ("UPDATE objects SET body = x'02ff' WHERE id = 2", b"the row of object 2 is no token object's"),
        ("UPDATE record SET body = x'02'", b"the row of the token's record"),
    ):
        for it in os.listdir(folder):
            os.remove(os.path.join(folder, it))
        filled(folder)
        damage(folder, statement)
        path = os.path.join(folder, "token.db")
        before = contents(path)
        status, _, errors = ran(folder, "check", "--store", "token.db")
        see(status == 3 and because in errors, status, errors)
        status, _, errors = ran(folder, "backup", "--store", "token.db", "--to", "copy")
        see(status == 3 and because in errors and not os.path.exists(os.path.join(folder, "copy")), status, errors)
        refused(folder, 3, b"cannot open the store", because)
        see(contents(path) == before, "it was changed")


@check
def a_backup_is_whole_and_its_owners_alone(folder):
    filled(folder)
    os.umask(0)
    status, output, errors = ran(folder, "backup", "--store", "token.db", "--to", "copy.db")
    see((status, output, errors) == (0, b"", b""), status, output, errors)
    see(mode_of(folder, "copy.db") == 0o600, "mode", oct(mode_of(folder, "copy.db")))
    see(not os.path.exists(os.path.join(folder, "copy.db-wal")), "it has a log")
    with Daemon(folder, store="copy.db") as daemon:
        see(found(daemon) == 3, "it has other objects")
    copy = contents(os.path.join(folder, "copy.db"))
    status, _, errors = ran(folder, "backup", "--store", "token.db", "--to", "copy.db")
    see(status == 3 and errors.startswith(b"tokend: cannot write the copy\ntokend: because copy.db: --to cannot be written: File exists"), status, errors)
    see(contents(os.path.join(folder, "copy.db")) == copy, "it was overwritten")


@contextlib.contextmanager
def small_disk(folder, size):
    as_root()
    disk = os.path.join(folder, "disk")
    os.mkdir(disk)
    if subprocess.run(["mount", "-t", "tmpfs", "-o", f"size={size},mode=700", "none", disk], capture_output=True, check=False).returncode:
        raise Skipped("no file system can be mounted")
    try:
        yield disk
    finally:
        subprocess.run(["umount", disk], check=True)


@check
def a_full_disk_is_reported_and_writes_go_on_when_there_is_space(folder):
    with small_disk(folder, "1m") as disk:
        with Daemon(disk) as daemon:
            client = daemon.client()
            client.expect(OPEN_SESSION)
            client.expect(data_object(b"first"))
            filler = os.open(os.path.join(disk, "filler"), os.O_WRONLY | os.O_CREAT)
            with contextlib.suppress(OSError):
                while True:
                    os.write(filler, bytes(4096))
            os.close(filler)
            # (the log that is there has space for some)
            made, code = 1, OK
            while code == OK and made < 200:
                code = client.ask(data_object(bytes(1000)))[0]
                made += code == OK
            see(code == DEVICE_ERROR, "code", hex(code), "after", made)
            client.expect(data_object(bytes(1000)), DEVICE_ERROR)
            said = daemon.errors(b"full")
            see(said.startswith(b"<3>tokend: ") and b"full" in said and said.count(b"\n") == 1, said)
            os.remove(os.path.join(disk, "filler"))
            client.expect(data_object(b"again"))
            see(found(daemon) == made + 1, "other objects")
            see(daemon.run.poll() is None, "the daemon ended")


@check
def a_store_that_is_shut_ends_the_daemon(folder):
    cc = shutil.which("cc")
    if not cc:
        raise Skipped("there is no C compiler")
    source, library = os.path.join(folder, "failing.c"), os.path.join(folder, "failing.so")
    with open(source, "w", encoding="utf-8") as it:
        it.write(FAILING_SYNC)
    subprocess.run([cc, "-shared", "-fPIC", "-o", library, source, "-ldl"], check=True)
    sign = os.path.join(folder, "fail")
    with Daemon(folder, env={"LD_PRELOAD": library, "FAIL_SYNC": sign}) as daemon:
        client, idle = daemon.client(), daemon.client()
        client.expect(OPEN_SESSION)
        client.expect(data_object(b"first"))
        with open(sign, "wb"):
            pass
        client.expect(data_object(b"second"), DEVICE_ERROR)
        status, said = daemon.end(30)
        lines = said.split(b"\n")
        see(status == 3 and lines[0].startswith(b"<3>tokend: ") and b"tokend: cannot open the store" in lines and any(it.startswith(b"tokend: because ") for it in lines), status, said)
        idle.close()
    with Daemon(folder) as daemon:
        see(found(daemon) in (1, 2), "other objects")


@check
def the_version_is_the_changelogs_and_the_modules(folder):
    status, out, _ = ran(folder, "--version")
    with open(os.path.join(TOP, "CHANGELOG.md"), encoding="utf-8") as file:
        newest = re.search(r"^## ([0-9][0-9.]*)", file.read(), re.M).group(1)
    with open(os.path.join(TOP, "clients/pkcs11/Cargo.toml"), encoding="utf-8") as file:
        module = re.search(r'^version = "(.*)"$', file.read(), re.M).group(1)
    see(status == 0 and out == f"tokend {newest}\n".encode() and newest == module, status, out, newest, module)


def main():
    global PROGRAM
    with tempfile.TemporaryDirectory() as room:
        # (where another user can run it)
        os.chmod(room, 0o755)
        PROGRAM = shutil.copy(PROGRAM, room)
        os.chmod(PROGRAM, 0o755)
        try_all()


def try_all():
    counts = {"ok": 0, "FAILED": 0, "skipped": 0}
    for function in CHECKS:
        mask = os.umask(0o022)
        outcome, why = "ok", ""
        with tempfile.TemporaryDirectory() as folder:
            try:
                function(folder)
            except Skipped as it:
                outcome, why = "skipped", f": {it}"
            except (Failed, OSError, subprocess.SubprocessError, sqlite3.Error) as it:
                outcome, why = "FAILED", f": {type(it).__name__ + ' ' if not isinstance(it, Failed) else ''}{it}"
        os.umask(mask)
        counts[outcome] += 1
        print(outcome, function.__name__ + why, flush=True)
    print(f"{counts['ok']} passed, {counts['FAILED']} failed, {counts['skipped']} skipped")
    sys.exit(counts["FAILED"] != 0)


if __name__ == "__main__":
    main()
