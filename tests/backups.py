#!/usr/bin/env python3
"""Tries backups of a store that a daemon serves, what puts them back, and stores of others.

Takes the program's path, and prints as `daemon.py` does, whose client and daemon it uses. BACKUPS is how many copies are made beside
busy clients (20 if it isn't set), and OBJECTS of how many objects (20,000).
"""
import fcntl
import os
import random
import shutil
import sqlite3
import stat
import subprocess
import sys
import threading
import time

sys.dont_write_bytecode = True

import daemon as base
from daemon import (NOBODY, OK, OPEN_SESSION, PIN_INCORRECT, PIN_LOCKED, SESSION, Client, Daemon, Failed, as_root, call, check, contents, data,
                    data_object, filled, found, mode_of, number, ran, refused, see, template)

# (its own checks alone)
base.CHECKS.clear()

BACKUPS = int(os.environ.get("BACKUPS", "20"))
OBJECTS = int(os.environ.get("OBJECTS", "20000"))
# How many objects a client may make, at most, beside each copy.
EACH = 2000
BESIDE = {"token.db", "token.db-wal", "token.db-clean", "token.db-reserve"}


def destroy(handle):
    return call(15, SESSION, handle)


def login(user, pin):
    return call(11, SESSION, number(user), data(pin))


def values_in(path):
    """The bodies of a copy's objects."""
    with sqlite3.connect(f"file:{path}?mode=ro&immutable=1", uri=True) as it:
        return [body for (body,) in it.execute("SELECT body FROM objects ORDER BY id")]


def backed_up(folder, to="copy", store="token.db"):
    status, output, errors = ran(folder, "backup", "--store", store, "--to", to, seconds=600)
    see((status, output, errors) == (0, b"", b""), status, output, errors)
    return os.path.join(folder, to)


def many_objects(folder, count):
    """A store with so many objects, by one client after the other's calls."""
    with Daemon(folder) as daemon:
        client = daemon.client()
        client.expect(OPEN_SESSION)
        payload = data(data_object(b"v" * 32))
        for start in range(0, count, 200):
            some = min(200, count - start)
            client.stream.sendall(payload * some)
            for _ in range(some):
                see(client.hear()[0] == OK, "an object is refused")


class Busy(threading.Thread):
    """A client that makes and destroys objects as fast as it can, each with a number of its own in its value."""

    def __init__(self, path, number_):
        super().__init__(daemon=True)
        self.client, self.number = Client(path), number_
        self.client.expect(OPEN_SESSION)
        self.is_over, self.error, self.made, self.handles = False, None, 0, []
        self.standing, self.lasting = None, 0

    def run(self):
        try:
            while not self.is_over:
                handle = self.client.expect(data_object(b"busy %d" % self.number + bytes(random.randrange(900))))
                self.made += 1
                self.client.expect(destroy(handle))
        except BaseException as error:
            self.error = error

    def end(self):
        self.is_over = True
        self.join(60)
        see(self.error is None, "a busy client:", self.error)


@check
def a_backup_is_made_while_the_store_is_served(folder):
    filled(folder)
    with Daemon(folder) as daemon:
        client = daemon.client()
        client.expect(OPEN_SESSION)
        client.expect(data_object(b"the last one"))
        copy = backed_up(folder)
        see(mode_of(copy) == 0o600, "mode", oct(mode_of(copy)))
        status, output, errors = ran(folder, "check", "--store", "token.db")
        see(status == 0 and b"data objects: 3\n" in output and errors == b"", status, output, errors)
        client.expect(data_object(b"a later one"))
        see(set(os.listdir(folder)) - {"s", "copy"} <= BESIDE, os.listdir(folder))
    with Daemon(folder, store="copy", path="t") as daemon:
        see(found(daemon) == 4, "it has other objects")


@check
def every_change_that_was_acknowledged_before_is_in_it_beside_busy_clients(folder):
    many_objects(folder, OBJECTS)
    shown = []
    with Daemon(folder) as daemon:
        busy = [Busy(daemon.path, at) for at in range(4)]
        for it in busy:
            it.start()
        slowest = 0.0
        for turn in range(BACKUPS):
            begun = time.monotonic()
            copy = backed_up(folder, "copy")
            slowest = max(slowest, time.monotonic() - begun)
            bodies = values_in(copy)
            # (each busy client has one object at most at a time)
            see(OBJECTS <= len(bodies) <= OBJECTS + 4, "turn", turn, "objects", len(bodies))
            status, output, errors = ran(folder, "check", "--store", "copy", seconds=600)
            see(status == 0, "turn", turn, status, output, errors)
            os.remove(copy)
        made = sum(it.made for it in busy)
        for it in busy:
            it.end()
        see(set(os.listdir(folder)) - {"s"} <= BESIDE, os.listdir(folder))
        shown.append(f"{BACKUPS} copies, the slowest in {slowest:.1f} s, beside {made} objects made and destroyed")
    print("seen", *shown, flush=True)


@check
def a_copy_has_what_stood_when_it_began_and_maybe_what_came_later_in_order(folder):
    """One client makes objects one after the other. A copy has the first so many of them, and all that were acknowledged before."""
    with Daemon(folder) as daemon:
        client = daemon.client()
        client.expect(OPEN_SESSION)
        acknowledged, most, is_over, beside = [0], [0], [False], 0

        def make():
            while not is_over[0]:
                # (without end a larger store makes the next copy longer, and that one the store)
                if acknowledged[0] >= most[0]:
                    time.sleep(0.001)
                    continue
                client.expect(data_object(b"number %09d" % acknowledged[0] + bytes(900)))
                acknowledged[0] += 1

        thread = threading.Thread(target=make, daemon=True)
        thread.start()
        for turn in range(30):
            most[0] += EACH
            before = acknowledged[0]
            copy = backed_up(folder, "copy")
            after = acknowledged[0]
            numbers = [int(it[it.index(b"number ") + 7:][:9]) for it in values_in(copy)]
            see(numbers == list(range(len(numbers))), "turn", turn, "not the first ones")
            see(before <= len(numbers) <= after + 1, "turn", turn, before, len(numbers), after)
            beside += before < after
            os.remove(copy)
        is_over[0] = True
        thread.join()
        # (how many objects a copy lasts for is the machine's affair)
        see(beside > 0, "no object was made beside a copy, of", acknowledged[0])


@check
def a_backup_that_is_killed_leaves_nothing_that_stays(folder):
    many_objects(folder, 20_000)
    with Daemon(folder) as daemon:
        busy = Busy(daemon.path, 1)
        busy.start()
        for turn in range(40):
            run = subprocess.Popen([base.PROGRAM, "backup", "--store", "token.db", "--to", "copy"], cwd=folder, stderr=subprocess.PIPE)
            time.sleep(random.random() * 0.15)
            run.kill()
            run.communicate()
            if os.path.exists(os.path.join(folder, "copy")):
                status, output, errors = ran(folder, "check", "--store", "copy")
                see(status == 0 and b"data objects: 2000" in output, turn, status, output, errors)
                os.remove(os.path.join(folder, "copy"))
        busy.end()
        # (the next change after it finds that nobody waits)
        client = daemon.client()
        client.expect(OPEN_SESSION)
        client.expect(data_object())
        left = set(os.listdir(folder)) - {"s"} - BESIDE
        see(not left, "left", left)


@check
def two_backups_at_once_and_one_that_stands_still_hold_up_nobody(folder):
    filled(folder)
    with Daemon(folder) as daemon:
        client = daemon.client()
        client.expect(OPEN_SESSION)
        path = os.path.join(folder, "token.db-backup")
        with open(path, "wb") as request:
            os.chmod(path, 0o600)
            fcntl.flock(request, fcntl.LOCK_EX)
            begun = time.monotonic()
            for _ in range(3000):
                client.expect(destroy(client.expect(data_object(bytes(100)))))
            taken = time.monotonic() - begun
            copies = [it for it in os.listdir(folder) if it.startswith("token.db-backup-")]
            see(0 < len(copies) <= 1100, "copies", len(copies))
        client.expect(data_object())
        left = set(os.listdir(folder)) - {"s"} - BESIDE
        see(not left, "left", left)
        begun = time.monotonic()
        for _ in range(3000):
            client.expect(destroy(client.expect(data_object(bytes(100)))))
        print(f"seen 6000 changes take {taken:.2f} s while a backup stands still, and {time.monotonic() - begun:.2f} s without", flush=True)


@check
def a_copy_that_is_restored_is_the_store(folder):
    filled(folder)
    copy = backed_up(folder)
    with Daemon(folder) as daemon:
        client = daemon.client()
        client.expect(OPEN_SESSION)
        client.expect(data_object(b"later"))
        status, _, errors = ran(folder, "restore", "--from", "copy", "--to", "token.db")
        see(status == 3 and b"because token.db: another program has the store open" in errors, status, errors)
    before = contents(copy)
    status, output, errors = ran(folder, "restore", "--from", "copy", "--to", "token.db")
    see((status, output, errors) == (0, b"", b""), status, output, errors)
    see(mode_of(folder, "token.db") == 0o600 and contents(copy) == before, "its mode, or the copy was changed")
    see(not os.path.exists(os.path.join(folder, "token.db-wal")), "the old log is there")
    with Daemon(folder) as daemon:
        see(found(daemon) == 3, "other objects")
    # (to a place where nothing is)
    os.mkdir(os.path.join(folder, "new"))
    status, _, errors = ran(folder, "restore", "--from", "copy", "--to", "new/token.db")
    see(status == 0 and os.listdir(os.path.join(folder, "new")) == ["token.db"], status, errors)
    with Daemon(folder, store="new/token.db", path="t") as daemon:
        see(found(daemon) == 3, "other objects")


@check
def what_is_no_whole_copy_is_not_restored(folder):
    filled(folder)
    copy = backed_up(folder)
    text = contents(copy)[0]
    store = [os.path.join(folder, it) for it in ("token.db", "token.db-wal")]
    before = contents(*store)
    cases = {"half": text[:len(text) // 2], "empty": b"", "other": b"no store at all" * 500, "flipped": text[:5000] + bytes([text[5000] ^ 1]) + text[5001:]}
    for name, bytes_ in cases.items():
        with open(os.path.join(folder, name), "wb") as it:
            it.write(bytes_)
        status, _, errors = ran(folder, "restore", "--from", name, "--to", "token.db")
        see(status == 3 and errors.startswith(b"tokend: cannot open the store\ntokend: because " + name.encode() + b": "), name, status, errors)
        see(contents(*store) == before, name, "changed the store")
    # A store in use without its log is no copy.
    shutil.copy(store[0], os.path.join(folder, "bare"))
    status, _, errors = ran(folder, "restore", "--from", "bare", "--to", "token.db")
    see(status == 3 and b"its log is missing" in errors and contents(*store) == before, status, errors)
    status, _, errors = ran(folder, "restore", "--from", "none", "--to", "token.db")
    see(status == 3 and b"because none: " in errors, status, errors)
    with Daemon(folder) as daemon:
        see(found(daemon) == 3, "other objects")


@check
def a_restore_has_the_owner_of_the_old_store_or_of_the_folder(folder):
    as_root()
    os.chmod(folder, 0o755)
    own = os.path.join(folder, "own")
    os.mkdir(own, 0o700)
    filled(folder)
    backed_up(folder)
    os.chown(own, NOBODY, NOBODY)
    for turn in range(2):
        status, _, errors = ran(folder, "restore", "--from", "copy", "--to", "own/token.db")
        see(status == 0, status, errors)
        it = os.stat(os.path.join(own, "token.db"))
        see((it.st_uid, it.st_gid, stat.S_IMODE(it.st_mode)) == (NOBODY, NOBODY, 0o600), turn, it)
        with Daemon(own, user=NOBODY, group=NOBODY, extra_groups=[]) as daemon:
            see(found(daemon) == 3, "other objects")


@check
def a_restore_that_is_cut_off_leaves_the_old_store_or_the_new_one(folder):
    """Ends the restore by `strace` at each call that changes a file."""
    strace = shutil.which("strace")
    if not strace:
        raise base.Skipped("strace is missing")
    filled(folder)
    backed_up(folder)
    with Daemon(folder) as daemon:
        client = daemon.client()
        client.expect(OPEN_SESSION)
        client.expect(data_object(b"later"))
    saved = {it: contents(os.path.join(folder, it))[0] for it in ("token.db", "token.db-wal")}
    seen = set()
    for name in ("openat", "write", "fsync", "unlink", "unlinkat", "rename", "fchown"):
        for at in range(1, 9):
            for it in os.listdir(folder):
                if it not in ("copy", "s"):
                    os.remove(os.path.join(folder, it))
            for it, text in saved.items():
                with open(os.path.join(folder, it), "wb") as file:
                    file.write(text)
                os.chmod(os.path.join(folder, it), 0o600)
            subprocess.run([strace, "-f", "-o", os.path.join(folder, "trace"), "-e", f"inject={name}:signal=KILL:when={at}",
                            base.PROGRAM, "restore", "--from", "copy", "--to", "token.db"], cwd=folder, capture_output=True, check=False, timeout=60)
            os.remove(os.path.join(folder, "trace"))
            daemon = Daemon(folder)
            if daemon.first == b"ready\n":
                with daemon:
                    count = found(daemon)
                see(count in (3, 4), name, at, "objects", count)
                seen.add(count)
            else:
                status, said = daemon.end()
                daemon.stop()
                see(status == 3 and b"its log is missing" in said, name, at, status, said)
                status, _, errors = ran(folder, "restore", "--from", "copy", "--to", "token.db")
                see(status == 0, name, at, status, errors)
                seen.add("refused")
    see({3, 4} <= seen, "seen", seen)


@check
def a_locked_pin_is_unlocked_by_who_has_the_file(folder):
    with Daemon(folder) as daemon:
        client = daemon.client()
        client.expect(call(4, number(0), data(b"officer"), data(b" " * 32)))
        client.expect(OPEN_SESSION)
        client.expect(login(0, b"officer"))
        client.expect(call(5, SESSION, data(b"secret")))
        client.expect(call(12, SESSION))
        client.expect(data_object(b"stays"))
        for user in 0, 1:
            for _ in range(10):
                client.expect(login(user, b"wrong"), PIN_INCORRECT)
            client.expect(login(user, b"officer" if user == 0 else b"secret"), PIN_LOCKED)
        status, _, errors = ran(folder, "unlock", "--store", "token.db", "--user", "so")
        see(status == 3 and b"another program has the store open" in errors, status, errors)
    for user, pin, name in ((0, b"officer", "so"), (1, b"secret", "user")):
        status, output, errors = ran(folder, "unlock", "--store", "token.db", "--user", name)
        see((status, output, errors) == (0, b"", b""), status, output, errors)
        with Daemon(folder) as daemon:
            client = daemon.client()
            client.expect(OPEN_SESSION)
            client.expect(login(user, b"wrong"), PIN_INCORRECT)
            client.expect(login(user, pin))
            client.expect(call(12, SESSION))
            see(found(daemon) == 1, "other objects")
            if user == 0:
                client.expect(login(1, b"secret"), PIN_LOCKED)
    status, _, errors = ran(folder, "unlock", "--store", "none", "--user", "so")
    see(status == 3 and not os.path.exists(os.path.join(folder, "none")), status, errors)
    status, _, errors = ran(folder, "unlock", "--store", "token.db", "--user", "root")
    see(status == 2, status, errors)


@check
def a_pin_that_is_not_set_is_not_unlocked(folder):
    filled(folder)
    status, _, errors = ran(folder, "unlock", "--store", "token.db", "--user", "user")
    see(status == 3 and b"because token.db: the PIN isn't set" in errors, status, errors)


@check
def a_store_or_a_log_of_another_user_is_refused(folder):
    as_root()
    filled(folder)
    paths = [os.path.join(folder, it) for it in ("token.db", "token.db-wal")]
    before = contents(*paths)
    for path, because in ((paths[0], b"it belongs to the user 65534, and the daemon runs as the user 0"), (paths[1], b"its log belongs to the user 65534")):
        os.chown(path, NOBODY, NOBODY)
        refused(folder, 3, b"cannot open the store", b"token.db: " + because)
        os.chown(path, 0, 0)
        see(contents(*paths) == before, "it was changed")
    with Daemon(folder) as daemon:
        see(found(daemon) == 3, "other objects")


@check
def a_folder_that_others_may_write_is_a_line(folder):
    os.chmod(folder, 0o777)
    with Daemon(folder) as daemon:
        said = daemon.errors(b"folder")
        see(said.startswith(b"<4>tokend: others may write the store's folder") and said.count(b"\n") == 1, said)
    os.chmod(folder, 0o755)
    with Daemon(folder) as daemon:
        see(daemon.errors() == b"", daemon.said)


@check
def a_refusal_names_the_file_and_what_to_do(folder):
    filled(folder)
    os.link(os.path.join(folder, "token.db"), os.path.join(folder, "twin.db"))
    refused(folder, 3, b"cannot open the store", b"token.db: its file has another name, a hard link")
    os.remove(os.path.join(folder, "twin.db"))
    # A page that is damaged.
    status, _, errors = ran(folder, "compact", "--store", "token.db")
    see(status == 0, status, errors)
    path = os.path.join(folder, "token.db")
    text = bytearray(contents(path)[0])
    for at in range(4096 + 2000, 4096 + 2100):
        text[at] ^= 0xFF
    with open(path, "wb") as it:
        it.write(text)
    lines = refused(folder, 3, b"cannot open the store", b"token.db: ")
    see(b"malformed" in lines[1] and b"tokend restore" in lines[1], lines)


if __name__ == "__main__":
    base.main()
