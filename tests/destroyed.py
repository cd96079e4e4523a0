#!/usr/bin/env python3
"""Looks for the values of destroyed objects in a store's file, its log, its copies, and the daemon's memory.

Takes the program's path. Prints a line for each check, `ok NAME`, `FAILED NAME: why` or `skipped NAME: why`, and last how many of each.
What is left in the daemon's memory is a line `left NAME: ..`: no check, since nothing ends it but the daemon's own end.
"""
import os
import random
import shutil
import subprocess
import sys

sys.path.insert(0, os.path.dirname(os.path.abspath(__file__)))
import daemon
from daemon import OPEN_SESSION, SESSION, Daemon, aes_key, call, contents, data, data_object, found, number, ran, see, template

daemon.CHECKS.clear()
check = daemon.check
RANDOM = random.Random(1)


def value(length=32):
    """Bytes that are nowhere by chance. None is 0, so that no run of zeros is taken for one."""
    return bytes(RANDOM.randrange(1, 256) for _ in range(length))


def destroy(client, it):
    client.expect(call(15, SESSION, it))


def sits(values, *paths):
    """How many of the values stand in each file."""
    return [sum(it in text for it in values) for text in (open(path, "rb").read() if os.path.exists(path) else b"" for path in paths)]


def files(folder):
    return [os.path.join(folder, name) for name in ("token.db", "token.db-wal")]


def gone(folder, values, when):
    counts = sits(values, *files(folder))
    see(counts == [0, 0], when, "of", len(values), "values stand in the file and in the log:", *counts)


def all_there(folder, values):
    with Daemon(folder) as it:
        see(found(it) == len(values), "objects", found(it), "and not", len(values))
        text = b"".join(contents(*files(folder)))
        see(all(one in text for one in values), "a value is lost")


def made(folder, count, make):
    """Makes objects, and returns their values with their handles, and the daemon and its client."""
    it = Daemon(folder)
    try:
        it.__enter__()
        client = it.client()
        client.expect(OPEN_SESSION)
        return it, client, [(one, client.expect(make(one))) for one in (value() for _ in range(count))]
    except BaseException:
        ended(it)
        raise


def ended(it):
    it.__exit__()


@check
def keys_that_were_destroyed_are_gone_from_the_next_start_on(folder):
    it, client, keys = made(folder, 40, aes_key)
    for one in keys[:30]:
        destroy(client, one[1])
    ended(it)
    with Daemon(folder) as it:
        gone(folder, [one[0] for one in keys[:30]], "after the start:")
    all_there(folder, [one[0] for one in keys[30:]])


@check
def values_of_each_length_are_gone(folder):
    with Daemon(folder) as it:
        client = it.client()
        client.expect(OPEN_SESSION)
        values = [value(length) for length in (24, 100, 300, 500, 700, 1000, 1024) for _ in range(4)]
        handles = [client.expect(data_object(one)) for one in values]
        for at in range(0, len(values), 2):
            destroy(client, handles[at])
    with Daemon(folder) as it:
        pieces = [one[at:at + 20] for one in values[::2] for at in range(0, len(one) - 19, 100)]
        gone(folder, pieces, "after the start, pieces:")
        see(found(it) == len(values) // 2, "other objects")


@check
def a_copy_never_has_more_than_the_token_shows(folder):
    it, client, keys = made(folder, 40, aes_key)
    for one in keys[:30]:
        destroy(client, one[1])
    ended(it)
    for name in ("first", "second"):
        see(ran(folder, "backup", "--store", "token.db", "--to", name)[0] == 0, "no copy")
        counts = sits([one[0] for one in keys[:30]], os.path.join(folder, name))
        see(counts == [0], "the copy has", *counts, "of 30")
        see(sits([one[0] for one in keys[30:]], os.path.join(folder, name)) == [10], "the copy lacks a key")
        with Daemon(folder):
            pass
    os.mkdir(os.path.join(folder, "new"))
    shutil.copy(os.path.join(folder, "first"), os.path.join(folder, "new", "token.db"))
    all_there(os.path.join(folder, "new"), [one[0] for one in keys[30:]])


@check
def a_token_that_was_initialised_anew_has_none_of_the_old_values(folder):
    it, client, keys = made(folder, 60, aes_key)
    # (a session of any application would refuse it)
    client.expect(call(9, number(0)))
    client.expect(call(4, number(0), data(b"officer"), data(b" " * 32)))
    ended(it)
    values = [one[0] for one in keys]
    see(ran(folder, "backup", "--store", "token.db", "--to", "copy")[0] == 0, "no copy")
    see(sits(values, os.path.join(folder, "copy")) == [0], "the copy has some")
    with Daemon(folder) as it:
        gone(folder, values, "after the start:")
        see(found(it) == 0, "objects came back")


@check
def a_value_that_was_replaced_is_gone(folder):
    it, client, objects = made(folder, 30, data_object)
    now = [value() for _ in objects]
    for one, new in zip(objects, now):
        client.expect(call(18, SESSION, one[1], template((0x11, new))))
    ended(it)
    with Daemon(folder) as it:
        gone(folder, [one[0] for one in objects], "after the start:")
    all_there(folder, now)


@check
def it_holds_over_many_starts(folder):
    old, kept = [], []
    for _ in range(4):
        it, client, keys = made(folder, 20, aes_key)
        gone(folder, old, "after a start:")
        for at, one in enumerate(keys):
            if at % 3:
                destroy(client, one[1])
                old.append(one[0])
            else:
                kept.append(one[0])
        ended(it)
    with Daemon(folder):
        gone(folder, old, "after the last start:")
    all_there(folder, kept)


@check
def a_store_is_compacted_by_a_command(folder):
    it, client, keys = made(folder, 40, aes_key)
    for one in keys[::2]:
        destroy(client, one[1])
    see(ran(folder, "compact", "--store", "token.db")[0] == 3, "a store that a daemon has was written anew")
    ended(it)
    status, output, errors = ran(folder, "compact", "--store", "token.db")
    see((status, output, errors) == (0, b"", b""), status, output, errors)
    gone(folder, [one[0] for one in keys[::2]], "after the command:")
    see(ran(folder, "check", "--store", "token.db")[0] == 0, "it is damaged")
    all_there(folder, [one[0] for one in keys[1::2]])
    see(ran(folder, "compact", "--store", "none.db")[0] == 3 and not os.path.exists(os.path.join(folder, "none.db")), "a store was made")


@check
def a_start_that_is_cut_off_leaves_the_old_file_or_the_new_one(folder):
    """Stops the start by `strace` at each call that changes a file, and starts again."""
    if not shutil.which("strace"):
        raise daemon.Skipped("strace is missing")
    it, client, keys = made(folder, 20, aes_key)
    for one in keys[:10]:
        destroy(client, one[1])
    ended(it)
    names = [name for name in sorted(os.listdir(folder)) if name != "s"]
    before = dict(zip(names, contents(*(os.path.join(folder, name) for name in names))))
    calls = "pwrite64,write,fsync,fdatasync,ftruncate,rename,renameat,unlink,unlinkat,openat,fchown"
    for at in range(1, 400):
        with_store = os.path.join(folder, f"cut{at}")
        os.mkdir(with_store)
        for name, text in before.items():
            with open(os.path.join(with_store, name), "wb") as file:
                file.write(text)
            os.chmod(os.path.join(with_store, name), 0o600)
        run = subprocess.run(
            ["strace", "-f", "-qq", "-o", "/dev/null", "-e", f"trace={calls}", "-e", f"inject={calls}:signal=SIGKILL:when={at}",
             daemon.PROGRAM, "serve", "--store", "token.db", "--socket", "s", "--connections", "0"],
            cwd=with_store, stdin=subprocess.DEVNULL, capture_output=True, timeout=60, check=False)
        if run.returncode == 0:
            see(at > 20, "only", at, "calls")
            break
        all_there(with_store, [one[0] for one in keys[10:]])
        gone(with_store, [one[0] for one in keys[:10]], f"after a start cut off at call {at}:")
        shutil.rmtree(with_store)
    else:
        raise daemon.Failed("the start has no end")


@check
def on_a_full_disk_the_old_file_stays_with_a_line(folder):
    with daemon.small_disk(folder, "2m") as disk:
        it, client, keys = made(disk, 400, lambda one: data_object(one + value(900)))
        ended(it)
        # (now the log is copied, so the next start needs no space but for the new file)
        with Daemon(disk) as it:
            client = it.client()
            client.expect(OPEN_SESSION)
            client.expect(call(19, SESSION, template()))
            handles = client.expect(call(20, SESSION, number(20)))[4:]
            for at in range(0, len(handles), 8):
                destroy(client, handles[at:at + 8])
        filler = os.path.join(disk, "filler")
        with open(filler, "wb", 0) as file:
            try:
                while True:
                    file.write(bytes(4096))
            except OSError:
                pass
        with Daemon(disk) as it:
            said = it.errors(b"may still be")
            see(said.count(b"\n") == 1 and said.startswith(b"<4>tokend: what was destroyed may still be in the store"), said)
            see(found(it) == 380, "other objects")
        os.remove(filler)
        with Daemon(disk) as it:
            see(it.errors() == b"", it.said)
            gone(disk, [one[0] for one in keys[:20]], "after a start with space:")
            see(found(it) == 380, "other objects")


@check
def a_store_in_use_whose_log_is_lost_is_refused(folder):
    for starts in range(3):
        name = os.path.join(folder, f"lost{starts}")
        os.mkdir(name)
        for _ in range(starts):
            with Daemon(name):
                pass
        with Daemon(name) as it:
            client = it.client()
            client.expect(call(4, number(0), data(b"officer"), data(b" " * 32)))
        os.remove(os.path.join(name, "token.db-wal"))
        was = contents(os.path.join(name, "token.db"))
        daemon.refused(name, 3, b"cannot open the store", b"its log is missing")
        for words in (("check", "--store", "token.db"), ("backup", "--store", "token.db", "--to", "copy"), ("compact", "--store", "token.db")):
            status, _, errors = ran(name, *words)
            see(status == 3 and b"its log is missing" in errors, words, status, errors)
        see(contents(os.path.join(name, "token.db")) == was and not os.path.exists(os.path.join(name, "token.db-wal")), "it was changed")


def memory_of(pid):
    """All that a process has in memory that it may write."""
    texts = []
    with open(f"/proc/{pid}/maps", encoding="ascii") as maps, open(f"/proc/{pid}/mem", "rb", 0) as mem:
        for line in maps:
            span, mode = line.split()[:2]
            low, high = (int(end, 16) for end in span.split("-"))
            if mode.startswith("rw") and high - low < 1 << 30:
                mem.seek(low)
                try:
                    texts.append(mem.read(high - low))
                except OSError:
                    pass
    return texts


def report_memory(folder):
    """How many copies of a destroyed key the daemon has in memory."""
    it, client, keys = made(folder, 40, aes_key)
    one = keys[0]

    def count():
        return sum(text.count(one[0]) for text in memory_of(it.run.pid))

    counts = [count()]
    destroy(client, one[1])
    counts.append(count())
    client.close()
    client = it.client()
    client.expect(OPEN_SESSION)
    for _ in range(200):
        destroy(client, client.expect(aes_key(value())))
    counts.append(count())
    ended(it)
    with Daemon(folder) as it:
        counts.append(count())
    print("left in_memory: copies of a key's value after it was made %d, after C_DestroyObject %d, after 200 more objects %d, after a restart %d" % tuple(counts), flush=True)


def main():
    with daemon.tempfile.TemporaryDirectory() as folder:
        try:
            report_memory(folder)
        except OSError as error:
            print("left in_memory: it can't be read:", error, flush=True)
    daemon.main()


if __name__ == "__main__":
    main()
