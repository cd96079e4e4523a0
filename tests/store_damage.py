#!/usr/bin/env python3
"""What `tokend serve` makes of a store that is damaged, cut or gone.

    store_damage.py TOKEND [STEP [STEP_OF_LOG]]

makes a small store with the program TOKEND, and then starts it on copies of which a bit is flipped, a file is cut, or a file is gone.
Every STEP-th bit of the file is flipped, and every STEP-th length of it is a cut (1: each; without it 199), and of the log every
STEP_OF_LOG-th (without it as of the file). Of a store with 20,000 objects it tries a sample, by chance but the same each time: SAMPLE bits
and lengths (200 if it isn't set).

A start has to end with status 3 and leave both files byte for byte. Or the store has to be the whole one, the one at its last checkpoint
where the log was touched, or the one before its last commits. Each kind of damage is one test, and a line, `ok KIND: N starts: ..` or
`FAILED KIND: ..`: how many of how many starts were which. It has failed where one start was anything else, or where there was none. The
last line is the sum, `N passed, M failed`. As many starts run side by side as there are processors, each in a folder of its own.
"""
import concurrent.futures, itertools, os, random, shutil, socket, struct, subprocess, sys, tempfile, threading

sys.dont_write_bytecode = True

import frames
from frames import buffer, number, template


class Token:
    """A running daemon, and one connection to it."""

    def __init__(self, program, folder):
        self.path = os.path.join(folder, "s")
        if os.path.exists(self.path):
            os.remove(self.path)
        self.process = subprocess.Popen(
            [program, "serve", "--store", os.path.join(folder, "token.db"), "--socket", self.path],
            stdin=subprocess.DEVNULL, stdout=subprocess.PIPE, stderr=subprocess.PIPE)
        self.is_ready = self.process.stdout.readline() == b"ready\n"
        if self.is_ready:
            self.socket = socket.socket(socket.AF_UNIX)
            self.socket.settimeout(20)
            self.socket.connect(self.path)

    def call(self, function, *fields):
        self.socket.sendall(frames.data(frames.call(function, *fields)))
        return frames.parts(self.take(struct.unpack(">I", self.take(4))[0]))

    def take(self, count):
        data = b""
        while len(data) < count:
            piece = self.socket.recv(count - len(data))
            if not piece:
                raise OSError("the daemon closed the connection")
            data += piece
        return data

    def some(self):
        piece = self.socket.recv(65_536)
        if not piece:
            raise OSError("the daemon closed the connection")
        return piece

    def contents(self):
        """The objects' values and the token's label, or the code of a refusal."""
        code, reply = self.call(7, number(0), number(6))
        if code:
            return code
        session = reply
        code, info = self.call(1, number(0))
        if code:
            return code
        found = [info[:32]]
        code, _ = self.call(19, session, template())
        if code:
            return code
        code, reply = self.call(20, session, number(100))
        if code:
            return code
        for at in range(struct.unpack(">I", reply[:4])[0]):
            handle = reply[4 + 8 * at:12 + 8 * at]
            code, value = self.call(17, session, handle, struct.pack(">I", 1) + number(0x11) + buffer(64))
            if code:
                return code
            found.append(value)
        return tuple(found)

    def kill(self):
        self.process.kill()
        self.process.wait()
        if self.is_ready:
            self.socket.close()
        self.process.stdout.close()
        self.process.stderr.close()


def add(token, value):
    code, reply = token.call(7, number(0), number(6))
    assert code == 0, code
    code, _ = token.call(13, reply, template((0, number(0)), (1, b"\1"), (2, b"\0"), (0x11, value)))
    assert code == 0, code


def files(folder):
    found = []
    for name in ("token.db", "token.db-wal"):
        path = os.path.join(folder, name)
        found.append(open(path, "rb").read() if os.path.exists(path) else None)
    return found


# The objects of the larger store, how many calls are sent at once, and how many of its last objects may be in the log alone.
OBJECTS, AT_ONCE, LATEST = 20_000, 200, 100
SAMPLE = int(os.environ.get("SAMPLE", "200"))


def value_of(at):
    return b"the value of object %012d" % at


def in_parts(last):
    return [range(first, min(first + AT_ONCE, last + 1)) for first in range(1, last + 1, AT_ONCE)]


def told(token, asked, answers):
    """Sends frames. None where these answers come, and else the code of the first that is another one."""
    token.socket.sendall(asked)
    got = b""
    while got != answers:
        if not answers.startswith(got):
            return first_other(token, got, answers)
        got += token.some()
    return None


def first_other(token, got, answers):
    at = 0
    while True:
        while len(got) < at + 12:
            got += token.some()
        length, code = struct.unpack(">IQ", got[at:at + 12])
        end = at + 4 + length
        while len(got) < end:
            got += token.some()
        if got[at:end] != answers[at:end]:
            return code
        at = end


def add_many(token):
    for part in in_parts(OBJECTS):
        payloads = (frames.call(13, number(1), template((0, number(0)), (1, b"\1"), (2, b"\0"), (0x11, value_of(at)))) for at in part)
        answers = (frames.data(number(0) + number(at)) for at in part)
        other = told(token, b"".join(map(frames.data, payloads)), b"".join(answers))
        assert other is None, other


def count_in(token):
    """How many of the objects there are, the first ones, each as it was made; the code of a refusal; or what is wrong."""
    code, _ = token.call(7, number(0), number(6))
    if not code:
        code, _ = token.call(19, number(1), template())
    count, found = 0, 1024
    while not code and found == 1024:
        code, reply = token.call(20, number(1), number(1024))
        if not code:
            found = struct.unpack(">I", reply[:4])[0]
            if reply[4:] != b"".join(number(count + at) for at in range(1, found + 1)):
                return "other handles"
            count += found
    if code:
        return "code", code
    for part in in_parts(count):
        payloads = (frames.call(17, number(1), number(at), struct.pack(">I", 1) + number(0x11) + buffer(64)) for at in part)
        answers = (frames.data(number(0) + struct.pack(">I", 1) + number(32) + b"\1" + value_of(at)) for at in part)
        code = told(token, b"".join(map(frames.data, payloads)), b"".join(answers))
        if code is not None:
            return ("code", code) if code else "another value"
    return count


def put(folder, db, log):
    for name, data in (("token.db", db), ("token.db-wal", log)):
        path = os.path.join(folder, name)
        if data is None:
            if os.path.exists(path):
                os.remove(path)
        else:
            with open(path, "wb") as file:
                file.write(data)


def start(program, folder, db, log, read=Token.contents):
    """What a start on these files comes to: 'refused', or what is read."""
    put(folder, db, log)
    token = Token(program, folder)
    if token.is_ready:
        try:
            return read(token)
        finally:
            token.kill()
    error = token.process.stderr.read()
    status = token.process.wait()
    token.kill()
    if status != 3:
        return "status %d: %s" % (status, error.decode())
    now = files(folder)
    if now[0] != db or (now[1] or b"") != (log or b""):
        return "refused, and the files changed"
    return "refused"


def flips(data, step):
    for bit in range(0, 8 * len(data), step):
        yield "bit %d" % bit, data[:bit // 8] + bytes([data[bit // 8] ^ 1 << bit % 8]) + data[bit // 8 + 1:]


def cuts(data, step):
    for length in sorted(set(range(0, len(data), step)) | set(range(0, min(64, len(data))))):
        yield "cut to %d" % length, data[:length]


class Starts:
    """Starts on changed files, some side by side, and what came of them."""

    def __init__(self, program, room):
        self.program, self.room = program, room
        self.pool, self.own = concurrent.futures.ThreadPoolExecutor(os.cpu_count()), threading.local()
        self.sums = {"ok": 0, "FAILED": 0, "skipped": 0}

    def try_one(self, change, read):
        if not hasattr(self.own, "folder"):
            self.own.folder = tempfile.mkdtemp(dir=self.room)
        try:
            return change[0], start(self.program, self.own.folder, *change[1], read)
        except OSError as error:
            return change[0], "%s" % error

    def outcomes(self, changes, read):
        # (some at a time, since each is a copy of both files)
        while some := list(itertools.islice(changes, 500)):
            yield from self.pool.map(lambda it: self.try_one(it, read), some)

    def run(self, name, changes, kind_of, read=Token.contents):
        counts, bad = {}, 0
        for what, found in self.outcomes(iter(changes), read):
            kind = "refused, unchanged" if found == "refused" else kind_of(found)
            if kind.startswith("WRONG") or kind.startswith("code"):
                bad += 1
                print("%s, %s: %s" % (name, what, kind))
            counts[kind] = counts.get(kind, 0) + 1
        outcome = "ok" if counts and not bad else "FAILED"
        self.sums[outcome] += 1
        found = ", ".join("%d %s" % (counts[k], k) for k in sorted(counts))
        print("%s %s: %d starts: %s" % (outcome, name, sum(counts.values()), found), flush=True)


def of_code(code):
    return "CKR_DEVICE_ERROR" if code == 0x30 else "code %#x" % code


def small_store(program, folder):
    """Makes a store in two runs, and returns what it had after each change."""
    states = []
    for values in ([b"one", b"two"], [b"three", b"four", b"five"]):
        token = Token(program, folder)
        assert token.is_ready, token.process.stderr.read()
        states.append(token.contents())
        for value in values:
            add(token, value)
            states.append(token.contents())
        token.kill()
    return states


def damage_small(starts, folder, step, step_of_log):
    states = small_store(starts.program, folder)
    whole, copied, new, later = states[-1], states[2], states[0], states[4:-1]
    db, log = files(folder)
    print("database file %d bytes, log %d bytes" % (len(db), len(log)))

    def of_file(found):
        if isinstance(found, int):
            return of_code(found)
        if found == whole:
            return "whole"
        return "WRONG: a new token" if found == new else "WRONG: %s" % (found,)

    def of_log(found):
        if found == copied:
            return "at its last checkpoint"
        return "before its last commits" if found in later else of_file(found)

    starts.run("flips of the file", ((w, (d, log)) for w, d in flips(db, step)), of_file)
    starts.run("flips of the log", ((w, (db, d)) for w, d in flips(log, step_of_log)), of_log)
    starts.run("cuts of the file", ((w, (d, log)) for w, d in cuts(db, step)), of_file)
    starts.run("cuts of the log", ((w, (db, d)) for w, d in cuts(log, step_of_log)), of_log)
    starts.run("the file gone", [("gone", (None, log))], of_file)
    starts.run("the log gone", [("gone", (db, None))], of_log)
    starts.run("a text", [("whole", (b"no database at all\n" * 40, None))], of_file)
    other = os.path.join(folder, "other.db")
    try:
        import sqlite3
        connection = sqlite3.connect(other)
        connection.execute("create table note (id integer primary key, text)")
        connection.execute("insert into note (text) values ('somebody else')")
        connection.commit()
        connection.close()
        starts.run("another program's file", [("whole", (open(other, "rb").read(), None))], of_file)
    except ImportError:
        starts.sums["skipped"] += 1
        print("skipped another program's file: Python has no sqlite3 here")


def damage_large(starts, folder):
    token = Token(starts.program, folder)
    assert token.is_ready and token.call(7, number(0), number(6))[0] == 0
    add_many(token)
    token.kill()
    db, log = files(folder)
    print("database file %d bytes, log %d bytes, %d objects" % (len(db), len(log), OBJECTS))
    by_chance = random.Random(1)

    def flipped(bytes_):
        at, bit = by_chance.randrange(len(bytes_)), by_chance.randrange(8)
        return "byte %d, bit %d" % (at, bit), bytes_[:at] + bytes([bytes_[at] ^ 1 << bit]) + bytes_[at + 1:]

    def cut(bytes_):
        length = by_chance.randrange(len(bytes_))
        return "cut to %d" % length, bytes_[:length]

    def of_file(found):
        if isinstance(found, tuple):
            return of_code(found[1])
        return "whole" if found == OBJECTS else "WRONG: %s" % (found,)

    def of_log(found):
        is_earlier = isinstance(found, int) and OBJECTS - LATEST < found < OBJECTS
        return "before its last commits" if is_earlier else of_file(found)

    for name, change, bytes_, kind_of in (("flips", flipped, db, of_file), ("cuts", cut, db, of_file), ("flips", flipped, log, of_log),
                                          ("cuts", cut, log, of_log)):
        changes = (change(bytes_) for _ in range(SAMPLE // 4))
        which = ((w, (d, log) if bytes_ is db else (db, d)) for w, d in changes)
        starts.run("%s of the larger %s" % (name, "file" if bytes_ is db else "log"), which, kind_of, count_in)


def main():
    program = os.path.abspath(sys.argv[1])
    step = int(sys.argv[2]) if len(sys.argv) > 2 else 199
    step_of_log = int(sys.argv[3]) if len(sys.argv) > 3 else step
    with tempfile.TemporaryDirectory() as room:
        starts = Starts(program, room)
        for name, damage in (("small", lambda folder: damage_small(starts, folder, step, step_of_log)),
                             ("large", lambda folder: damage_large(starts, folder))):
            folder = os.path.join(room, name)
            os.mkdir(folder)
            damage(folder)
        starts.pool.shutdown()
    print("%d passed, %d failed, %d skipped" % tuple(starts.sums.values()))
    return 1 if starts.sums["FAILED"] else 0


if __name__ == "__main__":
    sys.exit(main())
