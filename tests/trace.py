#!/usr/bin/env python3
"""Whether the memory that `tokend stdio` touches depends on keys, data or PINs.

    trace.py TOKEND [CASE..]

Runs the program under `valgrind --tool=lackey` twice a case, with the same calls on other keys, other data and other PINs of the same
lengths. Both runs must execute the same instructions, and read and write the same addresses, in the same order. The cases are

- 16, 24 and 32, the lengths of AES keys: ECB, CBC, CBC_PAD and CTR both ways, a few blocks and many; CMAC; the key wrap both ways; and
  tags, paddings and wrapped keys that are wrong, in another byte in each run;
- hmac: HMAC by each hash, with right tags and with wrong ones;
- pin: a PIN that is set, and a wrong one. In one run its verifier begins as the right one's.

Prints a line a case, `ok CASE: ..` or `FAILED CASE: why`, and last how many of each. A case has failed, too, where valgrind is missing or
ends badly, where a reply is another one under valgrind, and where fewer instructions were seen than bytes were sent. It needs valgrind
(Debian's package `valgrind`) and a C compiler (`cc`), which makes of trace.c what compares. TOKEND is the program itself, and no script
that begins it: valgrind would follow the script.
"""

import hashlib
import os
import shutil
import subprocess
import sys
import tempfile

sys.dont_write_bytecode = True

from frames import buffer, call, data, mechanism, number, template

HERE = os.path.dirname(os.path.abspath(__file__))
ECB, CBC, CBC_PAD, CTR, CMAC, WRAP = 0x1081, 0x1082, 0x1085, 0x1086, 0x108A, 0x2109
# (each with the length of its tag)
HMACS = {0x251: 32, 0x256: 28, 0x261: 48, 0x271: 64}
AES, GENERIC_SECRET = 0x1F, 0x10
ENCRYPTED_DATA_INVALID, PIN_INCORRECT, WRAPPED_KEY_INVALID, SIGNATURE_INVALID = 0x40, 0xA0, 0x110, 0xC0
SEED = "00" * 32
NAMES = "one", "another"


class Failed(Exception):
    pass


def see(is_so, why):
    if not is_so:
        raise Failed(why)


def chosen(kind, parameter=b""):
    """A mechanism where there may be none."""
    return b"\1" + mechanism(kind, parameter)


def some(name, use, length):
    """Bytes for that use in that run."""
    return hashlib.shake_256(f"{name} {use}".encode()).digest(length)


def with_changed(data, at):
    return data[:at] + bytes([data[at] ^ 0x5A]) + data[at + 1 :]


class Program:
    """The program, which answers each frame as it comes. The frames and the replies are kept."""

    def __init__(self, tokend):
        self.process = subprocess.Popen([tokend, "stdio", "--seed", SEED], stdin=subprocess.PIPE, stdout=subprocess.PIPE)
        self.frames, self.replies = [], []

    def answered(self, code, function, *fields):
        """The fields of a reply, which has to have that code."""
        frame = data(call(function, *fields))
        self.process.stdin.write(frame)
        self.process.stdin.flush()
        head = self.process.stdout.read(4)
        reply = self.process.stdout.read(int.from_bytes(head, "big"))
        see(reply[:8] == number(code), f"function {function} returned {reply[:8].hex()} and not {code:#x}")
        self.frames.append(frame)
        self.replies.append(head + reply)
        return reply[8:]

    def call(self, function, *fields):
        return self.answered(0, function, *fields)

    def output(self, function, *fields):
        return self.call(function, *fields)[5:]

    def end(self):
        self.process.stdin.close()
        see(self.process.wait() == 0, "the program doesn't end well")


def key(program, session, value, kind=AES):
    uses = (0x104, 0x105, 0x106, 0x107, 0x108, 0x10A, 0x162)
    pairs = [(0, number(4)), (2, b"\0"), (0x11, value), (0x100, number(kind)), *((it, b"\1") for it in uses)]
    return program.call(13, session, template(*sorted(pairs)))


def encrypted(program, session, mech, under, text):
    program.call(22, session, mech, under)
    return program.output(23, session, data(text), buffer(len(text) + 16))


def both_ways(program, session, mech, under, text):
    secret = encrypted(program, session, mech, under, text)
    program.call(26, session, mech, under)
    see(program.output(27, session, data(secret), buffer(len(text) + 16)) == text, "another text was decrypted")


def wrong_paddings(is_other):
    """Last blocks with a wrong padding. The runs have them in opposite orders, so that each time the wrong byte is another."""
    found = [bytes(15) + bytes([it]) for it in (0, 17, 255)]
    found += [with_changed(bytes([it] * 16), 16 - it) for it in (2, 9, 16)] + [with_changed(bytes([16] * 16), it) for it in (7, 14)]
    return found[::-1] if is_other else found


def tags(program, session, mech, under, message, length, wrong):
    program.call(30, session, mech, under)
    tag = program.output(31, session, data(message), buffer(length))
    see(len(tag) == length, "a tag of another length")
    for code, it in ((0, tag), (SIGNATURE_INVALID, with_changed(tag, wrong))):
        program.call(34, session, mech, under)
        program.answered(code, 35, session, data(message), data(it))


def wrapped(program, session, under, value, check):
    """The value, wrapped (RFC 3394) with that check in place of the standard's."""
    blocks = [value[at : at + 8] for at in range(0, len(value), 8)]
    for step in range(1, 6 * len(blocks) + 1):
        at = (step - 1) % len(blocks)
        made = encrypted(program, session, chosen(ECB), under, check + blocks[at])
        check, blocks[at] = (int.from_bytes(made[:8], "big") ^ step).to_bytes(8, "big"), made[8:]
    return check + b"".join(blocks)


def wraps(program, session, under, name, is_other):
    inner = some(name, "another key", 16)
    made = program.output(39, session, mechanism(WRAP), under, key(program, session, inner), buffer(24))
    check = bytes([0xA6] * 8)
    see(made == wrapped(program, session, under, inner, check), "another wrapping")
    wrong = wrapped(program, session, under, inner, with_changed(check, 0 if is_other else 7))
    for code, it in ((0, made), (WRAPPED_KEY_INVALID, wrong)):
        unwrapped = template((0, number(4)), (2, b"\0"), (0x100, number(AES)))
        program.answered(code, 40, session, mechanism(WRAP), under, data(it), unwrapped)


def ciphers(key_len):
    def calls(program, name, is_other):
        session = program.call(7, number(0), number(6))
        under = key(program, session, some(name, "key", key_len))
        iv, counter = some(name, "iv", 16), number(128) + bytes(15) + b"\1"
        # (texts of a few blocks, and of more than 32, which are done eight at once, and a rest)
        for blocks, text_len in ((80, 75), (688, 699)):
            for kind, parameter, length in ((ECB, b"", blocks), (CBC, iv, blocks), (CBC_PAD, iv, text_len), (CTR, counter, text_len)):
                both_ways(program, session, chosen(kind, parameter), under, some(name, kind, length))
        for last in wrong_paddings(is_other):
            secret = encrypted(program, session, chosen(CBC, iv), under, some(name, last, 64) + last)
            program.call(26, session, chosen(CBC_PAD, iv), under)
            program.answered(ENCRYPTED_DATA_INVALID, 27, session, data(secret), buffer(80))
        tags(program, session, chosen(CMAC), under, some(name, "message", 299), 16, 0 if is_other else 15)
        wraps(program, session, under, name, is_other)

    return calls


def hmacs(program, name, is_other):
    session = program.call(7, number(0), number(6))
    under = key(program, session, some(name, "key", 40), GENERIC_SECRET)
    for kind, length in HMACS.items():
        tags(program, session, chosen(kind), under, some(name, "message", 299), length, 0 if is_other else length - 1)


def pins(program, name, is_other):
    def pin(use):
        return some(name, use, 6).hex().encode()

    def verifier(of):
        return hashlib.pbkdf2_hmac("sha256", of, salt, 20000)

    # (an application's first random bytes: the token takes the salt from them)
    before = Program(program.process.args[0])
    salt = before.call(41, before.call(7, number(0), number(6)), number(16))[4:]
    before.end()
    begins = verifier(pin("right"))[0]
    wrong = next(it for it in map(pin, range(10000)) if (verifier(it)[0] == begins) != is_other)
    program.call(4, number(0), data(pin("right")), data(b" " * 32))
    session = program.call(7, number(0), number(6))
    program.answered(PIN_INCORRECT, 11, session, number(0), data(wrong))


CASES = {"16": ciphers(16), "24": ciphers(24), "32": ciphers(32), "hmac": hmacs, "pin": pins}


def played(tokend, calls):
    """Both runs without valgrind, whose calls and replies have to have the same lengths."""
    both = []
    for is_other, name in enumerate(NAMES):
        program = Program(tokend)
        try:
            calls(program, name, bool(is_other))
            program.end()
        finally:
            program.process.kill()
        both.append(program)
    for what in ("frames", "replies"):
        one, another = (getattr(it, what) for it in both)
        see([len(it) for it in one] == [len(it) for it in another], f"the {what} of the two runs have other lengths")
    return both


class Traced:
    """A run of the program under valgrind, with the calls of another run, and the descriptor of its trace."""

    def __init__(self, program, folder, name):
        self.calls, self.wanted = program.frames, b"".join(program.replies)
        self.files = {it: open(f"{folder}/{name}.{it}", "w+b") for it in ("calls", "replies", "said")}
        self.files["calls"].write(b"".join(program.frames))
        self.files["calls"].seek(0)
        self.trace, writes = os.pipe()
        words = ["setarch", "-R", "valgrind", "--tool=lackey", "--trace-mem=yes", f"--log-fd={writes}", *program.process.args]
        streams = dict(zip(("stdin", "stdout", "stderr"), self.files.values()))
        self.process = subprocess.Popen(words, pass_fds=[writes], **streams)
        os.close(writes)

    def has(self, file):
        self.files[file].seek(0)
        return self.files[file].read()

    def end(self):
        status = self.process.wait()
        see(status == 0, f"valgrind ended with status {status}: {self.has('said')[-300:].decode(errors='replace')}")
        see(self.has("replies") == self.wanted, "a reply is another one under valgrind")

    def close(self):
        self.process.kill()
        self.process.wait()
        os.close(self.trace)
        for it in self.files.values():
            it.close()


def compared(tokend, calls, folder):
    """Runs a case. What to print of it where both traces are the same."""
    traced = []
    try:
        for name, program in zip(NAMES, played(tokend, calls)):
            traced.append(Traced(program, folder, name))
        fds = [it.trace for it in traced]
        ran = subprocess.run([f"{folder}/trace", *map(str, fds)], pass_fds=fds, stdout=subprocess.PIPE, text=True, check=False)
        first, *lines = ran.stdout.splitlines() or [""]
        how, *counts = first.split()
        see(how != "differ", f"line {' '.join(counts)} differs, after {' | '.join(lines)}")
        for it in traced:
            it.end()
        see(how == "same" and ran.returncode == 0, f"trace ended with status {ran.returncode}")
        count, instructions = map(int, counts)
        see(instructions > sum(map(len, traced[0].calls)), f"only {instructions} instructions were seen")
        return f"{instructions:,} instructions and {count - instructions:,} reads and writes are the same"
    finally:
        for it in traced:
            it.close()


def is_program(path):
    with open(path, "rb") as it:
        return it.read(4) == b"\x7fELF"


def main(tokend, chosen):
    counts = {"ok": 0, "FAILED": 0}
    with tempfile.TemporaryDirectory() as folder:
        subprocess.run(["cc", "-O2", "-D_GNU_SOURCE", "-o", f"{folder}/trace", f"{HERE}/trace.c"], check=True)
        for name in chosen:
            try:
                see(shutil.which("valgrind"), "valgrind is missing (Debian's package valgrind)")
                see(is_program(tokend), f"{tokend} is no program that valgrind can follow")
                outcome, what = "ok", compared(tokend, CASES[name], folder)
            except (Failed, OSError) as it:
                outcome, what = "FAILED", it
            counts[outcome] += 1
            print(f"{outcome} {name}: {what}", flush=True)
    print(f"{counts['ok']} passed, {counts['FAILED']} failed")
    return 1 if counts["FAILED"] else 0


if __name__ == "__main__":
    if len(sys.argv) < 2 or not set(sys.argv[2:]) <= set(CASES):
        sys.exit(__doc__)
    sys.exit(main(os.path.abspath(sys.argv[1]), sys.argv[2:] or list(CASES)))
