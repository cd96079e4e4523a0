#!/usr/bin/env python3
"""Tries the first run of README.md as its reader does: `bin/try`, its example by pkcs11-tool in another shell, and Ctrl-C.

Takes the checkout that this file is in, rt, cargo and pkcs11-tool. Prints a line for each check, `ok NAME`, `FAILED NAME: why` or
`skipped NAME: why`, and last how many of each.
"""
import atexit
import contextlib
import functools
import os
import pty
import re
import select
import shutil
import signal
import subprocess
import tempfile
import time

import machine
from machine import TOP, Skipped, of_document, see

# How long the program may take to be compiled, on a machine that has other work, and how long no line may come.
READY_SECONDS, SILENT_SECONDS = 900, 60
CHECKS = []


def check(function):
    CHECKS.append((function.__name__, function))
    return function


class Trial:
    """`bin/try` in a terminal."""

    def __init__(self):
        for tool in ("rt", "cargo", "pkcs11-tool"):
            if not shutil.which(tool):
                raise Skipped(f"there is no {tool}")
        self.start, self.said, self.pauses = time.monotonic(), "", [0]
        process, self.terminal = pty.fork()
        if process == 0:
            signal.signal(signal.SIGINT, signal.SIG_DFL)
            os.chdir(TOP)
            # (the first command of the document that runs anything)
            os.execvp("sh", ["sh", "-c", "exec " + re.search(r"```sh\n(.*?)\n", readme()).group(1)])
        self.process = process
        atexit.register(self.end)

    def read(self, until, seconds):
        """Reads what it prints until a text comes, it ends, or the time is over."""
        end, last = time.monotonic() + seconds, time.monotonic()
        while until not in self.said and time.monotonic() < end:
            if not select.select([self.terminal], [], [], 1)[0]:
                continue
            try:
                self.said += os.read(self.terminal, 4096).decode().replace("\r\n", "\n")
            except OSError:
                break
            self.pauses.append(time.monotonic() - last)
            last = time.monotonic()

    def end(self):
        """Ends it as Ctrl-C does, once. Its status."""
        if self.process is None:
            return None
        os.write(self.terminal, b"\x03")
        self.read("(nothing)", 30)
        status, self.process = os.waitpid(self.process, 0)[1], None
        return os.waitstatus_to_exitcode(status)


def readme():
    with open(f"{TOP}/README.md", encoding="utf-8") as it:
        return it.read()


@functools.cache
def trial():
    return Trial()


def command_lines():
    """Of all processes."""
    for process in filter(str.isdigit, os.listdir("/proc")):
        with contextlib.suppress(OSError), open(f"/proc/{process}/cmdline", encoding="utf-8", errors="replace") as it:
            yield it.read().replace("\0", " ")


def block(text):
    return of_document("README.md", "sh", text)


def functions():
    """What the example's first block sets for all that follows."""
    return "".join(re.findall(r"(?m)^(?:export|p11\(\)) .*\n", block("p11 --init-token")))


FOLDER = tempfile.mkdtemp(prefix="tokend-first-run-")
atexit.register(shutil.rmtree, FOLDER)


def run(script, fails=False):
    """What a script prints, which begins in this checkout and has its files in a folder of this run's."""
    script = script.replace("$PWD", TOP)
    how = {"stdin": subprocess.DEVNULL, "capture_output": True, "text": True, "timeout": 600}
    ran = subprocess.run(["sh", "-c", script], cwd=FOLDER, check=False, **how)
    see((ran.returncode != 0) == fails, script, "ended with", ran)
    return ran.stdout


@check
def the_first_command_is_ready_in_minutes_with_lines_meanwhile():
    it = trial()
    it.read("\nready\n", READY_SECONDS)
    see("\nready\n" in it.said, "it printed", it.said[-2000:])
    see(max(it.pauses) < SILENT_SECONDS, "for", round(max(it.pauses)), "seconds no line came")
    see("Nothing of this program was proved" in it.said and "sanitizer" in it.said, it.said)


@check
def the_example_works_as_printed():
    made = run(block("p11 --init-token"))
    see("Key generated" in made, made)
    used = run(functions() + block("p11 --login --pin 1234 --decrypt"))
    see(used == "attack at dawn\n", used)


@check
def the_key_of_the_example_takes_the_pin_and_is_sensitive():
    listed = run(functions() + "p11 --login --pin 1234 --list-objects")
    see("my key" in listed and "sensitive, always sensitive" in listed, listed)
    see("my key" not in run(functions() + "p11 --list-objects"), "it is listed without the PIN")
    run(functions() + "p11 --encrypt --id 01 --mechanism AES-ECB --input-file secret --output-file more", fails=True)


@check
def ctrl_c_ends_all_that_it_started():
    it = trial()
    status = it.end()
    see(status == 130, "it ended with", status, it.said[-500:])
    see(not os.path.exists(f"{TOP}/out/try"), "out/try is left")
    left = [words for words in command_lines() if f"{TOP}/out/try/" in words]
    see(not left, "it left", left)


if __name__ == "__main__":
    machine.try_all(CHECKS)
