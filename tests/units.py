#!/usr/bin/env python3
"""Tries the units of systemd (share/systemd) in a machine that systemd boots (machine.py), as `bin/install` installs them.

    units.py PROGRAM [NAME..]

Takes the program's path, and perhaps names of checks. Prints a line for each check, `ok NAME`, `FAILED NAME: why` or `skipped NAME: why`,
and last how many of each. It takes root, and debootstrap or a folder with a Debian in TOKEND_DEBIAN.
"""
import functools
import os
import subprocess
import sys
import tempfile
import time

import machine
from machine import ROOM, Skipped, of_document, see

PROGRAM = os.path.abspath(sys.argv[1]) if len(sys.argv) > 1 else sys.exit(__doc__)
CHECKS = []
OPEN = "000700000000000000000000000000000006\n"
MAKE = OPEN + "000d00000000000000010000000300000000000000000000000800000000000000000000000000000001000000010100000000000000020000000100\n"
FIND = OPEN + "0013000000000000000100000000\n001400000000000000010000000000000009\n"
NONE, ONE = "000000000000000000000000", "0000000000000000000000010000000000000001"
# The longest name of an instance.
LONG = "a-name-of-23-characters"
# A store that no daemon opens, whose socket listens, and its end.
DAMAGE = 'mkdir -p /var/lib/private/tokend; echo "no store" >/var/lib/private/tokend/token.db; systemctl start tokend.socket'
REPAIR = "rm /var/lib/private/tokend/token.db"


@functools.cache
def installed():
    """What `bin/install /usr` installs, as a layer."""
    folder = ROOM.enter_context(tempfile.TemporaryDirectory())
    tree = machine.tree(f"{folder}/tree", PROGRAM)
    subprocess.run([f"{tree}/bin/install", "/usr"], env={**os.environ, "DESTDIR": f"{folder}/layer"}, capture_output=True, check=True)
    return f"{folder}/layer"


def check(function):
    def run():
        with machine.Machine(installed()) as it:
            it.sh("systemd-sysusers; useradd -G tokend member; useradd stranger")
            function(it)

    CHECKS.append((function.__name__, run))
    return function


def ask(it, lines, user=None, name="tokend"):
    return it.run("tokend", "p11call", "--socket", f"/run/{name}/tokend.sock", user=user, text=lines)


def answered(it, lines=OPEN, **how):
    """The replies, where each call succeeds."""
    ran = ask(it, lines, **how)
    replies = ran.stdout.split()
    see(ran.returncode == 0 and len(replies) == lines.count("\n") and all(reply[:16] == "0" * 16 for reply in replies), ran)
    return replies


def denied(it, user, name="tokend"):
    ran = ask(it, OPEN, user=user, name=name)
    see(ran.returncode == 4 and ran.stdout == "" and "Permission denied" in ran.stderr, user, "connects to", name, ran)


def show(it, unit, what):
    return it.sh('systemctl show --value --property "$2" "$1"', unit, what)


def listens(it):
    states = [show(it, "tokend.socket", what) for what in ("ActiveState", "Result")]
    see(states == ["active", "success"], "the socket is", *states)


def waiting(it):
    """A client that has called."""
    client = it.start("tokend", "p11call", "--socket", "/run/tokend/tokend.sock")
    client.stdin.write(OPEN)
    client.stdin.flush()
    return client


def is_answered(client):
    said, errors = client.communicate(timeout=60)
    see(said == "00000000000000000000000000000001\n", said, errors)


def settings(it, unit, text):
    """Other settings of a unit."""
    it.write(f"/etc/systemd/system/{unit}.d/test.conf", text)
    it.sh("systemctl daemon-reload")


@check
def members_of_the_group_connect_and_nobody_else(it):
    it.sh("systemctl start tokend.socket")
    modes = set()
    stopped = "systemctl stop tokend.socket tokend; systemctl start tokend"
    for again in ("true", "true", "systemctl restart tokend", stopped, "systemctl kill -s KILL tokend"):
        it.sh(again)
        answered(it, user="member")
        answered(it)
        denied(it, "stranger")
        modes.add(it.sh("stat -c '%U %G %a' /run/tokend/tokend.sock"))
    see(modes == {"root tokend 660"}, "the socket is", modes)


@check
def members_have_nothing_of_the_store(it):
    it.sh("systemctl start tokend.socket")
    answered(it, MAKE)
    for path in ("/var/lib/tokend/token.db", "/var/lib/private/tokend/token.db"):
        it.sh('test -s "$1"', path)
        for user in ("member", "stranger"):
            see(it.run("test", "-e", path, user=user).returncode == 1, user, "reaches", path)
    daemon = show(it, "tokend", "MainPID")
    groups = it.sh('sed -n "s/^[GU][a-z]*://p" "/proc/$1/status"', daemon).split()
    see(it.sh("getent group tokend").split(":")[2] not in groups, "the daemon is in the group of those who connect")


@check
def instances_share_nothing(it):
    units = {"member": "tokend", "one": "tokend@one", "two": f"tokend@{LONG}"}
    names = {user: unit.replace("@", "-") for user, unit in units.items()}
    for user in ("one", "two"):
        it.sh('groupadd --system "$2"; useradd -G "$2" "$1"; systemctl enable --now "$3.socket"', user, names[user], units[user])
    it.sh("systemctl start tokend.socket")
    answered(it, MAKE, user="one", name="tokend-one")
    for user, name in names.items():
        found = answered(it, FIND, user=user, name=name)[-1]
        see(found == (ONE if user == "one" else NONE), user, "finds", found)
        for other in set(names.values()) - {name}:
            denied(it, user, other)
        it.sh('test -s "/var/lib/private/$1/token.db"', name)
    users = {it.sh('stat -c %u "/proc/$1"', show(it, unit, "MainPID")) for unit in units.values()}
    see(len(users) == 3 and "0" not in users, "users of the daemons:", users)
    it.sh("systemctl stop tokend@one.socket tokend@one")
    answered(it, user="two", name=names["two"])


@check
def an_instance_has_options_of_its_own(it):
    it.sh("groupadd --system tokend-web; groupadd --system tokend-one")
    settings(it, "tokend@web.service", of_document("docs/OPERATING.md", "ini", "--idle"))
    it.sh("systemctl start tokend@web tokend@one")
    words = {name: it.sh('tr "\\0" " " <"/proc/$1/cmdline"', show(it, f"tokend@{name}", "MainPID")) for name in ("web", "one")}
    see("--idle" in words["web"] and "--idle" not in words["one"], words)
    answered(it, name="tokend-web")


@check
def a_backup_is_restored_as_the_document_has_it(it):
    it.sh("systemctl start tokend.socket")
    answered(it, MAKE)
    it.sh(of_document("docs/OPERATING.md", "sh", "tokend backup"))
    answered(it, MAKE)
    it.sh(of_document("docs/OPERATING.md", "sh", "tokend restore"))
    found = answered(it, FIND)[-1]
    see(found == ONE, "found", found)


@check
def a_daemon_that_fails_is_started_until_it_serves(it):
    """The socket listens all the while, the starts have pauses, and who waits is served in the end."""
    it.sh(DAMAGE)
    client = waiting(it)
    time.sleep(15)
    listens(it)
    starts = it.sh("journalctl -u tokend.service -o cat | grep -c 'cannot open the store'")
    see(3 <= int(starts) <= 20, starts, "starts in 15 seconds")
    it.sh(REPAIR)
    is_answered(client)
    answered(it)


@check
def a_daemon_that_fails_serves_later_clients_too(it):
    it.sh(DAMAGE + "; systemctl --no-block start tokend")
    time.sleep(15)
    it.sh(REPAIR)
    answered(it)


@check
def a_daemon_that_is_refused_its_seed_leaves_the_socket(it):
    """Its status is one that no other start mends, and a client waits all the while."""
    start = show(it, "tokend.service", "ExecStart").partition("argv[]=")[2].partition(" ;")[0]
    settings(it, "tokend.service", f"[Service]\nExecStart=\nExecStart={start} --seed-file /etc/seed\n")
    it.sh("systemctl start tokend.socket")
    client = waiting(it)
    time.sleep(10)
    listens(it)
    it.sh("head -c 32 /dev/urandom >/etc/seed")
    is_answered(client)


@check
def what_the_journal_has_is_no_error_where_there_is_none(it):
    it.sh("systemctl start tokend")
    answered(it)
    it.sh("journalctl --sync")
    said = it.sh("journalctl _SYSTEMD_UNIT=tokend.service -p err -o cat")
    see(said == "", "errors:", said)
    see("serves" in it.sh("journalctl _SYSTEMD_UNIT=tokend.service -o cat"), "the start isn't said")


def watched(it):
    """The daemon runs, with a fifth of the time that the unit gives it. Its process."""
    it.sh("systemctl start tokend")
    see(show(it, "tokend", "WatchdogUSec") == "30s", "WatchdogSec is", show(it, "tokend", "WatchdogUSec"))
    settings(it, "tokend.service", "[Service]\nWatchdogSec=6s\n")
    it.sh("systemctl restart tokend")
    return show(it, "tokend", "MainPID")


@check
def a_daemon_that_hangs_is_started_again(it):
    first = watched(it)
    it.sh('kill -STOP "$1"', first)
    see(it.wait_for(lambda: show(it, "tokend", "MainPID") not in (first, "0"), 30), "it still hangs")
    answered(it)


@check
def a_daemon_that_answers_is_left_alone(it):
    first = watched(it)
    end = time.monotonic() + 15
    while time.monotonic() < end:
        answered(it)
        time.sleep(0.5)
    see(show(it, "tokend", "MainPID") == first, "it was started again:", show(it, "tokend", "Result"))
    time.sleep(15)
    see(show(it, "tokend", "MainPID") == first, "it was started again when idle:", show(it, "tokend", "Result"))


@check
def its_memory_stays_off_the_disk(it):
    it.sh("systemctl start tokend")
    see(show(it, "tokend", "MemorySwapMax") == "0", "MemorySwapMax is", show(it, "tokend", "MemorySwapMax"))
    see("Max core file size        0 " in it.sh('cat "/proc/$1/limits"', show(it, "tokend", "MainPID")), "a core can be written")


@check
def systemd_understands_the_units(it):
    """Each setting but the two that systemd before 254 doesn't have."""
    units = [f"/usr/lib/systemd/system/{name}" for name in ("tokend.service", "tokend.socket", "tokend@one.service", "tokend@one.socket")]
    it.sh("groupadd --system tokend-one")
    ran = it.run("systemd-analyze", "verify", "--man=no", *units)
    new = ("RestartSteps", "RestartMaxDelaySec")
    said = [line for line in ran.stderr.splitlines() if "tokend" in line and not any(f"'{key}'" in line for key in new)]
    see(ran.returncode == 0 and not said, ran.returncode, said)


@check
def the_pause_between_starts_grows(it):
    if int(it.sh("systemctl --version").split()[1]) < 254:
        raise Skipped("this systemd is older than 254")
    it.sh(DAMAGE + "; systemctl --no-block start tokend")
    time.sleep(40)
    it.sh("journalctl --sync")
    lines = it.sh("journalctl -u tokend.service -o short-unix").splitlines()
    at = [float(line.split()[0]) for line in lines if "cannot open the store" in line]
    pauses = [round(later - sooner, 1) for sooner, later in zip(at, at[1:])]
    see(len(pauses) >= 4 and pauses[-1] > 2 * pauses[0] and 0.9 < pauses[0] < 3, "pauses", pauses)


if __name__ == "__main__":
    names = sys.argv[2:]
    machine.try_all([it for it in CHECKS if not names or it[0] in names])
