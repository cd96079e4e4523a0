"""A machine of its own for tests of what is installed: a Debian in a folder, in which commands run, or which systemd boots.

It takes root. The folder is made by debootstrap and is not changed: a machine's own files are in memory, over it. A machine has namespaces
of its own for processes, mounts, the network (with no way out) and control groups, and ends with the program that made it.
"""
import atexit
import contextlib
import functools
import os
import re
import shutil
import signal
import subprocess
import sys
import tempfile
import time

PACKAGES = "systemd,dbus,util-linux,passwd,opensc,gnutls-bin,p11-kit,p11-kit-modules"
SUITE = "bookworm"
PLAIN = ["env", "-i", "PATH=/usr/sbin:/usr/bin:/sbin:/bin", "HOME=/", "LC_ALL=C.UTF-8"]
TOP = os.path.dirname(os.path.dirname(os.path.abspath(__file__)))
# What `bin/install` and `bin/package` read.
SOURCES = ["bin", "share", "docs", "clients/pkcs11/tokend.module", "clients/pkcs11/pkcs11.conf", "clients/pkcs11/Cargo.toml"]
SOURCES += ["README.md", "SECURITY.md", "CHANGELOG.md", "LICENSE-APACHE", "LICENSE-MIT"]

# Makes the machine's files of its layers, and becomes its first process. ($1: a folder, $2: the layers, $3: the first process)
BOOT = r"""
set -e
umask 022
mount -t tmpfs -o mode=755 tmpfs "$1"
mkdir "$1/own" "$1/work" "$1/root"
mount -t overlay -o "lowerdir=$2,upperdir=$1/own,workdir=$1/work" overlay "$1/root"
cd "$1/root"
mount -t proc proc proc
mount -t sysfs -o ro sysfs sys
mount -t cgroup2 cgroup2 sys/fs/cgroup
mount -t tmpfs -o mode=755 tmpfs run
mount -t tmpfs tmpfs tmp
mount -t tmpfs -o mode=755 tmpfs dev
for it in null zero full random urandom tty; do
    : >"dev/$it"
    mount --bind "/dev/$it" "dev/$it"
done
mkdir dev/pts dev/shm
mount -t devpts -o ptmxmode=666 devpts dev/pts
ln -s pts/ptmx dev/ptmx
mount -t tmpfs tmpfs dev/shm
ip link set lo up 2>dev/null || :
pivot_root . mnt
umount -l mnt
echo up
exec env -i container=test PATH=/usr/sbin:/usr/bin:/sbin:/bin $3 >/dev/null
"""
SYSTEMD = "/lib/systemd/systemd --log-target=journal systemd.unit=multi-user.target"
ASLEEP = "sleep infinity"


# What is removed when the program ends.
ROOM = contextlib.ExitStack()
atexit.register(ROOM.close)


class Skipped(Exception):
    """Such a machine can't be had here."""


class Failed(Exception):
    pass


def see(is_so, *why):
    if not is_so:
        raise Failed(" ".join(str(it) for it in why))


@functools.cache
def debian():
    """A folder with a Debian, or why there is none. It is what TOKEND_DEBIAN names, where that is made if need be, or else a new folder."""
    folder = os.environ.get("TOKEND_DEBIAN")
    if folder and os.path.isdir(f"{folder}/usr"):
        return folder, None
    if not shutil.which("debootstrap"):
        return None, "there is no debootstrap"
    if not folder:
        folder = ROOM.enter_context(tempfile.TemporaryDirectory(prefix="tokend-debian-")) + "/root"
    shutil.rmtree(f"{folder}.new", ignore_errors=True)
    # (with mounts of its own, so that none is left if it is ended)
    words = ["unshare", "--mount", "debootstrap", "--variant=minbase", f"--include={PACKAGES}", SUITE, f"{folder}.new"]
    made = subprocess.run(words, capture_output=True, text=True, check=False)
    if made.returncode == 0:
        os.rename(f"{folder}.new", folder)
        return folder, None
    shutil.rmtree(f"{folder}.new", ignore_errors=True)
    return None, "debootstrap made no Debian: " + (made.stdout + made.stderr)[-300:].replace("\n", " ")


def tree(folder, program, library=None):
    """A copy of what `bin/install` and `bin/package` read, with a program and a library as bin/build leaves them."""
    for it in SOURCES:
        to = os.path.join(folder, it)
        os.makedirs(os.path.dirname(to), exist_ok=True)
        (shutil.copytree if os.path.isdir(f"{TOP}/{it}") else shutil.copy)(f"{TOP}/{it}", to)
    os.mkdir(f"{folder}/out")
    shutil.copy(program, f"{folder}/out/tokend")
    if library:
        shutil.copy(library, f"{folder}/out/tokend-pkcs11.so")
    return folder


class Machine:
    """A machine that runs. `layers` are folders whose files it has over Debian's, the first ones above."""

    def __init__(self, *layers, boots=True):
        self.ends = contextlib.ExitStack()
        try:
            self.begin(layers, boots)
        except BaseException:
            self.close()
            raise

    def begin(self, layers, boots):
        as_root()
        root, why = debian()
        if not root:
            raise Skipped(why)
        folder = self.ends.enter_context(tempfile.TemporaryDirectory(prefix="tokend-machine-"))
        group = self.ends.enter_context(control_group())
        words = ["unshare", "--mount", "--pid", "--fork", "--kill-child", "--uts", "--ipc", "--net", "--cgroup"]
        words += ["sh", "-c", BOOT, "sh", folder, ":".join([*layers, root]), SYSTEMD if boots else ASLEEP]
        # (into its control group first, which the namespace then has as the top)
        words = ["setpriv", "--pdeathsig", "KILL", "sh", "-c", 'echo $$ >"$0/cgroup.procs"; exec "$@"', group, *words]
        self.outer = subprocess.Popen(words, stdin=subprocess.DEVNULL, stdout=subprocess.PIPE, stderr=subprocess.PIPE, text=True)
        self.ends.callback(self.stop)
        if self.outer.stdout.readline() != "up\n":
            raise Skipped("no machine can be started: " + self.outer.stderr.read().strip())
        with open(f"/proc/{self.outer.pid}/task/{self.outer.pid}/children", encoding="utf-8") as it:
            inner = it.read().split()[0]
        self.enter = ["nsenter", "-t", inner, "-m", "-p", "-u", "-i", "-n", "-C", "--", *PLAIN]
        see(not boots or self.wait_for(self.has_booted, 60), "systemd doesn't come up")

    def has_booted(self):
        return self.run("systemctl", "is-system-running").stdout.strip() in ("running", "degraded")

    def run(self, *words, user=None, text=None, seconds=60):
        """A command's status and what it printed."""
        how = {"input": text} if text is not None else {"stdin": subprocess.DEVNULL}
        words = [*self.enter, *as_user(user), *words]
        return subprocess.run(words, capture_output=True, text=True, timeout=seconds, check=False, cwd="/", **how)

    def sh(self, script, *words, **how):
        """What a script printed that succeeds."""
        ran = self.run("sh", "-ec", script, "sh", *words, **how)
        if ran.returncode:
            raise OSError(f"`{script}`: status {ran.returncode}: {ran.stdout[-600:]} {ran.stderr[-600:]}")
        return ran.stdout.strip()

    def start(self, *words, user=None):
        """A command that goes on meanwhile."""
        words = [*self.enter, *as_user(user), *words]
        it = subprocess.Popen(words, stdin=subprocess.PIPE, stdout=subprocess.PIPE, stderr=subprocess.PIPE, text=True, cwd="/")
        self.ends.callback(it.kill)
        return it

    def write(self, path, text):
        self.sh('mkdir -p "${1%/*}"; cat >"$1"', path, text=text)

    @staticmethod
    def wait_for(holds, seconds):
        """Whether it comes to hold within the seconds."""
        end = time.monotonic() + seconds
        while not holds():
            if time.monotonic() > end:
                return False
            time.sleep(0.1)
        return True

    def stop(self):
        self.outer.kill()
        self.outer.wait()

    def close(self):
        self.ends.close()

    def __enter__(self):
        return self

    def __exit__(self, *_):
        self.close()


def as_user(user):
    return ["runuser", "-u", user, "--"] if user else []


def as_root():
    if os.geteuid() != 0:
        raise Skipped("this run is not root's")


@contextlib.contextmanager
def control_group():
    """A new control group below the top of the unified hierarchy, and gone at the end."""
    with open("/proc/mounts", encoding="utf-8") as it:
        tops = [line.split()[1] for line in it if line.split()[2] == "cgroup2"]
    if not tops:
        raise Skipped("no unified control groups are mounted")
    folder = tempfile.mkdtemp(prefix="tokend-machine-", dir=tops[0])
    try:
        yield folder
    finally:
        # (what was in it has been killed, and is gone in a moment)
        for _ in range(100):
            for below, _, _ in os.walk(folder, topdown=False):
                with contextlib.suppress(OSError):
                    os.rmdir(below)
            if not os.path.exists(folder):
                break
            time.sleep(0.05)


def of_document(document, kind, text):
    """The one block of a document that is of this kind (`sh`, `ini`) and has this text."""
    with open(f"{TOP}/{document}", encoding="utf-8") as it:
        found = [block for block in re.findall(rf"```{kind}\n(.*?)```", it.read(), re.S) if text in block]
    see(len(found) == 1, len(found), "blocks of", document, "have", text)
    return found[0]


def try_all(checks):
    """Runs the checks, with a line for each, and ends the program with the counts."""
    # (so that it leaves nothing if it is told to stop)
    signal.signal(signal.SIGTERM, lambda *_: sys.exit(143))
    counts = {"ok": 0, "FAILED": 0, "skipped": 0}
    for name, function in checks:
        outcome, why = "ok", ""
        try:
            function()
        except Skipped as it:
            outcome, why = "skipped", f": {it}"
        except (Failed, OSError, subprocess.SubprocessError) as it:
            outcome, why = "FAILED", f": {type(it).__name__ + ' ' if not isinstance(it, Failed) else ''}{it}"
        counts[outcome] += 1
        print(outcome, name + why, flush=True)
    print(f"{counts['ok']} passed, {counts['FAILED']} failed, {counts['skipped']} skipped")
    sys.exit(counts["FAILED"] != 0)
