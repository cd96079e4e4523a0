#!/usr/bin/env python3
"""Plays docs/MACHINES.md: each of its commands, as it stands there, on three machines made of network namespaces.

    machines.py PROGRAM MODULE

Needs root, iproute2, openssh-server, stunnel4, opensc and python3-pykcs11; without them it reports `skipped` and why. Each machine has a
network of its own (ip netns, veth) and its own /etc, /run, /usr/local and /var/lib (mounts of its own), so that it reaches the
others by their addresses alone. Prints a line a check, and what a call takes by each way. The last line is `N passed, M failed`.

systemd isn't there. A stub of systemctl runs what ExecStart= of a unit says, and again a second after it ended.
"""
import os, re, shutil, signal, socket, statistics, struct, subprocess, sys, tempfile, time

HERE = os.path.dirname(os.path.abspath(__file__))
PAGE = os.path.normpath(f"{HERE}/../docs/MACHINES.md")
LIBRARY = "/usr/local/lib/pkcs11/tokend-pkcs11.so"
TOOL = f"pkcs11-tool --module {LIBRARY}"
MACHINES = {"token": [("a0", "10.77.1.1")], "application": [("b0", "10.77.1.2"), ("b1", "10.77.2.2")], "second": [("c0", "10.77.2.1")]}
LINKS = [(("token", "a0"), ("application", "b0")), (("second", "c0"), ("application", "b1"))]
OWN = ("/etc", "/run", "/usr/local", "/var/lib")
SECONDS = 900

SYSTEMCTL = """#!/bin/sh
# Stands for systemd: start, stop, enable --now, daemon-reload.
case $1 in
daemon-reload) exit 0 ;;
enable) shift 2; verb=start ;;
*) verb=$1; shift ;;
esac
for unit; do
    unit=${unit%.service}
    case $unit in *.socket) continue ;; esac
    if [ $verb = start ]; then
        line=$(sed -e :a -e '/\\\\$/{N; s/\\\\\\n *//; ta' -e '}' /etc/systemd/system/$unit.service | sed -n 's/^ExecStart=//p')
        folder=$(sed -n 's/^RuntimeDirectory=//p' /etc/systemd/system/$unit.service)
        [ -z "$folder" ] || install -d -m 755 /run/$folder
        setsid sh -c "while :; do $line; sleep 1; done" </dev/null >/run/$unit.log 2>&1 &
        echo $! >/run/$unit.pid
    else
        group=$(cat /run/$unit.pid)
        kill -9 -$group
        while kill -0 -$group 2>/dev/null; do sleep 0.1; done
        [ $unit != tokend ] || rm -f /run/tokend/tokend.sock
    fi
done
"""
DAEMON = """[Service]
RuntimeDirectory=tokend
ExecStart=tokend serve --store /var/lib/tokend/token.db --socket /run/tokend/tokend.sock --socket-mode 660 --clients 16
"""


def run(words, **more):
    return subprocess.run(words, stdin=subprocess.DEVNULL, stdout=subprocess.PIPE, stderr=subprocess.STDOUT, timeout=SECONDS, **more)


class Failed(Exception):
    pass


class Machine:
    """A machine: a network namespace, and a process that keeps its mounts."""

    def __init__(self, name, room, program, module):
        self.name, self.space, self.room = name, f"tokend-{name}", f"{room}/{name}"
        must(["ip", "netns", "add", self.space])
        must(["ip", "-n", self.space, "link", "set", "lo", "up"])
        os.makedirs(self.room)
        must(["cp", "-a", "/etc", f"{self.room}/etc"])
        for folder in OWN[1:]:
            os.makedirs(self.room + folder)
        self.fill(program, module)
        mounts = "; ".join(f"mount --bind {self.room}{it} {it}" for it in OWN)
        own = ["ip", "netns", "exec", self.space, "unshare", "-m", "--propagation", "private"]
        self.keeper = subprocess.Popen(
            [*own, "sh", "-ec", f"{mounts}; echo ready; exec sleep 100000"], stdin=subprocess.DEVNULL, stdout=subprocess.PIPE)
        if self.keeper.stdout.readline() != b"ready\n":
            raise Failed(f"no machine {name}")

    def fill(self, program, module):
        made = ("/usr/local/bin", "/usr/local/lib/pkcs11", "/run/sshd", "/var/lib/tokend")
        for folder in (*made, "/etc/systemd/system", "/etc/stunnel", "/etc/ssh/sshd_config.d"):
            os.makedirs(self.room + folder, exist_ok=True)
        for name, text in (("usr/local/bin/systemctl", SYSTEMCTL), ("etc/systemd/system/tokend.service", DAEMON)):
            with open(f"{self.room}/{name}", "w") as it:
                it.write(text)
            os.chmod(f"{self.room}/{name}", 0o755)
        shutil.copy(module, self.room + LIBRARY)
        shutil.copy(program, f"{self.room}/usr/local/bin/tokend")
        shutil.rmtree(f"{self.room}/etc/tokend", ignore_errors=True)
        os.makedirs(f"{self.room}/etc/tokend")
        self.be_patient()

    def be_patient(self):
        """Settings beside the page's: a machine that does much else is no reason to give up."""
        with open(f"{self.room}/etc/tokend/pkcs11.conf", "a") as it:
            it.write("timeout = 900\nconnect-timeout = 900\n")

    def call(self, command, wanted=0):
        """Runs a command, and returns what it prints."""
        ran = run(["nsenter", "-t", str(self.keeper.pid), "-m", "-n", "sh", "-ec", command],
                  env={"PATH": "/usr/local/bin:/usr/sbin:/usr/bin:/sbin:/bin", "HOME": "/run", "LC_ALL": "C.UTF-8"})
        text = ran.stdout.decode(errors="replace")
        if wanted is not None and ran.returncode != wanted:
            raise Failed(f"on {self.name}: {command}\nstatus {ran.returncode}\n{text}")
        return text

    def begin(self, command):
        self.call(f"setsid {command} </dev/null >/run/begun.log 2>&1 &")

    def file(self, path):
        return self.room + path

    def end(self):
        self.keeper.kill()
        self.keeper.wait()


def must(words):
    ran = run(words)
    if ran.returncode:
        raise Failed(f"{' '.join(words)}: {ran.stdout.decode(errors='replace')}")


def blocks():
    """The commands of the page, in their order: which machine, and what."""
    with open(PAGE) as it:
        found = re.findall(r"```sh\n# on (\w+)\n(.*?)```", it.read(), re.S)
    return iter(found)


def until(what, seconds=20):
    """Waits until something holds."""
    since = time.monotonic()
    while not what():
        if time.monotonic() - since > seconds:
            return False
        time.sleep(0.2)
    return True


class Play:
    def __init__(self, machines):
        self.machines, self.page = machines, blocks()
        self.token, self.application, self.second = (machines[it] for it in MACHINES)
        self.counts = {"ok": 0, "FAILED": 0}

    def check(self, name, holds, seen=""):
        how = "ok" if holds else "FAILED"
        self.counts[how] += 1
        print(how, name, flush=True)
        if not holds and seen:
            print("".join(f"    {it}\n" for it in seen.split("\n")), end="", flush=True)

    def next(self, machine, begins, wanted=0):
        """The page's next commands, which are on that machine and begin so."""
        name, command = next(self.page)
        if name != machine or not command.startswith(begins):
            raise Failed(f"the page has something else than {begins} on {machine}: {command}")
        return self.machines[name].call(command, wanted)

    def carry(self, one, path, other, to, mode=0o600):
        shutil.copy(self.machines[one].file(path), self.machines[other].file(to))
        os.chmod(self.machines[other].file(to), mode)

    def know(self, machine, address):
        """Carries a machine's host key to the application's."""
        with open(self.machines[machine].file("/etc/ssh/ssh_host_ed25519_key.pub")) as it:
            line = f"{address} {it.read()}"
        with open(self.application.file("/etc/tokend/ssh/known_hosts"), "a") as to:
            to.write(line)

    def listens(self, machine):
        """Waits for a daemon, and gives its socket to the group, as SocketGroup= does."""
        socket = self.machines[machine].file("/run/tokend/tokend.sock")
        if not until(lambda: os.path.exists(socket)):
            raise Failed(f"no daemon on {machine}: {self.machines[machine].call('cat /run/tokend.log')}")
        self.machines[machine].call("chgrp tokend /run/tokend/tokend.sock")

    def slots(self, variables=""):
        return self.application.call(f"{variables} {TOOL} -L", None)

    def begin(self):
        for machine in ("token", "second"):
            self.machines[machine].call("groupadd --system tokend")
        self.token.call("systemctl start tokend.socket tokend")
        self.listens("token")
        self.token.call(f"{TOOL} --init-token --label machines --so-pin 12345678")
        self.token.call(f"{TOOL} --init-pin --login --login-type so --so-pin 12345678 --new-pin 1234")

    def openssh(self):
        self.user = next(command for _, command in blocks() if command.startswith("useradd"))
        self.next("token", "useradd")
        self.token.begin("/usr/sbin/sshd -D -o UsePAM=no -o ListenAddress=10.77.1.1")
        self.next("application", "install -d -m 700 /etc/tokend/ssh")
        self.carry("application", "/etc/tokend/ssh/key.pub", "token", "/var/lib/tokend-app/.ssh/authorized_keys", 0o644)
        self.know("token", "10.77.1.1")
        self.next("application", "systemctl daemon-reload")
        forwarded = self.application.file("/run/tokend/tokend.sock")
        is_there = until(lambda: os.path.exists(forwarded))
        self.check("OpenSSH: the socket is there", is_there, self.application.call("cat /run/tokend-forward.log"))
        found = self.next("application", TOOL)
        self.check("OpenSSH: the token is in the slot", "token label        : machines" in found, found)
        self.check("OpenSSH: mode of the socket", os.stat(forwarded).st_mode & 0o777 == 0o660)
        key = f"{TOOL} --login --pin 1234 --keygen --key-type AES:32 --label before --id 01"
        self.check("OpenSSH: a key is made", "Key generated" in self.application.call(key))
        ssh = "ssh -i /etc/tokend/ssh/key -o BatchMode=yes -o UserKnownHostsFile=/etc/tokend/ssh/known_hosts tokend-app@10.77.1.1"
        refused = self.application.call(f"{ssh} id", None)
        self.check("OpenSSH: the user runs nothing", "uid=" not in refused, refused)
        self.application.call("kill $(ps -o pid= --ppid $(cat /run/tokend-forward.pid))")
        self.check("OpenSSH: the unit connects again", until(lambda: "machines" in self.slots()))
        self.application.call("systemctl stop tokend-forward")
        found = self.slots()
        self.check("OpenSSH: no ssh is said", "tokend.sock: nobody listens" in found and "(empty)" in found, found)
        self.application.call("systemctl start tokend-forward")
        self.check("OpenSSH: and it is back", until(lambda: "machines" in self.slots()))
        self.measure("OpenSSH", self.application, "/run/tokend/tokend.sock")
        self.token.call("systemctl stop tokend")
        found = self.slots()
        self.check("OpenSSH: no daemon is said", "connection closed" in found and "(empty)" in found, found)
        self.token.call("systemctl start tokend")
        self.listens("token")

    def stunnel(self):
        self.next("token", "install")
        self.next("application", "install")
        self.carry("token", "/etc/tokend/token.crt", "application", "/etc/tokend/token.crt")
        self.carry("application", "/etc/tokend/application.crt", "token", "/etc/tokend/application.crt")
        self.next("token", "stunnel")
        self.next("application", "(umask")
        found = self.next("application", "TOKEND_SOCKET=/run/tokend/by-stunnel.sock")
        self.check("stunnel: the token is in the slot", "token label        : machines" in found, found)
        mode = os.stat(self.application.file("/run/tokend/by-stunnel.sock")).st_mode & 0o777
        self.check("stunnel: mode of the socket", mode == 0o660, oct(mode))
        self.measure("stunnel", self.application, "/run/tokend/by-stunnel.sock")
        stranger = "sed 's/by-stunnel/stranger/; s/^pid.*/pid =/; /^cert/d; /^key/d' /etc/stunnel/tokend.conf >/etc/stunnel/stranger.conf"
        self.application.call(f"{stranger}; stunnel /etc/stunnel/stranger.conf")
        found = self.slots("TOKEND_SOCKET=/run/tokend/stranger.sock")
        self.check("stunnel: nobody without a certificate", "connection closed" in found and "(empty)" in found, found)
        self.token.call("systemctl stop tokend")
        found = self.slots("TOKEND_SOCKET=/run/tokend/by-stunnel.sock")
        self.check("stunnel: no daemon is said", "connection closed" in found and "(empty)" in found, found)
        self.token.call("systemctl start tokend")
        self.listens("token")

    def takeover(self):
        self.next("token", "tokend backup")
        self.listens("token")
        self.application.call(f"{TOOL} --login --pin 9999 -O", 1)
        self.token.call(f"{TOOL} --write-object /etc/hostname --type data --label after")
        found = self.slots()
        self.check("takeover: a wrong PIN counts on the first token", "user PIN count low" in found, found)
        self.carry("token", "/var/lib/tokend/token.copy", "second", "/var/lib/tokend/token.copy")
        self.next("second", "systemctl stop tokend.socket tokend")
        found = self.second.call("tokend check --store /var/lib/tokend/token.db")
        self.check("takeover: the copy is whole", "secret key" in found, found)
        self.listens("second")
        # (to the second machine by the same way as to the first; here by a second ssh)
        self.second.call(self.user)
        self.carry("application", "/etc/tokend/ssh/key.pub", "second", "/var/lib/tokend-app/.ssh/authorized_keys", 0o644)
        self.second.begin("/usr/sbin/sshd -D -o UsePAM=no -o ListenAddress=10.77.2.1")
        self.know("second", "10.77.2.1")
        units = "/etc/systemd/system"
        second = "s/10.77.1.1/10.77.2.1/; s|-L /run/tokend/tokend.sock|-L /run/tokend/second.sock|"
        self.application.call(f"sed '{second}' {units}/tokend-forward.service >{units}/tokend-second.service")
        self.application.call("systemctl start tokend-second")
        until(lambda: os.path.exists(self.application.file("/run/tokend/second.sock")))
        self.next("application", "cat >/etc/tokend/pkcs11.conf")
        self.application.be_patient()
        found = self.slots()
        self.check("takeover: both are slots", found.count("token label        : machines") == 2, found)
        is_low = [it.count("user PIN count low") for it in found.split("Slot 1")]
        self.check("takeover: the tries are the backup's", is_low == [1, 0], found)
        self.token.call("systemctl stop tokend")
        found = self.next("application", f"{TOOL} -L")
        self.check("takeover: the first slot is empty", "connection closed" in found and found.count("(empty)") == 1, found)
        found = self.next("application", f"{TOOL} --slot 1")
        self.check("takeover: the backup's key is there, and nothing newer", "before" in found and "after" not in found, found)
        self.token.call("systemctl start tokend")
        self.listens("token")

    def spread(self):
        found = self.next("application", "cat >/etc/tokend/spread.py")
        self.check("keys on several tokens", found == "the same key\n", found)
        untrusted = f"{TOOL} --slot 0 --login --pin 1234"
        self.application.call(f"{untrusted} --keygen --key-type AES:32 --usage-wrap --label untrusted --id 07")
        with open(self.application.file("/etc/tokend/spread.py")) as it:
            text = it.read().replace('"transport"), (CKA_TRUSTED, True)', '"untrusted")').split("# The security officers")
        users = text[1].split("# The users' part")[1]
        with open(self.application.file("/etc/tokend/untrusted.py"), "w") as it:
            it.write(f"{text[0]}# {users.replace('for slot in (0, 1)', 'for slot in (0,)')}")
        found = self.application.call("/usr/bin/python3 /etc/tokend/untrusted.py", None)
        self.check("keys on several tokens: an untrusted key wraps none", "CKR_KEY_NOT_WRAPPABLE" in found, found)

    def measure(self, name, machine, path):
        """What two calls take by a way, in microseconds: medians."""
        line = Frames(machine.file(path)).measure()
        print(f"{name}: C_GetSessionInfo {line[0]:.0f}, C_EncryptInit and C_Encrypt of 16 KiB {line[1]:.0f} microseconds", flush=True)

    def all(self):
        self.begin()
        self.measure("the daemon's own socket", self.token, "/run/tokend/tokend.sock")
        for part in (self.openssh, self.stunnel, self.takeover, self.spread):
            part()
        self.measure("the daemon's own socket", self.token, "/run/tokend/tokend.sock")
        self.check("each command of the page was played", next(self.page, None) is None)


class Frames:
    """Calls by frames (docs/PROTOCOL.md)."""

    def __init__(self, path):
        self.stream = socket.socket(socket.AF_UNIX)
        self.stream.settimeout(SECONDS)
        # (a path below a folder may be longer than a socket's can be)
        folder = os.open(os.path.dirname(path), os.O_PATH)
        self.stream.connect(f"/proc/self/fd/{folder}/{os.path.basename(path)}")
        os.close(folder)

    def call(self, function, *fields):
        payload = struct.pack(">H", function) + b"".join(fields)
        self.stream.sendall(struct.pack(">I", len(payload)) + payload)
        reply = b""
        while len(reply) < 4 or len(reply) < 4 + struct.unpack(">I", reply[:4])[0]:
            part = self.stream.recv(65536)
            if not part:
                raise Failed("the daemon closed the connection")
            reply += part
        if reply[4:12] != bytes(8):
            raise Failed(f"function {function} returned {reply[4:12].hex()}")
        return reply[12:]

    def measure(self):
        number, data = lambda it: struct.pack(">Q", it), lambda it: struct.pack(">I", len(it)) + it
        session = self.call(7, number(0), number(6))
        entries = [(0, number(4)), (0x100, number(0x1F)), (2, b"\0"), (0x11, bytes(16))]
        key = self.call(13, session, struct.pack(">I", len(entries)), *(number(kind) + data(value) for kind, value in entries))

        def encrypt():
            self.call(22, session, b"\1", number(0x1085), data(bytes(16)), key)
            self.call(23, session, data(bytes(16384)), b"\1", number(16400))

        def median(work, count):
            times = []
            for _ in range(count):
                since = time.perf_counter()
                work()
                times.append(time.perf_counter() - since)
            return 1e6 * statistics.median(times)

        found = median(lambda: self.call(10, session), 1000), median(encrypt, 100)
        self.stream.close()
        return found


def missing():
    if os.geteuid() != 0:
        return "this isn't root"
    programs = {"ip": "iproute2", "sshd": "openssh-server", "ssh-keygen": "openssh-client", "stunnel": "stunnel4", "pkcs11-tool": "opensc"}
    for name, package in programs.items():
        if not shutil.which(name, path=os.environ["PATH"] + ":/usr/sbin:/sbin"):
            return f"{package} isn't there"
    if run(["/usr/bin/python3", "-c", "import PyKCS11"]).returncode:
        return "python3-pykcs11 isn't there"
    if run(["unshare", "-m", "-n", "true"]).returncode:
        return "namespaces are refused"
    return None


def kill_all():
    """Ends what runs in the machines, by the networks that they are in."""
    for space in MACHINES:
        for process in run(["ip", "netns", "pids", f"tokend-{space}"]).stdout.split():
            try:
                os.kill(int(process), signal.SIGKILL)
            except (ValueError, ProcessLookupError):
                pass


def main():
    program, module = map(os.path.abspath, sys.argv[1:])
    reason = missing()
    if reason:
        print(f"skipped: {reason}\n0 passed, 0 failed, 1 skipped")
        return 0
    machines, play = {}, None
    with tempfile.TemporaryDirectory(prefix="tokend-machines-", dir="/tmp") as room:
        try:
            for name in MACHINES:
                machines[name] = Machine(name, room, program, module)
            for (one, end), (other, other_end) in LINKS:
                peer = ["peer", "name", other_end, "netns", f"tokend-{other}"]
                must(["ip", "link", "add", end, "netns", f"tokend-{one}", "type", "veth", *peer])
            for name, ends in MACHINES.items():
                for end, address in ends:
                    must(["ip", "-n", f"tokend-{name}", "address", "add", f"{address}/24", "dev", end])
                    must(["ip", "-n", f"tokend-{name}", "link", "set", end, "up"])
            play = Play(machines)
            play.all()
        except Failed as failed:
            print(f"FAILED {failed}")
            for name, machine in machines.items():
                print(f"    {name}: {machine.call('cat /run/tokend.log', None)}")
            if play:
                play.counts["FAILED"] += 1
        finally:
            kill_all()
            for machine in machines.values():
                machine.end()
            for name in MACHINES:
                run(["ip", "netns", "delete", f"tokend-{name}"])
    counts = play.counts if play else {"ok": 0, "FAILED": 1}
    print(f"{counts['ok']} passed, {counts['FAILED']} failed")
    return 1 if counts["FAILED"] else 0


if __name__ == "__main__":
    sys.exit(main())
