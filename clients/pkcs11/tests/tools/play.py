#!/usr/bin/env python3
"""Plays pkcs11-tool (opensc), p11tool (gnutls-bin) and Java over the module, and the protocol's client in Python.

    play.py PROGRAM MODULE

Starts two daemons of its own, of which the first is alone in most steps. A step is a command, and the facts that come of it: its status,
labels, identifiers, codes, ciphertexts, and what the token has afterwards. How a tool words them isn't compared, since its versions
differ. What the token has, the daemon says itself by the protocol (protocol.py). The ciphertexts are those that OpenSSL computes.

Prints the tools' versions, and then a line a step, `ok NAME`, `FAILED NAME: why` or `skipped NAME: why`. Behind a failed one stands what
was printed. A step is skipped where its tool is missing, or where this version of it doesn't know the option or the mechanism. The last
line is `N passed, M failed, K skipped`.
"""
import hashlib, hmac, os, re, shutil, subprocess, sys, tempfile

from protocol import forget, objects

HERE = os.path.dirname(os.path.abspath(__file__))
CLIENT = os.path.normpath(f"{HERE}/../../../python/encrypt.py")
SECONDS = 600
PIN = b"1234"
SO, USER = ["--so-pin", "12345678"], ["--login", "--pin", "1234"]
IV = ["--iv", "000102030405060708090a0b0c0d0e0f"]
TOKEN = "pkcs11:token=probe"
AES, GENERIC = 0x1F, 0x10
PROGRAMS = ("pkcs11-tool", "p11tool", "java", "python3")
VERSIONS = {"pkcs11-tool": ["opensc-tool", "--info"], "p11tool": ["p11tool", "--version"], "java": ["java", "--version"]}
UNKNOWN = r"unrecognized option.*|illegal option.*|unknown PKCS11 mechanism.*"

# Number, name and key sizes of each mechanism, and its uses. A tool that doesn't know a name prints the number.
MECHANISMS = [
    *((number, f"{name}-HMAC", 1, 512, "sign, verify") for number, name in ((0x251, "SHA256"), (0x256, "SHA224"), (0x261, "SHA384"), (0x271, "SHA512"))),
    (0x350, "GENERIC-SECRET-KEY-GEN", 8, 4096, "generate"),
    (0x1080, "AES-KEY-GEN", 16, 32, "generate"),
    *((number, f"AES-{name}", 16, 32, "encrypt, decrypt") for number, name in ((0x1081, "ECB"), (0x1082, "CBC"), (0x1085, "CBC-PAD"), (0x1086, "CTR"))),
    (0x108A, "AES-CMAC", 16, 32, "sign, verify"),
    (0x2109, "AES-KEY-WRAP", 16, 32, "wrap, unwrap"),
]

# The sums (SHA-256) of what `openssl enc -aes-256-..` makes of the files, under the key in `value` and the vector of IV.
CIPHERTEXTS = {
    ("AES-CBC-PAD", "text"): "22ac8b7c869f6bc043bf332f12e91e70513e2beb0e1c1d86267567ac48390684",
    ("AES-CBC", "blocks"): "6693859ed1b0c84f32441035e2389a365127b4a324b8a5378d768480c2a7470f",
    ("AES-ECB", "blocks"): "69c65f060d10eb6ea903fd052fda2a074e43a3b4a5d3d5ee156e81fb3815f7a0",
    ("AES-CBC-PAD", "long"): "b5db1c74dbc8ba5628e95bcd80161101c2e4c41e4828e953997aa6a5c61b1500",
}


class Wrong(Exception):
    pass


def see(is_so, why):
    if not is_so:
        raise Wrong(why)


class Ran:
    """A command that has ended: its status, what it printed on both streams, and the folder with its files."""

    def __init__(self, status, text, room):
        self.status, self.text, self.room = status, text, room

    def says(self, *facts):
        for it in facts:
            see(re.search(it, self.text, re.M | re.I), f"it doesn't say {it}")

    def file(self, name):
        try:
            with open(f"{self.room}/{name}", "rb") as it:
                return it.read()
        except FileNotFoundError:
            raise Wrong(f"there is no file {name}") from None

    def objects(self, pin=None, socket="socket"):
        return objects(f"{self.room}/{socket}", pin)

    def has(self, label, pin=PIN, **wanted):
        """The object with that label, as the daemon shows it, which has to have these attributes."""
        found = [it for it in self.objects(pin) if it.label == label]
        see(len(found) == 1, f"the token has {len(found)} objects {label}")
        for name, value in wanted.items():
            see(getattr(found[0], name) == value, f"{label} has {name} {getattr(found[0], name)!r}, and not {value!r}")
        return found[0]


# What a step's command has to come to: functions that take a Ran and raise Wrong.


def ok(*facts):
    def check(ran):
        see(ran.status == 0, f"it ended with status {ran.status}")
        ran.says(*facts)

    return check


def refused(*facts):
    def check(ran):
        see(ran.status != 0, "it ended with status 0")
        ran.says(*facts)

    return check


def made(label, pin=None, **wanted):
    """It names an object that the token has now, without a login where none is given."""

    def check(ran):
        ok(rf"label:\s+'?{label}\b", *([rf"ID:\s+{wanted['id']}\b"] if "id" in wanted else []))(ran)
        ran.has(label, pin, **wanted)

    return check


def gone(label):
    def check(ran):
        see(ran.status == 0, f"it ended with status {ran.status}")
        see(all(it.label != label for it in ran.objects(PIN)), f"the token has {label} still")

    return check


def listed(pin, kinds, find, socket="socket"):
    """It lists each object of those classes that the daemon shows such an application, by label and identifier, and no other one."""

    def check(ran):
        see(ran.status == 0, f"it ended with status {ran.status}")
        wanted = sorted((it.label, it.id or "") for it in ran.objects(pin, socket) if it.class_ in kinds)
        see(wanted, "there is nothing to list")
        see(sorted(find(ran.text)) == wanted, f"it lists {sorted(find(ran.text))}, and not {wanted}")

    return check


def of_pkcs11_tool(text):
    """Labels and identifiers in what `pkcs11-tool -O` prints."""
    for it in re.split(r"^(?=Secret Key Object|Data object)", text, flags=re.M)[1:]:
        label, identifier = (re.search(rf"^\s+{name}:\s+'?([^'\n]*)", it, re.M) for name in ("label", "ID"))
        yield label[1].strip() if label else "", identifier[1].strip() if identifier else ""


def of_p11tool(text):
    """Labels and identifiers in the addresses that `p11tool --list-all` prints."""
    for it in re.findall(r"URL: (pkcs11:.*)", text):
        fields = dict(field.split("=", 1) for field in it[len("pkcs11:") :].split(";"))
        yield fields.get("object", ""), fields.get("id", "").replace("%", "").lower()


def ciphertext(mechanism, given):
    def check(ran):
        see(ran.status == 0, f"it ended with status {ran.status}")
        found = hashlib.sha256(ran.file("secret")).hexdigest()
        see(found == CIPHERTEXTS[mechanism, given], f"another ciphertext, of {len(ran.file('secret'))} bytes")

    return check


def same(one, other):
    def check(ran):
        see(ran.status == 0, f"it ended with status {ran.status}")
        see(ran.file(one) == ran.file(other), f"{one} and {other} differ")

    return check


def tag(label, given, algorithm):
    def check(ran):
        see(ran.status == 0, f"it ended with status {ran.status}")
        value = ran.has(label).value
        see(value, f"the token doesn't show the value of {label}")
        see(ran.file("tag") == hmac.digest(value, ran.file(given), algorithm), "another tag")

    return check


def length(name, wanted):
    def check(ran):
        see(ran.status == 0, f"it ended with status {ran.status}")
        see(len(ran.file(name)) == wanted, f"{len(ran.file(name))} bytes, and not {wanted}")

    return check


def unwrapped(ran):
    made("un", PIN, id="09", key_type=AES, length=32, value=ran.has("kx").value)(ran)


def mechanisms_of_pkcs11_tool(ran):
    see(ran.status == 0, f"it ended with status {ran.status}")
    for number, name, least, most, uses in MECHANISMS:
        ran.says(rf"^\s+(?:{name}|mechtype-0x{number:x}), keySize=\{{{least},{most}\}}, (?:hw, )?{uses}$")
    found = len(re.findall(r"keySize=", ran.text))
    see(found == len(MECHANISMS), f"it lists {found} mechanisms")


def mechanisms_of_p11tool(ran):
    see(ran.status == 0, f"it ended with status {ran.status}")
    found, wanted = [int(it, 16) for it in re.findall(r"\[0x([0-9a-f]+)\]", ran.text)], sorted(it[0] for it in MECHANISMS)
    see(sorted(found) == wanted, f"it lists {found}")


def tool(*words):
    return ["pkcs11-tool", "--module", "MODULE", *words]


def user(*words):
    return tool(*USER, *words)


def p11(*words, **variables):
    return ["env", *(f"GNUTLS_{name}={value}" for name, value in variables.items()), "p11tool", "--provider", "MODULE", *words]


def elsewhere(socket, words):
    """At another socket."""
    return ["env", f"TOKEND_SOCKET={socket}", *words]


def both(words):
    """With the settings that have both sockets."""
    return ["env", "TOKEND_SOCKET=", "TOKEND_PKCS11_CONF=two.conf", *words]


def cipher(way, mechanism, given, made):
    iv = [] if mechanism == "AES-ECB" else IV
    return user(f"--{way}", "--id", "0a", "-m", mechanism, *iv, "-i", given, "-o", made)


def keygen(kind, label, id_, *more):
    return user("--keygen", "--key-type", kind, "--label", label, "--id", id_, *more)


def write(kind, given, label, *more):
    return ["--write-object", given, "--type", kind, "--label", label, *more]


def url(label):
    """The address of a token with that label."""
    return rf"pkcs11:(?=.*model=tokend)(?=.*manufacturer=Bogoven)(?=.*serial=[0-9a-fA-F]{{16}})(?=.*token={label}\b)"


def has_pins(label):
    """What stands, in its slot, of a token whose PINs are set."""
    facts = (
        r"token manufacturer\s*: Bogoven$",
        r"token model\s*: tokend$",
        r"token flags\s*: (?=.*login required)(?=.*rng)(?=.*token initialized)(?=.*PIN initialized)",
        r"serial num\s*: [0-9a-f]{16}$",
        r"pin min/max\s*: 4/64$",
    )
    return [rf"token label\s*: {label}\n(?:(?!Slot ).*\n)*?\s*{it}" for it in facts]


IN_JAVA = (
    "AES/ECB/NoPadding: 48 bytes, the same text",
    "AES/CBC/NoPadding: 48 bytes, the same text",
    "AES/CBC/PKCS5Padding: 64 bytes, the same text",
    "AES/CTR/NoPadding: 48 bytes, the same text",
    # (RFC 4231, 4.2)
    "HmacSHA256: b0344c61",
)

VALUE = bytes(7 * it % 251 for it in range(32))

# The name of a step, its command, and what it has to come to.
STEPS = [
    ("client in Python", ["python3", CLIENT, "socket"], ok("^69 c4 e0 d8 6a 7b 04 30 d8 cd b7 80 70 b4 c5 5a$")),
    ("info", tool("-I"), ok(r"Cryptoki version 3\.0$", r"Manufacturer\s+Bogoven$", r"Library\s+tokend PKCS #11 module")),
    ("slots of a new token", tool("-L"), ok("Slot 0 .*: tokend: FOLDER/socket$", "uninitialized")),
    ("mechanisms", tool("-M"), mechanisms_of_pkcs11_tool),
    ("interfaces", tool("--list-interfaces"), ok(r"version: 3\.0$", r"version: 2\.40$")),
    ("init token", tool("--init-token", "--label", "probe", *SO), ok()),
    ("init pin", tool("--init-pin", "--login", "--login-type", "so", *SO, "--new-pin", "1234"), ok()),
    ("slots of a token with pins", tool("-L"), ok("Slot 0 .*: tokend: FOLDER/socket$", *has_pins("probe"))),
    ("change pin", tool("--change-pin", "--pin", "1234", "--new-pin", "4321"), ok()),
    ("the old pin", user("-O"), refused("CKR_PIN_INCORRECT")),
    ("change pin back", tool("--change-pin", "--pin", "4321", "--new-pin", "1234"), ok()),
    ("a wrong pin", tool("--login", "--pin", "9999", "-O"), refused("CKR_PIN_INCORRECT")),
    ("unlock pin", tool("--init-pin", "--login", "--login-type", "so", *SO, "--new-pin", "1234"), ok()),
    ("generate AES-256", keygen("AES:32", "k32", "01"), made("k32", PIN, id="01", key_type=AES, length=32, local=True)),
    ("generate a sensitive key", keygen("AES:16", "k16", "02", "--sensitive"), made("k16", PIN, id="02", key_type=AES, length=16, sensitive=True, value=None)),
    ("generate an extractable key", keygen("AES:32", "kx", "03", "--extractable"), made("kx", PIN, id="03", key_type=AES, length=32, extractable=True)),
    ("generate a wrapping key", keygen("AES:32", "kw", "04", "--usage-wrap", "--usage-decrypt"), made("kw", PIN, id="04", key_type=AES, length=32)),
    ("generate a generic key", keygen("GENERIC:32", "g32", "05", "--extractable"), made("g32", PIN, id="05", key_type=GENERIC, length=32)),
    ("generate a signing key", keygen("GENERIC:64", "g64", "06", "--usage-sign", "--extractable"), made("g64", PIN, id="06", key_type=GENERIC, length=64)),
    ("import AES", user(*write("secrkey", "value", "imp", "--key-type", "AES:32", "--id", "0a", "--extractable")), made("imp", PIN, id="0a", key_type=AES, length=32, value=VALUE, local=False)),
    ("import a sensitive key", user(*write("secrkey", "value", "imps", "--key-type", "AES:32", "--id", "0b", "--sensitive")), made("imps", PIN, id="0b", sensitive=True, value=None)),
    ("import without login", tool(*write("secrkey", "value", "nol", "--key-type", "AES:32", "--id", "0d")), made("nol", id="0d", private=False)),
    ("list with login", user("-O"), listed(PIN, (0, 4), of_pkcs11_tool)),
    ("list without login", tool("-O"), listed(None, (0, 4), of_pkcs11_tool)),
    ("list keys", user("-O", "--type", "secrkey"), listed(PIN, (4,), of_pkcs11_tool)),
    *(
        step
        for mechanism, given in CIPHERTEXTS
        for step in (
            (f"encrypt {mechanism} {given}", cipher("encrypt", mechanism, given, "secret"), ciphertext(mechanism, given)),
            (f"decrypt {mechanism} {given}", cipher("decrypt", mechanism, "secret", "back"), same(given, "back")),
        )
    ),
    ("sign SHA256-HMAC", user("--sign", "--id", "05", "-m", "SHA256-HMAC", "-i", "text", "-o", "tag"), tag("g32", "text", "sha256")),
    ("sign SHA512-HMAC long", user("--sign", "--id", "06", "-m", "SHA512-HMAC", "-i", "long", "-o", "tag"), tag("g64", "long", "sha512")),
    ("wrap", user("--wrap", "--id", "04", "--application-id", "03", "-m", "AES-KEY-WRAP", "-o", "wrapped"), length("wrapped", 40)),
    ("unwrap", user("--unwrap", "--id", "04", "-m", "AES-KEY-WRAP", "-i", "wrapped", "--key-type", "AES:", "--application-id", "09", "--application-label", "un", "--extractable"), unwrapped),
    ("write data", user(*write("data", "object", "d1", "--application-label", "app")), made("d1", application="app", value=b"hello\n", private=False)),
    ("write private data", user(*write("data", "object", "d2", "--application-label", "app", "--private")), made("d2", PIN, application="app", value=b"hello\n", private=True)),
    ("read data", user("--read-object", "--type", "data", "--label", "d1", "-o", "read"), same("object", "read")),
    ("set id", user("--set-id", "0e", "--id", "0a", "--type", "secrkey"), lambda ran: (ok()(ran), ran.has("imp", id="0e"))),
    ("delete a key", user("--delete-object", "--type", "secrkey", "--id", "0e"), gone("imp")),
    ("delete data", user("--delete-object", "--type", "data", "--label", "d1"), gone("d1")),
    ("list at the end", user("-O"), listed(PIN, (0, 4), of_pkcs11_tool)),
    ("random", tool("--generate-random", "64", "-o", "random"), length("random", 64)),
    ("long random", tool("--generate-random", "100000", "-o", "random"), length("random", 100_000)),
    ("test with login", user("--test"), ok("No errors$")),
    ("test without login", tool("--test"), ok("No errors$")),
    ("test of forks", tool("--test-fork"), ok()),
    ("p11tool tokens", p11("--list-tokens"), ok(url("probe"))),
    ("p11tool token urls", p11("--list-token-urls"), ok(url("probe"))),
    ("p11tool mechanisms", p11("--list-mechanisms", TOKEN), mechanisms_of_p11tool),
    ("p11tool list", p11("--list-all", TOKEN), listed(None, (0, 4), of_p11tool)),
    ("p11tool list with login", p11("--login", "--list-all", TOKEN, PIN="1234"), listed(PIN, (0, 4), of_p11tool)),
    ("p11tool random", p11("--generate-random=16", "--outfile", "random16", TOKEN), length("random16", 16)),
    ("p11tool write", p11("--login", "--write", "--secret-key", VALUE.hex(), "--label", "ps", TOKEN, PIN="1234"), lambda ran: (ok()(ran), ran.has("ps", key_type=GENERIC, length=32))),
    ("p11tool init pin", p11("--batch", "--initialize-pin", TOKEN, PIN="1234", SO_PIN="12345678"), ok()),
    ("p11tool delete", p11("--batch", "--login", "--delete", f"{TOKEN};object=ps", PIN="1234"), gone("ps")),
    ("slots without a socket", elsewhere("none", tool("-L")), ok("Slot 0 .*: tokend: FOLDER/none: no such file$")),
    ("objects without a socket", elsewhere("none", tool("-O")), refused("no slot")),
    ("slots of a file", elsewhere("text", tool("-L")), ok("Slot 0 .*: tokend: FOLDER/text: no socket$")),
    ("p11tool tokens without a socket", elsewhere("none", p11("--list-tokens")), lambda ran: (ok()(ran), see("pkcs11:" not in ran.text, "it lists a token"))),
    ("init the second token", both(tool("--slot", "1", "--init-token", "--label", "second", *SO)), ok()),
    ("init the second pin", both(tool("--slot", "1", "--init-pin", "--login", "--login-type", "so", *SO, "--new-pin", "1234")), ok()),
    ("slots of two tokens", both(tool("-L")), ok("Slot 0 .*: tokend: FOLDER/socket$", "Slot 1 .*: tokend: FOLDER/second$", *has_pins("probe"), *has_pins("second"))),
    ("p11tool two tokens", both(p11("--list-token-urls")), ok(url("probe"), url("second"))),
    ("a key on the second token", both(user("--slot", "1", "--keygen", "--key-type", "AES:16", "--label", "on-2", "--id", "02")), ok(r"label:\s+on-2$")),
    ("list of the second token", both(user("--token-label", "second", "-O")), listed(PIN, (0, 4), of_pkcs11_tool, "second")),
    ("two tokens in Java", both(["java", f"{HERE}/Slots.java", "MODULE", "1234", "2"]), ok(*IN_JAVA, r"^entries: \[g32, .*java0, k16", r"entries: \[java1, on-2\]$", r"entries: \[on-2\]$")),
    ("p11tool init token", p11("--batch", "--initialize", "--label", "probe2", TOKEN, SO_PIN="12345678"), lambda ran: (ok()(ran), see(ran.objects() == [], "objects are left"))),
]


def fill(room):
    """Writes the files that steps read."""
    text = bytes(7 * it % 251 for it in range(200_000))
    for name, len_ in (("text", 100), ("blocks", 96), ("long", 200_000), ("value", 32)):
        with open(f"{room}/{name}", "wb") as it:
            it.write(text[:len_])
    with open(f"{room}/object", "w") as it:
        it.write("hello\n")
    # (a machine that does much else is no reason to give up)
    patience = "timeout = 600\nconnect-timeout = 600\n"
    for name, sockets in (("pkcs11.conf", []), ("two.conf", ["socket", "second"])):
        with open(f"{room}/{name}", "w") as it:
            it.write(patience + "".join(f"socket = {room}/{socket}\n" for socket in sockets))


def run(words, room, module):
    words = [module if it == "MODULE" else it for it in words]
    variables = {"PATH": os.environ["PATH"], "HOME": room, "LC_ALL": "C.UTF-8", "TOKEND_SOCKET": f"{room}/socket", "TOKEND_PKCS11_CONF": f"{room}/pkcs11.conf"}
    try:
        ran = subprocess.run(words, cwd=room, env=variables, stdin=subprocess.DEVNULL, stdout=subprocess.PIPE, stderr=subprocess.STDOUT, timeout=SECONDS)
    except subprocess.TimeoutExpired:
        return Ran(-1, f"no end after {SECONDS} seconds", room)
    lines = ran.stdout.decode(errors="replace").replace(room, "FOLDER").splitlines()
    return Ran(ran.returncode, "\n".join(it.rstrip() for it in lines), room)


def outcome(words, check, room, module):
    """How a step goes, why, and what its command printed."""
    program = next(it for it in words if it in PROGRAMS)
    if not shutil.which(program):
        return "skipped", f"{program} is missing", ""
    if {"--init-token", "--initialize"} & set(words):
        forget()
    ran = run(words, room, module)
    if unknown := re.search(UNKNOWN, ran.text):
        return "skipped", f"this version doesn't know it: {unknown[0]}", ""
    try:
        check(ran)
    except (Wrong, RuntimeError, EOFError, OSError) as why:
        return "FAILED", str(why), ran.text
    return "ok", "", ""


def live(daemons, room):
    """How it is with the daemons, as the last step: they serve still."""
    ended = [it.poll() for it, _ in daemons if it.poll() is not None]
    with open(f"{room}/errors") as it:
        return ("FAILED", f"a daemon ended with status {ended[0]}", it.read()[-2000:]) if ended else ("ok", "", "")


def play(room, module, daemons):
    for tool_, words in VERSIONS.items():
        if shutil.which(words[0]):
            ran = run(words, room, module)
            print(f"{tool_}: {(ran.text.splitlines() or [''])[0]}", flush=True)
    counts = {"ok": 0, "FAILED": 0, "skipped": 0}
    for name, words, check in [*STEPS, ("the daemons serve still", None, None)]:
        how, why, text = outcome(words, check, room, module) if words else live(daemons, room)
        counts[how] += 1
        print(f"{how} {name}{why and ': '}{why}", flush=True)
        if text:
            print("".join(f"    {it}\n" for it in text.splitlines()), end="", flush=True)
    print(f"{counts['ok']} passed, {counts['FAILED']} failed, {counts['skipped']} skipped")
    return 1 if counts["FAILED"] else 0


def daemon(program, room, name):
    """A daemon at a socket of that name, once it listens."""
    with open(f"{room}/errors", "ab") as errors:
        started = subprocess.Popen(
            [program, "serve", "--store", f"{room}/{name}.db", "--socket", f"{room}/{name}", "--seed-file", f"{room}/seed"],
            stdin=subprocess.DEVNULL, stdout=subprocess.PIPE, stderr=errors)
    return started, started.stdout.readline() == b"ready\n"


def main():
    if len(sys.argv) != 3:
        sys.exit(__doc__)
    program, module = map(os.path.abspath, sys.argv[1:])
    # (a slot's description has the socket's path, which a longer one would be cut from)
    with tempfile.TemporaryDirectory(prefix="tokend-tools-", dir="/tmp") as room:
        fill(room)
        with open(f"{room}/seed", "wb") as it:
            it.write(bytes(32))
        daemons = [daemon(program, room, name) for name in ("socket", "second")]
        try:
            if not all(is_ready for _, is_ready in daemons):
                print("FAILED the daemons don't start\n0 passed, 1 failed")
                return 1
            return play(room, module, daemons)
        finally:
            for started, _ in daemons:
                started.kill()
                started.wait()


if __name__ == "__main__":
    sys.exit(main())
