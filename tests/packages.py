#!/usr/bin/env python3
"""Tries what `bin/package` and `bin/install` make, in machines of their own (machine.py): by dpkg, and by the tools that look for tokens.

    packages.py PROGRAM LIBRARY [NAME..]

Takes the paths of the program and of the PKCS #11 library, and perhaps names of checks. Prints a line for each check, `ok NAME`,
`FAILED NAME: why` or `skipped NAME: why`, and last how many of each. It takes root, and debootstrap or a folder with a Debian in
TOKEND_DEBIAN.
"""
import filecmp
import functools
import os
import re
import shutil
import subprocess
import sys
import tempfile

import machine
from machine import ROOM, Skipped, of_document, see

PROGRAM, LIBRARY = map(os.path.abspath, sys.argv[1:3]) if len(sys.argv) > 2 else sys.exit(__doc__)
CHECKS = []
IN_PACKAGE = "/usr/lib/x86_64-linux-gnu/pkcs11/tokend-pkcs11.so"
INSTALL = "dpkg -i /packages/tokend_*.deb /packages/tokend-pkcs11_*.deb"
PURGE = "dpkg --purge tokend-pkcs11 tokend"


def check(function):
    CHECKS.append((function.__name__, function))
    return function


def printed(*words, **how):
    return subprocess.run(words, capture_output=True, text=True, check=True, **how).stdout


def new_folder():
    return ROOM.enter_context(tempfile.TemporaryDirectory())


def packages(changelog=None, mask=0o022, **env):
    """The packages that `bin/package` makes, in a folder `packages` of a layer."""
    tree, layer = machine.tree(f"{new_folder()}/tree", PROGRAM, LIBRARY), new_folder()
    if changelog:
        with open(f"{tree}/CHANGELOG.md", "w", encoding="utf-8") as it:
            it.write(changelog)
    before = os.umask(mask)
    env = {**os.environ, "SOURCE_DATE_EPOCH": "1700000000", **env}
    ran = subprocess.run([f"{tree}/bin/package"], env=env, capture_output=True, text=True, check=False)
    os.umask(before)
    see(ran.returncode == 0 and ran.stderr == "", ran)
    os.mkdir(f"{layer}/packages")
    for it in ran.stdout.split():
        shutil.copy(f"{tree}/{it}", f"{layer}/packages")
    return layer


@functools.cache
def made():
    if not shutil.which("dpkg-deb"):
        raise Skipped("there is no dpkg-deb")
    return packages()


def installed(prefix):
    """A layer with what `bin/install PREFIX` installs, and what it printed."""
    tree, layer = machine.tree(f"{new_folder()}/tree", PROGRAM, LIBRARY), new_folder()
    return layer, printed(f"{tree}/bin/install", prefix, env={**os.environ, "DESTDIR": layer})


def newest():
    with open(f"{machine.TOP}/CHANGELOG.md", encoding="utf-8") as it:
        return re.search(r"^## ([0-9][0-9.]*)", it.read(), re.M).group(1)


def slots(it, module, user="member"):
    return it.sh('pkcs11-tool --module "$1" --list-slots', module, user=user)


def tools_find_the_token(it, library=IN_PACKAGE, user="member"):
    """No variable is set for them. Who isn't in the group finds a slot without a token."""
    found = f"\ntokend: {library}\n"
    of_kit = it.sh("p11-kit list-modules", user=user)
    see(found in of_kit and "        model: tokend\n" in of_kit.partition(found)[2], "p11-kit list-modules prints", of_kit)
    tokens = it.sh("p11tool --list-token-urls", user=user)
    see("model=tokend;" in tokens, "p11tool --list-token-urls prints", tokens)
    for module in (library, "p11-kit-proxy.so"):
        of_tool = slots(it, module, user)
        see("token" in of_tool.partition("): tokend: ")[2] and "(empty)" not in of_tool, module, "pkcs11-tool --list-slots prints", of_tool)
    see("(empty)" in slots(it, library, "nobody"), "a stranger finds the token")


def is_used(it, library=IN_PACKAGE, user="member"):
    """The example of README.md works, with this library and no variable, and its key is of use to nobody without the PIN."""
    folder = it.sh("mktemp -d", user=user)
    p11 = f'cd {folder}; p11() {{ pkcs11-tool --module {library} "$@"; }}\n'
    for text in ("p11 --init-token", "p11 --login --pin 1234 --decrypt"):
        said = it.sh(p11 + re.sub(r"(?m)^(export|p11\(\)) .*\n", "", of_document("README.md", "sh", text)), user=user)
    see(said.endswith("attack at dawn"), said)
    listed = it.sh(p11 + "p11 --login --pin 1234 --list-objects", user=user)
    see("my key" in listed and "sensitive" in listed, "with the PIN:", listed)
    see("my key" not in it.sh(p11 + "p11 --list-objects", user=user), "the key is listed without the PIN")
    ran = it.run("sh", "-c", p11 + "p11 --encrypt --id 01 --mechanism AES-ECB --input-file secret --output-file more", user=user)
    see(ran.returncode, "the key encrypts without the PIN:", ran)


def everything(it):
    """The files of the machine, but those that any package, session or new user leaves behind."""
    paths = it.sh("find / /run -xdev").splitlines()
    others = "packages|tmp|home|var/(log|cache|tmp|mail|lib/(dpkg|systemd))|run/(log|dbus|user|utmp|systemd|credentials)"
    others += "|etc/(sub[ug]id|g?shadow|passwd|group)-"
    return {path for path in paths if not re.match(f"/({others})(/|$)", path)}


@check
def the_packages_have_the_changelogs_version_and_are_roots():
    layer = made()
    for name in ("tokend", "tokend-pkcs11"):
        path = f"{layer}/packages/{name}_{newest()}_amd64.deb"
        see(os.path.exists(path), os.listdir(f"{layer}/packages"))
        version = printed("dpkg-deb", "--field", path, "Version").strip()
        see(version == newest(), "version", version)
        listed = printed("dpkg-deb", "--contents", path).splitlines()
        see(all(line.split()[1] == "root/root" and line[5] != "w" and line[8] != "w" for line in listed), listed)


@check
def the_same_files_make_the_same_packages():
    one, other = made(), packages(mask=0o077, LC_ALL="C", TZ="Asia/Tokyo")
    for name in os.listdir(f"{one}/packages"):
        see(filecmp.cmp(f"{one}/packages/{name}", f"{other}/packages/{name}", shallow=False), name, "differs")


@check
def installed_where_systemd_runs_the_token_is_found_and_used():
    with machine.Machine(made()) as it:
        it.sh(f"{INSTALL}; useradd -G tokend member")
        tools_find_the_token(it)
        is_used(it)
        see(it.sh("systemctl is-enabled tokend.socket") == "enabled", "the socket isn't enabled")
        it.sh("dpkg --verify tokend tokend-pkcs11")


@check
def installed_twice_is_as_once():
    with machine.Machine(made()) as it:
        it.sh(f"{INSTALL}; useradd -G tokend member")
        is_used(it)
        daemon = it.sh("systemctl show --value --property MainPID tokend")
        it.sh(INSTALL)
        see(it.sh("systemctl show --value --property MainPID tokend") not in (daemon, "0"), "the daemon isn't started again")
        tools_find_the_token(it)
        see("my token" in slots(it, IN_PACKAGE), "the token isn't the one before")


@check
def a_later_version_leaves_what_an_administrator_decided():
    later = packages(changelog="# Changelog\n\n## 9.9\n\n- Later.\n")
    os.rename(f"{later}/packages", f"{later}/later")
    with machine.Machine(made(), later) as it:
        it.sh(INSTALL)
        it.sh("systemctl disable --now tokend.socket; systemctl stop tokend; echo '# mine' >>/etc/tokend/pkcs11.conf")
        it.sh("dpkg -i /later/*.deb")
        see(it.sh("dpkg-query -W -f '${Version}' tokend") == "9.9", "it isn't there")
        states = [it.run("systemctl", ask, "tokend.socket").stdout.strip() for ask in ("is-enabled", "is-active")]
        see(states == ["disabled", "inactive"], "the socket is", states)
        see(it.sh("tail -n 1 /etc/tokend/pkcs11.conf") == "# mine", "the settings are others")


@check
def purged_nothing_is_left_but_the_store():
    with machine.Machine(made()) as it:
        before = everything(it)
        it.sh(f"{INSTALL}; useradd -G tokend member; groupadd --system tokend-one; systemctl enable --now tokend@one.socket")
        it.sh("printf '%s\n' 000700000000000000000000000000000006 | tokend p11call --socket /run/tokend-one/tokend.sock")
        is_used(it)
        it.sh(PURGE)
        stores = r"/var/lib/(private/)?tokend(-one)?(/token\.db(-wal|-clean|-reserve)?)?$"
        left = {path for path in everything(it) - before if not re.match(stores, path)}
        see(not left, "left:", sorted(left))
        see(it.run("getent", "group", "tokend").returncode == 2, "the group is left")
        see(it.run("systemctl", "list-units", "--all", "--plain", "--no-legend", "tokend*").stdout.strip() == "", "units are left")
        it.sh(f"{INSTALL}; usermod -aG tokend member")
        see("my token" in slots(it, IN_PACKAGE), "the store isn't the one before")


@check
def a_service_has_an_instance_as_the_document_has_it():
    with machine.Machine(made()) as it:
        it.sh(INSTALL)
        it.sh(of_document("docs/OPERATING.md", "sh", "groupadd --system tokend-web"))
        start = f"ExecStart=pkcs11-tool --module {IN_PACKAGE} --list-slots\n"
        it.write("/etc/systemd/system/web.service", "[Service]\nType=oneshot\nUser=www-data\n" + start)
        it.write("/etc/systemd/system/web.service.d/token.conf", of_document("docs/OPERATING.md", "ini", "SupplementaryGroups="))
        it.sh("systemctl daemon-reload; systemctl start web; journalctl --sync")
        said = it.sh("journalctl -u web -o cat")
        see("token state:   uninitialized" in said, said)
        states = [it.run("systemctl", "is-active", unit).stdout.strip() for unit in ("tokend@web", "tokend")]
        see(states == ["active", "inactive"], "another token was asked", states)


@check
def installed_where_no_systemd_runs_the_token_is_found():
    with machine.Machine(made(), boots=False) as it:
        before = everything(it)
        it.sh(f"{INSTALL}; useradd -G tokend member; install -d -o member /run/tokend")
        daemon = it.start("tokend", "serve", "--store", ":memory:", "--socket", "/run/tokend/tokend.sock", user="member")
        see(daemon.stdout.readline() == "ready\n", "it isn't ready")
        tools_find_the_token(it)
        is_used(it)
        daemon.kill()
        it.sh(f"rm -r /run/tokend; {PURGE}")
        left = everything(it) - before
        see(not left, "left:", sorted(left))


def found_after(prefix, lines):
    """By root, after `bin/install`, and after the last of the lines that it printed."""
    layer, said = installed(prefix)
    see(len(said.splitlines()) == lines, "bin/install printed", said)
    with machine.Machine(layer) as it:
        it.sh("systemd-sysusers; systemctl enable --now tokend.socket")
        it.sh(said.splitlines()[-1] if said else "true")
        tools_find_the_token(it, f"{prefix}/lib/pkcs11/tokend-pkcs11.so", None)
        is_used(it, f"{prefix}/lib/pkcs11/tokend-pkcs11.so", None)


@check
def after_an_install_below_usr_the_token_is_found():
    found_after("/usr", 0)


@check
def after_an_install_elsewhere_and_its_last_line_the_token_is_found():
    found_after("/usr/local", 2)


@check
def a_prefix_that_no_unit_can_name_is_refused():
    tree = machine.tree(f"{new_folder()}/tree", PROGRAM, LIBRARY)
    for prefix in ("usr", "/opt/a token", "/opt/%i", ""):
        env = {**os.environ, "DESTDIR": f"{tree}/to"}
        ran = subprocess.run([f"{tree}/bin/install", prefix], env=env, capture_output=True, text=True, check=False)
        see(ran.returncode == 2 and "PREFIX" in ran.stderr and not os.path.exists(f"{tree}/to"), repr(prefix), ran)


if __name__ == "__main__":
    names = sys.argv[3:]
    machine.try_all([it for it in CHECKS if not names or it[0] in names])
