#!/usr/bin/env python3
"""Compares what stands in several places: documents, manual pages, the definitions, the command line, and the PKCS #11 library.

    texts.py [PROGRAM]

It reads files of the repository alone, and of PROGRAM, where it is given, what it prints for `--help` and `--version`. It prints a line for
each check, `ok NAME`, `FAILED NAME: why` or `skipped NAME: why`, and last how many of each.
"""
import os
import re
import subprocess
import sys

TOP = os.path.dirname(os.path.dirname(os.path.abspath(__file__)))
PROGRAM = os.path.abspath(sys.argv[1]) if len(sys.argv) == 2 else None
CHECKS = []


class Failed(Exception):
    pass


class Skipped(Exception):
    pass


def check(function):
    CHECKS.append(function)
    return function


def same(what, **places):
    """All places must have the same. What only some of them have, or have otherwise, is the reason."""
    first, *others = places
    for other in others:
        one, two = places[first], places[other]
        if one != two:
            if isinstance(one, dict) and isinstance(two, dict):
                keys = [key for key in sorted({*one, *two}) if one.get(key) != two.get(key)]
                one, two = ({key: it.get(key) for key in keys} for it in (one, two))
            elif isinstance(one, set) and isinstance(two, set):
                one, two = one - two, two - one
            raise Failed(f"{what}: {first} has {one}, and {other} {two}")
        if not one:
            raise Failed(f"{what}: nothing is found in {first}")


def text(path):
    with open(os.path.join(TOP, path), encoding="utf-8") as file:
        return file.read()


def plain(name):
    """A name without its prefix, in one spelling: CKR_PIN_LOCKED and PinLocked are one."""
    return re.sub(r"^(CK[A-Z]_|C_)", "", name).replace("_", "").lower()


def page(path):
    """A manual page without its fonts."""
    return re.sub(r"\\f.", "", text(path)).replace("\\-", "-").replace("\\&", "")


def numbers(path, prefix):
    """What a definition gives the variants of a type, as `rv_number rv.Ok = 0x0`."""
    found = re.findall(rf"^{prefix}_number \w+\.(\w+) = (\w+)$", text(path), re.M)
    return {plain(name): int(number, 0) for name, number in found}


def definitions():
    found = re.findall(r"^row_of functions\.(\w+) = \w+ (\d+) ", text("crates/ck_calls/specs/Rows.antt"), re.M)
    functions = {plain(name): int(number) for name, number in found}
    kinds = {of: numbers("crates/ck_types/specs/Numbers.antt", of) for of in ("rv", "attr_type", "mech_type", "object_class", "key_type")}
    return functions, kinds


def rows(path, heading):
    """The cells of the table below a heading, without its first two lines."""
    part = re.split(r"^#+ ", text(path).split(f"# {heading}\n", 1)[1], maxsplit=1, flags=re.M)[0]
    lines = [line for line in part.split("\n") if line.startswith("|")]
    return [[cell.strip() for cell in line.strip("|").split("|")] for line in lines[2:]]


def protocol_rows():
    """Of each function in docs/PROTOCOL.md its number, and the fields of its request and its reply."""
    for cells in rows("docs/PROTOCOL.md", "Requests and replies"):
        for number, name in zip(cells[0].split(", "), cells[1].split(", "), strict=True):
            yield plain(name), int(number), fields(cells[2]), fields(cells[3])


def page_rows():
    """The same of tokend-protocol(7)."""
    part = page("share/man/tokend-protocol.7").split(".SH FUNCTIONS", 1)[1].split(".SH EXAMPLE", 1)[0]
    for entry in part.split(".TP\n.B ")[1:]:
        head, *lines = entry.strip().split("\n")
        names, _, request = lines[0].partition(": ")
        reply = lines[1].removeprefix("Reply: ") if len(lines) > 1 else ""
        for number, name in zip(head.split(", "), names.split(", "), strict=True):
            yield plain(name), int(number), fields(request), fields(reply)


def fields(words):
    """The kinds of fields, in order. Sessions, slots and objects are numbers; what a field is for is left out."""
    kinds = []
    for field in re.split(r", | and ", re.sub(r" \([^)]*\)", "", words.strip().rstrip("."))):
        first = field.split(" ")[0]
        if "32 bytes" in field:
            kinds.append("32")
        elif first in ("s", "l", "o"):
            kinds.append("N")
        elif first in ("N", "B", "R", "O", "M", "M?", "T", "Q", "V", "L"):
            kinds.append(first)
        elif field not in ("", "rising"):
            raise Failed(f"no field: {field!r} in {words!r}")
    return tuple(kinds)


@check
def each_function_has_one_number():
    library = re.findall(r"^    (\w+) = (\d+),$", text("clients/pkcs11/src/frame.rs").split("pub enum Function", 1)[1].split("}", 1)[0], re.M)
    same("functions", definitions=definitions()[0],
         PROTOCOL={name: number for name, number, _, _ in protocol_rows()},
         page={name: number for name, number, _, _ in page_rows()},
         library={plain(name): int(number) for name, number in library})


@check
def requests_and_replies_have_the_same_fields():
    same("fields", PROTOCOL={name: it for name, _, *it in protocol_rows()}, page={name: it for name, _, *it in page_rows()})


@check
def limits_of_frames_are_the_same():
    protocol, manual = text("docs/PROTOCOL.md"), page("share/man/tokend-protocol.7")
    library = text("clients/pkcs11/src/frame.rs")

    def one(pattern, where):
        found = re.search(pattern, where)
        if not found:
            raise Failed(f"nothing is {pattern}")
        return int(re.sub(r"[,_]", "", found.group(1)))

    same("bytes of a payload", definitions=one(r"\nmost = (\d+)", text("crates/wire/specs/Messages.antt")),
         code=one(r"MAX_PAYLOAD_LEN: usize = ([\d_]+)", text("crates/wire/src/frame.rt")),
         PROTOCOL=one(r"payload, of at most ([\d,]+) bytes", protocol), page=one(r"of at most ([\d,]+), and so many", manual),
         library=one(r"MAX_PAYLOAD: usize = ([\d_]+)", library))
    same("entries of a template", definitions=one(r"MAX_ENTRIES: u32 = (\d+)", text("crates/ck_types/src/constants.rt")),
         PROTOCOL=one(r"T, template \| 32 bits count \(0 to (\d+)\)", protocol), page=one(r"A template: a count of 32 bits, at most (\d+)", manual),
         library=one(r"MAX_ENTRIES: usize = (\d+)", library))
    same("entries of a list", definitions=one(r"replies\.Objects objects\) = length objects ≤ (\d+)", text("crates/wire/specs/Replies.antt")),
         PROTOCOL=one(r"L, list \| 32 bits count \(0 to ([\d,]+)\)", protocol), page=one(r"A list: a count of 32 bits, at most ([\d,]+)", manual))


@check
def each_return_value_has_one_number():
    """The library has those of the token, and some of its own."""
    ours = definitions()[1]["rv"]
    library = {plain(name): int(number, 16) for name, number in re.findall(r"^    (CKR_\w+) = (0x\w+);$", text("clients/pkcs11/src/abi/codes.rs"), re.M)}
    same("return values", definitions=ours, library={name: number for name, number in library.items() if name in ours})
    named = re.findall(r"(CKR_\w+) \((0x[0-9a-f]+|\d+)\)", page("share/man/tokend-protocol.7"))
    same("return values", page={plain(name): int(number, 0) for name, number in named},
         definitions={plain(name): ours.get(plain(name)) for name, _ in named})


@check
def numbers_of_the_library_are_the_definitions():
    kinds = definitions()[1]
    of = {"CKA": "attr_type", "CKM": "mech_type", "CKO": "object_class"}
    found = re.findall(r"pub const ((CK[AMO])_\w+): CK_ULONG = (\w+);", text("clients/pkcs11/src/abi/numbers.rs"))
    ours = {name: kinds[of[prefix]][plain(name)] for name, prefix, _ in found if plain(name) in kinds[of[prefix]]}
    same("numbers", definitions=ours, library={name: int(number, 0) for name, _, number in found if name in ours})


@check
def numbers_of_the_example_are_the_definitions():
    functions, kinds = definitions()
    example = text("clients/python/encrypt.py")
    of = {"CKA": kinds["attr_type"], "CKM": kinds["mech_type"], "CKO": kinds["object_class"], "CKK": kinds["key_type"]}
    ours, its = {}, {}
    for names, values in re.findall(r"^([A-Z][A-Z_, ]+) = ([\w, ]+)$", example, re.M):
        for name, value in zip(names.split(", "), values.split(", "), strict=True):
            if not name.startswith("CKF_"):
                its[name] = int(value, 0)
                ours[name] = of.get(name[:3], functions).get(plain(name))
    same("numbers", definitions=ours, example=its)


RULES = {"Required": "must", "Optional": "may", "Inconsistent": "no", "ReadOnly": "fixed", "FalseOnly": "to false", "TrueOnly": "to true",
         "TrueBySo": "SO", "Unused": "-"}
HOLDERS = {"Both": "both", "DataObject": "data", "Key": "key"}
DEFAULTS = {"False": "false", "True": "true", "TrueForKey": "true of a key, false of data", "TrueUnwrapped": "false; true of an unwrapped key",
            "Empty": "empty", "ByToken": "by the token"}


@check
def attributes_of_the_profile_are_those_of_the_table():
    """Of what the token finds itself the profile says more than the table."""
    ours, listed = [], []
    for row in re.findall(r"^        row!\((.*)\),$", text("crates/attrs/src/table.rt"), re.M):
        name, holder, form, *rules, default = row.split(", ")
        ours.append([plain(name), HOLDERS[holder], form.lower(), *(RULES[it] for it in rules), DEFAULTS[default]])
    for name, holder, form, *rules, default, _ in rows("docs/PROFILE.md", "Attributes"):
        listed.append([plain(name), holder, form, *rules, default if default in DEFAULTS.values() else DEFAULTS["ByToken"]])
    same("attributes", table={str(n): it for n, it in enumerate(ours)}, PROFILE={str(n): it for n, it in enumerate(listed)})


@check
def mechanisms_of_the_profile_are_those_of_the_table():
    """The code's table, which is proved to be the definitions', with the flags by their names."""
    source = text("crates/ck_mechanisms/src/table.rt")
    of = definitions()[1]["mech_type"]

    def arms(function, result):
        body = source.split(f"fn {function}(", 1)[1].split("\n}\n", 1)[0]
        return {plain(name): value for names, value in re.findall(rf"((?:\|?\s*MechType::\w+\s*)+)=> \{{?\s*{result}::(\w+)", body)
                for name in re.findall(r"MechType::(\w+)", names)}

    purposes, key_types = arms("purpose_of", "Purpose"), arms("key_type_of", "KeyType")
    flags = {"Cipher": "CKF_ENCRYPT, CKF_DECRYPT", "Mac": "CKF_SIGN, CKF_VERIFY", "Generation": "CKF_GENERATE", "Wrapping": "CKF_WRAP, CKF_UNWRAP"}
    bits = {"CKF_ENCRYPT": 0x100, "CKF_DECRYPT": 0x200, "CKF_SIGN": 0x800, "CKF_VERIFY": 0x2000, "CKF_GENERATE": 0x8000, "CKF_WRAP": 0x20000,
            "CKF_UNWRAP": 0x40000}
    coded = {name: sum(int(it, 16) for it in value.split(" | ")) for name, value in re.findall(r"Purpose::(\w+) => (0x[0-9a-fx |]+),", source)}
    same("flags", table=coded, standard={purpose: sum(bits[it] for it in names.split(", ")) for purpose, names in flags.items()})
    sizes = {(purpose, kind): f"{least}, {most}" for purpose, kind, least, most in re.findall(
        r"\((\w+|Purpose::\w+), KeyType::(\w+)\) => \((\d+), (\d+)\)", source)}

    def size(name):
        kind, purpose = key_types[name], f"Purpose::{purposes[name]}"
        return sizes.get((purpose, kind), sizes["_", kind])

    ours = {name: (number, {"GenericSecret": "CKK_GENERIC_SECRET", "Aes": "CKK_AES"}[key_types[name]], size(name), flags[purposes[name]])
            for name, number in of.items()}
    listed = {plain(name): (int(number, 16), kind, its.replace("4,096 bits", "4096"), flag)
              for name, number, kind, its, flag, _ in rows("docs/PROFILE.md", "Mechanisms")}
    same("mechanisms", table=ours, PROFILE=listed)
    same("their order", rising=sorted(listed.values()), PROFILE=list(listed.values()))


def commands():
    """Of each command its options with their help, and which must be given, as crates/commands/src/command.rt has them."""
    source = text("crates/commands/src/command.rt")
    bodies = dict(re.findall(r"\nfn (\w+)<'a>\(alloc: Global(?:, \w+: u64)?\) -> (?:Result<Command|Arg).*?\{\n(.*?)\n\}\n", source, re.S))
    found = {}
    for body in bodies.values():
        name = re.search(r'Command::new\(alloc, "(\w+)"\)', body)
        if name:
            whole = re.sub(r"\.arg\((\w+)\(alloc(?:, \w+)?\)\)", lambda it: bodies[it.group(1)], body)
            options = re.findall(r'(needed|chosen)\(\s*alloc,\s*"([\w-]+)",\s*"((?:[^"\\]|\\.)*)"', whole)
            found[name.group(1)] = {option: (kind == "needed", help_.replace('\\"', '"')) for kind, option, help_ in options}
    return found


@check
def the_synopsis_has_each_command_and_its_options():
    part = page("share/man/tokend.1").split(".SH SYNOPSIS", 1)[1].split(".SH DESCRIPTION", 1)[0]
    listed = {}
    for it in part.split(".B tokend ")[1:]:
        name, _, options = it.partition("\n")
        listed[name] = {option: "[" not in line for line in options.split("\n") for option in re.findall(r"--([a-z-]+)", line)}
    same("commands", command={name: {option: it[0] for option, it in options.items()} for name, options in commands().items()}, page=listed)


@check
def the_page_explains_each_command_and_option():
    manual = page("share/man/tokend.1")
    part = manual.split(".SH COMMANDS", 1)[1]
    same("commands", command=set(commands()), page=set(re.findall(r"^\.TP\n\.B (\w+)$", part.split(".SH OPTIONS", 1)[0], re.M)))
    part = part.split(".SH OPTIONS", 1)[1].split(".SH EXIT STATUS", 1)[0]
    same("options", command={it for options in commands().values() for it in options},
         page=set(re.findall(r"^\.TP\n\.BI? --([a-z-]+)", part, re.M)))


@check
def the_readme_has_each_option_of_serve():
    listed = re.findall(r"^\| `--([a-z-]+) \w+` \|", text("README.md"), re.M)
    same("options of serve", command=set(commands()["serve"]), README=set(listed))


@check
def documents_name_no_other_options():
    """In each `tokend COMMAND ..` of a document, or of a unit, the command has those options."""
    known = commands()
    count = 0
    for path in ("README.md", "SECURITY.md", "docs/OPERATING.md", "docs/CLIENTS.md", "docs/MACHINES.md", "docs/PERFORMANCE.md", "docs/PROTOCOL.md"):
        for name, words in re.findall(rf"tokend ({'|'.join(known)})\b((?:[ \n]+(?:--[a-z-]+|[\w./:%${{}}@]+))*)", text(path)):
            for option in re.findall(r"--([a-z-]+)", words):
                count += 1
                if option not in known[name]:
                    raise Failed(f"{path}: tokend {name} has no --{option}")
    if not count:
        raise Failed("no document names an option")


@check
def exit_statuses_are_the_same():
    manual = page("share/man/tokend.1").split(".SH EXIT STATUS", 1)[1].split(".SH ENVIRONMENT", 1)[0]
    defined = text("crates/commands/specs/Statuses.antt").split("IsStatus n =", 1)[1]
    same("exit statuses", definitions=set(re.findall(r"n ≡ (\d)", defined)), README=set(re.findall(r"^\| (\d) \|", text("README.md"), re.M)),
         page=set(re.findall(r"^\.TP\n\.B (\d)$", manual, re.M)))


@check
def the_version_is_the_same():
    same("version", command=re.search(r'VERSION: &str = "(.*)"', text("crates/commands/src/command.rt")).group(1),
         CHANGELOG=re.search(r"^## ([0-9][0-9.]*)", text("CHANGELOG.md"), re.M).group(1),
         library=re.search(r'^version = "(.*)"$', text("clients/pkcs11/Cargo.toml"), re.M).group(1))


def printed(*words):
    if PROGRAM is None or not os.access(PROGRAM, os.X_OK):
        raise Skipped("no program is given" if PROGRAM is None else f"there is no program at {PROGRAM}")
    it = subprocess.run([PROGRAM, *words], stdin=subprocess.DEVNULL, capture_output=True, timeout=60, check=False)
    if it.returncode != 0:
        raise Failed(f"tokend {' '.join(words)} ended with status {it.returncode}")
    return it.stdout.decode()


@check
def the_program_prints_each_option():
    for name, options in commands().items():
        lines = re.findall(r"^      --([a-z-]+) <[a-z-]+> +(.*?)(?: \[possible values: .*\])?$", printed(name, "--help"), re.M)
        same(f"options of {name}", command={option: it[1] for option, it in options.items()}, printed=dict(lines))


def main():
    counts = {"ok": 0, "FAILED": 0, "skipped": 0}
    for function in CHECKS:
        outcome, why = "ok", ""
        try:
            function()
        except Skipped as it:
            outcome, why = "skipped", f": {it}"
        except (Failed, OSError, LookupError, ValueError, AttributeError, subprocess.SubprocessError) as it:
            outcome, why = "FAILED", f": {'' if isinstance(it, Failed) else type(it).__name__ + ' '}{it}"
        counts[outcome] += 1
        print(outcome, function.__name__ + why, flush=True)
    print(f"{counts['ok']} passed, {counts['FAILED']} failed, {counts['skipped']} skipped")
    return counts["FAILED"] != 0


if __name__ == "__main__":
    sys.exit(main())
