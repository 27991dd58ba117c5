#!/usr/bin/env python3
"""Compares what `dmview --json` says with what `dmview` says as text, of the same messages. It is no part of the gate.

  tools/compare_json.py [DMVIEW]   DMVIEW is dmview as it is built (else crates/dmview/out/dmview)

The messages are those of dictionaries/otp.recorded, and each of them damaged: cut, and with an octet turned. Each line
in JSON is read by Python's json and turned into the lines of the text; these have to be the very same, under `show` and
under `check`, of lines and of a stream. The status is 0 where they are.
"""
import json
import os
import random
import subprocess
import sys

sys.dont_write_bytecode = True
import folders
from recorded import Table

TOP = os.path.dirname(folders.TOOLS)
TEXTS = f"{TOP}/dictionaries"
NAMES = """session.avps nas.avps digest.avps credit.avps eap.avps sip.avps mobile-ipv4.avps overload.avps nas.commands
credit.commands eap.commands sip.commands mobile-ipv4.commands""".split()
FLAGS = ("vendor", "V"), ("mandatory", "M"), ("protected", "P")


def name_of(json_name):
    """Returns a name as the text has it."""
    if json_name is None:
        return "?"
    return json_name["octets"] if isinstance(json_name, dict) else json_name


def header(it):
    """Returns the line of a header."""
    hop, end = it["hop_by_hop"], it["end_to_end"]
    return (
        f"{name_of(it['command'])} {it['code']} {' '.join(it['flags'])}, application {it['application']},"
        f" hop-by-hop {hop} (0x{hop:08x}), end-to-end {end} (0x{end:08x})\n"
    )


def front(avp):
    """Returns the front of an AVP's line."""
    vendor = f"/{avp['vendor']}" if "vendor" in avp else ""
    marks = "".join(letter if word in avp["flags"] else "-" for word, letter in FLAGS)
    return f"{name_of(avp['name'])} {avp['code']}{vendor} {marks}"


def value(it):
    """Returns the texts that a value that is no group may have: which depends on its type."""
    if isinstance(it, int):
        return [str(it)]
    if isinstance(it, str):
        plain = all(31 < ord(c) != 127 and c != '"' for c in it)
        return [f'"{it}"' if plain else it.encode().hex(), it]
    if "flaw" in it:
        return [f"{it['flaw']} {it['octets'] or '-'}"]
    if "octets" in it:
        return [it["octets"] or "-"]
    if "date" in it:
        return [f"{it['seconds']} {it['date']}"]
    return [str(it["number"]) if it["name"] is None else f"{it['name']} ({it['number']})"]


def avps(its, level, wanted):
    """Returns the lines of AVPs; of those that a value may have those that are wanted at their place."""
    said = ""
    for it in its:
        line = "  " * level + front(it)
        if isinstance(it["value"], list):
            said += line + "\n" + avps(it["value"], level + 1, wanted[len(said) + len(line) + 1 :])
        else:
            ways = [f"{line} {text}\n" for text in value(it["value"])]
            said += next((way for way in ways if wanted.startswith(way, len(said))), ways[0])
    return said


def fault(it):
    """Returns the line of a fault."""
    said = f"  {it['code']} {it['name']}" + "".join(f" {name_of(s['name'])}[{s['nth']}] /" for s in it["path"])
    if "avp" not in it:
        return said + "\n"
    if it["reason"] == "missing":
        return f"{said} lacks {front(it['avp'])}\n"
    return f"{said} {front(it['avp'])}: {it['reason']}\n"


def text_of(it, wanted):
    """Returns the text of a line in JSON."""
    if "good" in it:
        return f"{it['good']} good, {it['bad']} bad\n"
    said = f"line {it['line']}: " if "line" in it else f"{it['number']}: "
    if "header" in it:
        said += f"{it['verdict']} " if "verdict" in it else ""
        said += header(it["header"])
        said += avps(it.get("avps", []), 1, wanted[len(said) :])
        said += "".join(fault(one) for one in it.get("faults", []))
        said += "  " if "error" in it else ""
    return said + (f"{it['error']}\n" if "error" in it else "")


def ran(words, given):
    """Returns what a run prints."""
    done = subprocess.run(words, input=given, capture_output=True, text=True, check=False)
    if done.stderr:
        sys.exit(f"compare_json: {done.stderr.strip()}")
    return done.stdout


def agree(program, words, given):
    """Whether the two say the same, and of how many lines."""
    words = [program, *words, *(it for name in NAMES for it in ("--dict", f"{TEXTS}/{name}"))]
    text, said = ran(words, given), ran([*words, "--json", "--color", "always"], given)
    at, lines = 0, said.splitlines()
    for line in lines:
        told = text_of(json.loads(line), text[at:])
        if not text.startswith(told, at):
            print(f"compare_json: {line}\n{told}\n{text[at : at + 500]}")
            return False
        at += len(told)
    print(f"compare_json: {' '.join(words[1 : -2 * len(NAMES)])}: {len(lines)} lines, {at} of {len(text)} characters")
    return at == len(text)


def main():
    """Compares, and returns the status."""
    program = sys.argv[1] if sys.argv[1:] else f"{TOP}/crates/dmview/out/dmview"
    with open(f"{TEXTS}/otp.recorded", encoding="utf-8") as it:
        messages = [octets for _, _, octets in Table([it.read()]).messages]
    chance, damaged = random.Random(1), []
    for message in messages:
        for _ in range(20):
            octets = bytearray(message)
            octets[chance.randrange(len(octets))] = chance.randrange(256)
            damaged.append(bytes(octets))
        damaged.append(message[: chance.randrange(len(message))])
    lines = "".join(it.hex() + "\n" for it in messages + damaged) + "xyz\n"
    stream = "".join(it.hex() for it in messages)
    given = {"show": lines, "check": lines, "show --stream": stream + "\n" + stream[:100], "check --stream": stream + "\nxyz\n"}
    return 0 if all([agree(program, words.split(), it) for words, it in given.items()]) else 1


if __name__ == "__main__":
    sys.exit(main())
