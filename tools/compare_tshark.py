#!/usr/bin/env python3
"""Compares what `dmview show` says with what `tshark -V` says of the same messages. It is no part of the gate.

  tools/compare_tshark.py [DMVIEW]   DMVIEW is dmview as it is built (else crates/dmview/out/dmview)

The messages are those of dictionaries/otp.recorded, put into a file of captured packets, one a packet. Compared are of
each AVP its depth, code and flags, its name and its value. Values are compared as tshark writes them: a listed value by
its number, hexadecimal in either case, a time by its instant, and those that tshark cuts up to where it does. What
differs is printed once, with how often it does. The status is 0 where both have the same AVPs with the same flags.
"""
import collections
import os
import re
import struct
import subprocess
import sys
import tempfile
from datetime import datetime, timezone

sys.dont_write_bytecode = True
import folders
from recorded import Table

TOP = os.path.dirname(folders.TOOLS)
TEXTS = f"{TOP}/dictionaries"
NAMES = """session.avps nas.avps digest.avps credit.avps eap.avps sip.avps mobile-ipv4.avps overload.avps nas.commands
credit.commands eap.commands sip.commands mobile-ipv4.commands""".split()
PORT = 3868

# An AVP as one of the two says it.
Avp = collections.namedtuple("Avp", "depth name code flags value")
SHOWN = re.compile(r"( +)(\S+) (\d+)(?:/\d+)? ([V-][M-][P-])(?: (.*))?")
TOLD = re.compile(r"( +)AVP: (.*?)\((\d+)\) l=\d+ f=([V-][M-][P-])(?: vnd=\S+)?(?: val=(.*))?")


def shown(program, messages):
    """Returns the AVPs of each message as dmview says them."""
    words = [program, "show", *(it for name in NAMES for it in ("--dict", f"{TEXTS}/{name}"))]
    given = "".join(it.hex() + "\n" for it in messages)
    ran = subprocess.run(words, input=given, capture_output=True, text=True, check=False)
    if ran.stderr:
        sys.exit(f"compare_tshark: {ran.stderr.strip()}")
    found = []
    for line in ran.stdout.splitlines():
        avp = SHOWN.fullmatch(line)
        if avp:
            found[-1].append(Avp(len(avp[1]) // 2, avp[2], int(avp[3]), avp[4], avp[5] or ""))
        elif re.match(r"\d+: ", line):
            found.append([])
    return found


def packet(octets, sequence):
    """Returns a packet of IPv4 and TCP with the octets, behind the head of its record."""
    tcp = struct.pack(">HHIIBBHHH", PORT, PORT, sequence, 1, 5 << 4, 0x18, 65535, 0, 0)
    size = 20 + len(tcp) + len(octets)
    ip = struct.pack(">BBHHHBBHII", 0x45, 0, size, 0, 0, 64, 6, 0, 0x7F000001, 0x7F000002)
    return struct.pack("<IIII", 0, 0, size, size) + ip + tcp + octets


def told(messages):
    """Returns the AVPs of each message as tshark says them."""
    sequence, packets = 1, [struct.pack("<IHHiIII", 0xA1B2C3D4, 2, 4, 0, 0, 1 << 18, 101)]
    for octets in messages:
        packets.append(packet(octets, sequence))
        sequence += len(octets)
    with tempfile.TemporaryDirectory(prefix="tshark-") as room:
        with open(f"{room}/packets", "wb") as it:
            it.write(b"".join(packets))
        words = ["tshark", "-r", f"{room}/packets", "-V"]
        ran = subprocess.run(words, capture_output=True, text=True, check=True)
    found = []
    for line in ran.stdout.splitlines():
        avp = TOLD.fullmatch(line)
        if re.match(r"Frame \d+:", line):
            found.append([])
        elif avp:
            # (a group's members stand two steps further in)
            depth = (len(avp[1]) // 4 + 1) // 2
            found[-1].append(Avp(depth, avp[2], int(avp[3]), avp[4], avp[5] or ""))
    return found


def plain(value):
    """Returns a value without the marks that the two put round it."""
    value = value.strip('"')
    listed = re.fullmatch(r".* \((-?\d+)\)", value)
    date = re.fullmatch(r"\d+ (\d+-\d\d-\d\dT\d\d:\d\d:\d\dZ)", value)
    try:
        instant = datetime.strptime(re.sub(r"\.\d+ ", " ", value), "%b %d, %Y %H:%M:%S %Z").replace(tzinfo=timezone.utc)
    except ValueError:
        instant = None
    if instant:
        return instant.strftime("%Y-%m-%dT%H:%M:%SZ").lower()
    return (listed[1] if listed else date[1] if date else value).lower()


def is_same(ours, theirs):
    """Whether two values are one, or tshark wrote the front of it."""
    a, b = plain(ours), plain(theirs)
    is_cut = len(b) > 60 and (a.startswith(b[:60]) or a.encode().hex().startswith(b[:60]))
    return not a or not b or a == b or is_cut or a == b.encode().hex() or a.encode().hex() == b


def compare(ours, theirs, counts):
    """Counts what differs between the AVPs of a message."""
    if [(it.depth, it.code, it.flags) for it in ours] != [(it.depth, it.code, it.flags) for it in theirs]:
        counts["messages with other AVPs", "", ""] += 1
        return
    for a, b in zip(ours, theirs):
        counts["AVPs", "", ""] += 1
        if a.name != b.name:
            counts["name", a.name, b.name] += 1
        if not is_same(a.value, b.value):
            counts[f"value of {a.name}", a.value[:60], b.value[:60]] += 1


def main(words):
    program = words[0] if words else f"{TOP}/crates/dmview/out/dmview"
    with open(f"{TEXTS}/otp.recorded", encoding="utf-8") as it:
        messages = [octets for _, _, octets in Table([it.read()]).messages]
    ours, theirs, counts = shown(program, messages), told(messages), collections.Counter()
    print(f"{len(ours)} messages by dmview, {len(theirs)} by tshark")
    for a, b in zip(ours, theirs):
        compare(a, b, counts)
    for (what, a, b), count in counts.most_common():
        print(f"{count} {what}" + (f": {a} / {b}" if a or b else ""))
    return 1 if len(ours) != len(theirs) or counts["messages with other AVPs", "", ""] else 0


if __name__ == "__main__":
    sys.exit(main(sys.argv[1:]))
