"""A second judge of messages, written after the rules that are stated for `check`, and not after its code.

It takes definitions from elsewhere than the program does, and says of a message what `dmpeer check` has to print.
"""
import collections
import functools
import re
import struct

# An AVP as it lies in octets: the vendor is None where V isn't set.
Held = collections.namedtuple("Held", "code vendor flags data")
# What is wrong, and the AVP that is printed with it (None: none).
Fault = collections.namedtuple("Fault", "code avp")

V, M = 0x80, 0x40
REQUEST, ERROR, RETRANSMITTED = 0x80, 0x20, 0x10
FAILED_AVP = (279, None)
DEEPEST = 8
SIZES = {"Integer32": 4, "Unsigned32": 4, "Time": 4, "Enumerated": 4, "Integer64": 8, "Unsigned64": 8}
LEAST = {**SIZES, "Address": 2, "DiameterIdentity": 1, "DiameterURI": 7}


@functools.lru_cache(maxsize=1024)
def held_in(octets):
    """Returns the AVPs (a tuple) that octets spell, or None where they are no sequence of whole padded AVPs."""
    found, at = [], 0
    while at < len(octets):
        if len(octets) - at < 8:
            return None
        code, word = struct.unpack_from(">II", octets, at)
        flags, length = word >> 24, word & 0xFFFFFF
        head = 12 if flags & V else 8
        end = at + (length + 3) // 4 * 4
        if length < head or end > len(octets):
            return None
        vendor = int.from_bytes(octets[at + 8 : at + 12], "big") if flags & V else None
        found.append(Held(code, vendor, flags, octets[at + head : at + length]))
        at = end
    return tuple(found)


@functools.lru_cache(maxsize=4096)
def spelled(avp):
    """Returns the octets of an AVP with its padding."""
    vendor = b"" if avp.vendor is None else avp.vendor.to_bytes(4, "big")
    length = 8 + len(vendor) + len(avp.data)
    head = avp.code.to_bytes(4, "big") + bytes([avp.flags]) + length.to_bytes(3, "big")
    return head + vendor + avp.data + bytes(-length % 4)


def message_of(header, avps):
    """Returns the octets of a message with this header's fields and these AVPs."""
    body = b"".join(map(spelled, avps))
    return header[:1] + (20 + len(body)).to_bytes(3, "big") + header[4:20] + body


def value_fault(kind, data):
    """Returns the Result-Code for data that is no value of the type, or None."""
    if kind in SIZES:
        return None if len(data) == SIZES[kind] else 5014
    if len(data) < LEAST.get(kind, 0):
        return 5014
    is_good = True
    if kind == "Address":
        is_good = len(data) - 2 == {1: 4, 2: 16}.get(int.from_bytes(data[:2], "big"), len(data) - 2)
    elif kind == "UTF8String":
        is_good = data == data.decode("utf-8", "ignore").encode()
    elif kind == "DiameterIdentity":
        is_good = all(0x21 <= it <= 0x7E for it in data)
    elif kind == "DiameterURI":
        is_good = bool(re.fullmatch(rb"aaas?://[\x21-\x7e]+", data))
    return None if is_good else 5004


class Judge:
    """What to say of messages by these definitions."""

    def __init__(self, definitions):
        self.avps, self.commands = definitions.by_code(), definitions.by_header()
        self.codes = {it.name: (it.code, it.vendor) for it in definitions.avps.values()}

    def line(self, octets):
        """Returns the line that check prints of a message."""
        fault = self.fault(octets)
        if not fault:
            return "good"
        return f"bad {fault.code}" + (f" {shown(fault.avp)}" if fault.avp else "")

    def fault(self, octets):
        """Returns what is found first, or None."""
        flags, code = octets[4], int.from_bytes(octets[5:8], "big")
        is_request, is_error = bool(flags & REQUEST), bool(flags & ERROR)
        key = (code, True, False) if is_request else (0, False, True) if is_error else (code, False, False)
        if key not in self.commands:
            return Fault(3001, None)
        if flags & (ERROR if is_request else RETRANSMITTED):
            return Fault(3008, None)
        return self.list_fault(held_in(octets[20:]), self.commands[key].rule, 0)

    def list_fault(self, avps, rule, depth):
        """Returns the fault of a list of AVPs: that of the first AVP that has one, or that of a count."""
        entries = {self.codes.get(it.name, "AVP"): it for it in rule}
        for avp in avps:
            fault = self.avp_fault(avp, entries, depth)
            if fault:
                return fault
        return self.count_fault(avps, rule, entries)

    def avp_fault(self, avp, entries, depth):
        """Returns the fault of one AVP among the entries of its rule."""
        key = (avp.code, avp.vendor)
        known = self.avps.get(key)
        if not known:
            return Fault(5001, avp) if avp.flags & M else None
        entry = entries.get(key, entries.get("AVP"))
        if entry is None or entry.most == 0:
            return Fault(5008, avp)
        if key == FAILED_AVP:
            return None
        if known.type == "Grouped":
            if depth == DEEPEST:
                return Fault(5004, avp)
            members = held_in(avp.data)
            if members is None:
                return Fault(5014, avp._replace(data=b""))
            return self.list_fault(members, known.rule, depth + 1)
        code = value_fault(known.type, avp.data)
        if not code and known.values and int.from_bytes(avp.data, "big") not in (it[1] for it in known.values):
            code = 5004
        return Fault(code, avp) if code else None

    def count_fault(self, avps, rule, entries):
        """Returns the fault of the first entry of the rule whose count isn't as it has to be."""
        held = collections.defaultdict(list)
        for it in avps:
            entry = entries.get((it.code, it.vendor), entries.get("AVP"))
            held[entry and entry.name].append(it)
        for entry in rule:
            there = held[entry.name]
            if len(there) < entry.least:
                return Fault(5005, self.example(entry.name))
            if entry.most and len(there) > entry.most:
                return Fault(5009, there[entry.most])
        return None

    def example(self, name):
        """Returns the AVP that stands for a missing one."""
        if name == "AVP":
            return None
        known = self.avps[self.codes[name]]
        flags = M if known.vendor is None else M | V
        return Held(known.code, known.vendor, flags, bytes(LEAST.get(known.type, 0)))


def shown(avp):
    """Returns an AVP as check prints it."""
    vendor = "" if avp.vendor is None else f"/{avp.vendor}"
    flags = "".join(letter if avp.flags & bit else "-" for letter, bit in (("V", V), ("M", M), ("P", 0x20)))
    return f"{avp.code}{vendor} {flags} {avp.data.hex() or '-'}"
