"""Reads freeDiameter's listing: what its fd_dict_dump prints, and fd_dict_dump_object for the rules of commands."""
import re

from definitions import TYPES, Avp, Command, Entry
from sources import NEAR, OPEN, Source

LISTED = re.compile(r"\(@(0x[0-9a-f]+)\): (VENDOR|APPLICATION|TYPE|ENUMVAL|AVP|COMMAND|RULE) p:(\S+) data: (.*)")
LISTED_AVP = re.compile(r'v/m:\S+, +(\w+), (\d+) +"(.*)"')
LISTED_COMMAND = re.compile(r'v/m:(\S+)/\S+, +(\d+) +"(.*)"')
LISTED_RULE = re.compile(r'pos:(\d) ord:\d+ m/M: *(-?\d+)/ *(-?\d+) avp:"(.*)"')
LISTED_VALUE = re.compile(r'\(\w+ *\) "(.*)" -> (-?\d+)$')


def listed_in(text):
    """Returns the objects of a listing in its order: their kind, address, that of what they refer to, and the data."""
    return [(it[2], it[1], it[3], it[4]) for it in map(LISTED.search, text.split("\n")) if it]


def read_freediameter(texts):
    """Reads what freeDiameter's fd_dict_dump prints."""
    source = Source()
    for text in texts:
        objects = listed_in(text)
        names = {at: data.partition('"')[2].rpartition('"')[0] for kind, at, _, data in objects if kind == "TYPE"}
        applications = {at: int(data.split()[0]) for kind, at, _, data in objects if kind == "APPLICATION"}
        values, rules = {}, {}
        for kind, _, parent, data in objects:
            value, rule = LISTED_VALUE.match(data), LISTED_RULE.match(data)
            if kind == "ENUMVAL" and value:
                values.setdefault(parent, []).append((value[1], int(value[2])))
            elif kind == "RULE" and rule:
                rules.setdefault(parent, []).append(listed_entry(source, rule))
        vendor = None
        for kind, at, parent, data in objects:
            if kind == "VENDOR":
                vendor = int(data.split()[0]) or None
            elif kind == "AVP":
                read_listed_avp(source, data, vendor, rules.get(at), (names.get(parent, ""), values.get(parent, [])))
            elif kind == "COMMAND":
                read_listed_command(source, data, applications.get(parent, 0), rules.get(at, []))
    return source


def listed_entry(source, rule):
    """Returns an entry of a rule. Where the listing has -1 the count is that of the bracket."""
    bracket = {"1": "<", "2": "{", "3": "["}.get(rule[1], "{")
    least, most = int(rule[2]), int(rule[3])
    return Entry(bracket, source.name(rule[4]), int(bracket != "[") if least < 0 else least, None if most < 0 else most)


def ruled(entries):
    """Returns the rule: fixed, required and optional entries in this order, and every other AVP behind them."""
    return (*sorted(entries, key=lambda it: "<{[".index(it.bracket)), *OPEN)


def read_listed_avp(source, data, vendor, entries, derived):
    """Reads an AVP. The type that it is derived from has the name of the format or, of an Enumerated, the values."""
    said = LISTED_AVP.match(data)
    kind, name, (parent, pairs) = said[1], source.name(said[3]), derived
    if kind == "GROUPED":
        if not entries:
            source.tell(f"loosened: {name} allows every AVP, since the source has no rule")
        source.add_avp(Avp(name, int(said[2]), vendor, "Grouped", (), ruled(entries or [])))
        return
    basic = {it.upper(): it for it in ("OctetString", *TYPES)} | {"FLOAT32": "Float32", "FLOAT64": "Float64"}
    raw = "Enumerated" if parent.startswith("Enumerated(") else parent if parent in (*TYPES, *NEAR) else basic[kind]
    if raw == "Enumerated" and kind not in ("INTEGER32", "UNSIGNED32"):
        source.tell(f"values: {name} has no list, since it is {basic[kind]}")
        raw = basic[kind]
    found = source.type(raw, {}, name)
    values = source.values(name, sorted(pairs, key=lambda it: it[1])) if found == "Enumerated" else ()
    source.add_avp(Avp(name, int(said[2]), vendor, found, values, ()))


def read_listed_command(source, data, application, entries):
    """Reads a command; all that freeDiameter lists may hold other AVPs."""
    said = LISTED_COMMAND.match(data)
    flags = tuple(word for letter, word in (("R", "REQ"), ("P", "PXY")) if letter in said[1])
    rule = ruled(entries) if entries else ()
    source.add_command(Command(source.name(said[3]), int(said[2]), flags, application, rule))
