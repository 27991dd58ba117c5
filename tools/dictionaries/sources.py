"""What is read from another program's dictionary, in the terms of our text, and what was changed on the way.

The readers: from_otp.py, from_wireshark.py, from_freediameter.py.
"""
import re

from definitions import TYPES, Definitions, Entry

# What other programs call a type, or have as a type of their own, and the type that has the same octets.
SAME = {"DiamIdent": "DiameterIdentity", "DiamURI": "DiameterURI", "AppId": "Unsigned32", "VendorId": "Unsigned32"}
NEAR = {"IPFilterRule": "OctetString", "QoSFilterRule": "OctetString", "Float32": "Unsigned32", "Float64": "Unsigned64"}
# The rule that leaves open what a source doesn't tell.
OPEN = (Entry("[", "AVP", 0, None),)
LARGEST = 2147483647


class Source:
    """Definitions read from another program's dictionary, and what was changed, left out or loosened."""

    def __init__(self):
        self.definitions, self.told, self.named = Definitions(), [], {}

    def tell(self, what):
        if what not in self.told:
            self.told.append(what)

    def name(self, raw):
        """Returns a name in letters, digits and `-`, and tells where it isn't as it was."""
        name = re.sub(r"[^A-Za-z0-9]*$|^[^A-Za-z0-9]*", "", re.sub(r"[^A-Za-z0-9-]+", "-", raw))
        if not name or name.isdigit() or name == "AVP":
            name = f"N-{name}".rstrip("-")
        if name != raw:
            self.tell(f"name: {raw!r} is called {name}")
        return name

    def type(self, raw, parents, of):
        """Returns the type of the AVP `of`: this one, or the first one above it that our text has."""
        at, seen = raw, set()
        while at not in TYPES and at not in SAME and at not in NEAR and at in parents and at not in seen:
            seen.add(at)
            at = parents[at]
        found = SAME.get(at) or NEAR.get(at) or (at if at in TYPES else "OctetString")
        if found != SAME.get(raw, raw):
            self.tell(f"type: {of} is {found} instead of {raw}")
        return found

    def values(self, of, pairs):
        """Returns the values of an Enumerated; none where one of them can't be listed, since that would be refused."""
        values = []
        for raw, number in pairs:
            name = self.name(raw)
            if not 0 <= number <= LARGEST:
                self.tell(f"values: {of} has no list, since {name} is {number}")
                return ()
            if number in (it[1] for it in values):
                self.tell(f"values: {of} has {number} twice, {name} is left out")
                continue
            if name in (it[0] for it in values):
                self.tell(f"values: {of} has {name} twice, that of {number} is called {name}-{number}")
                name = f"{name}-{number}"
            values.append((name, number))
        return tuple(values)

    def add_avp(self, avp):
        """Adds an AVP, unless its name or its code with the vendor is there already."""
        key = (avp.code, avp.vendor)
        there = self.definitions.avps.get(avp.name)
        if there and (there.code, there.vendor) != key:
            avp = avp._replace(name=f"{avp.name}-{avp.vendor or avp.code}")
            self.tell(f"name: AVP {there.name} is there twice, that of code {avp.code} is called {avp.name}")
        elif there or key in self.named:
            self.tell(f"left out: AVP {avp.name} {place(key)}, which is there already as {self.named[key]}")
            return
        self.definitions.avps[avp.name] = avp
        self.named[key] = avp.name

    def add_command(self, command):
        """Adds a command, unless its name or its code is there already."""
        flags = {"REQ", "ERR"} & {*command.flags}
        for it in self.definitions.commands.values():
            if it.name == command.name or (it.code, {"REQ", "ERR"} & {*it.flags}) == (command.code, flags):
                self.tell(f"left out: command {command.name} {command.code}, which is there already as {it.name}")
                return
        if not command.rule:
            self.tell(f"loosened: {command.name} allows every AVP, since the source has no rule")
        self.definitions.commands[command.name] = command._replace(rule=command.rule or OPEN)


def place(key):
    """Returns a code with its vendor as `show` prints them."""
    return f"{key[0]}" if key[1] is None else f"{key[0]}/{key[1]}"


def read_file(file):
    with open(file, encoding="utf-8", errors="replace") as it:
        return it.read()
