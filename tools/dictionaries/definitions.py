"""Dictionaries as values: what a text of version 2 defines (docs/DEFINITIONS.md), read from it and written as one.

This reads less strictly than the program does: what stands in a text twice, and names that nothing defines, are for
`dmpeer check --dict` to refuse.
"""
import collections
import re
import textwrap

# An entry of a rule: its bracket (<, { or [), the name, and how many are wanted and allowed (None: any number).
Entry = collections.namedtuple("Entry", "bracket name least most")
# An AVP: values are (name, number) of an Enumerated, rule the entries of a Grouped one; both are () elsewhere.
Avp = collections.namedtuple("Avp", "name code vendor type values rule")
# A command: its flags are those of REQ, PXY and ERR that hold.
Command = collections.namedtuple("Command", "name code flags application rule")

TYPES = """OctetString Integer32 Integer64 Unsigned32 Unsigned64 Address Time UTF8String DiameterIdentity DiameterURI
Enumerated""".split()
CLOSING = {"<": ">", "{": "}", "[": "]"}
TOKEN = re.compile(r"[ \t\r\n]+|;[^\n]*|([A-Za-z0-9][A-Za-z0-9-]*|::=|[<>{}\[\]*,:@])")
WIDTH = 118


class Fault(Exception):
    """What can't be read: the number of its line, and why."""


class Definitions:
    """Vendors by their names, AVPs and commands by theirs, in the order of the text."""

    def __init__(self):
        self.vendors, self.avps, self.commands = {}, {}, {}

    def by_code(self):
        """Returns the AVPs by code and vendor."""
        return {(it.code, it.vendor): it for it in self.avps.values()}

    def by_header(self):
        """Returns the commands by code, and whether they are requests and errors."""
        return {(it.code, "REQ" in it.flags, "ERR" in it.flags): it for it in self.commands.values()}

    def add(self, other):
        """Adds what another dictionary has; of two with one name the later stands."""
        self.vendors.update(other.vendors)
        self.avps.update(other.avps)
        self.commands.update(other.commands)


class Tokens:
    """The tokens of a text, taken one by one."""

    def __init__(self, text):
        self.found, self.at, place = [], 0, 0
        while place < len(text):
            token = TOKEN.match(text, place)
            line = text.count("\n", 0, place) + 1
            if not token:
                raise Fault(line, f"no token begins with {text[place]!r}")
            if token[1]:
                self.found.append((token[1], line))
            place = token.end()

    def peek(self, ahead=0):
        """Returns the token that comes, or one further ahead; None behind the last."""
        return self.found[self.at + ahead][0] if self.at + ahead < len(self.found) else None

    def take(self, *wanted):
        """Takes the next token, which has to be one of those wanted, where some are."""
        token = self.peek()
        if token is None or (wanted and token not in wanted):
            line = self.found[min(self.at, len(self.found) - 1)][1] if self.found else 1
            raise Fault(line, f"{token or 'the end'} stands where {' or '.join(wanted) or 'more'} was awaited")
        self.at += 1
        return token

    def take_if(self, token):
        """Takes the next token where it is this one, and returns whether it is."""
        is_next = self.peek() == token
        self.at += is_next
        return is_next

    def number(self):
        """Takes a number."""
        if not (self.peek() or "").isdigit():
            self.take("a number")
        return int(self.take())


def read(text):
    """Returns the definitions of a text, with or without the `@ 2` at its front."""
    tokens, found = Tokens(text), Definitions()
    if (tokens.peek(), tokens.peek(1)) == ("@", "2"):
        tokens.at = 2
    while tokens.peek():
        if tokens.take_if("@"):
            read_plain(tokens, found)
        else:
            read_ruled(tokens, found)
    return found


def read_plain(tokens, found):
    """Reads a vendor or an AVP without a rule behind its `@`."""
    name = tokens.take()
    if name == "vendor" and not (tokens.peek() or "").isdigit():
        vendor = tokens.take()
        found.vendors[vendor] = tokens.number()
        return
    code, kind = tokens.number(), tokens.take(*TYPES)
    vendor = read_vendor(tokens, found)
    values = read_values(tokens) if kind == "Enumerated" and tokens.take_if("{") else ()
    found.avps[name] = Avp(name, code, vendor, kind, values, ())


def read_vendor(tokens, found):
    """Reads a vendor, as a number or a name behind a colon, where there is one."""
    if tokens.take_if(":"):
        return found.vendors[tokens.take(*(found.vendors or ["a vendor's name"]))]
    return tokens.number() if (tokens.peek() or "").isdigit() else None


def read_values(tokens):
    """Reads the values of a list behind its opening brace."""
    values = []
    while True:
        name = tokens.take()
        values.append((name, tokens.number()))
        if tokens.take(",", "}") == "}":
            return tuple(values)


def read_ruled(tokens, found):
    """Reads a group or a command."""
    name = tokens.take()
    if name == "<":
        name = tokens.take()
        tokens.take(">")
    tokens.take("::=")
    tokens.take("<")
    head = tokens.take("Diameter", "Diameter-Header", "AVP", "AVP-Header")
    if head in ("Diameter", "AVP"):
        tokens.take("Header")
    tokens.take(":")
    code = tokens.number()
    if head.startswith("AVP"):
        tokens.take_if(",")
        vendor = read_vendor(tokens, found)
        tokens.take(">")
        found.avps[name] = Avp(name, code, vendor, "Grouped", (), read_rule(tokens))
        return
    flags, application = [], 0
    while tokens.peek() != ">":
        tokens.take_if(",")
        if (tokens.peek() or "").isdigit():
            application = tokens.number()
        else:
            flags.append(tokens.take("REQ", "PXY", "ERR"))
    tokens.take(">")
    found.commands[name] = Command(name, code, tuple(flags), application, read_rule(tokens))


def read_rule(tokens):
    """Reads entries up to the next item."""
    entries = []
    while tokens.peek() in ("<", "{", "[", "*") or (tokens.peek() or "").isdigit():
        if tokens.peek() == "<" and tokens.peek(3) == "::=":
            break
        least = tokens.number() if tokens.peek().isdigit() else None
        is_many = tokens.take("*") if least is not None else tokens.take_if("*")
        most = tokens.number() if is_many and tokens.peek().isdigit() else None
        bracket = tokens.take("<", "{", "[")
        name = tokens.take()
        tokens.take(CLOSING[bracket])
        entries.append(Entry(bracket, name, *bounds(bracket, is_many, least, most)))
    return tuple(entries)


def bounds(bracket, is_many, least, most):
    """Returns how many an entry wants and allows."""
    if not is_many:
        return int(bracket != "["), 1
    return int(bracket == "{") if least is None else least, most


def entry_text(entry):
    """Returns an entry as the RFCs write it."""
    plain = int(entry.bracket != "[")
    mark = ""
    if (entry.least, entry.most) != (plain, 1):
        least = entry.least if entry.least or entry.bracket == "{" else ""
        mark = f"{least}*{'' if entry.most is None else entry.most}"
    return f"{mark}{entry.bracket} {entry.name} {CLOSING[entry.bracket]}"


def rule_text(rule):
    """Returns the lines of a rule: first what is fixed or required, then what is optional."""
    lines = []
    for is_optional in (False, True):
        words = [entry_text(it).replace(" ", "\0") for it in rule if (it.bracket == "[") == is_optional]
        lines += textwrap.wrap(" ".join(words), WIDTH - 4, break_on_hyphens=False, break_long_words=False)
    return "".join(f"    {line}\n" for line in lines).replace("\0", " ")


def avp_text(avp, width=0):
    """Returns the lines of an AVP. The name is filled up to the width."""
    vendor = "" if avp.vendor is None else f" {avp.vendor}"
    if avp.type == "Grouped":
        return f"< {avp.name} > ::= < AVP Header: {avp.code}{vendor} >\n{rule_text(avp.rule)}"
    head = f"@ {avp.name:{width}} {avp.code} {avp.type}{vendor}"
    if not avp.values:
        return head + "\n"
    words = " ".join(f"{name}\0{number}," for name, number in avp.values).removesuffix(",")
    lines = textwrap.wrap("{ " + words + " }", WIDTH - 4, break_on_hyphens=False, break_long_words=False)
    return head + "\n" + "".join(f"    {line}\n" for line in lines).replace("\0", " ")


def command_text(command):
    """Returns the lines of a command."""
    flags = "".join(f", {it}" for it in command.flags)
    application = f" {command.application}" if command.application else ""
    return f"< {command.name} > ::= < Diameter Header: {command.code}{flags}{application} >\n{rule_text(command.rule)}"


def write(definitions):
    """Returns the text of these definitions, without the `@ 2` at its front, vendors of AVPs as numbers."""
    plain = [it for it in definitions.avps.values() if it.type != "Grouped"]
    width = max((len(it.name) for it in plain), default=0)
    vendors = "".join(f"@ vendor {name} {number}\n" for name, number in definitions.vendors.items())
    groups = [avp_text(it) for it in definitions.avps.values() if it.type == "Grouped"]
    commands = [command_text(it) for it in definitions.commands.values()]
    return "\n".join(it for it in [vendors, "".join(avp_text(it, width) for it in plain), *groups, *commands] if it)
