"""Reads the dictionaries of OTP's diameter (see its manual page diameter_dict)."""
import re

from definitions import Avp, Command, Entry, bounds
from sources import OPEN, Source

ENTRY = re.compile(r"(?:(\d*)\s*(\*)\s*(\d*)\s*)?([<{\[])\s*('[^']*'|[^\s<>{}\[\]]+)\s*[>}\]]")
DIA_HEAD = re.compile(r"\s*('[^']*'|\S+)\s*::=\s*<\s*(Diameter|AVP)\s+Header\s*:\s*([^>]*)>")


def unquoted(word):
    return word.removeprefix("'").removesuffix("'")


def sections_of(text):
    """Yields the sections of a .dia text: the keyword, the words behind it in its line, the lines below it."""
    text = re.sub(r"(?m);.*$", "", text)
    for part in re.split(r"(?m)^[ \t]*@", text)[1:]:
        head, _, body = part.partition("\n")
        keyword, *words = head.split() or [""]
        yield keyword, words, body


def read_otp(texts):
    """Reads dictionaries of OTP's diameter."""
    source = Source()
    for text in texts:
        read_dia(source, [*sections_of(text)])
    return source


def read_dia(source, sections):
    """Reads one dictionary: its vendor and application first, then what they are used for."""
    first = {keyword: words for keyword, words, _ in sections}
    application = int(first.get("id", ["0"])[0], 0)
    vendors = {name: int(words[0]) for keyword, words, body in sections for name in body.split()
               if keyword == "avp_vendor_id"}
    own = int(first["vendor"][0]) if "vendor" in first else None
    values, groups = {}, {}
    for keyword, words, body in sections:
        if keyword == "enum":
            pairs = [line.split() for line in body.split("\n") if line.strip()]
            values[unquoted(words[0])] = [(unquoted(name), int(number, 0)) for name, number in pairs]
        elif keyword == "grouped":
            groups.update(dia_groups(source, body, vendors))
    for keyword, words, body in sections:
        if keyword == "avp_types":
            read_dia_avps(source, body, (values, groups, vendors, own))
        elif keyword == "messages":
            read_dia_commands(source, body, application)
        elif keyword == "inherits":
            source.tell(f"needed: the definitions of {' '.join(words)} (@inherits)")
    for name in (it for it in values if it not in source.definitions.avps):
        source.tell(f"left out: values of {name}, which is defined elsewhere")


def read_dia_avps(source, body, known):
    """Reads the AVPs of @avp_types."""
    values, groups, vendors, own = known
    for raw, code, kind, *flags in (line.split() for line in body.split("\n") if line.strip()):
        raw = unquoted(raw)
        name, code = source.name(raw), int(code)
        vendor = vendors.get(raw, own) if "V" in "".join(flags) else None
        if kind == "Grouped":
            head_vendor, rule = groups.get(raw, (None, OPEN))
            if raw not in groups:
                source.tell(f"loosened: {name} allows every AVP, since the source has no rule")
            vendor = vendor if head_vendor is None else head_vendor
            source.add_avp(Avp(name, code, vendor, kind, (), rule))
        else:
            kind = source.type(kind, {}, name)
            listed = source.values(name, values.get(raw, ())) if kind == "Enumerated" else ()
            source.add_avp(Avp(name, code, vendor, kind, listed, ()))


def dia_rules(source, body):
    """Yields the heads and rules of a section: name, what stands in the header, entries."""
    heads = [*DIA_HEAD.finditer(body)]
    for at, head in enumerate(heads):
        end = heads[at + 1].start() if at + 1 < len(heads) else len(body)
        entries = []
        for least, star, most, bracket, name in ENTRY.findall(body[head.end() : end]):
            number = bounds(bracket, bool(star), int(least) if least else None, int(most) if most else None)
            entries.append(Entry(bracket, "AVP" if name == "AVP" else source.name(unquoted(name)), *number))
        yield unquoted(head[1]), head[3], tuple(entries)


def dia_groups(source, body, vendors):
    """Returns the vendors and rules of the groups of @grouped."""
    found = {}
    for name, head, rule in dia_rules(source, body):
        numbers = re.findall(r"\d+", head)
        found[name] = (int(numbers[1]) if len(numbers) > 1 else vendors.get(name), rule)
    return found


def read_dia_commands(source, body, application):
    """Reads the commands of @messages. The answer for any command has the code 0, as the base dictionary has it."""
    for raw, head, rule in dia_rules(source, body):
        code = int(re.findall(r"\d+", head)[0]) if re.match(r"\d", head) else 0
        flags = tuple(it for it in ("REQ", "PXY", "ERR") if it in head and (code or it != "PXY"))
        source.add_command(Command(source.name(raw), code, flags, application if code else 0, rule))
