"""Reads Wireshark's dictionaries. They have no rules of commands, and of groups the members alone."""
import os
import re
import xml.etree.ElementTree

from definitions import Avp, Command
from sources import OPEN, Source, read_file


def whole_xml(file):
    """Returns the XML of a file with the files put in that its entities name, as one element."""
    folder = os.path.dirname(file)
    text = read_file(file)
    for name, part in re.findall(r'<!ENTITY\s+(\w+)\s+SYSTEM\s+"([^"]+)"', text):
        if f"&{name};" in text and os.path.exists(os.path.join(folder, part)):
            text = text.replace(f"&{name};", read_file(os.path.join(folder, part)))
    text = re.sub(r"<\?.*?\?>|<!DOCTYPE[^\[>]*(\[.*?\]\s*)?>", "", text, flags=re.DOTALL)
    return xml.etree.ElementTree.fromstring(f"<all>{text}</all>")


def read_wireshark(files):
    """Reads Wireshark's dictionaries."""
    source = Source()
    for file in files:
        root = whole_xml(file)
        vendors = {it.get("vendor-id"): int(it.get("code")) for it in root.iter("vendor")} | {"None": None}
        parents = {it.get("type-name"): it.get("type-parent") for it in root.iter("typedefn") if it.get("type-parent")}
        for it in root.iter("avp"):
            read_xml_avp(source, it, vendors, parents)
        for part in (*root.iter("base"), *root.iter("application")):
            for it in part.iter("command"):
                read_xml_command(source, it, int(part.get("id", "0")))
    return source


def read_xml_avp(source, element, vendors, parents):
    """Reads an AVP. A group's members aren't made a rule: which are wanted, and how many, isn't told."""
    raw, code = element.get("name"), int(element.get("code"), 0)
    vendor = element.get("vendor-id", "None")
    if vendor not in vendors:
        source.tell(f"left out: AVP {raw} {code}, since the vendor {vendor} isn't known")
        return
    name = source.name(raw)
    if element.find("grouped") is not None:
        source.tell(f"loosened: {name} allows every AVP, since the source tells no counts")
        source.add_avp(Avp(name, code, vendors[vendor], "Grouped", (), OPEN))
        return
    said = element.find("type")
    kind = source.type("OctetString" if said is None else said.get("type-name"), parents, name)
    pairs = [(it.get("name"), int(it.get("code"), 0)) for it in element.iter("enum")]
    if pairs and kind != "Enumerated":
        source.tell(f"values: {name} has no list, since it is {kind}")
    values = source.values(name, pairs) if kind == "Enumerated" else ()
    source.add_avp(Avp(name, code, vendors[vendor], kind, values, ()))


def read_xml_command(source, element, application):
    """Reads a command, which is a request and an answer."""
    name, code = element.get("name"), int(element.get("code"), 0)
    for word, flags in (("Request", ("REQ", "PXY")), ("Answer", ("PXY",))):
        source.add_command(Command(source.name(f"{name}-{word}"), code, flags, application, ()))
