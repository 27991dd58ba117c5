"""The second table of all definitions: what OTP's own dictionaries say, and the differences from them that are meant.

Both files have a line for each fact; the first words are what it is, the dictionary, and the name:

  avp DICTIONARY NAME CODE TYPE                    an AVP; in the differences in place of OTP's, or beside it
  values DICTIONARY NAME VALUE=NUMBER ..           the list of an Enumerated; none where there is no value
  group DICTIONARY NAME CODE ENTRY ..              the rule of a Grouped AVP
  command DICTIONARY NAME CODE FLAGS ENTRY ..      a command: R, P and E as they hold, `-` for none
  entry DICTIONARY RULE ENTRY [after NAME]         (differences) an entry in place of its name's, or behind another
  without DICTIONARY RULE NAME                     (differences) a rule has no such entry
  message DICTIONARY NAME HEX                      (OTP) a message of this command with each AVP of its rule

An ENTRY is `<NAME>`, `{NAME}` or `[NAME]` with the least and the most behind it: `1-1`, `0-` for any number.
"""
import re

from definitions import TYPES, Avp, Command, Definitions, Entry
from sources import NEAR, Source

ENTRY = re.compile(r"([<{\[])([^>}\]]+)[>}\]](\d+)-(\d*)")
FLAGS = {"R": "REQ", "P": "PXY", "E": "ERR"}
# The commands as their RFCs call them, by the first letters of their short names; R or A stands behind these.
COMMANDS = {
    "AA": "AA",
    "AC": "Accounting",
    "AM": "AA-Mobile-Node",
    "AS": "Abort-Session",
    "CC": "Credit-Control",
    "DE": "Diameter-EAP",
    "HA": "Home-Agent-MIP",
    "LI": "Location-Info",
    "MA": "Multimedia-Auth",
    "PP": "Push-Profile",
    "RA": "Re-Auth",
    "RT": "Registration-Termination",
    "SA": "Server-Assignment",
    "ST": "Session-Termination",
    "UA": "User-Authorization",
}
KINDS = {"R": "Request", "A": "Answer"}


def entry_of(word):
    """Returns the entry that a word tells."""
    bracket, name, least, most = ENTRY.fullmatch(word).groups()
    return Entry(bracket, name, int(least), int(most) if most else None)


def value_of(word):
    """Returns the name and number of a value, with the name as the texts spell it."""
    name, number = word.split("=")
    name = Source().name(name).upper()
    return ("IEEE-802" if name == "N-802" else name), int(number)


def command_name(name):
    """Returns the name of a command in the texts; those of the base dictionary are short there too."""
    is_long = name[:-1] in COMMANDS and name[-1:] in KINDS
    return f"{COMMANDS[name[:-1]]}-{KINDS[name[-1]]}" if is_long else name


class Table:
    """The definitions of each dictionary, and the messages of OTP."""

    def __init__(self, texts):
        self.dictionaries, self.messages = {}, []
        for text in texts:
            for line in text.split("\n"):
                if line and not line.startswith(";"):
                    kind, dictionary, name, *words = line.split()
                    found = self.dictionaries.setdefault(dictionary, Definitions())
                    name = command_name(name)
                    getattr(self, f"add_{kind}")(found, dictionary, name, words)

    def add_avp(self, found, _, name, words):
        kind = NEAR.get(words[1], words[1])
        assert kind in (*TYPES, "Grouped"), kind
        values, rule = (found.avps[name].values, found.avps[name].rule) if name in found.avps else ((), ())
        found.avps[name] = Avp(name, int(words[0]), None, kind, values, rule)

    def add_values(self, found, dictionary, name, words):
        # (a dictionary may add values to an AVP of the base)
        where = found if name in found.avps else self.dictionaries["base"]
        there = where.avps[name]
        old = there.values if where is not found else ()
        where.avps[name] = there._replace(values=(*old, *map(value_of, words)))

    def add_group(self, found, _, name, words):
        found.avps[name] = Avp(name, int(words[0]), None, "Grouped", (), tuple(map(entry_of, words[1:])))

    def add_command(self, found, _, name, words):
        is_marked = bool(re.fullmatch("[RPE-]+", words[1]))
        flags = tuple(FLAGS[it] for it in words[1].strip("-")) if is_marked else ()
        rule = tuple(map(entry_of, words[1 + is_marked :]))
        found.commands[name] = Command(name, int(words[0]), flags, 0, rule)

    def add_entry(self, found, _, name, words):
        new, rule = entry_of(words[0]), self.rule(found, name)
        if len(words) == 3:
            at = [it.name for it in rule].index(words[2]) + 1
            rule = (*rule[:at], new, *rule[at:])
        else:
            rule = tuple(new if it.name == new.name else it for it in rule)
        self.set_rule(found, name, rule)

    def add_without(self, found, _, name, words):
        self.set_rule(found, name, tuple(it for it in self.rule(found, name) if it.name != words[0]))

    def add_message(self, _, dictionary, name, words):
        self.messages.append((dictionary, name, bytes.fromhex(words[0])))

    def messages_of(self, dictionary):
        """Returns the messages of OTP's encoder with the names of their commands."""
        return [(name, octets) for its, name, octets in self.messages if its == dictionary]

    @staticmethod
    def rule(found, name):
        return (found.commands.get(name) or found.avps[name]).rule

    @staticmethod
    def set_rule(found, name, rule):
        where = found.commands if name in found.commands else found.avps
        where[name] = where[name]._replace(rule=rule)
