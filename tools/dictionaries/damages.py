"""Damaged messages: each AVP of a message, those in groups too, dropped, doubled, cut, and given other values."""
from judging import FAILED_AVP, M, SIZES, Held, held_in, message_of, spelled

# Values that each type but those of octets refuses, and for which it has no list.
WRONG = {
    "Address": [b"\0\1" + bytes(3), b"\0\1" + bytes(5), b"\0\2" + bytes(4), b"\0"],
    "UTF8String": [b"\xff", b"\xed\xa0\x80", b"\xc0\xaf"],
    "DiameterIdentity": [b"", b"a b", b"a\x7f", b"\xe9"],
    "DiameterURI": [b"aaa://", b"aab://host", b"AAA://host", b"aaa://a b"],
}
UNKNOWN = 16777215


def values_of(known):
    """Yields data that an AVP of this definition may have or not."""
    size = SIZES.get(known.type)
    for data in WRONG.get(known.type, [b"\xff\xfe", b""]):
        yield data
    if size:
        yield from (bytes(size), b"\xff" * size, bytes(size + 1), bytes(12 - size))
    for _, number in known.values:
        yield from ((number + more).to_bytes(4, "big") for more in (0, 1))


def lists_of(avps, definitions, path=()):
    """Yields the lists of AVPs in a message with the groups on the way to each, from the outermost."""
    yield path, avps
    for at, avp in enumerate(avps):
        key = (avp.code, avp.vendor)
        if key != FAILED_AVP and definitions[key].type == "Grouped" and avp not in avps[:at]:
            yield from lists_of(held_in(avp.data), definitions, (*path, at))


def put(avps, path, inner):
    """Returns the list with another one in place of that of the group on this way."""
    if not path:
        return inner
    at = path[0]
    data = b"".join(map(spelled, put(held_in(avps[at].data), path[1:], inner)))
    return [*avps[:at], avps[at]._replace(data=data), *avps[at + 1 :]]


def damaged_lists(avps, definitions, foreign):
    """Yields lists that differ from this one at one AVP."""
    for at, avp in enumerate(avps):
        before, behind = avps[:at], avps[at + 1 :]
        if avp in before:
            continue
        known = definitions[(avp.code, avp.vendor)]
        yield [*before, *behind]
        yield [*before, avp, *avps[at:]]
        yield [*before, avp, avp, *avps[at:]]
        yield [*before, avp._replace(data=avp.data[:-1]), *behind]
        yield [*before, avp._replace(vendor=0, flags=avp.flags | 0x80), *behind]
        yield from ([*before, avp._replace(data=data), *behind] for data in values_of(known))
    yield from ([], avps[::-1], [*avps, *avps])
    yield [*avps, Held(UNKNOWN, None, M, b"")]
    yield from ([*avps, *[Held(UNKNOWN, None, 0, b"")] * count] for count in (1, 2))
    yield from ([*avps, it] for it in foreign)


def damaged(octets, definitions, foreign=()):
    """Yields the message with each damage in turn. Each list has each of the foreign AVPs added once."""
    avps = held_in(octets[20:])
    for path, there in lists_of(avps, definitions):
        for other in damaged_lists(there, definitions, foreign):
            yield message_of(octets, put(avps, path, other))
    for flags in (0x20, 0x10, 0x80, 0xA0):
        yield octets[:4] + bytes([octets[4] ^ flags]) + octets[5:]


# A good value for each type.
GOOD = {
    "Address": b"\0\2" + bytes(15) + b"\1",
    "DiameterIdentity": b"b.example",
    "DiameterURI": b"aaas://b.example",
    "UTF8String": "Zürich".encode(),
}


def sample(known, definitions):
    """Returns a good AVP of this definition: a group with each of its members."""
    if (known.code, known.vendor) == FAILED_AVP:
        data = bytes(5)
    elif known.type == "Grouped":
        data = b"".join(map(spelled, members(known.rule, definitions, 1)))
    elif known.values:
        data = known.values[-1][1].to_bytes(4, "big")
    else:
        data = GOOD.get(known.type, bytes(SIZES.get(known.type, 3)))
    return Held(known.code, known.vendor, M | (0 if known.vendor is None else 0x80), data)


def members(rule, definitions, most):
    """Returns AVPs for each entry of a rule, as many as it allows up to this number."""
    named = [it for it in rule if it.name != "AVP"]
    return [sample(definitions.avps[it.name], definitions) for it in named for _ in range(min(most, it.most or most))]


def full(names, definitions):
    """Returns a good AVP for each of these names."""
    return [sample(definitions.avps[it], definitions) for it in names]


def full_message(command, definitions, more=()):
    """Returns a message of this command with all AVPs of its rule, two where it allows them, and more behind them."""
    flags = sum(bit for word, bit in (("REQ", 0x80), ("PXY", 0x40)) if word in command.flags)
    header = b"\1\0\0\0" + bytes([flags]) + command.code.to_bytes(3, "big") + bytes(12)
    return message_of(header, [*members(command.rule, definitions, 2), *more])
