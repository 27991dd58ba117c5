"""Connections of Diameter messages over TCP and SCTP, as packets in the order in which a capture has them."""
import collections
import itertools

import layers
import sctp_packets
from layers import ACK, FIN, PSH, RST, SYN, End
from truth import Chunk, Piece, SctpDirection, TcpDirection

PORT = 3868
# A packet that was sent: its ends, what it carries (a call, for a segment acknowledges what was captured before it),
# whether it is whole, cut, fragmented or of something else, and what its direction takes of it.
Sent = collections.namedtuple("Sent", "source destination protocol octets fate transport kind direction parts")
TIMESTAMPS = b"\1\1\x08\x0a" + bytes(8)


def near(items, reach, chance):
    """Returns items each of which is moved by about so many places at most."""
    keyed = [(at + chance.random() * reach, at, it) for at, it in enumerate(items)]
    return [it for _, _, it in sorted(keyed, key=lambda it: it[:2])]


def mingled(lists, chance):
    """Returns the items of lists, each of which stays in its order."""
    left, found = [list(it) for it in lists if it], []
    while left:
        one = chance.choice(left)
        found.append(one.pop(0))
        left = [it for it in left if it]
    return found


def cut(octets, chance):
    """Returns octets cut into pieces as a sender of segments might, or worse."""
    found, at, most = [], 0, chance.choice((30, 200, 1400, 1400))
    while at < len(octets):
        size = chance.choice((most, chance.randrange(1, most + 1)))
        found.append(Piece(at, octets[at : at + size]))
        at += size
    return found


def moved(pieces, count):
    """Returns pieces whose octets have numbers that are greater by so many."""
    return [it._replace(number=it.number + count) for it in pieces]


class Connection:
    """A TCP connection: from its SYN on, or from somewhere else on."""

    def __init__(self, kind, ends, chance, has_begin=True):
        self.kind, self.ends, self.chance = kind, ends, chance
        self.first = [chance.choice((chance.randrange(2**32), 2**32 - chance.randrange(1, 3000))) for _ in ends]
        self.directions = [TcpDirection(has_begin) for _ in ends]

    def sent(self, side, piece, flags=ACK | PSH, fate="whole", counts=True):
        """Returns a segment of one side."""
        source, destination = self.ends[side], self.ends[1 - side]
        options = TIMESTAMPS if self.chance.random() < 0.3 else b""
        parts = [piece] if counts and piece.octets else []

        def octets():
            other = self.directions[1 - side].next or 0
            numbers = self.first[side] + 1 + piece.number, (self.first[1 - side] + 1 + other) * bool(flags & ACK)
            return layers.tcp(source, destination, numbers, flags, piece.octets, options)

        return Sent(
            source, destination, layers.TCP, octets, fate, "TCP", self.kind, self.directions[side], parts
        )

    def handshake(self):
        return [
            self.sent(0, Piece(-1, b""), SYN),
            self.sent(1, Piece(-1, b""), SYN | ACK),
            self.sent(0, Piece(0, b""), ACK),
        ]

    def end(self, sizes):
        """Returns how it ends: with both FIN, an RST, or not at all."""
        how = self.chance.random()
        if how < 0.4:
            return [self.sent(side, Piece(sizes[side], b""), FIN | ACK) for side in (0, 1)]
        return [self.sent(0, Piece(sizes[0], b""), RST | ACK)] if how < 0.7 else []

    def straight(self, side, pieces):
        return [self.sent(side, it) for it in pieces]

    def pieces(self, maker, count):
        """Returns the pieces of some messages of each side, and how many octets each side sends."""
        streams = [b"".join(maker.message() for _ in range(count)) for _ in self.ends]
        return [cut(it, self.chance) for it in streams], [len(it) for it in streams]


def doubled(pieces, chance):
    """Returns pieces, some of which come again."""
    again = [[it, it] if chance.random() < 0.3 else [it] for it in pieces]
    return near(list(itertools.chain(*again)), 4, chance)


def overlapped(pieces, chance, changed):
    """Returns pieces that begin before and end behind their own octets; those that came before are others, if asked."""
    stream, found, reached = b"".join(it.octets for it in pieces), [], 0
    for it in pieces:
        begin = max(0, it.number - chance.choice((0, 0, 1, 50, 600)))
        end = it.number + len(it.octets) + chance.choice((0, 0, 1, 300))
        old, new = stream[begin : max(begin, min(reached, end))], stream[max(begin, reached) : end]
        found.append(Piece(begin, (bytes(o ^ 0xA5 for o in old) if changed else old) + new))
        reached = max(reached, begin + len(found[-1].octets))
    return found


def again_behind(connection, side, pieces, fate):
    """Returns segments some of which don't come whole, and mostly come again."""
    chance, found, again = connection.chance, [], []
    comes_again = chance.random() < 0.75
    for it in pieces:
        has_gone = chance.random() < 0.2 and len(it.octets) > 16
        found.append(connection.sent(side, it, fate=fate if has_gone else "whole", counts=not has_gone))
        if has_gone and (comes_again or chance.random() < 0.5):
            again.append(it)
        if again and chance.random() < 0.5:
            found.append(connection.sent(side, again.pop(0)))
    return found + [connection.sent(side, it) for it in again]


def tcp_ordinary(kind, ends, maker, chance):
    """Returns the packets of a connection from its SYN on."""
    connection = Connection(kind, ends, chance)
    sides, sizes = connection.pieces(maker, chance.randrange(1, 12))
    lists = []
    for side, pieces in enumerate(sides):
        if kind == "shuffled":
            pieces = near(pieces, 6, chance)
        elif kind == "doubled":
            pieces = doubled(pieces, chance)
        elif kind in ("overlapped", "overlapped-by-others"):
            pieces = overlapped(pieces, chance, kind != "overlapped")
        elif kind == "lost" and len(pieces) > 1:
            del pieces[chance.randrange(1, len(pieces))]
        if kind in ("cut", "fragment"):
            lists.append(again_behind(connection, side, pieces, kind))
        else:
            lists.append(connection.straight(side, pieces))
    return connection.handshake() + mingled(lists, chance) + connection.end(sizes)


def kept_alive(kind, ends, maker, chance):
    """Returns a connection with probes of one octet before the next."""
    connection = Connection(kind, ends, chance)
    sides, sizes = connection.pieces(maker, chance.randrange(1, 6))
    found = connection.handshake()
    for side, pieces in enumerate(sides):
        for it in pieces:
            found.append(connection.sent(side, it))
            if chance.random() < 0.2:
                found.append(connection.sent(side, Piece(it.number + len(it.octets) - 1, b"\0"), ACK))
    return found + connection.end(sizes)


def behind_middle(maker, chance):
    """Returns the pieces of a stream from the middle of a message on: none begins as a message would but at one."""
    messages = [maker.message() for _ in range(chance.randrange(2, 8))]
    rest = messages[0][chance.randrange(1, len(messages[0])) :].lstrip(b"\1") or b"\0"
    count = chance.randrange(1, len(messages))
    # (of the first piece the front of the rest, then the others up to a message's beginning)
    places = sorted({0, *(chance.randrange(len(rest)) for _ in range(chance.randrange(3)))})
    places = [it for it in places if rest[it] != 1]
    middle, found = rest + b"".join(messages[1:count]), []
    for at, place in enumerate(places):
        end = places[at + 1] if at + 1 < len(places) else len(middle)
        found.append(Piece(place, middle[place:end]))
    first, others = messages[count], b"".join(messages[count + 1 :])
    front = chance.randrange(20, len(first) + 1)
    found.append(Piece(len(middle), first[:front]))
    return found + moved(cut(first[front:] + others, chance), len(middle) + front)


def from_middle(kind, ends, maker, chance):
    """Returns a connection whose beginning isn't in the capture."""
    connection = Connection(kind, ends, chance, has_begin=False)
    return mingled([connection.straight(side, behind_middle(maker, chance)) for side in (0, 1)], chance)


def with_gap(kind, ends, maker, chance):
    """Returns a connection of which more than a window is missing."""
    connection, lists = Connection(kind, ends, chance), []
    for side in (0, 1):
        front = cut(b"".join(maker.message() for _ in range(chance.randrange(1, 5))), chance)
        if len(front) > 2 and chance.random() < 0.5:
            del front[chance.randrange(1, len(front))]
        start = front[-1].number + len(front[-1].octets) + 2**20 + 2**17 + chance.randrange(2**23)
        messages = [maker.message() for _ in range(chance.randrange(1, 5))]
        first, stream = chance.randrange(20, len(messages[0]) + 1), b"".join(messages)
        rest = moved(cut(stream[first:], chance), start + first)
        lists.append(connection.straight(side, [*front, Piece(start, stream[:first]), *rest]))
    return connection.handshake() + mingled(lists, chance)


def used_again(kind, ends, maker, chance):
    """Returns connections of the same ends, one after the other."""
    return list(itertools.chain(*(tcp_ordinary(kind, ends, maker, chance) for _ in range(chance.randrange(2, 4)))))


def other_traffic(kind, ends, maker, chance):
    """Returns packets without Diameter: of another protocol, and HTTP over TCP."""
    ends = [End(ends[0].address, ends[0].port), End(ends[1].address, 80)]
    connection = Connection(kind, ends, chance)
    asked = b"GET / HTTP/1.1\r\nHost: a.example\r\n\r\n"
    found = connection.handshake() + [connection.sent(0, Piece(0, asked))]
    for _ in range(chance.randrange(1, 4)):
        data = layers.udp(ends[0], ends[1], chance.randbytes(chance.randrange(40)))
        found.append(Sent(ends[0], ends[1], layers.UDP, lambda it=data: it, "other", "UDP", kind, None, []))
    return found


TCP_KINDS = {
    "in-order": tcp_ordinary,
    "shuffled": tcp_ordinary,
    "doubled": tcp_ordinary,
    "overlapped": tcp_ordinary,
    "overlapped-by-others": tcp_ordinary,
    "lost": tcp_ordinary,
    "cut": tcp_ordinary,
    "fragment": tcp_ordinary,
    "kept-alive": kept_alive,
    "middle": from_middle,
    "gap": with_gap,
    "ports-again": used_again,
    "other": other_traffic,
}


class Association:
    """An SCTP association."""

    def __init__(self, kind, ends, chance):
        self.kind, self.ends, self.chance = kind, ends, chance
        self.first = [chance.choice((chance.randrange(2**32), 2**32 - chance.randrange(1, 20))) for _ in ends]
        self.tags = [chance.randrange(1, 2**32) for _ in ends]
        self.directions = [SctpDirection() for _ in ends]
        self.orders = collections.Counter()

    def sent(self, side, parts, chunks, fate="whole"):
        """Returns a packet of one side."""
        source, destination = self.ends[side], self.ends[1 - side]
        octets = sctp_packets.packet(source, destination, self.tags[1 - side], chunks)
        parts = [it for it, _ in parts] if fate == "whole" else []
        return Sent(
            source, destination, layers.SCTP, lambda: octets, fate, "SCTP", self.kind, self.directions[side], parts
        )

    def handshake(self):
        begins = [sctp_packets.begin(1 + side, self.tags[side], self.first[side]) for side in (0, 1)]
        rest = sctp_packets.chunk(10, 0, b"cookie"), sctp_packets.chunk(11, 0, b"")
        return [self.sent(at % 2, [], [it]) for at, it in enumerate((*begins, *rest))]

    def user_message(self, side, number, octets, payload_protocol):
        """Returns the DATA chunks of a user message, the first of which has this number."""
        stream, order = self.chance.randrange(4), self.orders
        most, unordered = self.chance.choice((100, 1000, 1300)), self.chance.choice((0, 0, 4))
        cuts = [octets[at : at + most] for at in range(0, len(octets), most)]
        found = []
        for at, it in enumerate(cuts):
            part = Chunk(number + at, at == 0, at + 1 == len(cuts), payload_protocol, it)
            flags = unordered | (2 if part.begins else 0) | (1 if part.ends else 0)
            tsn = (self.first[side] + part.number) % 2**32
            found.append((part, sctp_packets.data(flags, tsn, stream, order[side, stream], payload_protocol, it)))
        order[side, stream] += 0 if unordered else 1
        return found

    def chunks(self, side, maker):
        """Returns the DATA chunks of some user messages of one side."""
        found = []
        for _ in range(self.chance.randrange(1, 12)):
            payload_protocol = self.chance.choice((0, 46, 46, 46, 47))
            octets = maker.message() if payload_protocol != 47 else self.chance.randbytes(self.chance.randrange(1, 400))
            found += self.user_message(side, len(found), octets, payload_protocol)
        return found

    def bundles(self, side, chunks, fate="whole"):
        """Returns packets with the chunks, sometimes with others before them."""
        found, left = [], list(chunks)
        while left:
            size = count = 0
            most = self.chance.choice((1, 3, 8))
            while count < min(most, len(left)) and (count == 0 or size + len(left[count][1]) <= 1400):
                size += len(left[count][1])
                count += 1
            first = [sctp_packets.chunk(3, 0, bytes(12))] if self.chance.random() < 0.3 else []
            last = [sctp_packets.chunk(4, 0, bytes(8))] if self.chance.random() < 0.1 else []
            taken, left = left[:count], left[count:]
            found.append(self.sent(side, taken, first + [it for _, it in taken] + last, fate))
        return found


def sctp_ordinary(kind, ends, maker, chance):
    """Returns the packets of an association."""
    association, lists = Association(kind, ends, chance), []
    for side in (0, 1):
        chunks = association.chunks(side, maker)
        if kind == "sctp-middle":
            del chunks[: chance.randrange(len(chunks))]
        first, others = chunks[:1], chunks[1:]
        if kind == "sctp-doubled":
            others = list(itertools.chain(*([it, it] if chance.random() < 0.3 else [it] for it in others)))
        if kind == "sctp-lost" and others:
            del others[chance.randrange(len(others))]
        if kind in ("sctp-shuffled", "sctp-doubled"):
            others = near(others, 5, chance)
        found = association.bundles(side, first)
        for it in association.bundles(side, others):
            # (a packet that isn't captured whole, or is sent in fragments, comes again)
            if kind in ("sctp-cut", "sctp-fragment") and chance.random() < 0.3:
                found.append(it._replace(fate=kind[5:], parts=[]))
            found.append(it)
        lists.append(found)
    begin = [] if kind == "sctp-middle" else association.handshake()
    return begin + mingled(lists, chance)


SCTP_KINDS = {
    f"sctp-{it}": sctp_ordinary for it in ("in-order", "shuffled", "doubled", "lost", "middle", "cut", "fragment")
}
KINDS = TCP_KINDS | SCTP_KINDS
