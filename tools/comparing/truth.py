"""What must be found in a capture: reckoned octet by octet from what the maker sent, without sequence numbers.

The maker counts the octets of a direction of a TCP connection, and the DATA chunks of one of an SCTP association, from
its beginning on, in numbers that never go round. Of each number what came first counts. Where nothing tells where a
direction begins it does at the first segment that begins with a message's header, or with the first chunk that came.
A segment that reaches further than WINDOW octets ahead of the first octet that is missing lets it begin anew.
"""
import collections

WINDOW = 1_048_576
DIAMETER = (0, 46)
DTLS = 47

# A message that must be found: the packet (from 1 on) in which it was complete, with its time, and what it came by.
Message = collections.namedtuple("Message", "packet time source destination transport kind octets")
# A DATA chunk with the number of its TSN, and of a segment's octets the number of the first.
Chunk = collections.namedtuple("Chunk", "number begins ends payload_protocol octets")
Piece = collections.namedtuple("Piece", "number octets")


def begins_message(octets):
    """Whether octets begin with a message's header."""
    size = int.from_bytes(octets[1:4], "big")
    return len(octets) >= 20 and octets[0] == 1 and size >= 20 and size % 4 == 0 and octets[4] & 0x0F == 0


class TcpDirection:
    """One direction of a TCP connection."""

    def __init__(self, has_begin):
        # (the number of the next octet that is missing, what came behind it, and the octets of no whole message)
        self.next, self.ahead, self.rest = (0 if has_begin else None), {}, bytearray()
        self.passed, self.others, self.secured = 0, 0, 0

    def waiting(self):
        """Returns how many octets came and belong to no message yet."""
        return len(self.rest) + len(self.ahead)

    def take(self, piece):
        """Yields the messages that are whole with the octets of a segment."""
        if self.next is not None and piece.number + len(piece.octets) > self.next + WINDOW:
            self.passed += self.waiting()
            self.next, self.ahead, self.rest = None, {}, bytearray()
        if self.next is None:
            if not begins_message(piece.octets):
                self.passed += len(piece.octets)
                return
            self.next = piece.number
        for number, octet in enumerate(piece.octets, piece.number):
            if number >= self.next:
                self.ahead.setdefault(number, octet)
        while self.next in self.ahead:
            self.rest.append(self.ahead.pop(self.next))
            self.next += 1
        while begins_message(self.rest) and len(self.rest) >= int.from_bytes(self.rest[1:4], "big"):
            size = int.from_bytes(self.rest[1:4], "big")
            yield bytes(self.rest[:size])
            del self.rest[:size]


class SctpDirection:
    """One direction of an SCTP association."""

    def __init__(self):
        # (the number of the first chunk that came, the chunks by their numbers, how many are not Diameter, and how many
        # octets those over DTLS have)
        self.first, self.chunks, self.others, self.secured = None, {}, 0, 0

    @property
    def passed(self):
        """How many octets came of a message whose beginning is before the first chunk."""
        found, number = 0, self.first
        while self.chunks.get(number) and not self.chunks[number].begins:
            found, number = found + len(self.chunks[number].octets), number + 1
        return found

    def waiting(self):
        """Returns how many octets came and belong to no message yet."""
        return sum(len(it.octets) for it in self.chunks.values() if it) - self.passed

    def take(self, chunk):
        """Yields the message that is whole with a chunk."""
        self.first = chunk.number if self.first is None else self.first
        if chunk.number < self.first or chunk.number in self.chunks:
            return
        # (of what is not Diameter, and of a message that was found, the numbers alone are kept)
        if chunk.payload_protocol not in DIAMETER:
            self.chunks[chunk.number], self.others = None, self.others + 1
            self.secured += len(chunk.octets) if chunk.payload_protocol == DTLS else 0
            return
        self.chunks[chunk.number] = chunk
        begin = end = chunk.number
        while self.chunks.get(begin) and not self.chunks[begin].begins:
            begin -= 1
        while self.chunks.get(end) and not self.chunks[end].ends:
            end += 1
        if self.chunks.get(begin) and self.chunks.get(end):
            yield b"".join(self.chunks[it].octets for it in range(begin, end + 1))
            self.chunks.update((it, None) for it in range(begin, end + 1))


class Truth:
    """What must be found in a capture, packet by packet."""

    def __init__(self):
        self.messages, self.directions = [], []
        # (packets that are fragments, that were captured in part, and that carry neither TCP nor SCTP)
        self.counts = collections.Counter()

    def add(self, sent, number):
        """Takes the packet with this number as it was captured."""
        self.counts[sent.fate] += 1
        if sent.fate != "whole":
            return
        for part in sent.parts:
            for octets in sent.direction.take(part):
                self.messages.append(
                    Message(number, None, sent.source, sent.destination, sent.transport, sent.kind, octets)
                )
        if sent.direction and not any(it is sent.direction for it, _ in self.directions):
            self.directions.append((sent.direction, sent))

    def timed(self, times):
        """Returns the messages with the times of their packets."""
        return [it._replace(time=times[it.packet - 1]) for it in self.messages]
