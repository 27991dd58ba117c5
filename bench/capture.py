#!/usr/bin/env python3
"""A capture file of a charging network's messages (bench/messages.py), by chance: pcap with nanoseconds, Ethernet, IPv4.

  bench/capture.py COUNT SEED [CONNECTIONS] >FILE   so many messages, on 100 connections if left out

Each connection begins with SYN and ends with FIN; requests go forth and answers back. Of ten messages eight have a
segment of their own, two are cut into two segments; of a hundred segments one is sent again. An acknowledgment without
octets follows every second segment. The checksum of TCP is left at zero. The output is some 560 octets a message.
"""
import random
import struct
import sys

from messages import messages

MAC = bytes.fromhex("0200000000010200000000020800")
SERVER = bytes((10, 0, 0, 1))
FIN, SYN, PSH, ACK = 1, 2, 8, 16


def ip_sum(front):
    """Returns the checksum of a header of IPv4 (RFC 1071)."""
    found = sum(struct.unpack(">10H", front))
    found = (found & 0xFFFF) + (found >> 16)
    return ~(found + (found >> 16)) & 0xFFFF


class Connection:
    """Both ends of a connection, and the next sequence number of each."""

    def __init__(self, at, chance):
        self.client, self.port = bytes((10, 1, at >> 8 & 255, at & 255)), 40000 + at % 20000
        self.numbers = [chance.getrandbits(32), chance.getrandbits(32)]

    def packet(self, back, flags, payload=b"", moves=None):
        """Returns a packet forth or back; the sender's number moves by its octets, or by so many."""
        ends = [(self.client, self.port), (SERVER, 3868)]
        (source, source_port), (destination, destination_port) = ends[back], ends[not back]
        here, there = self.numbers[back], self.numbers[not back]
        tcp = struct.pack(">HHIIBBHHH", source_port, destination_port, here, there, 0x50, flags, 65535, 0, 0)
        front = struct.pack(">BBHHHBBH4s4s", 0x45, 0, 40 + len(payload), 0, 0x4000, 64, 6, 0, source, destination)
        front = front[:10] + struct.pack(">H", ip_sum(front)) + front[12:]
        self.numbers[back] = here + (len(payload) if moves is None else moves) & 0xFFFFFFFF
        return MAC + front + tcp + payload

    def again(self, back, payload):
        """Returns a packet whose octets were sent already."""
        self.numbers[back] = self.numbers[back] - len(payload) & 0xFFFFFFFF
        return self.packet(back, PSH | ACK, payload)


def segments_of(octets, chance):
    """Returns a message whole, or in two pieces."""
    at = chance.randrange(1, len(octets)) if chance.random() < 0.2 else len(octets)
    return [it for it in (octets[:at], octets[at:]) if it]


def packets(count, seed, connections):
    """Yields the packets in their order."""
    chance = random.Random(seed)
    held = [Connection(at, chance) for at in range(connections)]
    for it in held:
        yield it.packet(False, SYN, moves=1)
        yield it.packet(True, SYN | ACK, moves=1)
    for number, octets in enumerate(messages(count, seed)):
        connection, back = held[chance.randrange(connections)], not octets[4] & 0x80
        for piece in segments_of(octets, chance):
            yield connection.packet(back, PSH | ACK, piece)
            if chance.random() < 0.01:
                yield connection.again(back, piece)
        if number % 2:
            yield connection.packet(not back, ACK)
    for it in held:
        yield it.packet(False, FIN | ACK, moves=1)
        yield it.packet(True, FIN | ACK, moves=1)


def main(words):
    if len(words) not in (2, 3) or not all(it.isdigit() for it in words):
        sys.exit(__doc__)
    count, seed, connections = (*map(int, words), 100)[:3]
    out, now = sys.stdout.buffer, 1_790_000_000 * 10**9
    out.write(struct.pack("<IHHiIII", 0xA1B23C4D, 2, 4, 0, 0, 1 << 18, 1))
    for octets in packets(count, seed, connections):
        now += 12_345
        out.write(struct.pack("<IIII", now // 10**9, now % 10**9, len(octets), len(octets)) + octets)


if __name__ == "__main__":
    main(sys.argv[1:])
