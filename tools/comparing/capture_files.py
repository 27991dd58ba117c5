"""Capture files: pcap with micro- or nanoseconds, and pcapng of several sections, in either order of octets."""
import collections
import struct

# When a packet was captured: seconds, and of so many units a second how many more.
Time = collections.namedtuple("Time", "seconds units per_second")
# A packet on its link: its octets, how many of them were captured, and whether its record tells a time.
Packet = collections.namedtuple("Packet", "link octets captured")
# What a capture file has, and the time of each packet as the file tells it (None of a simple packet block).
Capture = collections.namedtuple("Capture", "octets times")

BEGIN = 1_700_000_000
SIMPLE, ENHANCED, OBSOLETE = 3, 6, 2
# Values of if_tsresol: powers of ten, and, with the highest bit set, of two.
RESOLUTIONS = (6, 9, 3, 0, 0x80 | 10, 0x80 | 20)


def per_second(resolution):
    """Returns how many units a second has, by the octet of if_tsresol."""
    return 2 ** (resolution & 0x7F) if resolution & 0x80 else 10**resolution


class Clock:
    """The times of packets, which never go back."""

    def __init__(self, chance):
        self.chance, self.nanoseconds = chance, BEGIN * 10**9 + chance.randrange(10**9)

    def next(self, units):
        """Returns the next time, cut to so many units a second."""
        self.nanoseconds += self.chance.randrange(1, 40_000_000)
        seconds, rest = divmod(self.nanoseconds, 10**9)
        return Time(seconds, rest * units // 10**9, units)


def pcap(packets, chance):
    """Returns a pcap file of packets of one link."""
    order, is_nano, clock = chance.choice("<>"), chance.random() < 0.5, Clock(chance)
    magic = 0xA1B23C4D if is_nano else 0xA1B2C3D4
    parts, times = [struct.pack(f"{order}IHHiIII", magic, 2, 4, 0, 0, 1 << 18, packets[0].link)], []
    for it in packets:
        time = clock.next(10**9 if is_nano else 10**6)
        octets = it.octets[: it.captured]
        parts.append(struct.pack(f"{order}IIII", time.seconds, time.units, len(octets), len(it.octets)) + octets)
        times.append(time)
    return Capture(b"".join(parts), times)


def filled(octets):
    """Returns octets filled up to a multiple of four."""
    return octets + bytes(-len(octets) % 4)


class Section:
    """A section of a pcapng file."""

    def __init__(self, chance):
        self.chance, self.order, self.interfaces = chance, chance.choice("<>"), []

    def pack(self, form, *values):
        return struct.pack(self.order + form, *values)

    def block(self, kind, body):
        """Returns a block of this type."""
        size = len(filled(body)) + 12
        return self.pack("II", kind, size) + filled(body) + self.pack("I", size)

    def options(self, found):
        """Returns options, and the end of them where there are some."""
        parts = [self.pack("HH", code, len(value)) + filled(value) for code, value in found]
        return b"".join(parts) + (self.pack("HH", 0, 0) if parts else b"")

    def header(self):
        """Returns the section's header; it says that its size isn't known."""
        found = [(3, b"Linux")] if self.chance.random() < 0.5 else []
        return self.block(0x0A0D0D0A, self.pack("IHHq", 0x1A2B3C4D, 1, 0, -1) + self.options(found))

    def interface(self, link):
        """Returns the description of one more interface."""
        resolution, offset = self.chance.choice(RESOLUTIONS), self.chance.choice((0, 0, 3600, -7200))
        found = [(2, b"eth0")] if self.chance.random() < 0.5 else []
        if resolution != 6 or self.chance.random() < 0.3:
            found.append((9, bytes([resolution])))
        if offset or self.chance.random() < 0.3:
            found.append((14, self.pack("q", offset)))
        self.interfaces.append((link, per_second(resolution), offset))
        return self.block(1, self.pack("HHI", link, 0, 0) + self.options(found))

    def place(self, link):
        """Returns an interface of this link, if one is described."""
        found = [at for at, it in enumerate(self.interfaces) if it[0] == link]
        return self.chance.choice(found) if found else None

    def packet(self, packet, at, clock):
        """Returns the block of a packet, and its time."""
        link, units, offset = self.interfaces[at]
        octets = packet.octets[: packet.captured]
        kinds = [ENHANCED] * 6 + [OBSOLETE]
        # (a simple packet block has no time, is one of the first interface, and has all of its packet: no limit here)
        if at == 0 and packet.captured >= len(packet.octets):
            kinds.append(SIMPLE)
        kind, time = self.chance.choice(kinds), clock.next(units)
        if kind == SIMPLE:
            return self.block(SIMPLE, self.pack("I", len(octets)) + octets), None
        total = (time.seconds - offset) * units + time.units
        sizes = (total >> 32, total & 0xFFFFFFFF, len(octets), len(packet.octets))
        front = self.pack("IIIII", at, *sizes) if kind == ENHANCED else self.pack("HHIIII", at, 0xFFFF, *sizes)
        found = [(1, b"a comment")] if self.chance.random() < 0.1 else []
        return self.block(kind, front + filled(octets) + self.options(found)), time


def pcapng(packets, chance):
    """Returns a pcapng file."""
    clock, parts, times, section = Clock(chance), [], [], None
    for it in packets:
        if section is None or chance.random() < 0.04:
            section = Section(chance)
            parts.append(section.header())
        if chance.random() < 0.05:
            # (an empty list of names, and a block of a type that nobody knows)
            parts.append(section.block(*chance.choice(((4, bytes(4)), (0x7000, bytes(12))))))
        if section.place(it.link) is None or chance.random() < 0.05:
            parts.append(section.interface(it.link))
        block, time = section.packet(it, section.place(it.link), clock)
        parts.append(block)
        times.append(time)
    return Capture(b"".join(parts), times)
