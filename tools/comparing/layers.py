"""What stands round a segment: IP of both versions with options, extension headers and fragments, and links."""
import collections
import ipaddress
import struct

# One end of a connection.
End = collections.namedtuple("End", "address port")

TCP, UDP, SCTP = 6, 17, 132
ETHERNET, COOKED, COOKED_SECOND, HOST_LOOPBACK, LOOPBACK, RAW, RAW_4, RAW_6 = 1, 113, 276, 0, 108, 101, 228, 229
LINKS = (ETHERNET, COOKED, COOKED_SECOND, HOST_LOOPBACK, LOOPBACK, RAW, RAW_4, RAW_6)
FIN, SYN, RST, PSH, ACK = 1, 2, 4, 8, 16


def version(address):
    return ipaddress.ip_address(address).version


def packed(address):
    return ipaddress.ip_address(address).packed


def total(octets):
    """Returns the checksum of RFC 1071."""
    words = struct.unpack(f">{len(octets + bytes(len(octets) % 2)) // 2}H", octets + bytes(len(octets) % 2))
    found = sum(words)
    while found >> 16:
        found = (found & 0xFFFF) + (found >> 16)
    return ~found & 0xFFFF


def tcp(source, destination, numbers, flags, payload, options=b""):
    """Returns a segment with its checksum; the numbers are those of sequence and acknowledgment."""
    front = struct.pack(">HHII", source.port, destination.port, *(it % 2**32 for it in numbers))
    front += struct.pack(">BBHHH", (5 + len(options) // 4) << 4, flags, 65535, 0, 0)
    octets = front + options + payload
    pseudo = packed(source.address) + packed(destination.address) + struct.pack(">II", len(octets), TCP)
    return octets[:16] + struct.pack(">H", total(pseudo + octets)) + octets[18:]


def udp(source, destination, payload):
    """Returns a datagram without a checksum."""
    return struct.pack(">HHHH", source.port, destination.port, 8 + len(payload), 0) + payload


def ipv4(source, destination, protocol, payload, chance, part=0, number=0):
    """Returns a packet of version 4; part has MF and the offset."""
    options = chance.choice((b"",) * 6 + (b"\1\1\1\0", b"\x94\4\0\0", b"\1" * 40))
    part = part or chance.choice((0, 0x4000))
    size = 20 + len(options) + len(payload)
    front = struct.pack(">BBHHHBBH", 0x45 + len(options) // 4, 0, size, number, part, 64, protocol, 0)
    front += packed(source) + packed(destination) + options
    return front[:10] + struct.pack(">H", total(front)) + front[12:] + payload


# (number, octets behind the next header's number) of extension headers that change nothing
EXTENSIONS = (
    (0, b"\0\1\4\0\0\0\0"),
    (60, b"\1\1\14" + bytes(12)),
    (44, b"\0\0\0\0\0\0\7"),
    (51, b"\4\0\0\0\0\0\1\0\0\0\2" + bytes(12)),
)


def ipv6(source, destination, protocol, payload, chance, extensions=None):
    """Returns a packet of version 6."""
    if extensions is None:
        extensions = [it for it in EXTENSIONS if chance.random() < 0.08]
    following = protocol
    for number, rest in reversed(extensions):
        payload, following = bytes([following]) + rest + payload, number
    front = struct.pack(">IHBB", 0x60000000, len(payload), following, 64)
    return front + packed(source) + packed(destination) + payload


def ip(source, destination, protocol, payload, chance):
    """Returns a packet between two addresses."""
    made = ipv4 if version(source) == 4 else ipv6
    return made(source, destination, protocol, payload, chance)


def fragments(source, destination, protocol, payload, chance):
    """Returns the packets of a payload of more than eight octets that is sent in fragments."""
    number, cut = chance.randrange(1, 2**16), 8 * chance.randrange(1, (len(payload) + 7) // 8)
    if version(source) == 4:
        return [
            ipv4(source, destination, protocol, payload[:cut], chance, 0x2000, number),
            ipv4(source, destination, protocol, payload[cut:], chance, cut // 8, number),
        ]
    heads = (struct.pack(">BHI", 0, part, number) for part in (1, cut))
    pieces = (payload[:cut], payload[cut:])
    return [ipv6(source, destination, protocol, it, chance, [(44, head)]) for head, it in zip(heads, pieces)]


def ethernet(kind, packet, chance):
    """Returns a frame, sometimes with tags, and filled up to 60 octets where it is shorter."""
    tags = chance.choice((b"",) * 5 + (b"\x81\0\0\5", b"\x88\xa8\0\5\x81\0\0\6", b"\x81\0\0\5\x81\0\0\6"))
    frame = b"\2\0\0\0\0\1\2\0\0\0\0\2" + tags + struct.pack(">H", kind) + packet
    return frame + bytes(max(0, 60 - len(frame)))


def on_link(link, packet, chance):
    """Returns an IP packet as it is captured on this link."""
    number = packet[0] >> 4
    kind = {4: 0x0800, 6: 0x86DD}[number]
    if link == ETHERNET:
        return ethernet(kind, packet, chance)
    if link == COOKED:
        return struct.pack(">HHH8sH", 0, 1, 6, b"\2\0\0\0\0\1\0\0", kind) + packet
    if link == COOKED_SECOND:
        return struct.pack(">HHIHBB8s", kind, 0, 3, 1, 0, 6, b"\2\0\0\0\0\1\0\0") + packet
    if link in (HOST_LOOPBACK, LOOPBACK):
        order = ">" if link == LOOPBACK else chance.choice("<>")
        return struct.pack(f"{order}I", 2 if number == 4 else chance.choice((24, 28, 30))) + packet
    return packet


def carries(link, address):
    """Whether packets of this address can be on this link."""
    return {RAW_4: 4, RAW_6: 6}.get(link, version(address)) == version(address)
