"""SCTP packets (RFC 9260, 3)."""
import struct


def _table():
    found = []
    for octet in range(256):
        for _ in range(8):
            octet = octet >> 1 ^ (0x82F63B78 if octet & 1 else 0)
        found.append(octet)
    return found


TABLE = _table()


def checksum(octets):
    """Returns CRC32c (RFC 9260, appendix A)."""
    rest = 0xFFFFFFFF
    for octet in octets:
        rest = rest >> 8 ^ TABLE[(rest ^ octet) & 0xFF]
    return rest ^ 0xFFFFFFFF


def chunk(kind, flags, value):
    """Returns a chunk, filled up to a multiple of four octets that its length doesn't count."""
    return struct.pack(">BBH", kind, flags, 4 + len(value)) + value + bytes(-len(value) % 4)


def data(flags, tsn, stream, order, payload_protocol, octets):
    """Returns a DATA chunk."""
    return chunk(0, flags, struct.pack(">IHHI", tsn, stream, order % 2**16, payload_protocol) + octets)


def begin(kind, tag, tsn):
    """Returns an INIT (1) or INIT ACK (2) chunk; the latter has a State Cookie."""
    cookie = struct.pack(">HH", 7, 12) + bytes(8) if kind == 2 else b""
    return chunk(kind, 0, struct.pack(">IIHHI", tag, 65536, 4, 4, tsn) + cookie)


def packet(source, destination, tag, chunks):
    """Returns a packet with its checksum."""
    front, rest = struct.pack(">HHI", source.port, destination.port, tag), b"".join(chunks)
    return front + struct.pack("<I", checksum(front + bytes(4) + rest)) + rest
