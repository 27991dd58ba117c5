#!/usr/bin/env python3
"""Messages of a charging network, as the program bench_jobs makes them (crates/bench_jobs/src/messages.rt), by chance.

  bench/messages.py COUNT SEED [KIND ..]   a line of hexadecimal each; KIND is ccr, cca, dwr or dwa (by the mix if left out)

By the mix two in five are a Credit-Control-Request (RFC 8506, 3.1), as many its answer, and the rest watchdogs (RFC
6733, 5.5). Of each kind 32 samples are made; each message is the copy of one with numbers of its own.
"""
import sys

SAMPLES = 32
ALL = (1 << 64) - 1
SESSION = b"gw01.example.net;1790000000;3;" + b"a" * 30
GATEWAY = b"gateway-aa.region-aa.epc.mnc001.mcc262.example"
CHARGING = b"charging-aa.region-aa.mnc001.mcc262.example"
RELAY = b"relay-aa.region-aa.mnc001.mcc262.example"
REALM = b"charging.mnc001.mcc262.example"
# where the number of a session stands in a message that begins with a Session-Id
LETTERS = 76


class Chance:
    """Numbers by chance, the same for the same seed: SplitMix64 (Steele, Lea and Flood, 2014)."""

    def __init__(self, seed):
        self.state = seed

    def number(self):
        self.state = (self.state + 0x9E3779B97F4A7C15) & ALL
        once = ((self.state ^ (self.state >> 30)) * 0xBF58476D1CE4E5B9) & ALL
        twice = ((once ^ (once >> 27)) * 0x94D049BB133111EB) & ALL
        return twice ^ (twice >> 31)

    def word(self):
        return self.number() >> 32

    def below(self, bound):
        return self.word() % bound

    def index(self, length):
        return self.number() % length


def avp(code, data, flags=0x40):
    """Returns an AVP (RFC 6733, 4.1), its padding with it."""
    octets = code.to_bytes(4, "big") + bytes([flags]) + (8 + len(data)).to_bytes(3, "big") + data
    return octets + bytes(-len(octets) % 4)


def number(code, value):
    return avp(code, value.to_bytes(4, "big"))


def digits(code, count, chance):
    return avp(code, bytes(48 + chance.below(10) for _ in range(count)))


def of_vendor(code, vendor, value):
    return avp(code, vendor.to_bytes(4, "big") + value.to_bytes(4, "big"), 0x80)


def message(flags, command, application, avps):
    """Returns a message without identifiers (RFC 6733, 3)."""
    body = b"".join(avps)
    front = b"\x01" + (20 + len(body)).to_bytes(3, "big") + bytes([flags]) + command.to_bytes(3, "big")
    return front + application.to_bytes(4, "big") + bytes(8) + body


def subscription(kind, chance):
    return avp(443, number(450, kind) + digits(444, 12 + kind % 4, chance))


def units(code, counters, chance):
    """Returns what a service was granted, asked for or used (RFC 8506, 8.17 to 8.19)."""
    members = [number(420, chance.word())] if counters > 0 else []
    members += [avp(it, (chance.number() >> 20).to_bytes(8, "big")) for it in (421, 412, 414)[:counters]]
    return avp(code, b"".join(members))


def service(is_request, chance):
    """Returns a service with its units (RFC 8506, 8.16)."""
    if is_request:
        members = [units(437, chance.below(2), chance), units(446, chance.below(3) + 1, chance)]
    else:
        members = [units(431, chance.below(2) + 1, chance), number(448, 3600), number(268, 2001)]
    return avp(456, b"".join([*members, number(432, chance.below(1000)), number(439, chance.below(1000))]))


def credit_request(chance):
    avps = [avp(263, SESSION), avp(264, GATEWAY[:-6]), avp(296, b"epc.mnc001.mcc262.3gppnetwork"), avp(283, REALM)]
    avps += [number(258, 4), avp(461, b"32251@3gpp.org"), number(416, chance.below(4) + 1), number(415, chance.below(40))]
    avps += [avp(293, CHARGING[:-3]), digits(1, 15, chance), number(278, chance.word())]
    avps += [number(55, chance.word() | 0x80000000), subscription(0, chance), subscription(1, chance), number(455, 1)]
    avps += [service(True, chance) for _ in range(chance.below(2) + 1)]
    avps += [of_vendor(2, 10415, chance.word()), avp(282, RELAY)]
    if chance.below(2) == 0:
        avps.append(avp(458, number(459, 0) + digits(460, 16, chance), 0))
    return message(0xC0, 272, 4, avps)


def credit_answer(chance):
    avps = [avp(263, SESSION), number(268, 2001), avp(264, CHARGING[:-3]), avp(296, REALM), number(258, 4)]
    avps += [number(416, chance.below(4) + 1), number(415, chance.below(40)), service(False, chance)]
    return message(0x40, 272, 4, avps)


def watchdog(is_request, chance):
    avps = [] if is_request else [number(268, 2001)]
    avps += [avp(264, CHARGING[:-3]), avp(296, REALM), number(278, chance.word())]
    return message(0x80 if is_request else 0, 280, 0, avps)


def samples_by(chance):
    """Returns the samples of each kind."""
    found = {"ccr": [], "cca": [], "dwr": [], "dwa": []}
    for _ in range(SAMPLES):
        found["ccr"].append(credit_request(chance))
        found["cca"].append(credit_answer(chance))
        found["dwr"].append(watchdog(True, chance))
        found["dwa"].append(watchdog(False, chance))
    return found


def messages(count, seed, kinds=()):
    """Yields so many messages of these kinds by turns, or by the mix."""
    chance = Chance(seed)
    samples = samples_by(chance)
    for at in range(count):
        of_fifty = chance.below(50)
        by_mix = "ccr" if of_fifty < 21 else "cca" if of_fifty < 42 else "dwr" if of_fifty < 46 else "dwa"
        kind = kinds[at % len(kinds)] if kinds else by_mix
        octets = bytearray(samples[kind][chance.index(SAMPLES)])
        octets[12:16] = at.to_bytes(4, "big")
        octets[16:20] = (at * 0x9E3779B9 & 0xFFFFFFFF).to_bytes(4, "big")
        if kind in ("ccr", "cca"):
            octets[LETTERS : LETTERS + 8] = bytes(97 + (at >> 4 * it & 15) for it in range(8))
        yield bytes(octets)


def main(words):
    if len(words) < 2 or not all(it.isdigit() for it in words[:2]) or {*words[2:]} - {"ccr", "cca", "dwr", "dwa"}:
        sys.exit(__doc__)
    for octets in messages(int(words[0]), int(words[1]), words[2:]):
        print(octets.hex())


if __name__ == "__main__":
    main(sys.argv[1:])
