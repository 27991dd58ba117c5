"""Makes a capture by a seed, together with what must be found in it."""
import random

import capture_files
import layers
from capture_files import Packet
from layers import End
from messages import Maker
from traffic import KINDS, PORT, mingled
from truth import Truth

ADDRESSES = {4: ("10.0.{}.1", "192.0.2.{}"), 6: ("2001:db8::{}:1", "2001:db8:1::{}")}


def ends_of(number, chance, versions):
    """Returns the two ends of a connection: no two have the same."""
    ends = [End(it.format(number), 0) for it in ADDRESSES[chance.choice(versions)]]
    return [ends[0]._replace(port=20000 + number), ends[1]._replace(port=PORT)]


def packets_of(sent, link, chance):
    """Returns what is captured of a packet that was sent: two packets where it was fragmented."""
    source, destination, octets = sent.source.address, sent.destination.address, sent.octets()
    if sent.fate == "fragment":
        packets = layers.fragments(source, destination, sent.protocol, octets, chance)
    else:
        packets = [layers.ip(source, destination, sent.protocol, octets, chance)]
    frames = [layers.on_link(link, it, chance) for it in packets]
    # (fewer octets than the IP packet alone has, whatever stands before it)
    most = [chance.randrange(1, len(it)) if sent.fate == "cut" else len(frame) for it, frame in zip(packets, frames)]
    return [Packet(link, frame, captured) for frame, captured in zip(frames, most)]


def links_for(chance):
    """Returns whether the file is pcapng, the links that it has, and the versions of IP that they all carry."""
    is_pcapng = chance.random() < 0.6
    links = [chance.choice(layers.LINKS) for _ in range(chance.randrange(1, 4) if is_pcapng else 1)]
    versions = [it for it in (4, 6) if all(layers.carries(link, ADDRESSES[it][0].format(1)) for link in links)]
    return (is_pcapng, links, versions) if versions else links_for(chance)


def capture(seed, recorded, kinds=tuple(KINDS), has_bare=True, most=5):
    """Returns a capture of up to so many connections of some kinds, and its messages, directions and counts."""
    chance = random.Random(seed)
    maker, truth, packets = Maker(chance, recorded, has_bare), Truth(), []
    is_pcapng, links, versions = links_for(chance)
    scenes, number = [], 0
    for number in range(1, chance.randrange(1, most + 1) + 1):
        kind, link = chance.choice(kinds), chance.choice(links)
        scenes.append([(it, link) for it in KINDS[kind](kind, ends_of(number, chance, versions), maker, chance)])
    for sent, link in mingled(scenes, chance):
        for packet in packets_of(sent, link, chance):
            packets.append(packet)
            truth.add(sent, len(packets))
    made = capture_files.pcapng(packets, chance) if is_pcapng else capture_files.pcap(packets, chance)
    return made, truth
