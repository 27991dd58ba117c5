"""Connections of the kernel over the loopback, with messages cut anyhow, beside what dmview says of their capture."""
import collections
import random
import socket
import threading

from messages import Maker
from recorder import Recorder
from told_by_dmview import end_text, objects, without_front

End = collections.namedtuple("End", "address port")
# How many octets are written at once, at most.
CUTS = (1, 20, 300, 1460, 60_000, 400_000)


def write_cut(sender, octets, chance):
    """Writes octets in pieces, and then the end of the stream."""
    most, at = chance.choice(CUTS), 0
    # (one octet at a time is for the first ones alone)
    while at < len(octets):
        size = chance.randrange(1, (most if at < 4000 else max(most, 20_000)) + 1)
        sender.sendall(octets[at : at + size])
        at += size
    sender.shutdown(socket.SHUT_WR)


def read_out(receiver):
    while receiver.recv(1 << 16):
        pass


def connect(address):
    """Returns both ends of a new connection."""
    family = socket.AF_INET6 if ":" in address else socket.AF_INET
    with socket.create_server((address, 0), family=family) as listener:
        caller = socket.create_connection((address, listener.getsockname()[1]))
        return caller, listener.accept()[0]


def exchange(chance, maker):
    """Sends messages both ways over a connection, and yields by the ends of each direction what was sent."""
    pair = connect(chance.choice(("127.0.0.1", "::1")))
    work, sent = [], []
    for own, other in (pair, pair[::-1]):
        own.setsockopt(socket.IPPROTO_TCP, socket.TCP_NODELAY, chance.randrange(2))
        messages = [maker.message() for _ in range(chance.randrange(40))]
        ends = [end_text(End(*it.getsockname()[:2])) for it in (own, other)]
        sent.append(((*ends,), messages))
        part = random.Random(chance.random())
        work.append(threading.Thread(target=write_cut, args=(own, b"".join(messages), part)))
        work.append(threading.Thread(target=read_out, args=(own,)))
    for it in work:
        it.start()
    for it in work:
        it.join()
    for it in pair:
        it.close()
    return sent


def record(seed, recorded, path):
    """Records a few connections by a seed, and returns what was sent in each direction by its ends."""
    chance = random.Random(seed)
    maker, sent = Maker(chance, recorded, has_bare=True), {}
    with Recorder(path):
        for _ in range(chance.randrange(1, 5)):
            sent.update(exchange(chance, maker))
    return sent


def differences(program, path, sent):
    """Yields how what the program says of the recording differs from what was sent."""
    ports = [word for _, to in sent for word in ("--port", to.rpartition(":")[2])]
    said, status = objects([*program, "check", "--json", *ports, "--capture", path])
    told = collections.defaultdict(list)
    for it in said[:-1]:
        if "number" in it:
            told[it["from"], it["to"]].append(without_front(it))
        else:
            yield f"{it}"
    for ends, messages in sent.items():
        lines = "".join(f"{it.hex()}\n" for it in messages)
        alone, _ = objects([*program, "check", "--json", "--hex"], lines)
        want = [without_front(it) for it in alone if "number" in it]
        if told[ends] != want:
            yield f"{ends}: {len(told[ends])} messages, and not these {len(want)}"
    count, end = sum(map(len, sent.values())), said[-1]
    if status not in (0, 1) or (end["connections"], end["messages"]) != (len(sent) // 2, count):
        yield f"status {status}, {end}: {len(sent) // 2} connections, {count} messages"
    if end["passed"] or end["cut"] or end["fragments"]:
        yield f"{end}: nothing was lost"
