"""What tshark says of the Diameter messages in a capture."""
import collections
import json
import subprocess

FIELDS = """frame.number frame.time_epoch ip.src ipv6.src tcp.srcport sctp.srcport ip.dst ipv6.dst tcp.dstport
sctp.dstport diameter.cmd.code diameter.hopbyhopid""".split()
# A message as tshark tells it.
Told = collections.namedtuple("Told", "packet time source destination code hop_by_hop")


def end(found, way):
    """Returns one end of a frame's connection."""
    names = [f"{it}.{way}" for it in ("ip", "ipv6")], [f"{it}.{way}port" for it in ("tcp", "sctp")]
    address, port = (next((found[it][0] for it in its if it in found), None) for its in names)
    return address, int(port) if port else None


def number(text):
    return int(text, 0)


def messages(path, words):
    """Returns the messages that tshark finds in a file, with more words for it."""
    fields = [word for it in FIELDS for word in ("-e", it)]
    command = ["tshark", "-r", path, "-Y", "diameter", "-T", "json", *fields, *words]
    ran = subprocess.run(command, capture_output=True, text=True, check=True)
    told = []
    for frame in json.loads(ran.stdout):
        found = frame["_source"]["layers"]
        source, destination = end(found, "src"), end(found, "dst")
        time = found.get("frame.time_epoch", [None])[0]
        for code, hop in zip(found.get("diameter.cmd.code", []), found.get("diameter.hopbyhopid", [])):
            place = int(found["frame.number"][0])
            told.append(Told(place, time, source, destination, number(code), number(hop)))
    return told
