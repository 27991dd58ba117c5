"""What dmview says of a capture, beside what must be found in it."""
import collections
import datetime
import ipaddress
import json
import subprocess

DIAMETER = 3868
EPOCH = datetime.datetime(1970, 1, 1, tzinfo=datetime.timezone.utc)
# the members of a message's object that tell where it was seen, or which line it is
FRONT = ("number", "time", "from", "to", "transport", "packet")


def end_text(end):
    """Returns an end as dmview says it."""
    address = ipaddress.ip_address(end.address)
    return f"[{address}]:{end.port}" if address.version == 6 else f"{address}:{end.port}"


def time_text(time):
    """Returns a time as dmview says it of a capture with so many digits, or with all nine."""
    if time is None:
        return None
    nanoseconds = time.units * 10**9 // time.per_second
    date = EPOCH + datetime.timedelta(seconds=time.seconds)
    return date.strftime("%Y-%m-%dT%H:%M:%S"), nanoseconds


def time_told(text):
    """Returns the date and the nanoseconds of a time that dmview said."""
    if text is None:
        return None
    date, _, fraction = text.rstrip("Z").partition(".")
    return date, int(fraction.ljust(9, "0"))


def objects(words, given=None):
    """Returns the objects that a command writes, and its status."""
    ran = subprocess.run(words, input=given, stdout=subprocess.PIPE, text=True, check=False, timeout=120)
    return [json.loads(it) for it in ran.stdout.splitlines()], ran.returncode


def without_front(it):
    return {name: value for name, value in it.items() if name not in FRONT}


def wanted_front(number, message):
    """Returns what must be said of where a message was seen."""
    ends = (end_text(message.source), end_text(message.destination))
    return (number, time_text(message.time), *ends, message.transport.lower(), message.packet)


def told_front(it):
    return (it["number"], time_told(it.get("time")), it["from"], it["to"], it["transport"], it["packet"])


def of_messages(told, messages, said):
    """Yields how what is told of messages differs from where they were seen, and from what is said of their octets."""
    if len(told) != len(messages):
        yield f"{len(told)} messages, and not {len(messages)}"
    for number, (it, message, alone) in enumerate(zip(told, messages, said), 1):
        if told_front(it) != wanted_front(number, message):
            yield f"message {number}: {told_front(it)} is {wanted_front(number, message)}"
        if without_front(it) != without_front(alone):
            yield f"message {number}: what is said of it isn't what is said of its line"


def is_looked_at(sent):
    """Whether one end of a direction has the port of Diameter."""
    return DIAMETER in (sent.source.port, sent.destination.port)


def of_losses(told, directions):
    """Yields how the octets that are told as passed over differ, by the ends of each direction of TCP."""
    found, want = collections.Counter(), collections.Counter()
    for it in told:
        found[it["from"], it["to"]] += it["passed"]
    for direction, sent in directions:
        if sent.transport == "TCP" and is_looked_at(sent):
            want[end_text(sent.source), end_text(sent.destination)] += direction.passed
        else:
            found.pop((end_text(sent.source), end_text(sent.destination)), None)
    if +want != +found:
        yield f"passed over: {dict(+found)} is {dict(+want)}"


def of_counts(told, truth, count):
    """Yields how what a check counts differs."""
    if told["messages"] != count or told["good"] + told["bad"] != count:
        yield f"it counts {told['messages']} messages, and not {count}"
    if told["fragments"] != truth.counts["fragment"]:
        yield f"it counts {told['fragments']} fragments, and not {truth.counts['fragment']}"
    if told["cut"] != truth.counts["cut"]:
        yield f"it counts {told['cut']} cut packets, and not {truth.counts['cut']}"
    secured = sum(it.secured for it, sent in truth.directions if is_looked_at(sent))
    if told["secured"] != secured:
        yield f"it counts {told['secured']} octets of DTLS, and not {secured}"
    if all(sent.transport == "TCP" for _, sent in truth.directions):
        lost = sum(it.passed + it.waiting() for it, sent in truth.directions if is_looked_at(sent))
        if told["passed"] != lost:
            yield f"it counts {told['passed']} octets passed over, and not {lost}"


def differences(program, path, made, truth):
    """Yields how what the program says of a capture differs from what must be found in it."""
    messages = truth.timed(made.times)
    lines = "".join(f"{it.octets.hex()}\n" for it in messages)
    for word in ("show", "check"):
        said, status = objects([*program, word, "--json", "--capture", path])
        alone, _ = objects([*program, word, "--json", "--hex"], lines)
        if status not in (0, 1):
            yield f"{word}: status {status}"
            continue
        told = [it for it in said if "number" in it]
        yield from (f"{word}: {it}" for it in of_messages(told, messages, alone))
        lost = [it for it in said if "number" not in it and "packet" in it and "passed" in it]
        yield from (f"{word}: {it}" for it in of_losses(lost, truth.directions))
        if word == "check":
            yield from (f"{word}: {it}" for it in of_counts(said[-1], truth, len(messages)))
