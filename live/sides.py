"""What the scripts of live/ share: Diameter messages, our driver, and the other sides, each started as a process."""
import os
import re
import signal
import socket
import struct
import subprocess
import sys
import threading
import time

HERE = os.path.dirname(os.path.abspath(__file__))
DRIVER = os.path.join(HERE, "driver")
DMLIVE = os.environ.get("DMLIVE") or os.path.join(HERE, "..", "crates", "dmlive", "out", "dmlive")
CER, DWR, DPR, ACR = 257, 280, 282, 271

FREEDIAMETER = """Identity = "{host}";
Realm = "example";
Port = {port};
SecPort = 0;
No_SCTP;
{family};
ListenOn = "{address}";
TwTimer = 6;
TcTimer = 2;
AppServThreads = 1;
TLS_Cred = "cert.pem", "key.pem";
TLS_CA = "cert.pem";
{lines}
"""


NET = """set -e
mkdir -p /run/netns; mount -t tmpfs tmpfs /run/netns
echo 1 > /proc/sys/net/ipv4/tcp_tw_reuse
ip link set lo up; ip netns add other; ip link add v0 type veth peer name v1; ip link set v1 netns other
ip addr add 10.9.9.1/24 dev v0; ip -6 addr add fd09::1/64 dev v0 nodad; ip link set v0 up
ip -n other addr add 10.9.9.2/24 dev v1; ip -n other -6 addr add fd09::2/64 dev v1 nodad
ip -n other link set v1 up; ip -n other link set lo up
exec "$@"
"""
NEAR, FAR = "10.9.9.1", "10.9.9.2"


def avp(code, value, flags=0x40):
    """An AVP of text, of a number, or of octets."""
    if isinstance(value, str):
        value = value.encode()
    if isinstance(value, int):
        value = struct.pack(">I", value)
    return struct.pack(">II", code, flags << 24 | 8 + len(value)) + value + bytes(-len(value) % 4)


def message(flags, code, body, number, application=0):
    head = struct.pack(">IIIII", 1 << 24 | 20 + len(body), flags << 24 | code, application, number, number)
    return head + body


def origin(host):
    return avp(264, host) + avp(296, "example")


def cer(host, number=1):
    body = origin(host) + avp(257, b"\0\1\x7f\0\0\1") + avp(266, 0) + avp(269, "tries", 0) + avp(259, 3)
    return message(0x80, CER, body, number)


def dwr(host, number=2):
    return message(0x80, DWR, origin(host), number)


def dpr(host, number=3):
    return message(0x80, DPR, origin(host) + avp(273, 0), number)


def acr(host, to, number=77):
    """An accounting request."""
    body = avp(263, host + ";1;2") + origin(host) + avp(283, "example") + avp(293, to)
    return message(0xc0, ACR, body + avp(480, 1) + avp(485, 7) + avp(259, 3), number, 3)


def aca(request, host):
    """The answer to an accounting request, with the request's Session-Id and record."""
    kept = b"".join(part for code, part in avps(request) if code in (263, 480, 485))
    body = kept[:len(kept)] + avp(268, 2001) + origin(host)
    answer = message(request[4] & 0x40, ACR, body, 0, 3)
    return answer[:12] + request[12:20] + answer[20:]


def avps(octets):
    """Each AVP's code and octets."""
    at = 20
    while at < len(octets):
        code, length = struct.unpack_from(">II", octets, at)
        end = at + (length & 0xffffff) + 3 & ~3
        yield code, octets[at:end]
        at = end


def kind(octets):
    """(command, whether it is a request, Result-Code or None)"""
    result = [struct.unpack(">I", part[8:12])[0] for code, part in avps(octets) if code == 268]
    return int.from_bytes(octets[5:8], "big"), bool(octets[4] & 0x80), result[0] if result else None


class Side:
    """A process of which each line that it prints is kept."""

    def __init__(self, words, folder=None, separate=False):
        self.lines, self.came = [], threading.Condition()
        errors = subprocess.PIPE if separate else subprocess.STDOUT
        self.process = subprocess.Popen(words, cwd=folder, stdin=subprocess.PIPE, stdout=subprocess.PIPE, stderr=errors)
        self.read(self.process.stderr if separate else self.process.stdout)

    def read(self, stream):
        threading.Thread(target=self.keep, args=(stream,), daemon=True).start()

    def keep(self, stream):
        for line in stream:
            with self.came:
                self.lines.append(line.decode(errors="replace").rstrip("\n"))
                self.came.notify_all()

    def mark(self):
        with self.came:
            return len(self.lines)

    def wait(self, what, seconds=10, start=0):
        """The match of the first line from `start` on where `what` is found, or None."""
        pattern, end, at = re.compile(what), time.monotonic() + seconds, start
        with self.came:
            while True:
                while at < len(self.lines):
                    match = pattern.search(self.lines[at])
                    if match:
                        return match
                    at += 1
                left = end - time.monotonic()
                if left <= 0:
                    return None
                self.came.wait(left)

    def order(self, text):
        self.process.stdin.write(text.encode() + b"\n")
        self.process.stdin.flush()

    def signal(self, number):
        if self.process.poll() is None:
            self.process.send_signal(number)

    def ended(self, seconds):
        try:
            return self.process.wait(seconds)
        except subprocess.TimeoutExpired:
            return None

    def kill(self):
        self.signal(signal.SIGKILL)
        self.process.wait()


class Ours(Side):
    """Our driver with dmlive. Where `answers` is set, what is handed up is answered."""

    def __init__(self, folder, lines, answers=None, words=("-vv",), count=None):
        self.handed = []
        self.host = dict(line.split(" ", 1) for line in lines if " " in line)["host"]
        path = os.path.join(folder, self.host + ".conf")
        with open(path, "w") as file:
            file.write("\n".join(lines) + "\n")
        self.answers = answers
        super().__init__([DRIVER, *words, "-p", DMLIVE, path], folder, separate=True)
        threading.Thread(target=self.take, daemon=True).start()

    def take(self):
        """Of several neighbours the number of one stands in front of what it handed up, and of the answer to that."""
        for line in self.process.stdout:
            *front, digits = line.decode().split()
            octets = bytes.fromhex(digits)
            with self.came:
                self.handed.append((front, octets))
                self.came.notify_all()
            if self.answers and octets[4] & 0x80:
                self.order(" ".join([*front, aca(octets, self.host).hex()]))

    def up(self, test, seconds=5, neighbour=None):
        """The first message handed up that passes the test, of this neighbour, where one is given."""
        end, at, wanted = time.monotonic() + seconds, 0, [] if neighbour is None else [str(neighbour)]
        with self.came:
            while True:
                for front, octets in self.handed[at:]:
                    if front == wanted and test(octets):
                        return octets
                at = len(self.handed)
                if time.monotonic() >= end:
                    return None
                self.came.wait(end - time.monotonic())

    def state(self, name, seconds=10, start=0):
        return self.wait("^ *[0-9.]+   state " + re.escape(name) + "( |$)", seconds, start)

    def sent(self, seconds, start, *what):
        return self.passed("send", seconds, start, what)

    def heard(self, seconds, start, *what):
        return self.passed("octets", seconds, start, what)

    def passed(self, word, seconds, start, what):
        """A line with a message of this kind, (command, request[, Result-Code])."""
        end, at = time.monotonic() + seconds, start
        pattern = re.compile(word + r" \d+ ([0-9a-f]{40,})")
        while time.monotonic() < end:
            with self.came:
                lines, at = self.lines[at:], len(self.lines)
                if not lines:
                    self.came.wait(0.2)
            for line in lines:
                match = pattern.search(line)
                if match and kind(bytes.fromhex(match[1]))[:len(what)] == what:
                    return match
        return None


class FreeDiameter(Side):
    """freeDiameter's daemon, b.example, in the other network; a relay, unless told otherwise."""
    name = "freeDiameter"

    def __init__(self, folder, call=None, known=("a.example", "c.example"), relay=True, extension=None):
        lines = ['LoadExtension = "%s/acl_wl.fdx" : "acl.conf";' % extensions()]
        if extension:
            lines.append('LoadExtension = "%s";' % extension)
        if not relay:
            lines.append("NoRelay;")
        if call:
            lines.append('ConnectPeer = "%s" { No_TLS; No_SCTP; No_IPv6; ConnectTo = "%s"; Port = %d; };' % (
                known[0], NEAR, call))
        with open(os.path.join(folder, "acl.conf"), "w") as file:
            file.writelines("ALLOW_IPSEC %s\n" % host for host in known)
        with open(os.path.join(folder, "fd.conf"), "w") as file:
            file.write(FREEDIAMETER.format(
                host="b.example", port=3868, address=FAR, family="No_IPv6", lines="\n".join(lines)))
        super().__init__(["ip", "netns", "exec", "other", "freeDiameterd", "-c", "fd.conf"], folder)
        listening(FAR, 3868)

    def stop(self):
        self.signal(signal.SIGTERM)


class Otp(Side):
    """A node of Erlang/OTP's diameter in the other network: b.example, unless told otherwise."""
    name = "OTP"

    def __init__(self, folder, call=None, known=("any",), relay=True, host="b.example", port=3868):
        words = ["main", host, "%s:%d" % (FAR, port), "%s:%d" % (NEAR, call) if call else "none", known[0]]
        erl = ["erl", "-noshell", "-pa", folder, "-run", "otp_peer"]
        super().__init__(["ip", "netns", "exec", "other", *erl, *words], folder)
        listening(FAR, port)

    def stop(self):
        self.order("stop")


def extensions():
    for folder in ("/usr/lib/freeDiameter", "/usr/local/lib/freeDiameter"):
        if os.path.isdir(folder):
            return folder
    return "."


def listening(address, port, seconds=15):
    """Waits until someone listens there."""
    end = time.monotonic() + seconds
    while time.monotonic() < end:
        try:
            socket.create_connection((address, port), 1).close()
            return True
        except OSError:
            time.sleep(0.1)
    return False


def vendor_application(folder):
    """Builds freeDiameter's extension that supports an application of a vendor; returns its file."""
    made = os.path.join(folder, "vendor_application.fdx")
    words = [os.environ.get("CC", "cc"), "-Wall", "-Wextra", "-Werror", "-shared", "-fPIC", "-o", made]
    subprocess.run([*words, os.path.join(HERE, "vendor_application.c")], check=True)
    return made


def prepare(folder, parts):
    subprocess.run([os.path.join(HERE, "build")], check=True)
    if {"otp", "node"} & {*parts}:
        subprocess.run(["erlc", "-o", folder, os.path.join(HERE, "otp_peer.erl")], check=True)
    subprocess.run(["openssl", "req", "-x509", "-newkey", "rsa:2048", "-nodes", "-days", "2", "-subj", "/CN=b.example",
                    "-keyout", "key.pem", "-out", "cert.pem"], cwd=folder, check=True, stderr=subprocess.DEVNULL)


def enter_network(script, words):
    """Runs the script again in a network of its own, with another behind a pair of interfaces; both end with it."""
    if os.environ.get("LIVE_NET"):
        return
    os.environ["LIVE_NET"] = "1"
    sys.stdout.flush()
    os.execvp("unshare", ["unshare", "--net", "--mount", "sh", "-c", NET, "sh", script, *words])


def configuration(host, peer, *lines, applications=("acct 3",)):
    own = ["host " + host, "realm example", "address " + NEAR, "product dmlive", "peer " + peer]
    return [*own, *applications, *lines]


def processes_memory(process):
    """Kilobytes that a process and its children hold."""
    held = resident(process.pid)
    with open("/proc/%d/task/%d/children" % (process.pid, process.pid)) as file:
        return held + sum(resident(int(child)) for child in file.read().split())


def resident(number):
    with open("/proc/%d/status" % number) as file:
        return int(re.search(r"VmRSS:\s+(\d+)", file.read())[1])
