"""Records what the kernel sends over the loopback, as a capture file. It wants root, on Linux."""
import socket
import struct
import threading
import time

ETH_P_ALL, SO_RCVBUFFORCE, PACKET_OUTGOING = 3, 33, 4
ETHERNET, MOST = 1, 262_144
# How long it waits for a last packet, in seconds.
QUIET = 0.3


class Recorder(threading.Thread):
    """Writes each packet that arrives on the loopback into a pcap file, from `with` on to its end."""

    def __init__(self, path):
        super().__init__(daemon=True)
        self.path, self.is_over = path, threading.Event()
        self.socket = socket.socket(socket.AF_PACKET, socket.SOCK_RAW, socket.htons(ETH_P_ALL))
        self.socket.setsockopt(socket.SOL_SOCKET, SO_RCVBUFFORCE, 1 << 28)
        self.socket.bind(("lo", 0))
        self.socket.settimeout(QUIET)

    def __enter__(self):
        self.start()
        return self

    def __exit__(self, *_):
        self.is_over.set()
        self.join()
        self.socket.close()

    def run(self):
        with open(self.path, "wb", buffering=0) as it:
            it.write(struct.pack("<IHHiIII", 0xA1B23C4D, 2, 4, 0, 0, MOST, ETHERNET))
            while True:
                try:
                    octets, (_, _, way, _, _) = self.socket.recvfrom(MOST)
                except TimeoutError:
                    if self.is_over.is_set():
                        return
                    continue
                # (each packet is seen as it goes and as it comes)
                if way != PACKET_OUTGOING:
                    seconds, rest = divmod(time.time_ns(), 10**9)
                    it.write(struct.pack("<IIII", seconds, rest, len(octets), len(octets)) + octets)
