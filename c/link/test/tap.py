"""What is on the wire of a station, with the kernel's time stamps."""

import socket
import struct
import threading

from net import GEONETWORKING, PATIENCE, inside

EVERYTHING = 3  # ETH_P_ALL: frames of both directions
STAMPS = 35  # SO_TIMESTAMPNS
PACKET, STATISTICS = 263, 6  # SOL_PACKET, PACKET_STATISTICS
ROOM = 1 << 16
TYPE_AT = 12


class Tap:
    """The GeoNetworking frames of an interface, read by a thread until `end`."""

    def __init__(self, namespace, name):
        with inside(namespace):
            self.socket = socket.socket(socket.AF_PACKET, socket.SOCK_RAW, 0)
        self.socket.setsockopt(socket.SOL_SOCKET, STAMPS, 1)
        self.socket.settimeout(0.1)
        self.socket.bind((name, EVERYTHING))
        self.records, self.is_over = [], False
        self.thread = threading.Thread(target=self.read, daemon=True)
        self.thread.start()

    def read(self):
        while not self.is_over:
            try:
                frame, more, _, _ = self.socket.recvmsg(ROOM, 64)
            except TimeoutError:
                continue
            if frame[TYPE_AT : TYPE_AT + 2] == struct.pack(">H", GEONETWORKING):
                seconds, nanoseconds = struct.unpack("qq", more[0][2])
                self.records.append((seconds, nanoseconds, frame))

    def end(self):
        """Ends the reading. The kernel has to have dropped nothing."""
        self.is_over = True
        self.thread.join(PATIENCE)
        found = self.socket.getsockopt(PACKET, STATISTICS, 8)
        assert struct.unpack("II", found)[1] == 0, "the tap lost frames"
        self.socket.close()

    def write(self, path):
        """A pcap file with nanoseconds, in the order of the stamps."""
        with open(path, "wb") as f:
            f.write(struct.pack("<IHHiIII", 0xA1B23C4D, 2, 4, 0, 0, 65535, 1))
            for seconds, nanoseconds, frame in sorted(self.records):
                f.write(struct.pack("<IIII", seconds, nanoseconds, len(frame), len(frame)) + frame)
        return path
