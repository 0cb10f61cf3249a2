#!/usr/bin/env python3
"""Checks the time stamps of frames that arrive as UDP datagrams: time_stamps.py PORT.

Reads two frames. Each has to have the time stamp of the moment at which the kernel received it:
milliseconds of TAI since 2004-01-01, modulo 2^32. A stamp may be 60 s old, as this machine may be
busy. The packet is read by its layout in EN 302 636-4-1, without the library.
"""

import datetime
import socket
import struct
import sys

SO_TIMESTAMPNS = 35
FRAMES = 2
LONGEST_WAIT = 120  # s
LONGEST_AGE, ROUNDING = 60000, 10  # ms
# TAI is 37 s ahead of UTC since 2017, and was 32 s ahead at the start of 2004.
SINCE_2004 = 37 - 32
BASIC, COMMON = 4, 8
# Octets in front of the source's position vector: a BEACON has none, an SHB none, a GBC and a GAC a
# sequence number and two reserved octets.
IN_FRONT = {1: 0, 5: 0, 4: 4, 3: 4}


def time_stamp_in(frame: bytes) -> int:
    """The time stamp in the position vector of a packet's source."""
    packet = frame[14:]
    vector = BASIC + COMMON + IN_FRONT[packet[BASIC + 1] >> 4]
    return struct.unpack_from(">I", packet, vector + 8)[0]


def expected_at(seconds: int, nanoseconds: int) -> int:
    """The time stamp of a moment, in seconds since 1970."""
    epoch = datetime.datetime(2004, 1, 1, tzinfo=datetime.timezone.utc).timestamp()
    return int((seconds - epoch + SINCE_2004) * 1000 + nanoseconds // 1000000) % 2**32


def main() -> int:
    with socket.socket(socket.AF_INET, socket.SOCK_DGRAM) as link:
        link.bind(("127.0.0.1", int(sys.argv[1])))
        link.setsockopt(socket.SOL_SOCKET, SO_TIMESTAMPNS, 1)
        link.settimeout(LONGEST_WAIT)
        print("ready", flush=True)
        for count in range(FRAMES):
            try:
                frame, [(_, _, when)], _, _ = link.recvmsg(2048, 64)
            except socket.timeout:
                print(f"{count} frames arrived")
                return 1
            stamp, wanted = time_stamp_in(frame), expected_at(*struct.unpack("ll", when))
            if (wanted - stamp + ROUNDING) % 2**32 > LONGEST_AGE + ROUNDING:
                print(f"a time stamp is {stamp}, and its frame arrived at {wanted}")
                return 1
    return 0


if __name__ == "__main__":
    sys.exit(main())
