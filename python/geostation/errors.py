"""The exceptions of a station, and the faults of frames that are not valid."""

from __future__ import annotations

import re
from dataclasses import dataclass
from enum import IntEnum
from typing import Any, Tuple


class Status(IntEnum):
    """The statuses of geostation.h."""

    OK = 0
    MOMENT_EARLIER = 1
    MOMENT_TOO_LATE = 2
    BAD_FRAME = 3
    TABLE_FULL = 4
    NO_MEMORY = 5
    PAYLOAD_TOO_LONG = 6
    HOP_LIMIT_ZERO = 7
    PORT_ALREADY_OPEN = 8
    JITTER_RANGE = 9
    PORTS_FULL = 10
    PORT_NOT_OPEN = 11
    BAD_ARGUMENT = 20
    NO_ROOM = 21
    OVER_RATE = 22


# The code of each status, as logs show it. Statuses for arguments have no code.
CODES = {
    Status.MOMENT_EARLIER: "S1",
    Status.MOMENT_TOO_LATE: "S2",
    Status.BAD_FRAME: "S3",
    Status.TABLE_FULL: "S4",
    Status.NO_MEMORY: "S5",
    Status.PAYLOAD_TOO_LONG: "S6",
    Status.HOP_LIMIT_ZERO: "S7",
    Status.PORT_ALREADY_OPEN: "S8 B2",
    Status.PORTS_FULL: "S8 B3",
    Status.PORT_NOT_OPEN: "S8 B4",
    Status.JITTER_RANGE: "S9",
}
STATUSES = {code: status for status, code in CODES.items()}

# The messages of the library, for a machine without it.
TEXTS = {
    Status.MOMENT_EARLIER: "the time is earlier than that of the last call",
    Status.MOMENT_TOO_LATE: "the time is over 2^62 ms",
    Status.BAD_FRAME: "not a valid frame",
    Status.TABLE_FULL: "the location table is full",
    Status.NO_MEMORY: "out of memory",
    Status.PAYLOAD_TOO_LONG: "the payload is over 1394 octets",
    Status.HOP_LIMIT_ZERO: "the hop limit is 0",
    Status.PORT_ALREADY_OPEN: "the port is open",
    Status.JITTER_RANGE: "the jitter is over 750 ms",
    Status.PORTS_FULL: "64 other ports are open",
    Status.PORT_NOT_OPEN: "the port isn't open",
    Status.BAD_ARGUMENT: "an argument is out of its range",
    Status.NO_ROOM: "a buffer is too small",
    Status.OVER_RATE: "own packets are over their rate",
}
FAULT_TEXTS = {
    1: "a frame of fewer than 14 octets",
    2: "a frame of another type than 0x8947",
    3: "a frame that is too long",
    4: "octets after the packet",
}
PACKET_TEXTS = {
    1: "a truncated packet",
    2: "a version other than 1",
    3: "no Common Header after the Basic Header",
    4: "a reserved bit that is set",
    5: "no hop left",
    6: "a next header other than none and BTP-B",
    7: "an unsupported header type, or one that does not go with the next header",
    8: "a sub-type that the header type does not have",
    9: "more hops left than the maximum",
    10: "a payload length out of range",
    11: "a group address, or a position out of range",
    12: "an area out of range, or a circle with a second distance or an angle",
}


@dataclass(frozen=True)
class Fault:
    """Why bytes are not a valid frame. `str()` gives a message."""

    layer: int
    """1 to 6, for the codes L1 to L6."""
    kind: int = 0
    """1 to 12, for G1 to G12, if `layer` is 5 or 6; otherwise 0."""
    at: int = 0
    """Offset of the faulty field in the packet, if `layer` is 5 or 6; otherwise 0."""

    @property
    def code(self) -> str:
        """A short code for logs, for example `L1` or `L5 G9 at 10`."""
        layer = f"L{self.layer}"
        return f"{layer} G{self.kind} at {self.at}" if self.layer >= 5 else layer

    def __str__(self) -> str:
        if self.layer >= 5:
            return f"{PACKET_TEXTS[self.kind]}, at octet {self.at}"
        return FAULT_TEXTS[self.layer]


class Refused(Exception):
    """A call failed. The station is unchanged. `str()` gives a message.

    Attributes:
        status: The status of geostation.h.
    """

    def __init__(self, status: Status, text: str | None = None):
        super().__init__(TEXTS[status] if text is None else text)
        self.status = status

    def __reduce__(self) -> Tuple[Any, ...]:
        return Refused, (self.status, str(self))

    @property
    def code(self) -> str:
        """A short code for logs, for example `S1` or `S8 B2`; empty for a wrong argument."""
        return CODES.get(self.status, "")


class BadArgument(Refused, ValueError):
    """An argument is out of its range.

    Attributes:
        name: The name of the argument.
    """

    def __init__(self, name: str):
        super().__init__(Status.BAD_ARGUMENT, f"{name} is out of its range")
        self.name = name

    def __reduce__(self) -> Tuple[Any, ...]:
        return BadArgument, (self.name,)


class OverRate(Refused):
    """An own packet that was not sent, because own packets are over their rate (`own_rate`)."""

    def __init__(self) -> None:
        super().__init__(Status.OVER_RATE)

    def __reduce__(self) -> Tuple[Any, ...]:
        return OverRate, ()


class BadFrame(Refused):
    """Bytes are not a valid frame.

    Attributes:
        fault: Why they are not.
        received: Whether a station received them. It is false for `read_frame`, `plain_part` and
            `seal`.
    """

    def __init__(self, fault: Fault, received: bool = True):
        super().__init__(Status.BAD_FRAME, str(fault))
        self.fault = fault
        self.received = received

    def __reduce__(self) -> Tuple[Any, ...]:
        return BadFrame, (self.fault, self.received)

    @property
    def code(self) -> str:
        """A short code for logs: `S3` and the code of the fault; without `S3` if no station
        received it."""
        return f"S3 {self.fault.code}" if self.received else self.fault.code


def refused_by(code: str) -> Refused:
    """Returns the exception for a code in an answer of the program."""
    frame = re.fullmatch(r"(S3 )?L([1-6])(?: G(\d+) at (\d+))?", code)
    if frame:
        received, layer, kind, at = frame.groups("0")
        return BadFrame(Fault(int(layer), int(kind), int(at)), received=received == "S3 ")
    if code in ("message empty", "too long"):
        return BadArgument("message")
    return Refused(STATUSES[code])
