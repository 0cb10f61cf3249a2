"""A GeoNetworking and BTP-B station (EN 302 636-4-1, EN 302 636-5-1).

`Station` runs a station in this process, with the shared library. `PipeStation` runs one in the
program `geostation`, over a pipe. Both have the same methods.

Times are in milliseconds. `latitude` and `longitude` are ints in 0.1 microdegree; `degrees` is a
pair of floats in degrees.
"""

from .calls import FRAME_MAX, LAST_MOMENT, PAYLOAD_MAX, SECURED_FRAME_MAX
from .errors import BadArgument, BadFrame, Fault, OverRate, Refused, Status
from .line import Ended, Line, PipeStation, ProcessExited
from .station import Station, frame_length, message_of, plain_part, read_frame, seal
from .values import (
    NO_LIMITS,
    Area,
    Contention,
    ContentionCounts,
    Counts,
    IgnoredCounts,
    IgnoreReason,
    Kind,
    Limits,
    Message,
    Packet,
    Reception,
    RefusedCounts,
    SentCounts,
    Shape,
    Vector,
    Why,
)

__all__ = [
    "FRAME_MAX",
    "LAST_MOMENT",
    "NO_LIMITS",
    "PAYLOAD_MAX",
    "Area",
    "BadArgument",
    "BadFrame",
    "Contention",
    "ContentionCounts",
    "Counts",
    "Ended",
    "Fault",
    "IgnoreReason",
    "IgnoredCounts",
    "Kind",
    "Limits",
    "Line",
    "Message",
    "OverRate",
    "Packet",
    "PipeStation",
    "ProcessExited",
    "Reception",
    "Refused",
    "RefusedCounts",
    "SECURED_FRAME_MAX",
    "SentCounts",
    "Shape",
    "Station",
    "Status",
    "Vector",
    "Why",
    "frame_length",
    "message_of",
    "plain_part",
    "read_frame",
    "seal",
]
__version__ = "0.3.0"
