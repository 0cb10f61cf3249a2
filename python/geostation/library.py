"""The shared library: where it is found, its structs and its functions.

It is called with the interpreter's lock held (PyDLL), so a handle is in one call at a time.
"""

from __future__ import annotations

import ctypes as c
import os
from functools import lru_cache
from pathlib import Path
from typing import Any

from .errors import Fault

# The layouts below are those of a header with this ABI.
ABI = 5
NAME = f"libgeostation.so.{ABI}"
# What geostation_beacon_at returns for a jitter out of range, and geostation_next_due if no frame is
# held.
NEVER = (1 << 64) - 1
# The number of GEOSTATION_CONTENTION, of `area_forwarding`.
CONTENTION = 1


class Reception(c.Structure):
    _fields_ = [
        ("ignored", c.c_uint32),
        ("delivered", c.c_uint32),
        ("port", c.c_uint16),
        ("info", c.c_uint16),
        ("media", c.c_uint8 * 4),
        ("payload_start", c.c_size_t),
        ("payload_length", c.c_size_t),
        ("relay_length", c.c_size_t),
        ("fault", c.c_uint32),
        ("fault_kind", c.c_uint32),
        ("fault_at", c.c_size_t),
        ("source", c.c_uint64),
        ("kind", c.c_uint32),
        ("number", c.c_uint16),
        ("traffic_class", c.c_uint8),
        ("hops_left", c.c_uint8),
        ("due", c.c_uint64),
        ("held", c.c_uint32),
        ("cancelled", c.c_uint32),
    ]


class Config(c.Structure):
    _fields_ = [
        ("size", c.c_uint64),
        ("address", c.c_uint64),
        ("latitude", c.c_int32),
        ("longitude", c.c_int32),
        ("capacity", c.c_uint16),
        ("remember", c.c_uint16),
        ("mobile", c.c_uint16),
        ("number", c.c_uint16),
        ("forward_rate", c.c_uint32),
        ("forward_burst", c.c_uint32),
        ("source_rate", c.c_uint32),
        ("source_burst", c.c_uint32),
        ("own_rate", c.c_uint32),
        ("own_burst", c.c_uint32),
        ("hop_cap", c.c_uint32),
        ("deliver_once", c.c_uint32),
        ("area_forwarding", c.c_uint32),
        ("contention_max", c.c_uint32),
        ("contention_min", c.c_uint32),
        ("contention_range", c.c_uint32),
        ("contention_copies", c.c_uint32),
    ]


def _counters(*names: str) -> Any:
    return type("Counters", (c.Structure,), {"_fields_": [(name, c.c_uint64) for name in names]})


class Counts(c.Structure):
    _fields_ = [
        ("received", c.c_uint64),
        ("accepted", c.c_uint64),
        ("delivered", c.c_uint64),
        ("relayed", c.c_uint64),
        ("ignored", _counters("not_for_me", "own_source", "sender_mismatch", "duplicate")),
        (
            "refused",
            _counters(
                "moment_earlier", "moment_too_late", "frame", "table_full", "no_memory", "other"
            ),
        ),
        ("sent", _counters("beacons", "single_hop", "geobroadcasts", "geoanycasts")),
        ("suppressed", c.c_uint64),
        ("repeated", c.c_uint64),
        ("over_rate", c.c_uint64),
        ("contention", _counters("held", "released", "cancelled", "dropped", "full")),
    ]


class ShbRequest(c.Structure):
    _fields_ = [("port", c.c_uint16), ("info", c.c_uint16), ("traffic_class", c.c_uint8)]


class ShbOptions(c.Structure):
    _fields_ = [("lifetime", c.c_uint8), ("media", c.c_uint8 * 4)]


class AreaRequest(c.Structure):
    _fields_ = [
        ("port", c.c_uint16),
        ("info", c.c_uint16),
        ("traffic_class", c.c_uint8),
        ("lifetime", c.c_uint8),
        ("max_hops", c.c_uint8),
        ("shape", c.c_uint8),
        ("latitude", c.c_int32),
        ("longitude", c.c_int32),
        ("a", c.c_uint16),
        ("b", c.c_uint16),
        ("angle", c.c_uint16),
    ]


class Vector(c.Structure):
    _fields_ = [
        ("address", c.c_uint64),
        ("timestamp", c.c_uint32),
        ("latitude", c.c_int32),
        ("longitude", c.c_int32),
        ("speed", c.c_int16),
        ("heading", c.c_uint16),
        ("accurate", c.c_uint8),
    ]


class Area(c.Structure):
    _fields_ = [
        ("latitude", c.c_int32),
        ("longitude", c.c_int32),
        ("a", c.c_uint16),
        ("b", c.c_uint16),
        ("angle", c.c_uint16),
        ("shape", c.c_uint8),
    ]


class Message(c.Structure):
    _fields_ = [
        ("payload_start", c.c_size_t),
        ("payload_length", c.c_size_t),
        ("port", c.c_uint16),
        ("info", c.c_uint16),
    ]


class Packet(c.Structure):
    _fields_ = [
        ("target", c.c_uint8 * 6),
        ("source", c.c_uint8 * 6),
        ("kind", c.c_uint32),
        ("vector", Vector),
        ("hops_left", c.c_uint8),
        ("max_hops", c.c_uint8),
        ("lifetime", c.c_uint8),
        ("traffic_class", c.c_uint8),
        ("mobile", c.c_uint8),
        ("media", c.c_uint8 * 4),
        ("number", c.c_uint16),
        ("area", Area),
        ("message", Message),
        ("fault", c.c_uint32),
        ("fault_kind", c.c_uint32),
        ("fault_at", c.c_size_t),
    ]


class LineResult(c.Structure):
    _fields_ = [
        ("command", c.c_uint32),
        ("outcome", c.c_uint32),
        ("status", c.c_int32),
        ("port", c.c_uint16),
        ("number", c.c_uint16),
        ("payload_length", c.c_size_t),
        ("answer_length", c.c_size_t),
        ("id_length", c.c_size_t),
        ("frame_length", c.c_size_t),
        ("vector", Vector),
    ]


# The sizes that the header asserts for its structs.
SIZES = {
    Reception: 88,
    Config: 88,
    Counts: 208,
    ShbRequest: 6,
    ShbOptions: 5,
    AreaRequest: 24,
    Vector: 32,
    LineResult: 80,
    Packet: 120,
}

_OCTETS = (c.c_char_p, c.c_size_t)
_WRITTEN = (c.c_char_p, c.c_size_t, c.POINTER(c.c_size_t))
_PART = (c.POINTER(c.c_size_t), c.POINTER(c.c_size_t))
_AREA = (c.c_void_p, c.c_uint64, c.POINTER(AreaRequest), *_OCTETS, *_WRITTEN)
_FOUND = (c.c_void_p, c.c_uint64, c.c_uint64, c.POINTER(Vector))

# Each function: the type of its result, and those of its arguments.
CALLS = {
    "config_init": (None, c.POINTER(Config)),
    "new_from_config": (c.c_int, c.POINTER(c.c_void_p), c.POINTER(Config)),
    "free": (None, c.c_void_p),
    "move": (
        c.c_int,
        c.c_void_p,
        c.c_uint64,
        c.c_int32,
        c.c_int32,
        c.c_uint8,
        c.c_int16,
        c.c_uint16,
    ),
    "move_at": (
        c.c_int,
        c.c_void_p,
        c.c_uint64,
        c.c_uint32,
        c.c_int32,
        c.c_int32,
        c.c_uint8,
        c.c_int16,
        c.c_uint16,
    ),
    "open_port": (c.c_int, c.c_void_p, c.c_uint64, c.c_uint16),
    "close_port": (c.c_int, c.c_void_p, c.c_uint64, c.c_uint16),
    "restart": (c.c_int, c.c_void_p, c.c_uint64, c.c_uint16),
    "tick": (c.c_int, c.c_void_p, c.c_uint64, c.c_uint16, *_WRITTEN),
    "send_shb": (c.c_int, c.c_void_p, c.c_uint64, c.POINTER(ShbRequest), *_OCTETS, *_WRITTEN),
    "send_shb_with": (
        c.c_int,
        c.c_void_p,
        c.c_uint64,
        c.POINTER(ShbRequest),
        c.POINTER(ShbOptions),
        *_OCTETS,
        *_WRITTEN,
    ),
    "send_gbc": (c.c_int, *_AREA),
    "send_gac": (c.c_int, *_AREA),
    "receive": (
        c.c_int,
        c.c_void_p,
        c.c_uint64,
        *_OCTETS,
        c.POINTER(Reception),
        c.c_char_p,
        c.c_size_t,
    ),
    "receive_verified": (
        c.c_int,
        c.c_void_p,
        c.c_uint64,
        *_OCTETS,
        *_OCTETS,
        c.POINTER(Reception),
        c.c_char_p,
        c.c_size_t,
    ),
    "release": (c.c_int, c.c_void_p, c.c_uint64, *_WRITTEN),
    "message": (c.c_int, *_OCTETS, *_PART),
    "plain_part": (c.c_int, *_OCTETS, *_PART),
    "seal": (c.c_int, *_OCTETS, *_OCTETS, *_WRITTEN),
    "handle_json": (c.c_int, c.c_void_p, c.c_uint64, c.c_uint64, *_OCTETS, *_WRITTEN, *_WRITTEN),
    "handle_line": (
        c.c_int,
        c.c_void_p,
        c.c_uint64,
        c.c_uint64,
        *_OCTETS,
        c.c_uint32,
        *_OCTETS,
        *_OCTETS,
        c.POINTER(LineResult),
    ),
    "beacon_at": (c.c_uint64, c.c_void_p, c.c_uint16),
    "next_due": (c.c_uint64, c.c_void_p),
    "next_number": (c.c_uint16, c.c_void_p),
    "counts": (None, c.c_void_p, c.POINTER(Counts)),
    "frame_length": (c.c_size_t, *_OCTETS),
    "neighbour": (c.c_int, *_FOUND),
    "look_up": (c.c_int, *_FOUND),
    "read_frame": (c.c_int, *_OCTETS, c.POINTER(Packet)),
    "status_text": (c.c_char_p, c.c_int),
    "fault_text": (c.c_char_p, c.c_uint32, c.c_uint32),
}


class Library:
    """The functions of the library, as attributes without the prefix `geostation_`."""

    def __init__(self, shared: Any):
        for name, (result, *arguments) in CALLS.items():
            call = getattr(shared, "geostation_" + name)
            call.restype, call.argtypes = result, arguments
            setattr(self, name, call)

    def __getattr__(self, name: str) -> Any:
        raise AttributeError(f"the library has no function {name}")


def _find() -> str:
    """Returns the path of the library: from the environment, in the folder of this package, or its
    name, for the system's loader."""
    if "GEOSTATION_LIBRARY" in os.environ:
        return os.environ["GEOSTATION_LIBRARY"]
    if "GEOSTATION_PREFIX" in os.environ:
        return str(Path(os.environ["GEOSTATION_PREFIX"]) / "lib" / NAME)
    beside = Path(__file__).resolve().parent / NAME
    return str(beside) if beside.is_file() else NAME


def check_abi(shared: Any) -> None:
    """Raises `ImportError` if the library has another ABI than this package."""
    shared.geostation_abi.restype = c.c_uint32
    version = shared.geostation_abi()
    if version != ABI:
        raise ImportError(f"the library has ABI {version}, this package needs ABI {ABI}")
    if c.sizeof(c.c_void_p) == 8:
        for struct, size in SIZES.items():
            if c.sizeof(struct) != size:
                raise ImportError(f"{struct.__name__} has another size than in the library")


@lru_cache(maxsize=None)
def load() -> Library:
    """Loads the library once, and returns it."""
    path = _find()
    try:
        shared = c.PyDLL(path)
    except OSError as error:
        message = f"{error}: build it with 'c/build PREFIX' and set GEOSTATION_PREFIX"
        raise ImportError(message) from None
    try:
        check_abi(shared)
        return Library(shared)
    except AttributeError as error:
        raise ImportError(f"{path} is not the libgeostation of this package: {error}") from None


def fault_of(struct: Any) -> Fault:
    """Returns the fault in a reception or a packet."""
    return Fault(struct.fault, struct.fault_kind, struct.fault_at)
