"""Scapy layers for GeoNetworking and BTP-B. They need scapy; the rest of the package does not.

`GeoNetworking` is bound to EtherType 0x8947: of Ethernet, of a VLAN tag, of SNAP (IEEE 802.11,
radiotap) and of a Linux cooked capture. `BTPB` is bound to `GeoNetworking`. The Basic Header, the
Common Header and the extended header of EN 302 636-4-1 are one layer. Its last fields depend on the
packet type. A secured packet is read up to its Basic Header, and a packet of another type than beacon,
GAC, GBC and SHB up to its Common Header. The rest is `Raw`.

`fuzz` works as scapy's `fuzz`, but it keeps the fields that a receiver checks first. So more
packets get past these checks.
"""

from __future__ import annotations

from typing import Any, Callable, Iterable

from scapy.config import conf
from scapy.fields import (
    BitEnumField,
    BitField,
    ByteField,
    ConditionalField,
    IntField,
    LenField,
    ShortField,
    SignedIntField,
    XByteField,
    XIntField,
    XLongField,
)
from scapy.layers.l2 import SNAP, CookedLinux, Dot1AD, Dot1Q, Ether
from scapy.packet import Packet, bind_layers
from scapy.packet import fuzz as fuzz_all

BEACON, ANYCAST, BROADCAST, SINGLE_HOP = 1, 3, 4, 5
TYPES = {BEACON: "beacon", ANYCAST: "gac", BROADCAST: "gbc", SINGLE_HOP: "shb"}

# The next headers of a Basic Header that a Common Header follows: any, and a Common Header. Behind
# 2 comes the message of a secured packet, which is read no further.
ANY, COMMON = 0, 1


def _has_common(packet: Any) -> bool:
    return bool(packet.basic_next in (ANY, COMMON))


def _is_to_area(packet: Any) -> bool:
    return bool(_has_common(packet) and packet.type in (ANYCAST, BROADCAST))


def _is_single_hop(packet: Any) -> bool:
    return bool(_has_common(packet) and packet.type == SINGLE_HOP and packet.subtype == 0)


def _is_known(packet: Any) -> bool:
    """Whether the extended header is one of those that the layer has."""
    if _is_to_area(packet) or _is_single_hop(packet):
        return True
    return bool(_has_common(packet) and packet.type == BEACON)


def _fields(condition: Callable[[Any], bool], *fields: Any) -> list[Any]:
    """Fields of packets of which this holds."""
    return [ConditionalField(field, condition) for field in fields]


class SignedBits(BitField):  # type: ignore[misc]
    """A signed bit field in two's complement."""

    def m2i(self, pkt: Any, x: Any) -> Any:
        return x - (1 << self.size) if x >> (self.size - 1) else x

    def i2m(self, pkt: Any, x: Any) -> Any:
        return (x or 0) & ((1 << self.size) - 1)

    def getfield(self, pkt: Any, s: Any) -> Any:
        rest, value = super().getfield(pkt, s)
        return rest, self.m2i(pkt, value) if value >= 0 else value

    def addfield(self, pkt: Any, s: Any, val: Any) -> Any:
        return super().addfield(pkt, s, self.i2m(pkt, val))


class GeoNetworking(Packet):  # type: ignore[misc]
    """The headers of a GeoNetworking packet. What follows the Basic Header of a secured packet is its
    payload, and so is what follows the Common Header of another type than `TYPES` names."""

    name = "GeoNetworking"
    fields_desc = [
        BitField("version", 1, 4),
        BitField("basic_next", COMMON, 4),
        XByteField("reserved", 0),
        XByteField("lifetime", 0x1A),
        ByteField("hops_left", 1),
        *_fields(
            _has_common,
            BitField("next_header", 2, 4),
            BitField("common_reserved", 0, 4),
            BitEnumField("type", SINGLE_HOP, 4, TYPES),
            BitField("subtype", 0, 4),
            XByteField("traffic_class", 0),
            BitField("mobile", 1, 1),
            BitField("flags", 0, 7),
            LenField("length", None),
            ByteField("max_hops", 1),
            XByteField("common_reserved_2", 0),
        ),
        *_fields(_is_to_area, ShortField("number", 0), ShortField("number_reserved", 0)),
        *_fields(
            _is_known,
            XLongField("address", 0),
            IntField("timestamp", 0),
            SignedIntField("latitude", 0),
            SignedIntField("longitude", 0),
            BitField("accurate", 0, 1),
            SignedBits("speed", 0, 15),
            ShortField("heading", 0),
        ),
        *_fields(_is_single_hop, XIntField("media", 0)),
        *_fields(
            _is_to_area,
            SignedIntField("area_latitude", 0),
            SignedIntField("area_longitude", 0),
            ShortField("a", 0),
            ShortField("b", 0),
            ShortField("angle", 0),
            ShortField("area_reserved", 0),
        ),
    ]

    def extract_padding(self, s: bytes) -> Any:
        """Splits what follows into the payload, by the length field, and Ethernet padding. The length
        of what is not read is not known."""
        if not _is_known(self):
            return s, None
        return s[: self.length], s[self.length :]

    def guess_payload_class(self, payload: bytes) -> Any:
        """Nothing is read behind a header that is not."""
        if not _is_known(self):
            return conf.raw_layer
        return super().guess_payload_class(payload)


class BTPB(Packet):  # type: ignore[misc]
    """The BTP-B header (EN 302 636-5-1): destination port and destination port info."""

    name = "BTP-B"
    fields_desc = [ShortField("port", 0), ShortField("info", 0)]


# A receiver that finds an unexpected value in one of these fields reads no further.
LEADING = (
    "version",
    "basic_next",
    "reserved",
    "next_header",
    "common_reserved",
    "type",
    "subtype",
    "flags",
    "common_reserved_2",
    "number_reserved",
    "area_reserved",
)


def fuzz(packet: Any, keep: Iterable[str] = LEADING) -> Any:
    """Returns a copy of a packet whose unset fields are random, as scapy's `fuzz` does.

    Args:
        packet: The packet.
        keep: Fields of `GeoNetworking` that keep their default values.
    """
    fuzzed = fuzz_all(packet)
    layer = fuzzed.getlayer(GeoNetworking)
    if layer is not None:
        for name in keep:
            layer.default_fields[name] = layer.get_field(name).default
    return fuzzed


bind_layers(Ether, GeoNetworking, type=0x8947)
bind_layers(Dot1Q, GeoNetworking, type=0x8947)
bind_layers(Dot1AD, GeoNetworking, type=0x8947)
bind_layers(SNAP, GeoNetworking, OUI=0, code=0x8947)
bind_layers(CookedLinux, GeoNetworking, proto=0x8947)
bind_layers(GeoNetworking, BTPB, next_header=2)
