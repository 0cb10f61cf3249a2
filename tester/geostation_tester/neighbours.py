"""The tester's own stations, and the frames that they send."""

from __future__ import annotations

import struct
from collections.abc import Mapping
from typing import NamedTuple

from .areas import moved
from .frames import BROADCAST, HOPS_IN_PACKET, TYPES, Hops, Key, Vector, btp, headers, link
from .actions import UNSIGNED, Action, Fields, Neighbour
from .entity import Entity
from .secured import plain_part, secured_with
from .station_file import StationFile

STAMPS = 1 << 32


class Packet(NamedTuple):
    """The octets of a packet, and the key of one for an area."""

    octets: bytes
    key: Key | None


class Played:
    """A neighbour, from its first frame on."""

    def __init__(
        self,
        neighbour: Neighbour,
        station: StationFile,
        made: dict[str, Packet],
        signers: Mapping[str, Entity],
    ):
        """`made` has the last packet of each action that has a name, of all neighbours. `signers`
        has who signs, by the word of an action."""
        self.neighbour, self.station, self.made = neighbour, station, made
        self.signers = signers
        self.address = neighbour.type << 58 | int.from_bytes(neighbour.mac, "big")
        self.number = 0  # of the next packet for an area

    def vector(self, now: int, fields: Fields) -> Vector:
        """Its position, with a time stamp of now, unless the action says otherwise."""
        n = self.neighbour
        north = n.north if fields.north is None else fields.north
        east = n.east if fields.east is None else fields.east
        stamp = now % STAMPS if fields.stamp is None else fields.stamp
        pai = n.pai if fields.pai is None else fields.pai
        place = moved(self.station.place, north, east)
        return Vector(self.source(fields), stamp, place, pai)

    def source(self, fields: Fields) -> int:
        if fields.source == "station":
            return self.station.source
        return self.address

    def take_number(self, fields: Fields) -> int:
        number = self.number if fields.number is None else fields.number
        self.number = (number + 1) % (1 << 16)
        return number

    def to_area(self, now: int, action: Action) -> Packet:
        fields, number = action.fields, self.take_number(action.fields)
        extended = struct.pack(">HH", number, 0) + self.vector(now, fields).encode()
        extended += action.area.encode(self.station.place)
        left = fields.first_hops()
        hops = Hops(left, left if fields.max_hops is None else fields.max_hops)
        octets = self.packet(action, hops, extended, btp(action.port, action.payload))
        return Packet(octets, Key(self.source(fields), number))

    def single_hop(self, now: int, action: Action) -> Packet:
        extended = self.vector(now, action.fields).encode()
        if action.do == "beacon":
            return Packet(self.packet(action, Hops(1, 1), extended, b""), None)
        body = btp(action.port, action.payload)
        return Packet(self.packet(action, Hops(1, 1), extended + bytes(4), body), None)

    def packet(self, action: Action, hops: Hops, extended: bytes, body: bytes) -> bytes:
        fields = action.fields
        kind = TYPES[action.do] | (action.area.shape if action.area else 0)
        head = headers(kind, len(body), hops, fields.lifetime, fields.traffic_class)
        return damaged(self.signed(action, head + extended + body), fields)

    def signed(self, action: Action, packet: bytes) -> bytes:
        """The packet, secured if the action says by whom it is signed."""
        if action.fields.signed == UNSIGNED:
            return packet
        signer = self.signers[action.fields.signed]
        return secured_with(packet, signer.sign(action.do, action.port, plain_part(packet)))

    def copy(self, action: Action) -> Packet:
        packet, hops = self.made[action.of], action.fields.hops
        if hops is None:
            return packet
        before, after = packet.octets[:HOPS_IN_PACKET], packet.octets[HOPS_IN_PACKET + 1 :]
        return Packet(before + bytes([hops]) + after, packet.key)

    def make(self, now: int, action: Action) -> Packet:
        if action.do == "copy":
            return self.copy(action)
        made = self.to_area if action.area is not None else self.single_hop
        packet = made(now, action)
        if action.name:
            self.made[action.name] = packet
        return packet

    def frame(
        self, now: int, action: Action, macs: dict[str, bytes]
    ) -> tuple[bytes, Key | None]:
        """The frame of an action, and its key. `macs` has the link address of each name."""
        if action.do == "raw":
            digits = action.frame.replace("MM", self.neighbour.mac.hex())
            return bytes.fromhex(digits.replace("SS", macs["station"].hex())), None
        fields = action.fields
        packet = self.make(now, action)
        sender = macs[fields.sender] if fields.sender else self.neighbour.mac
        to = BROADCAST if fields.to == "all" else macs[fields.to]
        return link(to, sender) + packet.octets, packet.key


def damaged(packet: bytes, fields: Fields) -> bytes:
    """A packet with one octet changed, or cut."""
    octets = bytearray(packet)
    if fields.octet is not None and -len(octets) <= fields.octet < len(octets):
        octets[fields.octet] ^= fields.xor
    return bytes(octets if fields.cut is None else octets[: fields.cut])
