"""Frames as EN 302 636-4-1 and EN 302 636-5-1 lay them out, made by nothing of the stack."""

import struct

LAT, LON = 514776500, -10000
CIRCLE = {"shape": "circle", "alat": LAT, "alon": LON, "a": 500, "b": 0, "angle": 0}
GBC = {"do": "gbc", "port": 2002, "info": 0, "tc": 2, "lt": 41, "hops": 10, **CIRCLE}
BEACON_LENGTH = 50


def mid_of(address):
    return (address & (1 << 48) - 1).to_bytes(6, "big")


def link(address, target=b"\xff" * 6):
    return target + mid_of(address) + b"\x89\x47"


def vector(address, stamp):
    return struct.pack(">QIiihH", address, stamp & 0xFFFFFFFF, LAT, LON, -32768, 0)


def headers(kind, hops, length, traffic_class=0):
    """Basic header (version 1, common header next) and common header (BTP-B next, or nothing)."""
    basic = bytes([0x11, 0, 0x1A, hops])
    following = 0 if kind == 0x10 else 0x20
    return basic + struct.pack(">BBBBHBB", following, kind, traffic_class, 0x80, length, hops, 0)


def beacon(address, stamp):
    return link(address) + headers(0x10, 1, 0) + vector(address, stamp)


def btp(port, payload):
    return struct.pack(">HH", port, 0) + payload


def shb(address, stamp, port, payload):
    body = btp(port, payload)
    return link(address) + headers(0x50, 1, len(body)) + vector(address, stamp) + bytes(4) + body


def gbc(address, stamp, number, payload, port=2002, lat=LAT):
    """For a circle of 500 m around a place."""
    body = btp(port, payload)
    area = struct.pack(">iiHHHH", lat, LON, 500, 0, 0, 0)
    extended = struct.pack(">HH", number & 0xFFFF, 0) + vector(address, stamp) + area
    return link(address) + headers(0x40, 10, len(body)) + extended + body


def kind_of(frame):
    return {0x1: "beacon", 0x5: "shb", 0x4: "gbc", 0x3: "gac"}.get(frame[19] >> 4)


def vector_of(frame):
    """Address, time stamp, latitude, longitude, speed and heading of a frame's source, and PAI."""
    at = 26 if kind_of(frame) in ("beacon", "shb") else 30
    address, stamp, lat, lon, pai_speed, heading = struct.unpack_from(">QIiiHH", frame, at)
    speed = (pai_speed & 0x7FFF) - (0x8000 if pai_speed & 0x4000 else 0)
    return {"address": address, "stamp": stamp, "lat": lat, "lon": lon, "speed": speed,
            "heading": heading, "pai": pai_speed >> 15}


def mobile_of(frame):
    return frame[21] >> 7
