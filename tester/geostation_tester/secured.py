"""Secured packets: a Basic Header that announces a message of IEEE 1609.2 (9.4, TS 103 097).

The tester has no cryptography. It reads only the plain part of a message: what follows the Basic
Header of an unsecured packet. The forms are those of docs/formats/capture.md.
"""

from __future__ import annotations

from .frames import BASIC, LINK

SECURED = 0x12  # version 1, and a secured packet follows
BASIC_LENGTH = 4  # octets of the Basic Header
UNSECURED_DATA, SIGNED_DATA = bytes.fromhex("0380"), bytes.fromhex("0381")
SIGNED_PAYLOAD = bytes.fromhex("400380")  # after the hash algorithm


def is_secured(frame: bytes) -> bool:
    return frame[LINK : LINK + 1] == bytes([SECURED])


def plain_part(packet: bytes) -> bytes:
    """What is signed of an unsecured packet."""
    return packet[BASIC_LENGTH:]


def secured_with(packet: bytes, message: bytes) -> bytes:
    """The secured packet: the message replaces the plain part."""
    return bytes([SECURED]) + packet[1:BASIC_LENGTH] + message


def after_length(octets: bytes) -> bytes | None:
    """The octets after their length: one octet below 80, or 81 and one, or 82 and two. None if
    some are missing."""
    head = octets[:1]
    size = 0 if head < b"\x80" else {b"\x81": 1, b"\x82": 2}.get(head)
    if not head or size is None:
        return None
    at = 1 + size
    count = int.from_bytes(octets[1:at], "big") if size else head[0]
    found = octets[at : at + count]
    return found if len(found) == count else None


def message_in(frame: bytes) -> bytes:
    """What follows the Basic Header of a secured frame."""
    return frame[LINK + BASIC_LENGTH :]


def plain_in(message: bytes) -> bytes | None:
    """The plain part in a message. None if it is of another form, or cut."""
    if message[:2] == UNSECURED_DATA:
        return after_length(message[2:])
    if message[:2] == SIGNED_DATA and message[3:6] == SIGNED_PAYLOAD:
        return after_length(message[6:])
    return None


def opened(frame: bytes) -> bytes:
    """A secured frame as it would be unsecured. Any other frame, and one whose message can't be
    read, is returned as it is."""
    plain = plain_in(message_in(frame)) if is_secured(frame) else None
    if plain is None:
        return frame
    return frame[:LINK] + bytes([BASIC]) + frame[LINK + 1 : LINK + BASIC_LENGTH] + plain
