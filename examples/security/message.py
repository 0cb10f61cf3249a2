"""Signed messages of IEEE 1609.2, in the one form that this entity writes.

A message has these parts, in octets:

    03 81            protocol version 3, signed data
    00               SHA-256
    40 03 80         a payload, in it unsecured data
    length, plain    the plain part; a length of 128 and more is 81 and one octet, or 82 and two
    40               header info with a generation time and no other optional field
    length, PSID
    time             8 octets: microseconds of TAI since 2004-01-01
    80 digest        the signer: the last 8 octets of the SHA-256 of its public key
    80 80 r s        an ECDSA signature on NIST P-256, two numbers of 32 octets

A real entity reads all forms, and certificates: that is the work of a library for IEEE 1609.2.
"""

from dataclasses import dataclass

DATA = bytes.fromhex("0381")
PAYLOAD = bytes.fromhex("00400380")
TIMED = b"\x40"
SIGNER = b"\x80"
SIGNATURE = bytes.fromhex("8080")
DIGEST_LENGTH, TIME_LENGTH, NUMBER_LENGTH = 8, 8, 32


class Unreadable(Exception):
    """The octets are not a message of this form."""


@dataclass(frozen=True)
class Message:
    plain: bytes
    psid: int
    generated: int  # microseconds of TAI since 2004-01-01
    digest: bytes
    signed: bytes  # the octets that are signed
    r: int
    s: int


def with_length(octets: bytes) -> bytes:
    """Octets behind their length."""
    count = len(octets)
    if count < 0x80:
        return bytes([count]) + octets
    size = (count.bit_length() + 7) // 8
    return bytes([0x80 | size]) + count.to_bytes(size, "big") + octets


def write_signed_part(plain: bytes, psid: int, generated: int) -> bytes:
    """The octets that are signed: payload and header info."""
    psid_octets = psid.to_bytes(max(1, (psid.bit_length() + 7) // 8), "big")
    header = TIMED + with_length(psid_octets) + generated.to_bytes(TIME_LENGTH, "big")
    return PAYLOAD[1:] + with_length(plain) + header


def write_message(signed: bytes, digest: bytes, r: int, s: int) -> bytes:
    """The whole message around a signed part."""
    numbers = (number.to_bytes(NUMBER_LENGTH, "big") for number in (r, s))
    return DATA + PAYLOAD[:1] + signed + SIGNER + digest + SIGNATURE + b"".join(numbers)


class Reader:
    """Takes octets from the front."""

    def __init__(self, octets: bytes):
        self.octets, self.at = octets, 0

    def take(self, count: int) -> bytes:
        found = self.octets[self.at : self.at + count]
        if len(found) != count:
            raise Unreadable("the message ends too early")
        self.at += count
        return found

    def expect(self, wanted: bytes, name: str) -> None:
        if self.take(len(wanted)) != wanted:
            raise Unreadable(f"not the only {name} that this entity reads")

    def take_with_length(self) -> bytes:
        first = self.take(1)[0]
        if first < 0x80:
            return self.take(first)
        if first not in (0x81, 0x82):
            raise Unreadable("a length in another form")
        return self.take(int.from_bytes(self.take(first & 0x7F), "big"))

    def take_number(self, count: int) -> int:
        return int.from_bytes(self.take(count), "big")


def read_message(octets: bytes) -> Message:
    """Reads a message, to its end. Raises Unreadable for any other octets."""
    reader = Reader(octets)
    reader.expect(DATA, "kind of data")
    start = reader.at + 1
    reader.expect(PAYLOAD, "hash algorithm and payload")
    plain = reader.take_with_length()
    reader.expect(TIMED, "header info")
    psid = int.from_bytes(reader.take_with_length(), "big")
    generated = reader.take_number(TIME_LENGTH)
    signed = octets[start : reader.at]
    reader.expect(SIGNER, "kind of signer")
    digest = reader.take(DIGEST_LENGTH)
    reader.expect(SIGNATURE, "kind of signature")
    r, s = (reader.take_number(NUMBER_LENGTH) for _ in range(2))
    if reader.at != len(octets):
        raise Unreadable("octets after the signature")
    return Message(plain, psid, generated, digest, signed, r, s)
