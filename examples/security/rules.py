"""What the entity signs and accepts: keys, application identifiers (PSID), and times."""

import hashlib
import json
import time

from cryptography.exceptions import InvalidSignature
from cryptography.hazmat.primitives import hashes, serialization
from cryptography.hazmat.primitives.asymmetric import ec, utils

import message
from message import Unreadable

# The PSID of each destination port (BTP-B), and that of beacons.
PSIDS = {2001: 36, 2002: 37, 2003: 138, 2004: 137, 2006: 139, 2007: 140, 2009: 639}
BEACON_PSID = 141
# A message is accepted if it was generated at most so many microseconds before or after now.
WINDOW = 500_000

# 2004-01-01T00:00:00Z in seconds since 1970. TAI was 32 s ahead of UTC then, and is 37 s ahead now.
EPOCH, AHEAD = 1_072_915_200, 5

# Where the destination port is in a plain part, by header type. The Common Header has 8 octets.
PORT_AT = {3: 8 + 44, 4: 8 + 44, 5: 8 + 28}
BEACON = 1
ALGORITHM = ec.ECDSA(utils.Prehashed(hashes.SHA256()))


class Refused(Exception):
    """The entity does not sign or accept this."""


def now() -> int:
    """Microseconds of TAI since 2004-01-01."""
    return time.time_ns() // 1000 + (AHEAD - EPOCH) * 1_000_000


def sha256(octets: bytes) -> bytes:
    return hashlib.sha256(octets).digest()


def digest_of(public) -> bytes:
    """The name of a key: the last 8 octets of the SHA-256 of its compressed point."""
    form = serialization.PublicFormat.CompressedPoint
    return sha256(public.public_bytes(serialization.Encoding.X962, form))[-8:]


def hash_of(signed: bytes) -> bytes:
    """What is signed: the hash of the signed part, and that of no certificate, hashed together."""
    return sha256(sha256(signed) + sha256(b""))


def port_of(plain: bytes) -> int | None:
    """The destination port in a plain part, or None for a beacon."""
    header_type = plain[1] >> 4 if len(plain) > 1 else None
    if header_type == BEACON:
        return None
    at = PORT_AT.get(header_type)
    if at is None or len(plain) < at + 2:
        raise Refused("the plain part has no port")
    return int.from_bytes(plain[at : at + 2], "big")


def psid_of(plain: bytes) -> int:
    """The PSID that belongs to a plain part, by the port that is in it."""
    port = port_of(plain)
    if port is None:
        return BEACON_PSID
    if port not in PSIDS:
        raise Refused(f"port {port} has no PSID")
    return PSIDS[port]


class Entity:
    """Signs with one key, and verifies with a list of trusted ones. `clock` returns the time."""

    def __init__(self, private, trusted, clock=now):
        self.private, self.clock = private, clock
        self.digest = digest_of(private.public_key())
        self.trusted = {digest_of(key): key for key in trusted}
        self.last = 0  # the generation time of the last message that was signed
        self.seen = {digest: set() for digest in self.trusted}  # accepted generation times

    def sign(self, plain: bytes, port: int | None) -> bytes:
        """Signs a plain part for this port into a message. A beacon has no port."""
        if port_of(plain) != port:
            raise Refused("the port is not that of the plain part")
        psid = psid_of(plain)
        self.last = max(self.clock(), self.last + 1)  # no two messages have one time
        signed = message.write_signed_part(plain, psid, self.last)
        made = self.private.sign(hash_of(signed), ALGORITHM)
        return message.write_message(signed, self.digest, *utils.decode_dss_signature(made))

    def verify(self, octets: bytes) -> message.Message:
        """Reads a message and checks all that has to be checked. The signature comes last but for
        the note of its time: a message that nobody signed must not use up a time."""
        found = message.read_message(octets)
        if found.digest not in self.trusted:
            raise Refused("the signer is unknown")
        if found.psid != psid_of(found.plain):
            raise Refused("the PSID is not that of the port")
        self.check_time(found)
        signature = utils.encode_dss_signature(found.r, found.s)
        try:
            self.trusted[found.digest].verify(signature, hash_of(found.signed), ALGORITHM)
        except InvalidSignature:
            raise Refused("the signature is wrong") from None
        self.seen[found.digest].add(found.generated)
        return found

    def check_time(self, found: message.Message) -> None:
        """Refuses old, early and repeated messages. Times that are too old need no note."""
        oldest = self.clock() - WINDOW
        if not oldest <= found.generated <= oldest + 2 * WINDOW:
            raise Refused("the generation time is more than 500 ms away")
        seen = self.seen[found.digest]
        if found.generated in seen:
            raise Refused("the generation time was seen before")
        seen -= {noted for noted in seen if noted < oldest}

    def answer(self, datagram: bytes) -> bytes | None:
        """The answer to a datagram, or None if it has no id to answer to."""
        try:
            request = json.loads(datagram)
            number = request["id"]
        except (ValueError, TypeError, KeyError):
            return None
        try:
            result = self.execute(request)
        except (Refused, Unreadable) as why:
            result = {"error": str(why)}
        except (KeyError, TypeError, ValueError):
            result = {"error": "not a request"}
        return json.dumps({"id": number, **result}, separators=(",", ":")).encode()

    def execute(self, request: dict) -> dict:
        if request["do"] == "sign":
            made = self.sign(bytes.fromhex(request["plain"]), request.get("port"))
            return {"message": made.hex()}
        if request["do"] == "verify":
            found = self.verify(bytes.fromhex(request["message"]))
            return {"plain": found.plain.hex(), "psid": found.psid, "generated": found.generated}
        raise Refused("not a request")
