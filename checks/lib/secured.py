"""Signed messages (IEEE 1609.2) and secured GeoNetworking frames, made by nothing of the stack.

The messages are encoded by their grammar, in the canonical octet encoding rules (ITU-T X.696). The
types below are those of the ASN.1 modules of IEEE 1609.2. No message is put together from octets.
Signatures are ECDSA on NIST P-256. A private key here is a number that anybody can read.
"""

from __future__ import annotations

import hashlib
import struct
from dataclasses import dataclass
from typing import Any

from cryptography.exceptions import InvalidSignature
from cryptography.hazmat.primitives import hashes, serialization
from cryptography.hazmat.primitives.asymmetric import ec, utils

# ---- the encoding rules


def number(value: int) -> bytes:
    """The octets of a number of any size, at least one."""
    return value.to_bytes(max(1, (value.bit_length() + 7) // 8), "big")


def counted(octets: bytes) -> bytes:
    """Octets after their length, which has its shortest form."""
    count = len(octets)
    head = bytes([count]) if count < 0x80 else bytes([0x80 | len(number(count))]) + number(count)
    return head + octets


def bits(flags: list[bool]) -> bytes:
    """Flags from the highest bit on, filled up with zeros to whole octets."""
    text = "".join("01"[flag] for flag in flags)
    text += "0" * (-len(text) % 8)
    return int(text, 2).to_bytes(len(text) // 8, "big")


class Unsigned:
    """INTEGER with a range that fits so many octets."""

    def __init__(self, size: int):
        self.size = size

    def encode(self, value: int) -> bytes:
        return value.to_bytes(self.size, "big")


class Signed32:
    """INTEGER with a range that fits four octets with a sign."""

    def encode(self, value: int) -> bytes:
        return struct.pack(">i", value)


class Whole:
    """INTEGER (0..MAX)."""

    def encode(self, value: int) -> bytes:
        return counted(number(value))


class Octets:
    """OCTET STRING, of this size or of any."""

    def __init__(self, size: int | None = None):
        self.size = size

    def encode(self, value: bytes) -> bytes:
        if self.size is None:
            return counted(value)
        assert len(value) == self.size, (self.size, value)
        return value


class Enumerated:
    """ENUMERATED with values below 128."""

    def encode(self, value: int) -> bytes:
        return bytes([value])


class Null:
    def encode(self, _: None) -> bytes:
        return b""


class SequenceOf:
    def __init__(self, item):
        self.item = item

    def encode(self, values: list) -> bytes:
        return Whole().encode(len(values)) + b"".join(map(self.item.encode, values))


class Choice:
    """CHOICE: a value is the name of an alternative and its value. Extensions have a length."""

    def __init__(self, alternatives: dict, extensions: dict | None = None):
        self.alternatives, self.extensions = alternatives, extensions or {}

    def encode(self, value: tuple[str, Any]) -> bytes:
        name, inner = value
        tag = bytes([0x80 | [*self.alternatives, *self.extensions].index(name)])
        if name in self.alternatives:
            return tag + self.alternatives[name].encode(inner)
        return tag + counted(self.extensions[name].encode(inner))


class Sequence:
    """SEQUENCE: a value is a dictionary. `optional` names the fields that may be absent. A type
    without an extension marker has None as its `extensions`."""

    def __init__(self, fields: dict, optional: tuple = (), extensions: dict | None = None):
        self.fields, self.optional, self.extensions = fields, optional, extensions

    def encode(self, value: dict) -> bytes:
        more = self.extensions or {}
        there = [name in value for name in more]
        flags = [any(there)] if self.extensions is not None else []
        flags += [name in value for name in self.fields if name in self.optional]
        assert not value.keys() - self.fields.keys() - more.keys(), value
        octets = bits(flags) if flags else b""
        for name, form in self.fields.items():
            if name in value or name not in self.optional:
                octets += form.encode(value[name])
        if any(there):
            octets += counted(bytes([-len(there) % 8]) + bits(there))
            added = (form.encode(value[name]) for name, form in more.items() if name in value)
            octets += b"".join(map(counted, added))
        return octets


class Named:
    """A type that is defined further down."""

    def __init__(self, name: str):
        self.name = name

    def encode(self, value: Any) -> bytes:
        return globals()[self.name].encode(value)


# ---- the types of IEEE 1609.2

POINT = Choice(
    {
        "x-only": Octets(32),
        "fill": Null(),
        "compressed-y-0": Octets(32),
        "compressed-y-1": Octets(32),
        "uncompressed": Sequence({"x": Octets(32), "y": Octets(32)}),
    }
)
SIGNATURE = Choice({"ecdsaNistP256": Sequence({"rSig": POINT, "sSig": Octets(32)})})
VERIFICATION_KEY = Choice({"ecdsaNistP256": POINT})
PUBLIC_KEY = Sequence(
    {"supportedSymmAlg": Enumerated(), "publicKey": Choice({"eciesNistP256": POINT})}
)
ENCRYPTION_KEY = Choice({"public": PUBLIC_KEY, "symmetric": Choice({"aes128Ccm": Octets(16)})})
DURATION = Choice(
    dict.fromkeys(
        ["microseconds", "milliseconds", "seconds", "minutes", "hours", "sixtyHours", "years"],
        Unsigned(2),
    )
)
PSID_SSP = Sequence({"psid": Whole(), "ssp": Choice({"opaque": Octets()})}, optional=("ssp",))
CERTIFICATE_CONTENT = Sequence(
    {
        "id": Choice(
            {"linkageData": Null(), "name": Octets(), "binaryId": Octets(), "none": Null()}
        ),
        "cracaId": Octets(3),
        "crlSeries": Unsigned(2),
        "validityPeriod": Sequence({"start": Unsigned(4), "duration": DURATION}),
        "region": Null(),
        "assuranceLevel": Octets(1),
        "appPermissions": SequenceOf(PSID_SSP),
        "certIssuePermissions": Null(),
        "certRequestPermissions": Null(),
        "canRequestRollover": Null(),
        "encryptionKey": PUBLIC_KEY,
        "verifyKeyIndicator": Choice({"verificationKey": VERIFICATION_KEY}),
    },
    optional=(
        "region",
        "assuranceLevel",
        "appPermissions",
        "certIssuePermissions",
        "certRequestPermissions",
        "canRequestRollover",
        "encryptionKey",
    ),
    extensions={},
)
CERTIFICATE = Sequence(
    {
        "version": Unsigned(1),
        "type": Enumerated(),
        "issuer": Choice({"sha256AndDigest": Octets(8), "self": Enumerated()}),
        "toBeSigned": CERTIFICATE_CONTENT,
        "signature": SIGNATURE,
    },
    optional=("signature",),
)
LOCATION = Sequence({"latitude": Signed32(), "longitude": Signed32(), "elevation": Unsigned(2)})
MISSING_CRL = Sequence({"cracaId": Octets(3), "crlSeries": Unsigned(2)}, extensions={})
HEADER_INFO = Sequence(
    {
        "psid": Whole(),
        "generationTime": Unsigned(8),
        "expiryTime": Unsigned(8),
        "generationLocation": LOCATION,
        "p2pcdLearningRequest": Octets(3),
        "missingCrlIdentifier": MISSING_CRL,
        "encryptionKey": ENCRYPTION_KEY,
    },
    optional=(
        "generationTime",
        "expiryTime",
        "generationLocation",
        "p2pcdLearningRequest",
        "missingCrlIdentifier",
        "encryptionKey",
    ),
    extensions={
        "inlineP2pcdRequest": SequenceOf(Octets(3)),
        "requestedCertificate": CERTIFICATE,
    },
)
PAYLOAD = Sequence(
    {"data": Named("DATA"), "extDataHash": Choice({"sha256HashedData": Octets(32)})},
    optional=("data", "extDataHash"),
    extensions={},
)
TO_BE_SIGNED = Sequence({"payload": PAYLOAD, "headerInfo": HEADER_INFO})
SIGNER = Choice({"digest": Octets(8), "certificate": SequenceOf(CERTIFICATE), "self": Null()})
SIGNED_DATA = Sequence(
    {
        "hashId": Enumerated(),
        "tbsData": TO_BE_SIGNED,
        "signer": SIGNER,
        "signature": SIGNATURE,
    }
)
DATA = Sequence(
    {
        "protocolVersion": Unsigned(1),
        "content": Choice(
            {
                "unsecuredData": Octets(),
                "signedData": SIGNED_DATA,
                "encryptedData": Octets(),
                "signedCertificateRequest": Octets(),
            }
        ),
    }
)

# ---- keys and messages

SHA256, VERSION = 0, 3
# How long a signature of P-256 is with its tags: the last octets of a message.
SIGNATURE_LENGTH = 66


def sha256(octets: bytes) -> bytes:
    return hashlib.sha256(octets).digest()


class Key:
    """A key pair on NIST P-256, from a number."""

    def __init__(self, secret: int):
        self.private = ec.derive_private_key(secret, ec.SECP256R1())
        self.public = self.private.public_key()
        form = serialization.PublicFormat.CompressedPoint
        self.compressed = self.public.public_bytes(serialization.Encoding.X962, form)

    def digest(self) -> bytes:
        """What names the key where there is no certificate."""
        return sha256(self.compressed)[-8:]

    def certificate(self) -> dict:
        """A certificate that signs for the PSIDs of the samples, by no authority."""
        point = f"compressed-y-{self.compressed[0] & 1}", self.compressed[1:]
        content = {
            "id": ("none", None),
            "cracaId": bytes(3),
            "crlSeries": 0,
            "validityPeriod": {"start": 0, "duration": ("years", 1)},
            "appPermissions": [{"psid": 36, "ssp": ("opaque", b"\1\xff\xfc")}, {"psid": 37}],
            "verifyKeyIndicator": ("verificationKey", ("ecdsaNistP256", point)),
        }
        return {"version": 3, "type": 0, "issuer": ("self", 0), "toBeSigned": content}

    def sign(self, hashed: bytes) -> tuple[str, dict]:
        """The signature of a hash, as the grammar has it."""
        made = self.private.sign(hashed, ec.ECDSA(utils.Prehashed(hashes.SHA256())))
        r, s = (value.to_bytes(32, "big") for value in utils.decode_dss_signature(made))
        return "ecdsaNistP256", {"rSig": ("x-only", r), "sSig": s}

    def is_signature(self, octets: bytes, hashed: bytes) -> bool:
        """Whether the last octets of a message are a signature of this hash by this key."""
        r, s = (int.from_bytes(part, "big") for part in (octets[2:34], octets[34:]))
        made = utils.encode_dss_signature(r, s)
        try:
            self.public.verify(made, hashed, ec.ECDSA(utils.Prehashed(hashes.SHA256())))
        except InvalidSignature:
            return False
        return octets[:2] == b"\x80\x80"


def unsecured(plain: bytes) -> bytes:
    """A message of unsecured data."""
    return DATA.encode({"protocolVersion": VERSION, "content": ("unsecuredData", plain)})


@dataclass
class Message:
    """A signed message: what is signed, and by whom. `payload` replaces the payload's fields."""

    plain: bytes
    psid: int
    time: int | None = None
    key: Key = Key(1)
    signer: str = "digest"
    header: dict | None = None
    payload: dict | None = None

    def signed_part(self) -> dict:
        inner = {"protocolVersion": VERSION, "content": ("unsecuredData", self.plain)}
        header = {"psid": self.psid, **(self.header or {})}
        if self.time is not None:
            header["generationTime"] = self.time
        return {"payload": self.payload or {"data": inner}, "headerInfo": header}

    def hashed(self) -> bytes:
        """What the signature is of: the signed part, and the signer's certificate if it has one."""
        signer = b"" if self.signer != "certificate" else CERTIFICATE.encode(self.key.certificate())
        return sha256(sha256(TO_BE_SIGNED.encode(self.signed_part())) + sha256(signer))

    def signer_value(self) -> tuple[str, Any]:
        values = {"digest": self.key.digest(), "certificate": [self.key.certificate()]}
        return self.signer, values.get(self.signer)

    def encode(self) -> bytes:
        signed = {
            "hashId": SHA256,
            "tbsData": self.signed_part(),
            "signer": self.signer_value(),
            "signature": self.key.sign(self.hashed()),
        }
        return DATA.encode({"protocolVersion": VERSION, "content": ("signedData", signed)})


# ---- frames

LINK, BASIC = 14, 4


def plain_part(frame: bytes) -> bytes:
    """What is signed of an unsecured frame: all that follows its Basic Header."""
    return frame[LINK + BASIC :]


def secured(frame: bytes, message: bytes) -> bytes:
    """The secured frame of an unsecured one: next header 2, and the message for the plain part."""
    return frame[:LINK] + b"\x12" + frame[LINK + 1 : LINK + BASIC] + message


def message_of(frame: bytes) -> bytes:
    """The message of a secured frame."""
    return frame[LINK + BASIC :]
