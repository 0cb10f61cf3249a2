"""A station that sends and accepts secured packets only, and ones with a mistake in that.

Its messages are those of examples/security. `entity` is set before the station is used.
"""

from __future__ import annotations

from message import Unreadable, read_message
from rules import Entity, Refused, now as entity_time
from standard.faults import HopsKept
from standard.packets import BROADCAST, LINK, Packet
from standard.station import Outcome, Station

UNSECURED, SECURED = 0x11, 0x12  # the first octet of a packet
BODY_AT = LINK + 4  # of a frame: the message, or the plain part
LONG_AGO = 10_000_000  # microseconds


def with_body(frame: bytes, first: int, body: bytes) -> bytes:
    """The frame with another first octet of its packet, and another body."""
    return frame[:LINK] + bytes([first]) + frame[LINK + 1 : BODY_AT] + body


class SecuredStation(Station):
    """Sends and accepts secured packets only."""

    entity: Entity

    def plain_of(self, message: bytes) -> bytes:
        """The plain part of a good message."""
        return self.entity.verify(message).plain

    def receive(self, now: int, frame: bytes) -> Outcome:
        if frame[LINK] != SECURED:
            return self.receive_unsecured(now, frame)
        message = frame[BODY_AT:]
        try:
            plain = self.plain_of(message)
        except (Refused, Unreadable) as why:
            return self.receive_refused(now, frame, str(why))
        outcome = super().receive(now, with_body(frame, UNSECURED, plain))
        found = outcome.forwarded and self.relayed(outcome.forwarded, message)
        return outcome._replace(forwarded=found)

    def receive_unsecured(self, now: int, frame: bytes) -> Outcome:
        return Outcome("rejected", "CAP-3: unsecured")

    def receive_refused(self, now: int, frame: bytes, why: str) -> Outcome:
        return Outcome("rejected", why)

    def relayed(self, frame: bytes, message: bytes) -> bytes:
        """What is forwarded of a message, by the frame with its plain part."""
        return with_body(frame, SECURED, message)

    def sent(self, now: int, packet: Packet, target: bytes = BROADCAST) -> bytes:
        frame = super().sent(now, packet, target)
        return with_body(frame, SECURED, self.entity.sign(frame[BODY_AT:], packet.port))


class SignatureIgnored(SecuredStation):
    """the signature of a known key is not verified."""

    def plain_of(self, message: bytes) -> bytes:
        found = read_message(message)
        return found.plain if found.digest in self.entity.trusted else super().plain_of(message)


class AnyKey(SecuredStation):
    """a message by an unknown key is accepted."""

    def plain_of(self, message: bytes) -> bytes:
        found = read_message(message)
        return super().plain_of(message) if found.digest in self.entity.trusted else found.plain


class UnsecuredTaken(SecuredStation):
    """an unsecured packet is accepted."""

    def receive_unsecured(self, now: int, frame: bytes) -> Outcome:
        return Station.receive(self, now, frame)


class LearnsUnsecured(SecuredStation):
    """the source of an unsecured packet becomes a neighbour."""

    def receive_unsecured(self, now: int, frame: bytes) -> Outcome:
        return Station.receive(self, now, frame)._replace(forwarded=None, delivered=None)


class LearnsRefused(SecuredStation):
    """the source of a message that is refused becomes a neighbour."""

    def receive_refused(self, now: int, frame: bytes, why: str) -> Outcome:
        plain = read_message(frame[BODY_AT:]).plain
        outcome = Station.receive(self, now, with_body(frame, UNSECURED, plain))
        return outcome._replace(forwarded=None, delivered=None)


class DeliversRefused(SecuredStation):
    """a message that is refused is delivered."""

    def receive_refused(self, now: int, frame: bytes, why: str) -> Outcome:
        plain = read_message(frame[BODY_AT:]).plain
        outcome = Station.receive(self, now, with_body(frame, UNSECURED, plain))
        return outcome._replace(forwarded=None)


class SignatureChanged(SecuredStation):
    """an octet of a forwarded signature is changed."""

    def relayed(self, frame: bytes, message: bytes) -> bytes:
        return super().relayed(frame, message[:-1] + bytes([message[-1] ^ 1]))


class SignedAgain(SecuredStation):
    """a forwarded packet is signed by the station's own key."""

    def relayed(self, frame: bytes, message: bytes) -> bytes:
        found = read_message(message)
        port = int.from_bytes(found.plain[52:54], "big")
        return super().relayed(frame, self.entity.sign(found.plain, port))


class Stripped(SecuredStation):
    """a signed packet is forwarded unsecured."""

    def relayed(self, frame: bytes, message: bytes) -> bytes:
        return frame


class SecuredHopsKept(HopsKept, SecuredStation):
    """hops of a signed packet not decremented."""


class BeaconUnsecured(SecuredStation):
    """beacons are not secured."""

    def sent(self, now: int, packet: Packet, target: bytes = BROADCAST) -> bytes:
        kind = Station if packet.kind == "beacon" else SecuredStation
        return kind.sent(self, now, packet, target)


class ShbUnsecured(SecuredStation):
    """an SHB is not secured."""

    def sent(self, now: int, packet: Packet, target: bytes = BROADCAST) -> bytes:
        kind = Station if packet.kind == "shb" else SecuredStation
        return kind.sent(self, now, packet, target)


class SignedLongAgo(SecuredStation):
    """own messages have a generation time of 10 s ago."""

    def sent(self, now: int, packet: Packet, target: bytes = BROADCAST) -> bytes:
        self.entity.clock = lambda: entity_time() - LONG_AGO
        return super().sent(now, packet, target)
