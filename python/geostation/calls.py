"""The methods that `Station` and `PipeStation` share. They check the arguments."""

from __future__ import annotations

from abc import ABC, abstractmethod
from threading import get_ident
from typing import Iterator, List, NoReturn, Optional, Tuple, TypeVar, Union

from .errors import BadArgument
from .values import NO_MEDIA, Area, Counts, Reception, Vector, place, whole

FRAME_MAX = 1468
"""The longest frame, in bytes."""
SECURED_FRAME_MAX = 2310
"""The longest secured frame, in bytes."""
ANSWER_MAX = 16384
"""The longest answer to a JSON request, in bytes."""
PAYLOAD_MAX = 1394
"""The longest payload that can be sent, in bytes."""
LAST_MOMENT = 1 << 62
"""The latest time that a call accepts, in ms."""

Address = Union[int, str]
Degrees = Optional[Tuple[float, float]]
Self = TypeVar("Self", bound="Calls")


def address_of(value: Address) -> int:
    """Returns a GN address as an int. Group addresses are rejected."""
    if isinstance(value, str):
        if len(value) != 16 or not all(digit in "0123456789abcdefABCDEF" for digit in value):
            raise BadArgument("address")
        value = int(value, 16)
    whole("address", value, 0, (1 << 64) - 1)
    if value >> 40 & 1:
        raise BadArgument("address")
    return value


def moment(now: int) -> int:
    """Returns a time after a check of its range. The station rejects one over `LAST_MOMENT`."""
    return whole("now", now, 0, (1 << 63) - 1)


def octets(name: str, value: bytes) -> bytes:
    """Returns `bytes` of a bytes-like object."""
    if isinstance(value, (str, int)):
        raise TypeError(f"{name} must be bytes, not {value!r}")
    return bytes(value)


def media_of(value: bytes) -> bytes:
    """Returns media-dependent data after a check of their length."""
    media = octets("media", value)
    if len(media) != len(NO_MEDIA):
        raise BadArgument("media")
    return media


def header_of(now: int, port: int, info: int, traffic_class: int) -> Tuple[int, int, int, int]:
    """Returns the arguments that all packets with a payload have, after a check of their ranges."""
    return (
        moment(now),
        whole("port", port, 0, 65535),
        whole("info", info, 0, 65535),
        whole("traffic_class", traffic_class, 0, 255),
    )


def single_hop(
    now: int, port: int, info: int, traffic_class: int, media: bytes, payload: bytes
) -> Tuple[int, int, int, int, bytes, bytes]:
    """Returns the arguments of a single-hop broadcast after a check of their ranges."""
    header = header_of(now, port, info, traffic_class)
    return (*header, media_of(media), octets("payload", payload))


class _Guard:
    """Allows one call at a time, and only from the thread that created it."""

    __slots__ = ("_owner", "_busy")

    def __init__(self) -> None:
        self._owner, self._busy = get_ident(), False

    def __enter__(self) -> None:
        if get_ident() != self._owner:
            raise RuntimeError("only the thread that created a station may use it")
        if self._busy:
            raise RuntimeError("a station is in one call at a time: this call is within another")
        self._busy = True

    def __exit__(self, *_: object) -> None:
        self._busy = False


class Calls(ABC):
    """The methods of a station.

    A call that fails raises an exception and leaves the station unchanged. All methods raise

    - `BadArgument` if an argument is out of its range, and `TypeError` if it has the wrong type,
    - `Refused` with `Status.MOMENT_EARLIER` or `Status.MOMENT_TOO_LATE` if `now` is earlier than in
      an earlier call, or later than `LAST_MOMENT` (`look_up` and `neighbours` then find nothing),
    - `RuntimeError` if another thread than the one that created the station calls it, or if a
      signal handler calls it within another call,
    - `ValueError` if the station was freed.

    A station is freed at the end of its `with` block, by `free()`, or when it is garbage-collected.
    It cannot be copied or pickled.
    """

    _calling: _Guard

    def __init__(
        self,
        address: Address,
        *,
        latitude: Optional[int] = None,
        longitude: Optional[int] = None,
        degrees: Degrees = None,
        capacity: int = 64,
        remember: int = 8,
    ):
        if "_calling" in self.__dict__:
            raise RuntimeError("a station is made once: __init__ was called again")
        self._calling = _Guard()
        self._make(
            address_of(address),
            *place(latitude, longitude, degrees),
            whole("capacity", capacity, 1, 4096),
            whole("remember", remember, 1, 64),
        )

    def __enter__(self: Self) -> Self:
        return self

    def __exit__(self, *_: object) -> None:
        self.free()

    def __reduce_ex__(self, _: object) -> NoReturn:
        raise TypeError("a station can't be copied or pickled")

    def free(self) -> None:
        """Frees the station. Later calls raise `ValueError`."""
        with self._calling:
            self._end()

    def move(
        self,
        now: int,
        *,
        latitude: Optional[int] = None,
        longitude: Optional[int] = None,
        degrees: Degrees = None,
        accurate: bool = True,
        speed: int = 0,
        heading: int = 0,
    ) -> None:
        """Sets the position of the station.

        Args:
            now: Time, in ms.
            latitude: In 0.1 microdegree, -900000000 to 900000000.
            longitude: In 0.1 microdegree, -1800000000 to 1800000000.
            degrees: Latitude and longitude in degrees, instead of these two.
            accurate: Position accuracy indicator (PAI).
            speed: In 0.01 m/s, -16384 to 16383; negative means backwards.
            heading: In 0.1 degree, clockwise from north, 0 to 65535.
        """
        with self._calling:
            self._move(
                moment(now),
                *place(latitude, longitude, degrees),
                bool(accurate),
                whole("speed", speed, -16384, 16383),
                whole("heading", heading, 0, 65535),
            )

    def open_port(self, now: int, port: int) -> None:
        """Opens a port. Payloads are delivered to open ports only.

        Args:
            now: Time, in ms.
            port: Destination port (BTP-B), 0 to 65535.

        Raises:
            Refused: The port is already open, or 64 ports are.
        """
        with self._calling:
            self._open_port(moment(now), whole("port", port, 0, 65535))

    def close_port(self, now: int, port: int) -> None:
        """Closes a port.

        Args:
            now: Time, in ms.
            port: Destination port (BTP-B), 0 to 65535.

        Raises:
            Refused: The port is not open.
        """
        with self._calling:
            self._close_port(moment(now), whole("port", port, 0, 65535))

    def restart(self, now: int, number: int) -> None:
        """Restarts the station: empties its location table and closes its ports.

        Args:
            now: Time, in ms.
            number: Sequence number of the next packet for an area, 0 to 65535.
        """
        with self._calling:
            self._restart(moment(now), whole("number", number, 0, 65535))

    def tick(self, now: int, jitter: int = 0) -> Optional[bytes]:
        """Returns the frame of a beacon if one is due, otherwise `None`.

        Args:
            now: Time, in ms.
            jitter: 0 to 750 ms, chosen at random for each beacon.

        Raises:
            Refused: The jitter is over 750 ms, or memory ran out.
        """
        with self._calling:
            return self._tick(moment(now), whole("jitter", jitter, 0, 65535))

    def send_shb(
        self,
        now: int,
        *,
        port: int,
        payload: bytes,
        info: int = 0,
        traffic_class: int = 0,
        media: bytes = NO_MEDIA,
    ) -> bytes:
        """Returns the frame of a single-hop broadcast (SHB), for all stations in radio range.

        Args:
            now: Time, in ms.
            port: Destination port (BTP-B), 0 to 65535.
            payload: At most `PAYLOAD_MAX` bytes.
            info: Destination port info, 0 to 65535.
            traffic_class: Traffic class byte.
            media: Media-dependent data, 4 bytes. On ITS-G5 (EN 302 636-4-2), the first byte is the
                channel busy ratio that the station measured, the second is the greatest that its
                neighbours reported, and the third has its transmit power. Neighbours take zeros as
                measured values.

        Raises:
            OverRate: Own packets are over their rate.
            Refused: The payload is too long, or memory ran out.
        """
        with self._calling:
            return self._send_shb(*single_hop(now, port, info, traffic_class, media, payload))

    def send_gbc(
        self,
        now: int,
        *,
        port: int,
        payload: bytes,
        area: Area,
        info: int = 0,
        traffic_class: int = 0,
        lifetime: int = 0x1A,
        max_hops: int = 10,
    ) -> bytes:
        """Returns the frame of a geobroadcast (GBC), for all stations in an area.

        Args:
            now: Time, in ms.
            port: Destination port (BTP-B), 0 to 65535.
            payload: At most `PAYLOAD_MAX` bytes.
            area: The destination area.
            info: Destination port info, 0 to 65535.
            traffic_class: Traffic class byte.
            lifetime: Lifetime byte: 6 bits of multiplier, 2 bits of base (0 = 50 ms, 1 = 1 s, 2 =
                10 s, 3 = 100 s); 0x1a is 60 s.
            max_hops: Hop limit, 1 to 255. Stations with the default limits do not forward a packet
                with more than 10 hops left.

        Raises:
            OverRate: Own packets are over their rate.
            Refused: The payload is too long, `max_hops` is 0, or memory ran out.
        """
        return self._send_to_area(
            "gbc", now, port, info, traffic_class, lifetime, max_hops, area, payload
        )

    def send_gac(
        self,
        now: int,
        *,
        port: int,
        payload: bytes,
        area: Area,
        info: int = 0,
        traffic_class: int = 0,
        lifetime: int = 0x1A,
        max_hops: int = 10,
    ) -> bytes:
        """Returns the frame of a geoanycast (GAC), for any one station in an area.

        The arguments and exceptions are those of `send_gbc`.
        """
        return self._send_to_area(
            "gac", now, port, info, traffic_class, lifetime, max_hops, area, payload
        )

    def _send_to_area(
        self,
        word: str,
        now: int,
        port: int,
        info: int,
        traffic_class: int,
        lifetime: int,
        max_hops: int,
        area: Area,
        payload: bytes,
    ) -> bytes:
        if not isinstance(area, Area):
            raise TypeError(f"area must be an Area, not {area!r}")
        with self._calling:
            return self._send_area(
                word,
                *header_of(now, port, info, traffic_class),
                whole("lifetime", lifetime, 0, 255),
                whole("max_hops", max_hops, 0, 255),
                area,
                octets("payload", payload),
            )

    def next_beacon(self, jitter: int = 0) -> int:
        """Returns the earliest time at which `tick` with this jitter returns a beacon, in ms.

        Choose a jitter at random for each beacon, and pass it to each `tick` until one returns the
        beacon. Call this method again after you have sent a packet and after `restart`, but not
        after receiving a frame. The result is never earlier than the time of the last call. So on
        a busy channel, a wait that begins again with each frame might never end.

        Args:
            jitter: 0 to 750 ms.

        Raises:
            Refused: The jitter is over 750 ms.
        """
        with self._calling:
            return self._next_beacon(whole("jitter", jitter, 0, 65535))

    def look_up(self, now: int, address: Address) -> Optional[Vector]:
        """Returns the newest position vector of a live source, or `None` if it is not known.

        A source is live for 20 s after its last new packet. At a time before the last call, or over
        `LAST_MOMENT`, the result is `None`.

        Args:
            now: Time, in ms.
            address: GN address: an int, or 16 hexadecimal digits.
        """
        with self._calling:
            return self._look_up(moment(now), address_of(address))

    def neighbours(self, now: int) -> Iterator[Vector]:
        """Yields the position vectors of the live neighbours, by ascending address.

        A neighbour is a live source whose frames arrive directly. One with address 0 is found by
        `look_up` only. At a time before the last call, or over `LAST_MOMENT`, none is found.

        Args:
            now: Time, in ms.
        """
        moment(now)
        after: Optional[int] = 0
        while after is not None:
            with self._calling:
                found, after = self._neighbours(now, after)
            yield from found

    def counts(self) -> Counts:
        """Returns the counters of the station. `restart` keeps them."""
        with self._calling:
            return self._counts()

    def receive(self, now: int, frame: bytes) -> Reception:
        """Processes a received frame.

        If the packet is to be forwarded, the result has the frame to send as `relay`. On a radio,
        send it after a random wait below 2 ms. With contention the station may hold that frame
        instead: `due` of the result is the time at which `release` returns it.

        Args:
            now: Time, in ms.
            frame: The received frame.

        Raises:
            BadFrame: The bytes are not a valid frame.
            Refused: The source is new and the location table is full, or memory ran out.
        """
        with self._calling:
            return self._receive(moment(now), octets("frame", frame))

    def release(self, now: int) -> Optional[bytes]:
        """Returns a held frame that is due, or `None`. It needs contention.

        Send the frame at once, and call this method again until it returns `None`. Pass received
        frames to `receive` first: they may cancel what is due. Frames that were due more than
        1000 ms before `now` are dropped. The call does not change the station's clock.

        Args:
            now: Time, in ms: `next_due`, on a radio plus a random time below 2 ms.
        """
        with self._calling:
            return self._release(moment(now))

    def next_due(self) -> Optional[int]:
        """Returns the earliest time at which `release` returns a held frame, in ms, or `None`."""
        with self._calling:
            return self._next_due()

    def receive_verified(self, now: int, frame: bytes, plain: bytes) -> Reception:
        """Processes a secured frame whose message was verified.

        It does what `receive` does with the same packet in an unsecured frame. If the packet is to
        be forwarded, `relay` of the result is a secured frame with the message that arrived.

        The station does not compare `plain` with the message, and does not judge when it was
        signed. The lifetime, the remaining hop limit and the link addresses are not signed.

        Args:
            now: Time, in ms.
            frame: The received secured frame.
            plain: The plain part that the security entity returned for its message.

        Raises:
            BadFrame: The bytes are not a secured frame, or with the plain part not a valid packet.
            Refused: The source is new and the location table is full, or memory ran out.
        """
        with self._calling:
            return self._receive_verified(
                moment(now), octets("frame", frame), octets("plain", plain)
            )

    @abstractmethod
    def _make(
        self, address: int, latitude: int, longitude: int, capacity: int, remember: int
    ) -> None: ...

    @abstractmethod
    def _end(self) -> None: ...

    @abstractmethod
    def _move(
        self, now: int, latitude: int, longitude: int, accurate: bool, speed: int, heading: int
    ) -> None: ...

    @abstractmethod
    def _open_port(self, now: int, port: int) -> None: ...

    @abstractmethod
    def _close_port(self, now: int, port: int) -> None: ...

    @abstractmethod
    def _restart(self, now: int, number: int) -> None: ...

    @abstractmethod
    def _tick(self, now: int, jitter: int) -> Optional[bytes]: ...

    @abstractmethod
    def _send_shb(
        self, now: int, port: int, info: int, traffic_class: int, media: bytes, payload: bytes
    ) -> bytes: ...

    @abstractmethod
    def _send_area(
        self,
        word: str,
        now: int,
        port: int,
        info: int,
        traffic_class: int,
        lifetime: int,
        max_hops: int,
        area: Area,
        payload: bytes,
    ) -> bytes: ...

    @abstractmethod
    def _next_beacon(self, jitter: int) -> int: ...

    @abstractmethod
    def _counts(self) -> Counts: ...

    @abstractmethod
    def _look_up(self, now: int, address: int) -> Optional[Vector]: ...

    @abstractmethod
    def _neighbours(self, now: int, after: int) -> Tuple[List[Vector], Optional[int]]:
        """Returns neighbours above an address, and the address above which there are more."""

    @abstractmethod
    def _receive(self, now: int, frame: bytes) -> Reception: ...

    @abstractmethod
    def _next_due(self) -> Optional[int]: ...

    @abstractmethod
    def _release(self, now: int) -> Optional[bytes]: ...

    @abstractmethod
    def _receive_verified(self, now: int, frame: bytes, plain: bytes) -> Reception: ...
