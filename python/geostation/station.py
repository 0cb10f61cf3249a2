"""A station in this process, with the shared library."""

from __future__ import annotations

import ctypes as c
from dataclasses import fields
from typing import Any, Callable, List, Optional, Tuple

from . import library
from .calls import ANSWER_MAX, FRAME_MAX, SECURED_FRAME_MAX, Address, Calls, Degrees
from .calls import moment, octets, single_hop
from .errors import BadArgument, BadFrame, Fault, OverRate, Refused, Status
from .values import (
    NO_MEDIA,
    Area,
    Contention,
    ContentionCounts,
    Counts,
    IgnoredCounts,
    IgnoreReason,
    Kind,
    Limits,
    Message,
    Packet,
    Reception,
    RefusedCounts,
    SentCounts,
    Shape,
    Vector,
    place,
    whole,
)

# The lifetime byte of `send_shb`: 60 s.
SHB_LIFETIME = 0x1A


def _vector(told: library.Vector) -> Vector:
    return Vector(
        told.address,
        told.timestamp,
        told.latitude,
        told.longitude,
        told.speed,
        told.heading,
        told.accurate != 0,
    )


def _numbers(counters: Any) -> List[int]:
    return [int(getattr(counters, name)) for name, _ in counters._fields_]


def _done(status: int) -> None:
    if status == Status.OVER_RATE:
        raise OverRate()
    if status:
        raise Refused(Status(status))


class Station(Calls):
    """A station in this process, with the shared library.

    Args:
        address: GN address: an int, or 16 hexadecimal digits; not a group address.
        latitude: In 0.1 microdegree, -900000000 to 900000000.
        longitude: In 0.1 microdegree, -1800000000 to 1800000000.
        degrees: Latitude and longitude in degrees, instead of these two.
        capacity: Size of the location table, 1 to 4096.
        remember: Length of each duplicate packet list, 1 to 64.
        mobile: False for a road-side unit.
        number: Sequence number of the first packet for an area. Choose it at random at each start,
            or continue the numbering: other stations remember the last numbers until they have
            accepted nothing from this address for 20 s. docs/C.md says more ("Sequence numbers
            after a restart").
        limits: Limits on what is sent. `NO_LIMITS` turns them off.
        contention: How the station contends; `None`: it forwards at once.

    Raises:
        BadArgument: An argument is out of its range.
        ImportError: The library was not found, or has another ABI than the package.
        Refused: Memory ran out.
    """

    _handle: Optional[c.c_void_p] = None

    def __init__(
        self,
        address: Address,
        *,
        latitude: Optional[int] = None,
        longitude: Optional[int] = None,
        degrees: Degrees = None,
        capacity: int = 64,
        remember: int = 8,
        mobile: bool = True,
        number: int = 0,
        limits: Limits = Limits(),
        contention: Optional[Contention] = None,
    ):
        self._mobile, self._number = bool(mobile), whole("number", number, 0, 65535)
        self._limits, self._contention = limits, contention
        super().__init__(
            address,
            latitude=latitude,
            longitude=longitude,
            degrees=degrees,
            capacity=capacity,
            remember=remember,
        )

    def _make(
        self, address: int, latitude: int, longitude: int, capacity: int, remember: int
    ) -> None:
        self._library = library.load()
        handle, config = c.c_void_p(), library.Config()
        self._library.config_init(config)
        config.address, config.latitude, config.longitude = address, latitude, longitude
        config.capacity, config.remember = capacity, remember
        config.mobile, config.number = self._mobile, self._number
        for field in fields(self._limits):
            setattr(config, field.name, int(getattr(self._limits, field.name)))
        if self._contention is not None:
            config.area_forwarding = library.CONTENTION
            for field in fields(self._contention):
                setattr(config, "contention_" + field.name, getattr(self._contention, field.name))
        _done(self._library.new_from_config(handle, config))
        self._handle = handle
        self._frame = c.create_string_buffer(SECURED_FRAME_MAX)
        self._length = c.c_size_t()
        self._reception = library.Reception()

    def _end(self) -> None:
        handle, self._handle = self._handle, None
        if handle is not None:
            self._library.free(handle)

    # The garbage collector may run in any thread. No other call is running then.
    __del__ = _end

    def _open(self) -> Any:
        if self._handle is None:
            raise ValueError("the station was freed")
        return self._handle

    def _written(self, call: Any, *arguments: Any) -> bytes:
        _done(call(self._open(), *arguments, self._frame, SECURED_FRAME_MAX, self._length))
        return c.string_at(self._frame, self._length.value)

    def _move(
        self, now: int, latitude: int, longitude: int, accurate: bool, speed: int, heading: int
    ) -> None:
        handle = self._open()
        _done(self._library.move(handle, now, latitude, longitude, accurate, speed, heading))

    def _open_port(self, now: int, port: int) -> None:
        _done(self._library.open_port(self._open(), now, port))

    def _close_port(self, now: int, port: int) -> None:
        _done(self._library.close_port(self._open(), now, port))

    def _restart(self, now: int, number: int) -> None:
        _done(self._library.restart(self._open(), now, number))

    def _tick(self, now: int, jitter: int) -> Optional[bytes]:
        return self._written(self._library.tick, now, jitter) or None

    def _send_shb(
        self,
        now: int,
        port: int,
        info: int,
        traffic_class: int,
        media: bytes,
        payload: bytes,
        lifetime: int = SHB_LIFETIME,
    ) -> bytes:
        request = library.ShbRequest(port, info, traffic_class)
        rest = (payload, len(payload))
        if (lifetime, media) == (SHB_LIFETIME, NO_MEDIA):
            return self._written(self._library.send_shb, now, request, *rest)
        options = library.ShbOptions(lifetime, tuple(media))
        return self._written(self._library.send_shb_with, now, request, options, *rest)

    def _send_area(
        self,
        word: str,
        now: int,
        port: int,
        info: int,
        traffic_class: int,
        lifetime: int,
        max_hops: int,
        area: Area,
        payload: bytes,
    ) -> bytes:
        request = library.AreaRequest(
            port,
            info,
            traffic_class,
            lifetime,
            max_hops,
            area.shape,
            area.latitude,
            area.longitude,
            area.a,
            area.b,
            area.angle,
        )
        call = self._library.send_gbc if word == "gbc" else self._library.send_gac
        return self._written(call, now, request, payload, len(payload))

    def _receive(self, now: int, frame: bytes) -> Reception:
        status = self._library.receive(
            self._open(), now, frame, len(frame), self._reception, self._frame, FRAME_MAX
        )
        return self._heard(status, frame)

    def _receive_verified(self, now: int, frame: bytes, plain: bytes) -> Reception:
        status = self._library.receive_verified(
            self._open(),
            now,
            frame,
            len(frame),
            plain,
            len(plain),
            self._reception,
            self._frame,
            SECURED_FRAME_MAX,
        )
        return self._heard(status, plain)

    def _heard(self, status: int, whole: bytes) -> Reception:
        """Returns the result of a received frame, whose payload is a part of these bytes."""
        heard = self._reception
        if status == Status.BAD_FRAME:
            raise BadFrame(library.fault_of(heard))
        _done(status)
        delivered = None
        if heard.delivered:
            start = heard.payload_start
            payload = whole[start : start + heard.payload_length]
            delivered = Message(heard.port, heard.info, payload)
        return Reception(
            IgnoreReason(heard.ignored) if heard.ignored else None,
            delivered,
            c.string_at(self._frame, heard.relay_length) or None,
            None if heard.ignored else heard.source,
            heard.due if heard.held else None,
            heard.cancelled != 0,
            NO_MEDIA if heard.ignored else bytes(heard.media),
        )

    def _next_due(self) -> Optional[int]:
        due = int(self._library.next_due(self._open()))
        return None if due == library.NEVER else due

    def _release(self, now: int) -> Optional[bytes]:
        return self._written(self._library.release, now) or None

    def _next_beacon(self, jitter: int) -> int:
        due = int(self._library.beacon_at(self._open(), jitter))
        if due == library.NEVER:
            raise Refused(Status.JITTER_RANGE)
        return due

    def move_at(
        self,
        now: int,
        timestamp: int,
        *,
        latitude: Optional[int] = None,
        longitude: Optional[int] = None,
        degrees: Degrees = None,
        accurate: bool = True,
        speed: int = 0,
        heading: int = 0,
    ) -> None:
        """Sets the position of the station, with the time stamp of the fix.

        Use it for a GNSS receiver, which reports a position that is already slightly old.

        Args:
            now: Time, in ms.
            timestamp: Time of the fix, in ms since 2004-01-01 TAI, modulo 2^32.
            latitude: In 0.1 microdegree, -900000000 to 900000000.
            longitude: In 0.1 microdegree, -1800000000 to 1800000000.
            degrees: Latitude and longitude in degrees, instead of these two.
            accurate: Position accuracy indicator (PAI).
            speed: In 0.01 m/s, -16384 to 16383; negative means backwards.
            heading: In 0.1 degree, clockwise from north, 0 to 65535.
        """
        with self._calling:
            _done(
                self._library.move_at(
                    self._open(),
                    moment(now),
                    whole("timestamp", timestamp, 0, (1 << 32) - 1),
                    *place(latitude, longitude, degrees),
                    bool(accurate),
                    whole("speed", speed, -16384, 16383),
                    whole("heading", heading, 0, 65535),
                )
            )

    def send_shb_with_lifetime(
        self,
        now: int,
        lifetime: int,
        *,
        port: int,
        payload: bytes,
        info: int = 0,
        traffic_class: int = 0,
        media: bytes = NO_MEDIA,
    ) -> bytes:
        """Returns the frame of a single-hop broadcast (SHB) with a given lifetime.

        Args:
            now: Time, in ms.
            lifetime: Lifetime byte: 6 bits of multiplier, 2 bits of base. That of `send_shb` is
                0x1a, which is 60 s.
            port: Destination port (BTP-B), 0 to 65535.
            payload: At most `PAYLOAD_MAX` bytes.
            info: Destination port info, 0 to 65535.
            traffic_class: Traffic class byte.
            media: Media-dependent data, 4 bytes: see `send_shb`.

        Raises:
            OverRate: Own packets are over their rate.
            Refused: The payload is too long, or memory ran out.
        """
        with self._calling:
            arguments = single_hop(now, port, info, traffic_class, media, payload)
            return self._send_shb(*arguments, whole("lifetime", lifetime, 0, 255))

    def handle_json(self, now: int, line: bytes, *, number: int = 1) -> Tuple[bytes, bytes]:
        """Executes one JSON request, as the command `geostation station` does.

        Failed calls and malformed lines are reported inside the answer. The limits of the
        station do not apply to it.

        Args:
            now: Time, in ms. An `at` key in the line is ignored.
            line: The request.
            number: Line number, for the answer to a malformed line.

        Returns:
            The answer, which is empty for a blank line, and the frame to send, which may be empty.

        Raises:
            Refused: Memory ran out.
        """
        with self._calling:
            told = octets("line", line)
            answer = c.create_string_buffer(ANSWER_MAX)
            length = c.c_size_t()
            frame = self._written(
                self._library.handle_json,
                moment(now),
                whole("number", number, 0, (1 << 64) - 1),
                told,
                len(told),
                answer,
                ANSWER_MAX,
                length,
            )
            return c.string_at(answer, length.value), frame

    send_shb_for = send_shb_with_lifetime
    """Deprecated: the former name of `send_shb_with_lifetime`."""
    serve = handle_json
    """Deprecated: the former name of `handle_json`."""

    def next_number(self) -> int:
        """Returns the sequence number of the station's next packet for an area."""
        with self._calling:
            return int(self._library.next_number(self._open()))

    def _counts(self) -> Counts:
        told = library.Counts()
        self._library.counts(self._open(), told)
        first = (told.received, told.accepted, told.delivered, told.relayed)
        ignored, refused = _numbers(told.ignored), _numbers(told.refused)
        parts = (IgnoredCounts(*ignored), RefusedCounts(*refused))
        withheld = (told.suppressed, told.repeated, told.over_rate)
        contention = ContentionCounts(*_numbers(told.contention))
        return Counts(*first, *parts, SentCounts(*_numbers(told.sent)), *withheld, contention)

    def _look_up(self, now: int, address: int) -> Optional[Vector]:
        told = library.Vector()
        return _vector(told) if self._library.look_up(self._open(), now, address, told) else None

    def _neighbours(self, now: int, after: int) -> Tuple[List[Vector], Optional[int]]:
        told = library.Vector()
        if not self._library.neighbour(self._open(), now, after, told):
            return [], None
        return [_vector(told)], told.address


def frame_length(data: bytes) -> int:
    """Returns the length of the frame at the start of some bytes, or 0 if they start with none.

    Use it to strip padding.

    Args:
        data: The bytes.
    """
    data = octets("data", data)
    return int(library.load().frame_length(data, len(data)))


def message_of(frame: bytes) -> bytes:
    """Returns the message of a secured frame, for the security entity to verify.

    Args:
        frame: The secured frame.

    Raises:
        Refused: The bytes are not a secured frame (`Status.BAD_FRAME`).
    """
    message = _part_of(library.load().message, octets("frame", frame))
    if message is None:
        raise Refused(Status.BAD_FRAME, "not a secured frame")
    return message


def plain_part(frame: bytes) -> bytes:
    """Returns the plain part of an unsecured frame, for the security entity to sign.

    It is what follows the Basic Header: the Common Header, the extended header and the payload.

    Args:
        frame: The unsecured frame, as a method of a station returned it.

    Raises:
        BadFrame: The bytes are not a valid unsecured frame.
    """
    frame = octets("frame", frame)
    plain = _part_of(library.load().plain_part, frame)
    if plain is None:
        raise BadFrame(_fault_of(frame), received=False)
    return plain


def seal(frame: bytes, message: bytes) -> bytes:
    """Returns the secured frame of an unsecured one: the message replaces its plain part.

    Args:
        frame: The unsecured frame, as a method of a station returned it.
        message: What the security entity signed its plain part into: at least one byte. The secured
            frame has at most `SECURED_FRAME_MAX` bytes.

    Raises:
        BadFrame: The bytes are not a valid unsecured frame.
        BadArgument: The message is empty or too long.
        Refused: Memory ran out.
    """
    frame, message = octets("frame", frame), octets("message", message)
    sealed, length = c.create_string_buffer(SECURED_FRAME_MAX), c.c_size_t()
    status = library.load().seal(
        frame, len(frame), message, len(message), sealed, SECURED_FRAME_MAX, length
    )
    if status == Status.BAD_FRAME:
        raise BadFrame(_fault_of(frame), received=False)
    if status == Status.BAD_ARGUMENT:
        raise BadArgument("message")
    _done(status)
    return c.string_at(sealed, length.value)


def _part_of(find: Callable[..., int], frame: bytes) -> Optional[bytes]:
    """Returns the part of a frame that a call of the library finds, or None if it finds none."""
    start, length = c.c_size_t(), c.c_size_t()
    if find(frame, len(frame), start, length):
        return None
    return frame[start.value : start.value + length.value]


def _fault_of(frame: bytes) -> Fault:
    packet = library.Packet()
    library.load().read_frame(frame, len(frame), packet)
    return library.fault_of(packet)


def read_frame(frame: bytes) -> Packet:
    """Returns all fields of a frame. It needs no station.

    Args:
        frame: The frame. All bytes have to belong to it: padding is an error here.

    Raises:
        BadFrame: The bytes are not a valid frame.
    """
    frame = octets("frame", frame)
    told = library.Packet()
    if library.load().read_frame(frame, len(frame), told):
        raise BadFrame(library.fault_of(told), received=False)
    kind, area, message = Kind(told.kind), told.area, told.message
    is_to_area = kind in (Kind.GBC, Kind.GAC)
    payload = frame[message.payload_start : message.payload_start + message.payload_length]
    return Packet(
        bytes(told.target),
        bytes(told.source),
        kind,
        _vector(told.vector),
        told.hops_left,
        told.max_hops,
        told.lifetime,
        told.traffic_class,
        told.mobile != 0,
        bytes(told.media) if kind is Kind.SHB else None,
        told.number if is_to_area else None,
        Area(Shape(area.shape), area.latitude, area.longitude, area.a, area.b, area.angle)
        if is_to_area
        else None,
        None if kind is Kind.BEACON else Message(message.port, message.info, payload),
    )
