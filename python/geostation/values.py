"""The values that are passed to a station and returned by it, and their ranges."""

from __future__ import annotations

from dataclasses import dataclass
from enum import IntEnum
from typing import Optional, Tuple

from .errors import BadArgument


NO_MEDIA = bytes(4)
"""Media-dependent data of zeros."""


class Kind(IntEnum):
    """The type of a packet."""

    BEACON = 1
    SHB = 2
    GBC = 3
    GAC = 4


class Shape(IntEnum):
    """The shape of an area."""

    CIRCLE = 0
    RECTANGLE = 1
    ELLIPSE = 2


class IgnoreReason(IntEnum):
    """Why a frame was ignored. `str()` gives the keyword of the program, such as `own-source`."""

    NOT_FOR_ME = 1
    """The frame is addressed to another link address."""
    OWN_SOURCE = 2
    """The station itself is the source of the packet."""
    SENDER_MISMATCH = 3
    """A beacon or SHB came from another link address than its source's."""
    DUPLICATE = 4
    """The sequence number is in the duplicate packet list of the source."""
    REPEATED = 5
    """The packet was delivered before, within its lifetime: see `deliver_once` of `Limits`."""

    def __str__(self) -> str:
        return self.name.lower().replace("_", "-")


Why = IgnoreReason  # deprecated: the name until 0.1


def whole(name: str, value: int, least: int, greatest: int) -> int:
    """Returns an int after a check of its type and range."""
    if isinstance(value, bool) or not isinstance(value, int):
        raise TypeError(f"{name} must be an int, not {value!r}")
    if not least <= value <= greatest:
        raise BadArgument(name)
    return value


def place(
    latitude: Optional[int], longitude: Optional[int], degrees: Optional[Tuple[float, float]]
) -> Tuple[int, int]:
    """Returns a position in 0.1 microdegree. Degrees are rounded to the nearest value."""
    if degrees is not None:
        if latitude is not None or longitude is not None:
            raise TypeError("give either latitude and longitude, or degrees, not both")
        latitude, longitude = (round(value * 10_000_000) for value in degrees)
    if latitude is None or longitude is None:
        raise TypeError("give latitude and longitude, or degrees")
    whole("latitude", latitude, -900_000_000, 900_000_000)
    whole("longitude", longitude, -1_800_000_000, 1_800_000_000)
    return latitude, longitude


@dataclass(frozen=True)
class Vector:
    """A position vector: where a station says that it is."""

    address: int
    """GN address of the station."""
    timestamp: int
    """Time of the position, in ms modulo 2^32."""
    latitude: int
    """In 0.1 microdegree."""
    longitude: int
    """In 0.1 microdegree."""
    speed: int
    """In 0.01 m/s; negative means backwards."""
    heading: int
    """In 0.1 degree, clockwise from north."""
    accurate: bool
    """Position accuracy indicator (PAI)."""

    @property
    def degrees(self) -> Tuple[float, float]:
        """Latitude and longitude, in degrees."""
        return self.latitude / 10_000_000, self.longitude / 10_000_000


@dataclass(frozen=True)
class Area:
    """A destination area. Create one with `circle`, `rectangle` or `ellipse`.

    Raises:
        BadArgument: A value is out of its range.
        TypeError: A value is not an int.
    """

    shape: Shape
    """Shape of the area."""
    latitude: int
    """Latitude of the centre, in 0.1 microdegree."""
    longitude: int
    """Longitude of the centre, in 0.1 microdegree."""
    a: int
    """Radius, or distance from the centre along `angle`, in metres, from 1."""
    b: int = 0
    """Distance from the centre across `angle`, in metres, from 1; 0 for a circle."""
    angle: int = 0
    """Degrees clockwise from north, 0 to 359; 0 for a circle."""

    def __post_init__(self) -> None:
        place(self.latitude, self.longitude, None)
        other = (0, 0) if self.shape == Shape.CIRCLE else (1, 65535)
        whole("a", self.a, 1, 65535)
        whole("b", self.b, *other)
        whole("angle", self.angle, 0, 0 if self.shape == Shape.CIRCLE else 359)

    @classmethod
    def circle(
        cls,
        radius: int,
        *,
        latitude: Optional[int] = None,
        longitude: Optional[int] = None,
        degrees: Optional[Tuple[float, float]] = None,
    ) -> Area:
        """Returns a circle.

        Args:
            radius: Radius in metres, 1 to 65535.
            latitude: Latitude of the centre, in 0.1 microdegree.
            longitude: Longitude of the centre, in 0.1 microdegree.
            degrees: Latitude and longitude in degrees, instead of these two.
        """
        return cls(Shape.CIRCLE, *place(latitude, longitude, degrees), radius)

    @classmethod
    def rectangle(
        cls,
        a: int,
        b: int,
        angle: int = 0,
        *,
        latitude: Optional[int] = None,
        longitude: Optional[int] = None,
        degrees: Optional[Tuple[float, float]] = None,
    ) -> Area:
        """Returns a rectangle.

        Args:
            a: Distance from the centre to a side along `angle`, in metres, 1 to 65535.
            b: Distance from the centre to a side across `angle`, in metres, 1 to 65535.
            angle: Degrees clockwise from north, 0 to 359.
            latitude: Latitude of the centre, in 0.1 microdegree.
            longitude: Longitude of the centre, in 0.1 microdegree.
            degrees: Latitude and longitude in degrees, instead of these two.
        """
        return cls(Shape.RECTANGLE, *place(latitude, longitude, degrees), a, b, angle)

    @classmethod
    def ellipse(
        cls,
        a: int,
        b: int,
        angle: int = 0,
        *,
        latitude: Optional[int] = None,
        longitude: Optional[int] = None,
        degrees: Optional[Tuple[float, float]] = None,
    ) -> Area:
        """Returns an ellipse.

        Args:
            a: Half axis along `angle`, in metres, 1 to 65535.
            b: Half axis across `angle`, in metres, 1 to 65535.
            angle: Degrees clockwise from north, 0 to 359.
            latitude: Latitude of the centre, in 0.1 microdegree.
            longitude: Longitude of the centre, in 0.1 microdegree.
            degrees: Latitude and longitude in degrees, instead of these two.
        """
        return cls(Shape.ELLIPSE, *place(latitude, longitude, degrees), a, b, angle)


@dataclass(frozen=True)
class Message:
    """A payload and its port."""

    port: int
    """Destination port (BTP-B)."""
    info: int
    """Destination port info."""
    payload: bytes
    """The payload."""


@dataclass(frozen=True)
class Reception:
    """The result of `receive`."""

    ignored: Optional[IgnoreReason] = None
    """Why the frame was ignored; `None` if its packet was accepted."""
    delivered: Optional[Message] = None
    """The payload that is delivered to an open port, or `None`."""
    relay: Optional[bytes] = None
    """The frame to forward, or `None`."""
    source: Optional[int] = None
    """GN address of the packet's source; `None` if the frame was ignored."""
    due: Optional[int] = None
    """With contention: the time, in ms, at which the frame to forward is due (`release`), or `None`.
    While it is set, `relay` is `None`."""
    cancelled: bool = False
    """With contention: whether this frame has cancelled a held one."""
    media: bytes = NO_MEDIA
    """Media-dependent data of an SHB that was accepted, otherwise zeros (see `send_shb`)."""


@dataclass(frozen=True)
class Packet:
    """All fields of a frame."""

    target: bytes
    """Destination link address, 6 bytes."""
    source: bytes
    """Source link address, 6 bytes."""
    kind: Kind
    """Type of the packet."""
    vector: Vector
    """Position vector of the source."""
    hops_left: int
    """Remaining hop limit (RHL)."""
    max_hops: int
    """Maximum hop limit (MHL)."""
    lifetime: int
    """Lifetime byte: 6 bits of multiplier, 2 bits of base (50 ms, 1 s, 10 s, 100 s)."""
    traffic_class: int
    """Traffic class byte."""
    mobile: bool
    """Whether the source is mobile."""
    media: Optional[bytes] = None
    """SHB: the media-dependent data."""
    number: Optional[int] = None
    """GBC, GAC: the sequence number."""
    area: Optional[Area] = None
    """GBC, GAC: the destination area."""
    message: Optional[Message] = None
    """SHB, GBC, GAC: payload and port."""


@dataclass(frozen=True)
class Limits:
    """Limits on what a station sends.

    A rate is the number of frames per second, and a burst the number of frames at once. Both are 0
    to 1000000. There is no limit if the rate or the burst is 0.
    """

    forward_rate: int = 100
    """All frames that the station forwards."""
    forward_burst: int = 50
    source_rate: int = 20
    """Frames of each source that the station forwards."""
    source_burst: int = 20
    own_rate: int = 50
    """Own packets. Beacons are not counted."""
    own_burst: int = 50
    hop_cap: int = 10
    """Packets of others with more hops left are not forwarded, 0 to 255. 0 is no cap. The stations
    that receive this one's packets have such a cap too."""
    deliver_once: bool = True
    """Whether a copy of a GBC or GAC that was delivered is ignored: `IgnoreReason.REPEATED`."""

    def __post_init__(self) -> None:
        for name in ("forward_rate", "forward_burst", "source_rate", "source_burst"):
            whole(name, getattr(self, name), 0, 1_000_000)
        for name in ("own_rate", "own_burst"):
            whole(name, getattr(self, name), 0, 1_000_000)
        whole("hop_cap", self.hop_cap, 0, 255)


@dataclass(frozen=True)
class Contention:
    """How a station contends: it holds the frame of a GBC that it forwards inside the area.

    If other stations broadcast the same frame before it is due, it is cancelled.

    Raises:
        BadArgument: A value is out of its range.
        TypeError: A value is not an int.
    """

    min: int = 1
    """Least wait, if the sender is `range` metres away or farther, in ms, 0 to `max`."""
    max: int = 100
    """Greatest wait, if the sender is near, in ms, 1 to 1000."""
    range: int = 1000
    """Distance of the least wait, in metres, 1 to 65535."""
    copies: int = 2
    """Copies, each from another station, that cancel a held frame, 1 to 3."""

    def __post_init__(self) -> None:
        whole("max", self.max, 1, 1000)
        whole("min", self.min, 0, self.max)
        whole("range", self.range, 1, 65535)
        whole("copies", self.copies, 1, 3)


NO_LIMITS = Limits(0, 0, 0, 0, 0, 0, 0, False)
"""All frames pass."""


@dataclass(frozen=True)
class IgnoredCounts:
    """Number of ignored frames, by `IgnoreReason`."""

    not_for_me: int
    own_source: int
    sender_mismatch: int
    duplicate: int


@dataclass(frozen=True)
class RefusedCounts:
    """Number of failed calls, by code."""

    moment_earlier: int
    """S1."""
    moment_too_late: int
    """S2."""
    frame: int
    """S3."""
    table_full: int
    """S4."""
    no_memory: int
    """S5."""
    other: int
    """S6 to S9."""


@dataclass(frozen=True)
class SentCounts:
    """Number of the station's own packets, by type."""

    beacons: int
    single_hop: int
    geobroadcasts: int
    geoanycasts: int


@dataclass(frozen=True)
class ContentionCounts:
    """Number of held frames, by their outcome; all 0 without contention."""

    held: int = 0
    """Frames that were held."""
    released: int = 0
    """Frames that `release` returned."""
    cancelled: int = 0
    """Frames that others had sent."""
    dropped: int = 0
    """Frames dropped: by `restart`, over 1 s late, or by a limit."""
    full: int = 0
    """Frames that were not held because 64 others were."""


@dataclass(frozen=True)
class Counts:
    """Counters of a station since it was created."""

    received: int
    """Frames passed to `receive` and `receive_verified`, or in JSON."""
    accepted: int
    """Frames whose packet was accepted."""
    delivered: int
    """Payloads that were delivered."""
    relayed: int
    """Frames to forward. A held frame counts once it is released."""
    ignored: IgnoredCounts
    refused: RefusedCounts
    sent: SentCounts
    suppressed: int = 0
    """Frames that were not forwarded because of a limit."""
    repeated: int = 0
    """Packets that were ignored because they were delivered before: `IgnoreReason.REPEATED`."""
    over_rate: int = 0
    """Own packets that were refused for their rate."""
    contention: ContentionCounts = ContentionCounts()
