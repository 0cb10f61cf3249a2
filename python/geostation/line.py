"""A station in the program `geostation`, over a pipe: it needs the program and no library."""

from __future__ import annotations

import json
import os
import subprocess
from dataclasses import asdict
from typing import Any, Dict, List, Optional, Sequence, Tuple, Union

from .calls import FRAME_MAX, PAYLOAD_MAX, SECURED_FRAME_MAX, Calls, octets
from .errors import BadArgument, Refused, Status, refused_by
from .values import (
    NO_MEDIA,
    Area,
    Contention,
    ContentionCounts,
    Counts,
    IgnoredCounts,
    IgnoreReason,
    Kind,
    Message,
    Packet,
    Reception,
    RefusedCounts,
    SentCounts,
    Shape,
    Vector,
)

# The media-dependent data of an SHB: after the link header and the packet's headers up to the
# position vector of the source. No line has it.
MEDIA = slice(50, 54)

_REASONS = {str(reason): reason for reason in IgnoreReason}
# Keys that differ from the names of the arguments.
_NAMES = {
    "at": "now",
    "lat": "latitude",
    "lon": "longitude",
    "pai": "accurate",
    "tc": "traffic_class",
    "lt": "lifetime",
    "hops": "max_hops",
    "after": "address",
}


class ProcessExited(Exception):
    """The program ended. `str()` has its output on standard error.

    Attributes:
        status: Its exit status.
    """

    def __init__(self, status: int, said: str):
        super().__init__(f"the program ended with status {status}: {said.strip()}")
        self.status, self._said = status, said

    def __reduce__(self) -> Tuple[Any, ...]:
        return ProcessExited, (self.status, self._said)


Ended = ProcessExited  # deprecated: the name until 0.1


class PipeStation(Calls):
    """A station in the program: `geostation station` over a pipe.

    It has the methods of `Station` except `move_at`, `send_shb_with_lifetime`, `next_number` and
    `handle_json`: the pipe protocol has no command for them. It rejects frames with Ethernet padding.

    Args:
        address: GN address: an int, or 16 hexadecimal digits; not a group address.
        latitude: In 0.1 microdegree, -900000000 to 900000000.
        longitude: In 0.1 microdegree, -1800000000 to 1800000000.
        degrees: Latitude and longitude in degrees, instead of these two.
        capacity: Size of the location table, 1 to 4096.
        remember: Length of each duplicate packet list, 1 to 64.
        contention: How the station contends; `None`: it forwards at once.
        program: Name of the program, or a list with the first words of a command. The default is
            the variable `GEOSTATION_PROGRAM`, or `geostation` if that is not set.

    Raises:
        BadArgument: An argument is out of its range.
        OSError: The program cannot be started.
        ProcessExited: The program ended. Each method may raise it.
    """

    _process: Optional[subprocess.Popen[bytes]] = None

    def __init__(
        self,
        *arguments: Any,
        contention: Optional[Contention] = None,
        program: Union[str, Sequence[str], None] = None,
        **more: Any,
    ):
        if program is None:
            program = os.environ.get("GEOSTATION_PROGRAM", "geostation")
        self._program = [program] if isinstance(program, str) else list(program)
        self._contention = contention
        super().__init__(*arguments, **more)

    def _make(
        self, address: int, latitude: int, longitude: int, capacity: int, remember: int
    ) -> None:
        place = [f"{address:016x}", str(latitude), str(longitude)]
        options = [f"--capacity={capacity}", f"--remember={remember}", *self._contends()]
        pipe = subprocess.PIPE
        self._process = subprocess.Popen(
            [*self._program, "station", *place, *options], stdin=pipe, stdout=pipe, stderr=pipe
        )

    def _contends(self) -> List[str]:
        if self._contention is None:
            return []
        told = [f"--contention-{name}={value}" for name, value in asdict(self._contention).items()]
        return ["--area-forwarding=contention", *told]

    def _end(self) -> None:
        process, self._process = self._process, None
        if process is not None:
            process.communicate()

    __del__ = _end

    def ask(self, do: str, at: Optional[int] = None, **keys: Any) -> Dict[str, Any]:
        """Sends a request, and returns the answer as a dict.

        Args:
            do: The command.
            at: Time, in ms. Queries need none.
            keys: The other keys of the request.

        Raises:
            BadArgument: The program cannot read the request. `name` is the key.
            Refused: The call failed.
            ProcessExited: The program ended.
        """
        with self._calling:
            return self._ask(do, at, **keys)

    def _ask(self, do: str, at: Optional[int] = None, **keys: Any) -> Dict[str, Any]:
        process = self._process
        if process is None:
            raise ValueError("the station was freed")
        assert process.stdin is not None and process.stdout is not None
        moment = {} if at is None else {"at": at}
        line = json.dumps({**moment, "do": do, **keys}).encode() + b"\n"
        try:
            process.stdin.write(line)
            process.stdin.flush()
            told = process.stdout.readline()
        except BrokenPipeError:
            told = b""
        if not told:
            self._tell_end(process)
        answer: Dict[str, Any] = json.loads(told)
        if "error" in answer:
            raise BadArgument(_NAMES.get(answer["error"], answer["error"]))
        if answer["result"] == "refused":
            raise refused_by(answer["code"])
        return answer

    def _tell_end(self, process: subprocess.Popen[bytes]) -> None:
        self._process = None
        assert process.stdout is not None and process.stderr is not None
        said = process.stderr.read().decode(errors="replace")
        process.stdout.close()
        process.stderr.close()
        self._close_input(process)
        raise ProcessExited(process.wait(), said)

    @staticmethod
    def _close_input(process: subprocess.Popen[bytes]) -> None:
        assert process.stdin is not None
        try:
            process.stdin.close()
        except BrokenPipeError:
            pass  # the program ended with input that it had not read

    def _sent(self, answer: Dict[str, Any]) -> bytes:
        return bytes.fromhex(answer["frame"])

    def _move(
        self, now: int, latitude: int, longitude: int, accurate: bool, speed: int, heading: int
    ) -> None:
        self._ask(
            "move", now, lat=latitude, lon=longitude, pai=accurate, speed=speed, heading=heading
        )

    def _open_port(self, now: int, port: int) -> None:
        self._ask("open", now, port=port)

    def _close_port(self, now: int, port: int) -> None:
        self._ask("close", now, port=port)

    def _restart(self, now: int, number: int) -> None:
        self._ask("restart", now, number=number)

    def _tick(self, now: int, jitter: int) -> Optional[bytes]:
        answer = self._ask("tick", now, jitter=jitter)
        return self._sent(answer) if answer["result"] == "sent" else None

    def _send_shb(
        self, now: int, port: int, info: int, traffic_class: int, media: bytes, payload: bytes
    ) -> bytes:
        told = _short(payload, PAYLOAD_MAX).hex()
        more = {"media": media.hex()} if media != NO_MEDIA else {}
        return self._sent(
            self._ask("shb", now, port=port, info=info, tc=traffic_class, payload=told, **more)
        )

    def _send_area(
        self,
        word: str,
        now: int,
        port: int,
        info: int,
        traffic_class: int,
        lifetime: int,
        max_hops: int,
        area: Area,
        payload: bytes,
    ) -> bytes:
        answer = self._ask(
            word,
            now,
            port=port,
            info=info,
            tc=traffic_class,
            lt=lifetime,
            hops=max_hops,
            shape=area.shape.name.lower(),
            alat=area.latitude,
            alon=area.longitude,
            a=area.a,
            b=area.b,
            angle=area.angle,
            payload=_short(payload, PAYLOAD_MAX).hex(),
        )
        return self._sent(answer)

    def _next_beacon(self, jitter: int) -> int:
        return int(self._ask("next_beacon", jitter=jitter)["moment"])

    def _counts(self) -> Counts:
        told = self._ask("counts")
        return Counts(
            received=told["received"],
            accepted=told["accepted"],
            delivered=told["delivered"],
            relayed=told["relayed"],
            ignored=IgnoredCounts(**told["ignored"]),
            refused=RefusedCounts(**told["refused"]),
            sent=SentCounts(**told["sent"]),
            contention=ContentionCounts(**told.get("contention", {})),
        )

    def _look_up(self, now: int, address: int) -> Optional[Vector]:
        told = self._asked("look_up", now, address=f"{address:016x}")
        return _vector(told) if told and told["result"] == "found" else None

    def _neighbours(self, now: int, after: int) -> Tuple[List[Vector], Optional[int]]:
        told = self._asked("neighbours", now, after=f"{after:016x}")
        if not told:
            return [], None
        vectors = [_vector(keys) for keys in told["vectors"]]
        return vectors, vectors[-1].address if told["more"] else None

    def _asked(self, do: str, at: int, **keys: Any) -> Dict[str, Any]:
        """Returns the answer to a query; empty if the time is rejected."""
        try:
            return self._ask(do, at, **keys)
        except Refused as refused:
            if refused.status in (Status.MOMENT_EARLIER, Status.MOMENT_TOO_LATE):
                return {}
            raise

    def read_frame(self, frame: bytes) -> Packet:
        """Returns all fields of a frame, as `geostation.read_frame` does, but by the program.

        Raises:
            BadFrame: The bytes are not a valid frame.
        """
        frame = octets("frame", frame)
        told = self._ask("read_frame", frame=_short(frame, FRAME_MAX).hex())
        kind = Kind[told["kind"].upper()]
        is_to_area = kind in (Kind.GBC, Kind.GAC)
        return Packet(
            bytes.fromhex(told["to"]),
            bytes.fromhex(told["from"]),
            kind,
            _vector(told),
            told["hops"],
            told["max_hops"],
            told["lt"],
            told["tc"],
            told["mobile"],
            frame[MEDIA] if kind is Kind.SHB else None,
            told.get("number"),
            _area(told) if is_to_area else None,
            None if kind is Kind.BEACON else _message(told),
        )

    def seal(self, frame: bytes, message: bytes) -> bytes:
        """Returns the secured frame of an unsecured one, as `geostation.seal` does, but by the
        program.

        Raises:
            BadFrame: The bytes are not a valid unsecured frame.
            BadArgument: The message is empty or too long.
        """
        frame, message = octets("frame", frame), octets("message", message)
        keys = {"frame": _short(frame, FRAME_MAX), "message": _short(message, SECURED_FRAME_MAX)}
        with self._calling:
            return self._sent(
                self._ask("seal", None, **{key: value.hex() for key, value in keys.items()})
            )

    def _receive(self, now: int, frame: bytes) -> Reception:
        return self._heard(self._ask("receive", now, frame=_short(frame, FRAME_MAX).hex()))

    def _receive_verified(self, now: int, frame: bytes, plain: bytes) -> Reception:
        secured = _short(frame, SECURED_FRAME_MAX).hex()
        # A plain part that is longer than a frame is an error, however long it is.
        return self._heard(
            self._ask("receive", now, frame=secured, plain=_short(plain, FRAME_MAX).hex())
        )

    def _heard(self, answer: Dict[str, Any]) -> Reception:
        if answer["result"] == "ignored":
            return Reception(
                ignored=_REASONS[answer["why"]], cancelled=answer.get("cancelled", False)
            )
        delivered = _message(answer) if "payload" in answer else None
        relay = self._sent(answer) if "frame" in answer else None
        return Reception(
            delivered=delivered,
            relay=relay,
            source=int(answer["source"], 16),
            due=answer.get("due"),
            media=bytes.fromhex(answer.get("media", NO_MEDIA.hex())),
        )

    def _next_due(self) -> Optional[int]:
        due: Optional[int] = self._ask("next_due").get("moment")
        return due

    def _release(self, now: int) -> Optional[bytes]:
        answer = self._ask("release", now)
        return self._sent(answer) if answer["result"] == "released" else None


Line = PipeStation  # deprecated: the name until 0.1


def _short(told: bytes, most: int) -> bytes:
    """Returns bytes that fit into a line. If there are too many, one too many is kept."""
    return told[: most + 1]


def _vector(keys: Dict[str, Any]) -> Vector:
    return Vector(
        int(keys["address"], 16),
        keys["tst"],
        keys["lat"],
        keys["lon"],
        keys["speed"],
        keys["heading"],
        keys["pai"],
    )


def _area(keys: Dict[str, Any]) -> Area:
    sizes = (keys["a"], keys["b"], keys["angle"])
    return Area(Shape[keys["shape"].upper()], keys["alat"], keys["alon"], *sizes)


def _message(keys: Dict[str, Any]) -> Message:
    return Message(keys["port"], keys["info"], bytes.fromhex(keys["payload"]))
