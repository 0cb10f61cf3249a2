"""A security entity that signs for the tester's stations, and verifies what the station under test
sends. It is another program, at a UNIX socket, with the messages of docs/SECURITY-ENTITY.md."""

from __future__ import annotations

import json
import socket

from .frames import HOPS_AT, LIFETIME_AT
from .secured import message_in

PATIENCE = 5.0  # s
LONGEST = 65_536  # octets of a datagram


class NoEntity(Exception):
    """The security entity does not answer, or does not sign."""


class Entity:
    def __init__(self, path: str):
        self.socket = socket.socket(socket.AF_UNIX, socket.SOCK_SEQPACKET)
        self.socket.settimeout(PATIENCE)
        self.socket.connect(path)
        self.number = 0  # of the last request

    def ask(self, **keys) -> dict:
        """The answer to a request. Answers to earlier requests are skipped."""
        self.number += 1
        try:
            self.socket.send(json.dumps({"id": self.number, **keys}).encode())
            while (answer := json.loads(self.socket.recv(LONGEST)))["id"] != self.number:
                pass
        except (OSError, ValueError, KeyError, TypeError) as why:
            raise NoEntity(f"no answer: {why}") from None
        return answer

    def sign(self, kind: str, port: int, plain: bytes) -> bytes:
        """The message of a plain part. A beacon has no port."""
        keys = {} if kind == "beacon" else {"port": port}
        answer = self.ask(do="sign", kind=kind, plain=plain.hex(), **keys)
        try:
            return bytes.fromhex(answer["message"])
        except (KeyError, TypeError, ValueError):
            raise NoEntity(f"{kind}: {answer.get('error', answer)}") from None

    def refusal(self, frame: bytes, at: int) -> str:
        """Why the message of a secured frame is not good, or nothing if it is. `at` is when it was
        received, in ms of TAI since 2004-01-01."""
        keys = {"lt": f"{frame[LIFETIME_AT]:02x}", "hops": frame[HOPS_AT]}
        keys |= {"from": frame[6:12].hex(), "at": at}
        answer = self.ask(do="verify", message=message_in(frame).hex(), **keys)
        return "" if "plain" in answer else str(answer.get("error"))
