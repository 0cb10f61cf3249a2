"""A security entity that answers as a test says, and secured frames for it.

Its messages are opaque to the daemon: an octet 00, and the plain part.
"""

import json
import os
import socket
import time

from net import PATIENCE

SECURED = b"\x12"
PLAIN_AT = 18
PROBE = "00"  # the message by which a daemon asks whether its entity lives


def message_of(plain):
    return b"\0" + plain


def secured(frame, message=None):
    """The secured frame of an unsecured one."""
    made = message_of(frame[PLAIN_AT:]) if message is None else message
    return frame[:14] + SECURED + frame[15:PLAIN_AT] + made


class Entity:
    def __init__(self, path):
        self.path, self.one = path, None
        self.listening = socket.socket(socket.AF_UNIX, socket.SOCK_SEQPACKET)
        self.listening.bind(path)
        self.listening.listen()
        self.listening.settimeout(PATIENCE)

    def accept(self):
        self.one = self.listening.accept()[0]
        self.one.settimeout(PATIENCE)
        return self

    def any_request(self):
        """The next request."""
        datagram = self.one.recv(65536)
        assert datagram, "the daemon hung up"
        return json.loads(datagram)

    def request(self):
        """The next request. Beacons are signed meanwhile, and probes are answered."""
        limit = time.monotonic() + PATIENCE
        while self.serve_by_itself(request := self.any_request()):
            assert time.monotonic() < limit, "no request but for beacons and probes"
        return request

    def serve_by_itself(self, request):
        """Whether it is a request that comes by itself, and is answered here."""
        if request.get("kind") == "beacon":
            self.sign(request)
        elif request.get("message") == PROBE:
            self.say(id=request["id"], error="no message")
        else:
            return False
        return True

    def requests(self, count):
        return [self.request() for _ in range(count)]

    def burst(self, length=0.3):
        """The requests until none comes for so many seconds."""
        found = []
        self.one.settimeout(length)
        try:
            while True:
                found.append(self.request())
        except TimeoutError:
            return found
        finally:
            self.one.settimeout(PATIENCE)

    def is_quiet(self, length=0.3):
        """Whether no request comes for so many seconds, but for beacons and probes."""
        self.one.settimeout(length)
        try:
            self.request()
            return False
        except TimeoutError:
            return True
        finally:
            self.one.settimeout(PATIENCE)

    def say(self, **keys):
        self.send(json.dumps(keys).encode())

    def send(self, datagram):
        self.one.send(datagram)

    def sign(self, request):
        assert request["do"] == "sign", request
        self.say(id=request["id"], message=message_of(bytes.fromhex(request["plain"])).hex())

    def verify(self, request, **more):
        assert request["do"] == "verify", request
        self.say(id=request["id"], plain=request["message"][2:], **more)

    def serve(self, request):
        (self.sign if request["do"] == "sign" else self.verify)(request)

    def close(self):
        """As an entity that dies: its socket stays as a file."""
        self.listening.close()
        if self.one is not None:
            self.one.close()

    def end(self):
        self.close()
        if os.path.exists(self.path):
            os.unlink(self.path)
