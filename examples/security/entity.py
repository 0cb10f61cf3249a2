#!/usr/bin/env python3
"""A security entity for a bench: it signs and verifies for geostation-link --security SOCKET.

    entity.py --new KEY                             make a key pair: KEY, and KEY.pub for others
    entity.py --key KEY [--trust FILE ..] SOCKET    sign and verify until SIGINT or SIGTERM

It needs Debian's python3-cryptography. It has no certificates.
"""

import argparse
import os
import selectors
import signal
import socket
import sys
from pathlib import Path

from cryptography.hazmat.primitives import serialization
from cryptography.hazmat.primitives.asymmetric import ec

from rules import Entity

LONGEST = 65536  # octets of a datagram


def make_key(path: Path) -> None:
    """Writes a new private key, which only its owner can read, and its public key."""
    private = ec.generate_private_key(ec.SECP256R1())
    pem, form = serialization.Encoding.PEM, serialization.PrivateFormat.PKCS8
    octets = private.private_bytes(pem, form, serialization.NoEncryption())
    with open(os.open(path, os.O_WRONLY | os.O_CREAT | os.O_EXCL, 0o600), "wb") as file:
        file.write(octets)
    form = serialization.PublicFormat.SubjectPublicKeyInfo
    Path(f"{path}.pub").write_bytes(private.public_key().public_bytes(pem, form))


def read_keys(key: Path, trusted: list[Path]) -> Entity:
    private = serialization.load_pem_private_key(key.read_bytes(), None)
    public = [serialization.load_pem_public_key(path.read_bytes()) for path in trusted]
    return Entity(private, public)


def listen_at(path: str) -> socket.socket:
    """A socket at the path, for the same user and root. An old socket there is replaced."""
    if os.path.exists(path):
        os.unlink(path)
    listening = socket.socket(socket.AF_UNIX, socket.SOCK_SEQPACKET)
    mask = os.umask(0o177)
    listening.bind(path)
    os.umask(mask)
    listening.listen()
    return listening


def serve(entity: Entity, listening: socket.socket) -> None:
    """Answers all who connect, one datagram at a time."""
    ready = selectors.DefaultSelector()
    ready.register(listening, selectors.EVENT_READ)
    while True:
        for key, _ in ready.select():
            if key.fileobj is listening:
                ready.register(listening.accept()[0], selectors.EVENT_READ)
            elif not answer_one(entity, key.fileobj):
                ready.unregister(key.fileobj)
                key.fileobj.close()


def answer_one(entity: Entity, client: socket.socket) -> bool:
    """Whether the client is still there."""
    try:
        datagram = client.recv(LONGEST)
        if not datagram:
            return False
        if (answer := entity.answer(datagram)) is not None:
            client.send(answer)
    except OSError:
        return False
    return True


def main() -> None:
    parser = argparse.ArgumentParser(description=__doc__.splitlines()[0])
    parser.add_argument("socket", nargs="?", help="Path of the UNIX socket")
    parser.add_argument("--new", type=Path, metavar="KEY", help="Make a key pair, and end")
    parser.add_argument("--key", type=Path, help="File of the private key")
    parser.add_argument(
        "--trust", type=Path, action="append", default=[], metavar="FILE",
        help="File of a public key whose messages are accepted; may be repeated",
    )
    options = parser.parse_args()
    if options.new:
        make_key(options.new)
        return
    if not options.socket or not options.key:
        parser.error("a socket and --key are needed")
    signal.signal(signal.SIGTERM, lambda *_: sys.exit(0))
    serve(read_keys(options.key, options.trust), listen_at(options.socket))


if __name__ == "__main__":
    try:
        main()
    except KeyboardInterrupt:
        pass
    except (OSError, ValueError) as why:
        sys.exit(f"entity.py: {why}")
