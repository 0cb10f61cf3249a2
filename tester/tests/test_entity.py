"""What a security entity is asked for, and what its answers mean."""

import json
import os
import socket
import tempfile
import threading
import unittest
from unittest import mock

from geostation_tester import entity
from geostation_tester.entity import Entity, NoEntity

# A secured frame: link addresses, EtherType, Basic Header (LT 1a, RHL 9), and a message.
FRAME = bytes.fromhex("ffffffffffff" "020000000100" "8947" "12001a09" "038001")


class Entities(unittest.TestCase):
    def setUp(self):
        self.enterContext(mock.patch.object(entity, "PATIENCE", 0.2))
        room = tempfile.TemporaryDirectory()
        self.addCleanup(room.cleanup)
        path = os.path.join(room.name, "entity")
        listening = socket.socket(socket.AF_UNIX, socket.SOCK_SEQPACKET)
        self.addCleanup(listening.close)
        listening.bind(path)
        listening.listen()
        self.entity = Entity(path)
        self.addCleanup(self.entity.socket.close)
        self.other = listening.accept()[0]
        self.addCleanup(self.other.close)

    def asked(self, call, *answers):
        """The request of a call, and what it returns, if these are the answers."""
        got = []

        def serve():
            got.append(json.loads(self.other.recv(65536)))
            for answer in answers:
                is_json = not isinstance(answer, bytes)
                self.other.send(json.dumps(answer).encode() if is_json else answer)

        thread = threading.Thread(target=serve)
        thread.start()
        try:
            found = call()
        finally:
            thread.join()
        return got[0], found

    def test_a_packet_is_signed(self):
        answer = {"id": 1, "message": "0a0b"}
        request, message = self.asked(lambda: self.entity.sign("gbc", 2002, b"\x20\x40"), answer)
        expected = {"id": 1, "do": "sign", "kind": "gbc", "plain": "2040", "port": 2002}
        self.assertEqual((request, message), (expected, b"\x0a\x0b"))

    def test_a_beacon_has_no_port(self):
        answer = {"id": 1, "message": "0a"}
        request, _ = self.asked(lambda: self.entity.sign("beacon", 2002, b"\x00"), answer)
        self.assertEqual(request, {"id": 1, "do": "sign", "kind": "beacon", "plain": "00"})

    def test_a_message_is_verified(self):
        for answer, why in (
            ({"id": 1, "plain": "20"}, ""),
            ({"id": 2, "error": "the signer is unknown"}, "the signer is unknown"),
        ):
            request, found = self.asked(lambda: self.entity.refusal(FRAME, 722701081401), answer)
            self.assertEqual(found, why)
            self.assertEqual(request, {
                "id": answer["id"], "do": "verify", "message": "038001", "lt": "1a", "hops": 9,
                "from": "020000000100", "at": 722701081401,
            })  # fmt: skip

    def test_answers_to_earlier_requests_are_skipped(self):
        late = {"id": 0, "message": "ff"}
        answers = (late, late, {"id": 1, "message": "0a"})
        _, message = self.asked(lambda: self.entity.sign("shb", 2001, b"\x20"), *answers)
        self.assertEqual(message, b"\x0a")

    def test_what_is_not_signed_is_reported(self):
        for answers, why in (
            ([{"id": 1, "error": "port 7 has no PSID"}], "shb: port 7 has no PSID"),
            ([], "no answer: timed out"),
            ([b"junk"], "no answer: "),
            ([b"7"], "no answer: "),
            ([{"message": "0a"}], "no answer: "),
            ([{"id": 6, "message": "0x"}], "shb: .*0x"),
        ):
            with self.subTest(why), self.assertRaisesRegex(NoEntity, why):
                self.asked(lambda: self.entity.sign("shb", 7, b"\x20"), *answers)

    def test_an_entity_that_is_gone_is_reported(self):
        self.other.close()
        with self.assertRaisesRegex(NoEntity, "no answer: "):
            self.entity.sign("shb", 7, b"\x20")


if __name__ == "__main__":
    unittest.main()
