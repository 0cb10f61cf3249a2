"""Upper testers that do not answer, and the octets of their messages."""

import os
import socket
import tempfile
import threading
import unittest
from unittest import mock

from geostation_tester import campaign, upper
from geostation_tester.actions import Action, Fields
from geostation_tester.areas import Area
from geostation_tester.upper import Delivered, JsonUpper, NoUpper, UdpUpper

HOME = (514776500, -10000)


def action(ask, **keys):
    usual = {"area": None, "port": 2001, "payload": b"\x0a", "fields": Fields()}
    rest = dict.fromkeys(("name", "of", "frame"), "") | dict.fromkeys(("at", "every", "until"), 0)
    return Action(do="upper", names=(), ports=1, ask=ask, **rest, **{**usual, **keys})


class Uppers(unittest.TestCase):
    def setUp(self):
        self.enterContext(mock.patch.object(upper, "PATIENCE", 0.2))
        room = tempfile.TemporaryDirectory()
        self.addCleanup(room.cleanup)
        self.path = os.path.join(room.name, "upper")

    def listener(self, family, kind, address):
        found = socket.socket(family, kind)
        self.addCleanup(found.close)
        found.bind(address)
        return found

    def json_upper(self):
        """An upper tester over lines, and the other end."""
        listening = self.listener(socket.AF_UNIX, socket.SOCK_STREAM, self.path)
        listening.listen()
        made = JsonUpper(self.path)
        other = listening.accept()[0]
        self.addCleanup(made.socket.close)
        self.addCleanup(other.close)
        return made, other

    def udp_upper(self):
        other = self.listener(socket.AF_INET, socket.SOCK_DGRAM, ("127.0.0.1", 0))
        made = UdpUpper(*other.getsockname())
        self.addCleanup(made.socket.close)
        return made, other

    def test_no_answer_is_reported(self):
        for made, _ in (self.json_upper(), self.udp_upper()):
            with self.assertRaisesRegex(NoUpper, "no answer: timed out"):
                made.ask(action("open"), HOME)

    def test_a_port_that_is_open_needs_no_opening(self):
        """The answers are those of geostation-link."""
        made, other = self.json_upper()
        other.sendall(b'{"at":1,"result":"refused","code":"S8 B2","reason":"the port is open"}\n')
        made.ask(action("open"), HOME)
        self.assertEqual(other.recv(100), b'{"do": "open", "port": 2001}\n')
        refused = b'{"at":1,"result":"refused","code":"S8 B3","reason":"64 other ports are open"}'
        other.sendall(refused + b"\n")
        with self.assertRaisesRegex(NoUpper, "open: .*S8 B3"):
            made.ask(action("open"), HOME)

    def test_a_closed_socket_is_reported(self):
        made, other = self.json_upper()
        other.close()
        with self.assertRaises(NoUpper):
            made.events()

    def test_a_closed_port_is_reported(self):
        made, other = self.udp_upper()
        other.close()
        with self.assertRaisesRegex(NoUpper, "no answer: .*refused"):
            made.ask(action("open"), HOME)

    def test_an_upper_tester_that_is_gone_makes_a_purpose_inconclusive(self):
        made, other = self.json_upper()
        other.close()
        bench = mock.Mock()
        bench.station.lacks.return_value = []
        bench.preamble.return_value = (True, [])
        bench.delivered.side_effect = made.events
        played = campaign.play(bench, mock.Mock(needs=("upper",)))
        self.assertEqual(played.lacks, "the upper tester: the upper tester closed its socket")
        self.assertTrue(played.is_applicable)

    def exchanged(self, made, other, answer, asked):
        """What the other end of a UDP upper tester gets."""
        got = []

        def serve():
            message, address = other.recvfrom(100)
            got.append(message.hex())
            other.sendto(bytes.fromhex(answer), address)

        thread = threading.Thread(target=serve)
        thread.start()
        made.ask(asked, HOME)
        thread.join()
        return got[0]

    def test_the_octets_of_messages_over_udp(self):
        """By hand from the table of examples/upper-tester/README.md."""
        made, other = self.udp_upper()
        for asked, message, answer in (
            (action("open"), "02" "00000000" "00000000" "00", "0301"),
            (action("move", fields=Fields(north=0, east=0)),
             "02" "00000000" "00000000" "00", "0301"),
            (action("shb", fields=Fields(traffic_class=2)),
             "53" "02" "0005" "07d10000" "0a", "4101"),
            (action("gbc", area=Area(1, 0, 0, 300, 20, 90)),
             "51" "01" "ea60" "00" "000000" "1eaeddb4" "ffffd8f0" "012c" "0014" "005a" "0005"
             "07d10000" "0a", "4101"),
        ):  # fmt: skip
            with self.subTest(message):
                self.assertEqual(self.exchanged(made, other, answer, asked), message)

    def test_a_refusal_and_an_event_over_udp(self):
        made, other = self.udp_upper()
        with self.assertRaisesRegex(NoUpper, "shb: 4100"):
            self.exchanged(made, other, "4100", action("shb"))
        other.sendto(bytes.fromhex("55" "0006" "07d10000" "0a0b"), made.socket.getsockname())
        self.assertEqual(made.events(), [Delivered(2001, b"\x0a\x0b")])
        self.assertEqual(made.events(), [])


if __name__ == "__main__":
    unittest.main()
