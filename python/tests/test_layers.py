"""Layers of scapy: which headers lead to GeoNetworking, how far a packet is read, and what `fuzz`
keeps."""

import unittest

try:
    from geostation import scapy as layers
    from scapy.layers.dot11 import Dot11, Dot11QoS, RadioTap
    from scapy.layers.l2 import LLC, SNAP, CookedLinux, Dot1Q, Ether
    from scapy.packet import Raw
except ImportError:
    layers = None


@unittest.skipIf(layers is None, "scapy isn't installed")
class Bound(unittest.TestCase):
    def check(self, headers):
        """Checks that a packet behind these headers is read from its bytes."""
        packet = layers.GeoNetworking(address=0x1400020000000001) / layers.BTPB(port=2002)
        found = type(headers)(bytes(headers / packet))
        self.assertEqual(0x1400020000000001, found[layers.GeoNetworking].address)
        self.assertEqual(2002, found[layers.BTPB].port)

    def test_data_of_802_11_is_read(self):
        snap = LLC(dsap=0xAA, ssap=0xAA, ctrl=3) / SNAP(OUI=0, code=0x8947)
        self.check(Dot11(type=2, subtype=8) / Dot11QoS() / snap)
        self.check(RadioTap() / Dot11(type=2, subtype=0) / snap)

    def test_tags_and_cooked_captures_are_read(self):
        self.check(Ether(type=0x8100) / Dot1Q(vlan=5, type=0x8947))
        self.check(CookedLinux(proto=0x8947))


# Packets by the layout of EN 302 636-4-1 clause 9. A source's long position vector: its address, time
# stamp, latitude, longitude, speed and heading.
VECTOR = bytes.fromhex("1400020000000001" "00000005" "00000010" "fffffff0" "8001" "0002")
SECURED = bytes.fromhex("12001a0a" "0381004003804820500280003501")
MULTI_HOP = bytes.fromhex("11001a0a" "2051008000060a00" "00070000") + VECTOR + b"\x07\xd2\0\0hi"
UNICAST = (
    bytes.fromhex("11001a0a" "2020008000060a00" "00070000")
    + VECTOR
    + VECTOR[:20]
    + b"\x07\xd2\0\0hi"
)
REQUEST = bytes.fromhex("11001a0a" "0060008000000a00" "00070000") + VECTOR + VECTOR[:8]


@unittest.skipIf(layers is None, "scapy isn't installed")
class Opaque(unittest.TestCase):
    def read(self, octets):
        return Ether(bytes(Ether(type=0x8947)) + octets)[layers.GeoNetworking]

    def test_a_secured_packet_is_read_up_to_its_message(self):
        found = self.read(SECURED)
        self.assertEqual((2, 0x1A, 10), (found.basic_next, found.lifetime, found.hops_left))
        self.assertEqual(SECURED[4:], found[Raw].load)
        self.assertNotIn(layers.BTPB, found)
        fields = ["version", "basic_next", "reserved", "lifetime", "hops_left"]
        self.assertEqual(fields, list(found.fields))

    def test_other_types_are_read_up_to_their_extended_header(self):
        for octets, kind in (MULTI_HOP, (5, 1)), (UNICAST, (2, 0)), (REQUEST, (6, 0)):
            found = self.read(octets)
            self.assertEqual(kind, (found.type, found.subtype))
            self.assertEqual(10, found.max_hops)
            self.assertEqual(octets[12:], found[Raw].load)
            self.assertNotIn(layers.BTPB, found)
            self.assertNotIn("address", found.fields)

    def test_what_is_not_read_is_written_as_it_was(self):
        for octets in SECURED, MULTI_HOP, UNICAST, REQUEST:
            self.assertEqual(octets, bytes(self.read(octets)))
        sealed = layers.GeoNetworking(basic_next=2, hops_left=3) / Raw(b"\x03\x80")
        self.assertEqual(bytes.fromhex("12001a030380"), bytes(sealed))

    def test_a_packet_of_any_next_header_has_a_common_header(self):
        found = self.read(b"\x10" + bytes(layers.GeoNetworking(address=7) / b"abcd")[1:])
        self.assertEqual((0, 7), (found.basic_next, found.address))


@unittest.skipIf(layers is None, "scapy isn't installed")
class Fuzzed(unittest.TestCase):
    def test_fuzzed_packets_get_past_the_first_checks(self):
        codes = set()
        for _ in range(300):
            packet = layers.fuzz(Ether() / layers.GeoNetworking(type=layers.BROADCAST))
            found = Ether(bytes(packet))[layers.GeoNetworking]
            self.assertEqual(
                (1, 1, 2, layers.BROADCAST, 0, 0),
                (found.version, found.basic_next, found.next_header, found.type, found.reserved,
                 found.flags),
            )
            codes.add(found.latitude)
        self.assertGreater(len(codes), 250)

    def test_other_fields_can_be_kept(self):
        packet = layers.fuzz(layers.GeoNetworking(), keep=("hops_left", "max_hops"))
        versions = {layers.GeoNetworking(bytes(packet)).version for _ in range(200)}
        self.assertGreater(len(versions), 1)
        self.assertEqual(1, layers.GeoNetworking(bytes(packet)).hops_left)

    def test_a_field_that_is_set_stays(self):
        packet = layers.fuzz(layers.GeoNetworking(traffic_class=3))
        self.assertEqual({3}, {packet.traffic_class for _ in range(20)})


if __name__ == "__main__":
    unittest.main()
