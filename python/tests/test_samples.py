"""The samples of captures: what is shown of them, and what scapy says of their frames.
GEOSTATION_SAMPLES names their folder."""

import contextlib
import io
import os
import unittest
from pathlib import Path

from geostation import BadFrame, Kind, __main__, capture

SAMPLES = Path(os.environ.get("GEOSTATION_SAMPLES", "."))
FORMATS = (".cap", ".pcap", ".pcapng")


def samples():
    return [path for path in sorted(SAMPLES.iterdir()) if path.suffix in FORMATS]


class Shown(unittest.TestCase):
    def test_samples_are_shown_as_the_program_does(self):
        count = 0
        for path in samples():
            want = path.with_suffix(".show")
            # These have the lines of `show --signed` and of `show --all-kinds`, options that this
            # package lacks.
            if not want.exists() or path.stem in ("signed", "outside"):
                continue
            out = io.StringIO()
            with contextlib.redirect_stdout(out):
                status = __main__.show(str(path))
            self.assertEqual(want.read_text(), out.getvalue(), path.name)
            told = out.getvalue()
            self.assertEqual(int(" refused " in told or "capture:" in told), status, path.name)
            count += 1
        self.assertGreaterEqual(count, 8)


try:
    from geostation import scapy as layers
    from scapy.layers.l2 import Ether
except ImportError:
    layers = None


@unittest.skipIf(layers is None, "scapy isn't installed")
class Dissected(unittest.TestCase):
    def test_scapy_reads_the_same(self):
        count = 0
        for path in samples():
            with open(path, "rb") as file:
                try:
                    for record in capture.read(file):
                        count += self.compare(record)
                except capture.CaptureFault:
                    pass
        self.assertGreaterEqual(count, 10)

    def compare(self, record):
        """Compares a frame's fields, where it is one."""
        if record.refused:
            return 0
        try:
            told = __main__.read_record(record)
        except BadFrame:
            return 0
        frame = Ether(record.octets)
        found = frame[layers.GeoNetworking]
        v = told.vector
        self.assertEqual(
            (told.source.hex(":"), told.target.hex(":"), told.kind.name.lower()),
            (frame.src, frame.dst, layers.TYPES[found.type]),
        )
        self.assertEqual(
            (v.address, v.timestamp, v.latitude, v.longitude, v.speed, v.heading, v.accurate),
            (found.address, found.timestamp, found.latitude, found.longitude, found.speed,
             found.heading, bool(found.accurate)),
        )
        self.assertEqual(
            (told.hops_left, told.max_hops, told.lifetime, told.traffic_class, told.mobile),
            (found.hops_left, found.max_hops, found.lifetime, found.traffic_class,
             bool(found.mobile)),
        )
        if told.area:
            area = told.area
            self.assertEqual(
                (told.number, area.latitude, area.longitude, area.a, area.b, area.angle),
                (found.number, found.area_latitude, found.area_longitude, found.a, found.b,
                 found.angle),
            )
        if told.kind is Kind.SHB:
            self.assertEqual(told.media, found.media.to_bytes(4, "big"))
        if told.message:
            btp = frame[layers.BTPB]
            message = told.message
            self.assertEqual(
                (message.port, message.info, message.payload),
                (btp.port, btp.info, bytes(btp.payload)),
            )
        return 1


if __name__ == "__main__":
    unittest.main()
