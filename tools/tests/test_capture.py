"""Tests of captures."""

from __future__ import annotations

import struct
import unittest
from typing import Iterator

from ntbview.listing import capture, devices_of

from . import support

DEVICE = """ntb 1
host a
host b
pair p a b up strict size=4096 mtu=1023
dev d p A 0 020000000001 stop=1 start=1
dev e p B 0 020000000002 stop=1 start=1
steps
xmit d 020000000002 0800 6162
landall p A 5
recv p B 0
"""
WANTED = """
0a0d0d0a 2c000000 4d3c2b1a 01000000 ffffffff ffffffff 04000600 6e746273 696d0000 00000000 2c000000
01000000 3c000000 01000000 ffff0000 02000100 70000000 03001800 70616972 20702c20 7365656e 2066726f 6d207369 64652041
00000000 3c000000
06000000 5c000000 00000000 00000000 81969800 10000000 10000000 02000000 00020200 00000001 08006162
01001b00 6c696e65 2031302c 20702041 20746f20 422c2064 65766963 65206500 02000400 02000000 00000000 5c000000
"""


def captured(text: str, pair: str = "") -> bytes:
    """The capture of a script."""
    return b"".join(capture(*support.trace_of(text), pair))


def story(name: str) -> str:
    """The text of a story."""
    return (support.TOP / "examples" / f"{name}.ntb").read_text("latin-1")


def blocks(data: bytes) -> Iterator[tuple[int, bytes]]:
    """The types and bodies of the blocks."""
    while data:
        kind, size = struct.unpack_from("<II", data)
        assert struct.unpack_from("<I", data, size - 4) == (size,)
        yield kind, data[8 : size - 4]
        data = data[size:]


def packets(data: bytes) -> list[tuple[float, str]]:
    """The time of each packet, and its comment."""
    found = []
    for kind, body in blocks(data):
        if kind == 6:
            _, high, low, kept, _ = struct.unpack_from("<IIIII", body)
            at = 20 + (kept + 3) // 4 * 4
            size = struct.unpack_from("<HH", body, at)[1]
            found.append(((high << 32 | low) / 1000000, body[at + 4 : at + 4 + size].decode()))
    return found


class Captures(unittest.TestCase):
    """What a capture has."""

    def test_each_byte(self) -> None:
        self.assertEqual(captured(DEVICE).hex(), "".join(WANTED.split()))

    def test_without_a_device_there_is_a_section_alone(self) -> None:
        self.assertEqual([kind for kind, _ in blocks(captured(story("first")))], [0x0A0D0D0A])
        self.assertEqual(len(captured(story("first"))), 44)
        script, _ = support.trace_of(DEVICE)
        self.assertEqual(devices_of(script, ""), {("p", "A", 0): "d", ("p", "B", 0): "e"})
        self.assertFalse(devices_of(script, "q"))

    def test_two_pairs_and_one(self) -> None:
        wanted = [(19.000001, "line 19, p A to B, device d1"), (30.000001, "line 30, r A to B, device d3"),
                  (35.000001, "line 35, r B to A, device d2")]
        self.assertEqual(packets(captured(story("cluster"))), wanted)
        self.assertEqual(packets(captured(story("cluster"), "r")), wanted[1:])

    def test_packets_are_as_many_as_the_devices_count(self) -> None:
        for path in sorted((support.TOP / "examples").glob("*.ntb")):
            report = path.with_suffix(".report").read_text("latin-1").splitlines()
            got = [int(line.split(" ")[7]) for line in report if line.startswith("dev ")]
            if got:
                with self.subTest(path.name):
                    self.assertEqual(len(packets(captured(path.read_text("latin-1")))), sum(got))

    def test_frames_without_a_whole_header_are_left_out(self) -> None:
        head = DEVICE.split("xmit")[0]
        sent = head + "send p A 0 {}\nlandall p A 5\nrecv p B 0\n"
        self.assertEqual(len(packets(captured(sent.format("61" * 13)))), 0)
        self.assertEqual(len(packets(captured(sent.format("61" * 14)))), 1)


if __name__ == "__main__":
    unittest.main()
