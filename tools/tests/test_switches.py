"""Tests of pictures of scripts with switches."""

from __future__ import annotations

import unittest

from ntbview.draw import switch_picture

from . import support

ONE_SWITCH = """ntb 1
host a
host b
host c
pair p a b up strict size=4096 mtu=1023
pair r b c up strict size=4096 mtu=1023
dev d p B 0 020000000011 stop=1 start=1
dev e r A 0 020000000012 stop=1 start=1
switch s d e
steps
"""


def drawn(name: str) -> str:
    """The picture of a story."""
    return switch_picture(*support.trace_of((support.TOP / "examples" / f"{name}.ntb").read_text("latin-1")))


class SwitchPictures(unittest.TestCase):
    """What the picture shows."""

    def test_a_frame_goes_through_a_switch(self) -> None:
        picture = drawn("flood")
        self.assertIn("<title>Question: does a switch send a frame to hosts for which it isn't?</title>", picture)
        for text in ("host", "switch s", "0: d1", "port 0: flood 2", "frame 0, 15 bytes", "1 / 0", "0 / 1", "5 landed"):
            self.assertIn(f">{text}<" if text != "host" else "(p A)<", picture)

    def test_a_dropped_frame_is_not_red(self) -> None:
        self.assertIn('class="plain">port 0: short 13<', drawn("short"))

    def test_what_is_refused_is_red(self) -> None:
        picture = switch_picture(*support.trace_of(ONE_SWITCH + "relay s 0\ncopy p B 0\n"))
        self.assertIn('class="refused">port 0: nothing<', picture)
        self.assertIn('class="refused">outofturn<', picture)
        self.assertIn(">Red: refused, nothing changed.<", picture)
        self.assertIn("<title>A script with its answers</title>", picture)

    def test_a_run_of_posts_is_one_row(self) -> None:
        script = ONE_SWITCH + "begin p A 0 020000000011\n" + "post p A 0\n" * 5 + "land p A 0\n" * 5
        picture = switch_picture(*support.trace_of(script))
        self.assertEqual(picture.count('class="right script"'), 3)
        self.assertIn(">posted, 5x<", picture)
        self.assertEqual(picture.count('marker-end="url(#head-flag)"'), 1)

    def test_entries_in_flight_and_lost_ones_end_half_the_way(self) -> None:
        script = ONE_SWITCH + "send p A 0 61\nbreak r\nsend r B 0 62\nbreak p\n"
        picture = switch_picture(*support.trace_of(script))
        self.assertEqual((picture.count('class="flag"'), picture.count('class="cross"')), (1, 0))
        picture = switch_picture(*support.trace_of(script + "drop p\n"))
        self.assertEqual((picture.count('class="flag"'), picture.count('class="cross"')), (1, 2))

    def test_the_picture_stops_after_300_rows(self) -> None:
        script, trace = support.trace_of(ONE_SWITCH + "copy p B 0\n" * 305)
        picture = switch_picture(script, trace)
        self.assertIn(">The picture stops here, after 300 rows: 5 lines are left out.<", picture)
        self.assertEqual(picture.count('class="right script"'), 300)

    def test_counts_stand_below(self) -> None:
        self.assertIn('class="">dev d1 tx ', drawn("flood"))


if __name__ == "__main__":
    unittest.main()
