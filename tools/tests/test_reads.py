"""Tests of pictures of texts of reads."""

from __future__ import annotations

import unittest

from ntbview.common import Failure, Script, Status
from ntbview.reads import reads_picture

from . import support


def drawn(text: str) -> str:
    """The picture of a text, with the program's reply."""
    script = Script("reads", text.encode())
    return reads_picture(script, support.program().reply("reads", script.data).text.decode().splitlines())


class ReadsPictures(unittest.TestCase):
    """What the picture shows."""

    def test_a_blocked_landing_waits_for_the_only_one_before_it(self) -> None:
        picture = drawn("reads 1\nwrite A 0 6162 strict\nread A 0 2\nland A 1\n")
        self.assertIn('class="no">blocked<', picture)
        self.assertIn('class="why">not past strict write of line 2<', picture)

    def test_of_several_before_it_none_is_named(self) -> None:
        picture = drawn("reads 1\nwrite B 0 61 strict\nwrite B 8 62 strict\nread A 0 1\nland A 0\nland B 2\n")
        self.assertIn('class="why end">not past one of 2 before it<', picture)

    def test_what_was_landed_lost_and_left(self) -> None:
        text = "reads 1\nread A 0 300\nland A 0\nland B 0\nwrite A 0 61 relaxed\n"
        self.assertEqual(drawn(text).count('class="open"'), 3)
        self.assertEqual(drawn(text).count('marker-end="url(#completion)"'), 2)
        picture = drawn(text + "break\ndrop\nland B 0\nwrite A 0 61 strict\n")
        self.assertEqual((picture.count('class="open"'), picture.count('class="cross"')), (0, 6))
        for answer in ("nothing", "linkdown"):
            self.assertIn(f'class="no">{answer}<', picture)

    def test_a_request_on_a_link_that_is_not_up_has_no_completion(self) -> None:
        self.assertEqual(drawn("reads 1\nread A 0 1\nbreak\nland A 0\n").count('class="open"'), 0)

    def test_a_refused_text(self) -> None:
        self.assertIn('class="no">refused line 2 badline<', drawn("reads 1\nwrong\n"))

    def test_a_reply_that_is_cut_off(self) -> None:
        for reply in (["2 read 0"], []):
            with self.assertRaises(Failure) as raised:
                reads_picture(Script("reads", b"reads 1\nread A 0 1\n"), reply)
            self.assertEqual(raised.exception.status, Status.ENVIRONMENT)


if __name__ == "__main__":
    unittest.main()
