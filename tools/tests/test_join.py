"""Tests of joining the sessions of a run's text."""

from __future__ import annotations

import unittest

from ntbview.common import Failure, Status
from ntbview.sessions import joined

from . import support

TEXT = """lane p A 0 1 accepted 3 delivered 2 left 1
frame 0 00
frame 1 01
left 2 02
lane p A 0 2 accepted 1 delivered 1 left 0
frame 0 03
lane p B 0 1 accepted 1 delivered 0 left 1
left 0 -
end
"""


class Joined(unittest.TestCase):
    """The text of a run, joined."""

    def test_sessions_of_a_lane_are_one(self) -> None:
        wanted = ["lane p A 0 sessions 2 accepted 4 left 0", "frame 0 00", "frame 1 01", "frame 2 02", "frame 3 03",
                  "lane p B 0 sessions 1 accepted 1 left 1", "frame 0 -", "end"]
        self.assertEqual(list(joined(TEXT.splitlines())), wanted)
        self.assertEqual(list(joined(TEXT.splitlines(keepends=True))), wanted)

    def test_stories_are_joined_as_they_are_reported(self) -> None:
        for path in sorted((support.TOP / "examples").glob("*.ntb")):
            report = path.with_suffix(".report").read_text("latin-1")
            if report.startswith("lane ") and " sessions " in report.split("\n")[0]:
                with self.subTest(path.name):
                    text = support.program().reply("run", path.read_bytes()).text.decode("latin-1")
                    told = list(joined(text.splitlines()))
                    self.assertEqual(told, report.splitlines()[: len(told)])

    def test_another_text_is_told(self) -> None:
        lines = TEXT.splitlines()
        for name, text in {
            "no end": lines[:-1],
            "nothing": [],
            "a frame is missing": lines[:1] + lines[2:],
            "a last frame is missing": lines[:3] + lines[4:],
            "another number": ["frame 2 01" if line == "frame 1 01" else line for line in lines],
            "other counts": [line.replace("accepted 3", "accepted 99") for line in lines],
            "a delivered frame after one that was left": lines[:2] + ["left 1 01", "frame 2 02"] + lines[4:],
            "another session": [line.replace("lane p A 0 2", "lane p A 0 3") for line in lines],
            "no line of a run": ["stream p A 0 items 0 sessions 1"] + lines,
            "a frame before a lane": lines[1:],
            "a frame behind the end": lines + ["frame 0 00"],
            "a refusal": ["refused line 3 badhex"],
        }.items():
            with self.subTest(name), self.assertRaises(Failure) as raised:
                list(joined(text))
            self.assertEqual(raised.exception.status, Status.ENVIRONMENT)
            self.assertRegex(raised.exception.message, r"^line \d+: ")


if __name__ == "__main__":
    unittest.main()
