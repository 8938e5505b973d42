"""Tests of pictures by sessions."""

from __future__ import annotations

import unittest
from typing import Optional

from ntbview.common import Failure, Script, Status
from ntbview.sessions import session_picture

from . import support

CUT = Script("cut", b"ntb 1\nhost a\nhost b\npair p a b size=4096 mtu=1023\ntraffic\nflood p A 0 24 2\nbreak p\n")
RUN = ["lane p A 0 1 accepted 3 delivered 2 left 1", "frame 0 0001", "frame 1 0102", "left 2 0203",
       "lane p A 0 2 accepted 21 delivered 21 left 0", *(f"frame {n} {n + 3:02x}{n + 4:02x}" for n in range(21)), "end"]
JOINED = ["lane p A 0 sessions 2 accepted 24 left 0", *(f"frame {n} 00" for n in range(24)), "end"]


def story(name: str) -> tuple[Script, list[str]]:
    """A story with its report."""
    path = support.TOP / "examples" / f"{name}.ntb"
    return Script(path.name, path.read_bytes()), path.with_suffix(".report").read_text("latin-1").splitlines()


def why_not(script: Script, text: list[str]) -> str:
    """Why a text can't be drawn."""
    try:
        session_picture(script, text, "", None)
    except Failure as failure:
        assert failure.status is Status.ENVIRONMENT
        return failure.message
    return "it is drawn"


class SessionPictures(unittest.TestCase):
    """What the picture shows."""

    def test_a_run_and_a_stream(self) -> None:
        stream = support.program().reply("stream", CUT.data).text.decode("latin-1").splitlines()
        picture = session_picture(CUT, RUN + stream, "", None)
        of_run = ("delivered 2 (0-1)", "left 1 (2)", "delivered 21 (3-23)", "left in all 1")
        for words in (*of_run, "items 24 (0-23)", "none missing"):
            self.assertIn(f">{words}<", picture)
        self.assertIn("<title>A script's traffic by sessions</title>", picture)

    def test_a_joined_run(self) -> None:
        picture = session_picture(CUT, JOINED, "", None)
        for words in ("run, sessions joined", "accepted 24 (0-23)", "each is delivered, or left and lost"):
            self.assertIn(f">{words}<", picture)

    def test_stories(self) -> None:
        for name in ("both", "two", "cut", "mirror"):
            picture = (support.TOP / "examples" / f"{name}.svg").read_text("latin-1")
            self.assertEqual(session_picture(*story(name), "", None).split("\n")[:-4], picture.split("\n")[:-4])

    def test_the_lanes_of_one_queue_or_pair(self) -> None:
        script, text = story("mirror")
        choices: list[tuple[str, Optional[int]]] = [("p", 1), ("", 1)]
        for pair, queue in choices:
            picture = session_picture(script, text, pair, queue)
            self.assertIn(">p A 1<", picture)
            self.assertFalse(">p A 0<" in picture or ">p B 0<" in picture)
        self.assertIn(">Drawn are the lanes of pair p queue 1 alone.<", session_picture(script, text, "p", 1))

    def test_many_sessions(self) -> None:
        data = CUT.data.replace(b"flood p A 0 24 2", b"flood p A 0 24 2\nframe p B 0 61") + b"break p\n" * 199
        script = Script("many", data)
        text = ["stream p A 0 items 24 sessions 201", *(f"item {n} 00" for n in range(24)),
                "stream p B 0 items 1 sessions 201", "item 0 61", "end"]
        picture = session_picture(script, text, "", None)
        self.assertIn(">The picture stops here, after 201 sessions: 1 lanes are left out.<", picture)

    def test_texts_that_are_not_of_the_script(self) -> None:
        script, text = story("mirror")
        self.assertEqual(why_not(script, text), "it is drawn")
        for changed in (
            text[:-1],
            ["item 8 x" if line.startswith("item 7 ") else line for line in text],
            [line for line in text if not line.startswith("item 39 ")],
            ["what"] + text,
            [],
            RUN + ["end"] + JOINED,
        ):
            self.assertNotEqual(why_not(CUT if changed[:1] == RUN[:1] else script, changed), "it is drawn")
        self.assertIn("the text was cut off", why_not(script, text[:-1]))
        self.assertEqual(why_not(CUT, RUN + JOINED), "there are two texts of a run")
        other = "the text is that of another script: "
        sessions = [line.replace(" sessions 4", " sessions 5") for line in text]
        self.assertEqual(why_not(script, sessions), other + "lane p A 0 has 4 sessions")
        lanes = [line.replace("stream p A 1", "stream q A 1") for line in text]
        self.assertEqual(why_not(script, lanes), other + "it has a lane q A 1")
        self.assertEqual(why_not(CUT, [*RUN[:4], "end"]), other + "lane p A 0 has 24 frames")


if __name__ == "__main__":
    unittest.main()
