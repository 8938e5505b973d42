"""Messages of refused scripts: place, line, carets and hint, as they were worked out by hand."""

from __future__ import annotations

import unittest
from pathlib import Path

from ntbview.common import Script, distance, nearest
from ntbview.messages import fault_text

from . import support

HEAD = "ntb 1\nhost a\nhost b\n"
PAIR = HEAD + "pair p a b\n"


def told(text: str) -> list[str]:
    """The message of a script."""
    script = Script("x", text.encode("latin-1"))
    return fault_text(script, support.program().reply("reads" if script.is_reads else "check", script.data).first)


class Messages(unittest.TestCase):
    """Each test compares whole messages."""

    def test_messages_that_were_worked_out_by_hand(self) -> None:
        cases = Path(__file__).with_name("refused.txt").read_text(encoding="utf-8").split("\n", 2)[2].split("--\n")
        self.assertEqual(len(cases), 31)
        for case in cases:
            script, *message = case.rstrip("\n").split("\n")
            with self.subTest(script=script):
                self.assertEqual(told(HEAD + script.replace("|", "\n") + "\n"), ["x:" + message[0], *message[1:]])

    def test_header(self) -> None:
        wanted = "the first line of a script is: ntb 1"
        self.assertEqual(told("NTB 1\n"), ["x:1:1: badheader: NTB 1", "    NTB 1", "    ^^^^^", wanted])
        self.assertEqual(told(""), ["x:1:1: badheader: nothing stands here", wanted])

    def test_strange_bytes(self) -> None:
        hint = "a line has printed characters and spaces alone; a comment may have other bytes; column 5 has a tab"
        lines = ["x:2:1: nottext: host?a?", "    host?a?", "    ^^^^^^^", hint]
        self.assertEqual(told("ntb 1\nhost\ta\0\r\n"), lines)
        self.assertEqual(told("ntb 1\nhost\xe9a\0\r\n"), [*lines[:3], hint.replace("a tab", "another byte")])

    def test_text_of_reads(self) -> None:
        hint = "this is written: land S K; docs/FORMATS.md, A text of reads, has the ranges"
        lines = ["x:2:1: badline: land A 07", "    land A 07", "    ^^^^^^^^^", hint]
        self.assertEqual(told("reads 1\nland A 07\n"), lines)
        self.assertEqual(told("reads 2\n")[-1], "the first line of a text of reads is: reads 1")
        self.assertIn("did you mean relink?", told("reads 1\nrelnik\n")[-1])

    def test_of_a_long_line_what_stands_at_the_word_is_shown(self) -> None:
        lines = told(PAIR + "steps\nsend p A 0 " + "61" * 60 + "6\n")
        self.assertEqual(lines[0], f"x:6:12: badhex: {'61' * 29}..")
        self.assertEqual(lines[1], f"    send p A 0 {('61' * 60)[:87]}..")
        self.assertEqual(lines[2], " " * 15 + "^" * 89)
        far = told(PAIR + "steps\nxbegin " + "d" * 90 + " 0 0 61\n" + "x" * 200)
        self.assertEqual([len(line) for line in far[1:3]], [104, 101])
        late = told(HEAD + "pair p a b" + " " * 200 + "fast\n")
        self.assertEqual(late[1:3], ["    .." + " " * 18 + "fast", "    " + " " * 20 + "^^^^"])

    def test_parts_and_comments(self) -> None:
        hints = {
            PAIR + "steps\nsteps\n": "line 5 begins the steps already",
            PAIR + "steps\nhost c\n": "host stands among the declarations, and line 5 begins the steps",
            PAIR + "traffic\nsend p A 0 61\n": "send stands among the steps, and line 5 begins the traffic",
            PAIR + "steps # go\n": "this is written: steps; a comment is a line of its own",
            PAIR + "steps\nrecv p A\n": "this is written: recv P S Q, or recv P S Q C",
            PAIR + "dev d p A 0 020000000001 stopp=1 start=1\n": "stop=K is wanted here",
        }
        for script, hint in hints.items():
            self.assertEqual(told(script)[-1], hint)

    def test_whole_scripts(self) -> None:
        said = "x: too long: a script has at most 16,777,216 bytes"
        self.assertEqual(fault_text(Script("x", b""), "too long"), [said])
        self.assertEqual(told(PAIR), [])
        text = (support.TOP / "examples" / "refused.ntb").read_bytes().decode("latin-1")
        self.assertEqual(told(text)[0], "x:12:12: badhex: 616")

    def test_near_names(self) -> None:
        self.assertEqual([distance("send", "sned"), distance("ab", ""), distance("alhpa", "alpha")], [1, 2, 1])
        self.assertEqual(nearest("trian", ["break", "train"]), "train")
        self.assertEqual([nearest("b", ["a"]), nearest("xx", ["ab", "a"])], [None, None])
        self.assertEqual([nearest("SHOW", ["show"]), nearest("shwo", ["shown", "show"])], ["show", "show"])
