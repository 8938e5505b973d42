"""The program by itself: its words, its statuses, and what it answers beside the stories."""

from __future__ import annotations

import re
import unittest
from pathlib import Path

from tests.answers import EXAMPLES, TOO_LONG, answer, shown
from tests.support import run

USAGE, NO_HEADER, TOO_LONG_TEXT, END = b"usage\n", b"refused line 1 badheader\n", b"too long\n", b"end\n"
PAIR = b"ntb 1\nhost a\nhost b\npair p a b\n"
ONE = PAIR + b"traffic\nframe p A 0 61\n"
COMMANDS = ["replay", "trace", "check", "run", "stream", "explore"]
# Commands with a text, and the status and the text of their answer.
WAYS: list[tuple[str, bytes, int, bytes]] = [
    ("trace", b"ntb 1\n", 0, b'{"trace":1}\n{"end":true}\n'),
    ("check", ONE, 0, b"ok pairs 1 devices 0 switches 0 steps 0 frames 1 breaks 0 hosts 2\n"),
    ("check", b"", 3, b"refused line 1 word 0 badheader\n"),
    ("run", ONE, 0, b"lane p A 0 1 accepted 1 delivered 1 left 0\nframe 0 61\nend\n"),
    ("stream", ONE, 0, b"stream p A 0 items 1 sessions 1\nitem 0 61\nend\n"),
    ("explore", b"ntb 1\n", 0, b"outcomes 1 states 0\noutcome 1\nend\n"),
    ("reads", b"reads 1\nland A 07\n", 3, b"refused line 2 badline\n"),
    ("replay", b"", 3, NO_HEADER),
    ("trace", b"", 3, NO_HEADER),
    ("trace", (EXAMPLES / "flush.reads").read_bytes(), 3, NO_HEADER),
    ("run", b"", 3, NO_HEADER),
    ("stream", b"", 3, NO_HEADER),
    ("stream", b"ntb 1\nhost a\nhost b\npair p a b raw\ntraffic\nframe p A 0 61\n", 3, b"refused line 6 badpair\n"),
]
WRONG_WORDS = ["", "load 1", "load 1 30001", "load 1 1 1", "replay replay", "load 01 1", "stream 1", "reply", "--help"]


class Words(unittest.TestCase):
    """The words that the program takes."""

    def test_load(self) -> None:
        """`load` says in one line what a generated plan came to."""
        done = answer(["load", "1", "1"])
        self.assertEqual((done.returncode, done.stderr), (0, b""))
        self.assertRegex(done.stdout, rb"\Aload 1 1 accepted 1 delivered 1 blocked [0-9]*\n\Z")

    def test_wrong_words(self) -> None:
        """Other words are answered with `usage`."""
        for words in [*([word.encode() for word in text.split()] for text in WRONG_WORDS), [b"\xff"]]:
            with self.subTest(words):
                done = answer(words)
                self.assertEqual((done.returncode, done.stdout), (2, USAGE))


class Ways(unittest.TestCase):
    """The statuses, each with its text, and with nothing on standard error."""

    def is_answered(self, done: object, status: int, text: bytes) -> None:
        """The answer has this status and text, and says nothing else."""
        self.assertEqual([getattr(done, name) for name in ("returncode", "stdout", "stderr")], [status, text, b""])

    def test_answers(self) -> None:
        """The worked answers of each command."""
        for command, script, status, text in WAYS:
            with self.subTest(command=command, script=script[:60]):
                self.is_answered(answer([command], script), status, text)

    def test_refused(self) -> None:
        """A script with a fault is refused with 3, and `check` names the word."""
        script = EXAMPLES / "refused.ntb"
        for command in COMMANDS:
            report = script.with_suffix(".report").read_bytes()
            text = b"refused line 12 word 5 badhex\n" if command == "check" else report
            with self.subTest(command):
                self.is_answered(answer([command], script), 3, text)

    def test_too_long(self) -> None:
        """More than 16,777,216 bytes are refused with 7."""
        for command in [*COMMANDS, "reads"]:
            with self.subTest(command):
                self.is_answered(answer([command], TOO_LONG), 7, TOO_LONG_TEXT)

    def test_input_that_fails(self) -> None:
        """If standard input fails the status is 4, and nothing is written."""
        for command in [*COMMANDS, "reads"]:
            with self.subTest(command):
                done = answer([command], Path("/"))
                self.assertEqual((done.returncode, done.stdout), (4, b""))

    def test_output_that_fails(self) -> None:
        """If standard output fails the status is 5."""
        full = Path("/dev/full")
        if not full.exists():
            self.skipTest("/dev/full isn't here, so no output fails")
        scripts = {"run": "both.ntb", "stream": "mirror.ntb", "explore": "litmus/flags.ntb", "reads": "flush.reads"}
        for command in [*COMMANDS, "reads"]:
            with self.subTest(command):
                done = answer([command], EXAMPLES / scripts.get(command, "early.ntb"), full)
                self.assertEqual(done.returncode, 5)

    def test_door(self) -> None:
        """The door hands a command's words on, and answers as the program does."""
        for script in (EXAMPLES / "first.ntb", EXAMPLES / "refused.ntb"):
            with self.subTest(shown(script)):
                by_door, alone = run(["replay"], script.read_bytes()), answer(["replay"], script)
                self.assertEqual((by_door.returncode, by_door.stdout), (alone.returncode, alone.stdout))


class Sessions(unittest.TestCase):
    """What is answered once all 65,535 sessions of a pair were used."""

    def test_replay(self) -> None:
        """The last train is refused."""
        steps = b"break p\ndrop p\nclean p A\nclean p B\nenable p A\nenable p B\ntrain p\n"
        done = answer(["replay"], b"ntb 1\nhost a\nhost b\npair p a b up size=4096 mtu=1023\nsteps\n" + 65535 * steps)
        self.assertEqual(done.returncode, 0)
        self.assertEqual(re.findall(rb"(?m)^(?:458743|458750) .*$", done.stdout), [b"458743 ok 65535", b"458750 spent"])

    def test_reads(self) -> None:
        """The last relink is refused."""
        done = answer(["reads"], b"reads 1\n" + 65535 * b"break\ndrop\nrelink\n")
        self.assertEqual(done.returncode, 0)
        self.assertEqual(done.stdout.splitlines()[-3:], [b"196605 ok", b"196606 spent", b"end"])


class Traffic(unittest.TestCase):
    """What `run` and `stream` answer beside the stories."""

    def test_same_again(self) -> None:
        """A run without a break has the same text each time; so has a stream with breaks."""
        for command, name in (("run", "both"), ("stream", "mirror")):
            texts = {answer([command], EXAMPLES / f"{name}.ntb").stdout for _ in range(5)}
            with self.subTest(command):
                self.assertEqual(len(texts), 1)
        self.assertEqual(texts, {(EXAMPLES / "mirror.report").read_bytes()})

    def test_no_traffic(self) -> None:
        """A script without traffic has none."""
        for command in ("run", "stream"):
            with self.subTest(command):
                done = answer([command], EXAMPLES / "first.ntb")
                self.assertEqual((done.returncode, done.stdout), (0, END))

    def test_same_frames(self) -> None:
        """A stream brings the frames that a run of the same script accepts."""
        items = re.findall(rb"(?m)^item (.*)$", answer(["stream"], EXAMPLES / "cut.ntb").stdout)
        self.assertEqual(items, re.findall(rb"(?m)^frame (.*)$", (EXAMPLES / "cut.report").read_bytes()))

    def test_no_break(self) -> None:
        """A stream without a break has one session and the same items."""
        script = re.sub(rb"(?m)^break p$", b"# none", (EXAMPLES / "mirror.ntb").read_bytes())
        expected = re.sub(rb"(?m) sessions 4$", b" sessions 1", (EXAMPLES / "mirror.report").read_bytes())
        self.assertEqual(answer(["stream"], script).stdout, expected)


if __name__ == "__main__":
    unittest.main()
