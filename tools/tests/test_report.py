"""Reports: which scripts are taken, and what is written of them in each form."""

from __future__ import annotations

import contextlib
import functools
import io
import json
import os
import tempfile
import unittest
import xml.etree.ElementTree as ElementTree
from pathlib import Path
from unittest import mock

from ntbview.common import Failure, Script, Status
from ntbview.explore import Folder
from ntbview.judge import judge, report, scripts_below, shard, shown_witness

from . import support
from .test_judge import BROKEN, BROKEN_SAID, HEAD, LITMUS, REFUSED
from .test_witness import POKED, WITNESS


class Scripts(unittest.TestCase):
    """A test with a folder of scripts."""

    def setUp(self) -> None:
        """Makes the folder."""
        kept = tempfile.TemporaryDirectory()
        self.addCleanup(kept.cleanup)
        self.path = Path(kept.name)

    def write(self, name: str, text: str) -> str:
        """Writes a script, and gives back its path."""
        path = self.path / name
        path.parent.mkdir(parents=True, exist_ok=True)
        path.write_bytes(text.encode("latin-1"))
        return str(path)

    def told(
        self, *names: str, form: str = "plain", alone: bool = False, into: str = ""
    ) -> tuple[Status, list[str], list[str]]:
        """The status of scripts, the report's lines, and what is told beside it; the folder's path is left out."""
        lines: list[str] = []
        beside: list[str] = []
        judging = functools.partial(judge, support.program(), litmus_alone=alone)
        folder = Folder(support.program(), into) if into else None
        status = report(list(names), judging, lines.append, beside.append, form, alone, folder)
        return status, *([line.replace(f"{self.path}/", "") for line in some] for some in (lines, beside))


class Taken(Scripts):
    """Which scripts are taken."""

    def test_below(self) -> None:
        """Below a folder those with an ending, sorted by bytes; links to folders aren't followed."""
        for name in ("b.ntb", "a/z.ntb", "a.ntb", "B.reads", "c.txt", "a-/y.ntb"):
            self.write(name, "")
        (self.path / "d.ntb").mkdir()
        (self.path / "link").symlink_to(self.path / "a")
        found = [os.path.relpath(path, self.path) for path in scripts_below([str(self.path)], (".ntb", ".reads"))]
        self.assertEqual(found, ["B.reads", "a-/y.ntb", "a.ntb", "a/z.ntb", "b.ntb"])
        self.assertEqual(len(scripts_below([str(self.path)], (".ntb",))), 4)

    def test_named(self) -> None:
        """A named file is taken whatever its name is, and standard input once."""
        name = self.write("c.txt", "")
        self.assertEqual(scripts_below(["-", name, "-", name], (".ntb",)), ["-", name, name])

    def test_absent(self) -> None:
        """No file, and a folder without scripts."""
        self.write("c.txt", "")
        for word in (str(self.path / "absent\n"), str(self.path)):
            with self.assertRaises(Failure) as raised:
                scripts_below([word], (".ntb",))
            self.assertEqual(raised.exception.status, Status.ENVIRONMENT)
            self.assertNotIn("\n", raised.exception.message)

    def test_shard(self) -> None:
        """Each N-th script from the I-th on."""
        scripts = list("abcdefg")
        self.assertEqual(shard(scripts, "1/1"), scripts)
        self.assertEqual([shard(scripts, f"{i}/3") for i in (1, 2, 3)], [list("adg"), list("be"), list("cf")])
        self.assertEqual(shard(["a"], "2/2"), [])
        for text in ("", "0/2", "3/2", "1", "1/0", "1/2/3", "a/b", "-1/2", "1/2 "):
            with self.assertRaises(Failure) as raised:
                shard(scripts, text)
            self.assertEqual(raised.exception.status, Status.WORDS)


class Reports(Scripts):
    """What is written."""

    def test_plain(self) -> None:
        """The lines for people, in the order of the scripts, and the noun after its number."""
        one, two = self.write("ok.ntb", HEAD), self.write("broken.ntb", BROKEN)
        broken = ["failed broken.ntb: 7 conditions, 5 not met"]
        broken += [f"broken.ntb:{line}: {said}" for line, said in BROKEN_SAID]
        status, lines, beside = self.told(one, two, one)
        self.assertEqual((status, beside), (Status.FAILS, []))
        met = "ok ok.ntb: 0 conditions"
        self.assertEqual(lines, [met, *broken, met, "3 scripts, 7 conditions, 1 script failed"])
        self.assertEqual(self.told(one)[:2], (0, [met, "1 script, 0 conditions, 0 scripts failed"]))

    def test_litmus(self) -> None:
        """All verdicts of litmus conditions alone, else those that aren't met, each with its counterexample."""
        name = self.write("wrong.ntb", POKED)
        fails = "wrong.ntb:14: fails: never mem 00 where flags mem 01000000: in 1 of 2 outcomes that are so, of 4"
        holds = "wrong.ntb:15: holds: sometimes mem 61 where flags mem 01000000: in 1 of 2 outcomes that are so, of 4"
        status, lines, _ = self.told(name, alone=True)
        self.assertEqual((status, lines[0]), (Status.FAILS, "failed wrong.ntb: 4 outcomes, 2 conditions, 1 not met"))
        self.assertEqual([lines[1], lines[6]], [fails, holds])
        example = ["    before line 13, a write lands: land p A 1", "    line 13: mem 01000000", "    line 16: mem 00"]
        self.assertEqual(lines[2:5], example)
        lines = self.told(name)[1]
        self.assertEqual((lines[0], lines[1]), ("failed wrong.ntb: 4 outcomes, 3 conditions, 1 not met", fails))
        self.assertNotIn(holds, lines)

    def test_refused(self) -> None:
        """A script that is refused, and one with a comment that can't be read: the largest status counts."""
        refused = self.write("refused.ntb", REFUSED.format(""))
        fault = self.write("fault.ntb", HEAD + "#nevr ok\nsteps\n")
        status, lines, beside = self.told(refused, fault, str(self.path / "absent"), self.write("b.ntb", BROKEN))
        self.assertEqual(status, Status.ENVIRONMENT)
        wanted = [
            "failed refused.ntb: 0 conditions",
            "refused.ntb:7: refused badhex, and no condition says so",
            "failed fault.ntb: 0 conditions, 1 comment not read",
            "failed absent: 0 conditions",
            "absent can't be read: No such file or directory",
        ]
        self.assertEqual(lines[:5], wanted)
        self.assertIn("refused.ntb:7:12: badhex: 616", beside)
        self.assertTrue(any(line.startswith("fault.ntb:5:1: condition: ") for line in beside))

    def test_tap(self) -> None:
        """The lines of TAP 13; a name is no directive."""
        names = [self.write(name, text) for name, text in (("a # TODO.ntb", BROKEN), ("b\\#.ntb", HEAD))]
        status, lines, _ = self.told(*names, form="tap")
        self.assertEqual((status, lines[:2]), (Status.FAILS, ["TAP version 13", "1..2"]))
        folder = str(self.path).replace("\\", "\\\\").replace("#", "\\#") + "/"
        lines = [line.replace(folder, "") for line in lines]
        self.assertEqual(lines[2], "not ok 1 - a \\# TODO.ntb: 7 conditions, 5 not met")
        self.assertEqual(lines[3:8], [f"# a # TODO.ntb:{line}: {said}" for line, said in BROKEN_SAID])
        self.assertEqual(lines[8:], ["ok 2 - b\\\\\\\\\\#.ntb: 0 conditions # SKIP it has no condition"])

    def test_json(self) -> None:
        """An object for each script on a line of its own, and the sums."""
        names = [self.write("wrong.ntb", POKED), self.write("refused.ntb", REFUSED.format(""))]
        status, lines, _ = self.told(*names, form="json")
        wrong, refused, sums = map(json.loads, lines)
        self.assertEqual(sums, {"scripts": 2, "conditions": 3, "failed": 2, "status": 3})
        self.assertEqual((wrong["script"], wrong["status"], wrong["outcomes"]), ("wrong.ntb", 1, 4))
        verdict = wrong["verdicts"][1]
        kind, text = "never", "never mem 00 where flags mem 01000000"
        keys = "line", "column", "kind", "text", "verdict"
        self.assertEqual([verdict[key] for key in keys], [14, 1, kind, text, "fails"])
        self.assertEqual(verdict["said"], f"{text}: in 1 of 2 outcomes that are so, of 4")
        self.assertIn("refused.ntb:7:12: badhex: 616", refused["messages"])
        self.assertEqual((refused["verdicts"], refused["outcomes"], status), ([], None, 3))

    def test_junit(self) -> None:
        """A suite for each script, a case for each condition."""
        texts = {'w"<&.ntb': POKED, "refused.ntb": REFUSED.format(""), "é.ntb": HEAD}
        names = [self.write(name, text) for name, text in texts.items()]
        root = ElementTree.fromstring("\n".join(self.told(*names, form="junit")[1]).encode("latin-1"))
        wrong, refused, none = root.findall("testsuite")
        keys = "name", "tests", "failures", "errors"
        self.assertEqual([wrong.get(key) for key in keys], ['w"<&.ntb', "3", "1", "0"])
        (failure,) = wrong.findall("testcase/failure")
        self.assertIn("in 1 of 2 outcomes", failure.get("message", ""))
        self.assertIn("land p A 1", failure.text or "")
        self.assertEqual([case.get("name", "")[:4] for case in wrong.findall("testcase")], ["12: ", "14: ", "15: "])
        self.assertIn("badhex: 616", refused.findall("testcase/error")[0].text or "")
        self.assertEqual((none.get("name"), none.get("tests")), ("é.ntb", "0"))

    def test_standard_input(self) -> None:
        """Standard input is a script without a name."""
        reading, writing = os.pipe()
        os.write(writing, BROKEN.encode())
        os.close(writing)
        before = os.dup(0)
        os.dup2(reading, 0)
        try:
            with mock.patch("sys.stdin", None), contextlib.redirect_stderr(io.StringIO()):
                lines = self.told("-")[1]
        finally:
            os.dup2(before, 0)
            os.close(before)
            os.close(reading)
        self.assertEqual(lines[0], "failed standard input: 7 conditions, 5 not met")


class Shown(Scripts):
    """Witnesses that are asked for."""

    def test_into(self) -> None:
        """A folder has the witness of each litmus condition that fails, and its picture."""
        names, into = [self.write("a/w.ntb", POKED), self.write("b/w.ntb", POKED)], self.path / "into"
        lines = self.told(*names, alone=True, into=str(into))[1]
        self.assertIn("    witness: into/w.14.ntb, into/w.14.svg", lines)
        self.assertIn("    witness: into/w.14-2.ntb, into/w.14-2.svg", lines)
        self.assertEqual((into / "w.14.ntb").read_text(), WITNESS.replace("wrong.ntb", names[0]))
        with self.assertRaises(Failure) as raised:
            self.told(names[0], alone=True, into=str(into))
        self.assertEqual(raised.exception.status, Status.ENVIRONMENT)

    def witness(self, text: str, line: int) -> str:
        """The witness of a condition of a script."""
        return shown_witness(support.program(), Script("wrong.ntb", text.encode()), line)

    def test_witness(self) -> None:
        """The witness of the condition at a line: of a `sometimes` that holds too, and of one that fails first."""
        self.assertEqual(self.witness(POKED, 14), WITNESS)
        self.assertIn("\n# It shows that this is so: sometimes mem 61 where flags", self.witness(POKED, 15))
        several = LITMUS.format("#never mem 62; mem 61; mem 00")
        self.assertIn("\n# It shows that this fails: never mem 61.\n", self.witness(several, 10))

    def test_no_witness(self) -> None:
        """A line that is no litmus condition, one that no outcome shows, and a script without outcomes."""
        for text, line, status in (
            (POKED, 12, Status.WORDS),
            (POKED, 2, Status.WORDS),
            (LITMUS.format("#never mem 62"), 10, Status.FAILS),
            (REFUSED.format(""), 6, Status.REFUSED),
        ):
            with self.assertRaises(Failure) as raised:
                self.witness(text, line)
            self.assertEqual(raised.exception.status, status)


if __name__ == "__main__":
    unittest.main()
