"""Witnesses: their scripts are schedules of the outcome, and nothing is written over."""

from __future__ import annotations

import os
import tempfile
import unittest
from pathlib import Path

from ntbview.common import Failure, Script, Status, read_script
from ntbview.conditions import LITMUS, Conditions
from ntbview.explore import Exploration, Folder, example, explored, witness
from ntbview.judge import judge
from ntbview.trace import Trace

from . import support

POKED = (support.TOP / "examples/litmus/poked.ntb").read_text().replace("#sometimes mem 00", "#never mem 00")
WITNESS = """ntb 1
# The witness of outcome 3 of 4 of wrong.ntb: further landings are in it.
# It shows that this fails: never mem 00 where flags mem 01000000.
host a
host b
pair p a b up raw size=4096 mtu=1023
steps
# From line 9.
poke p A 0 0 61
# From line 10.
poke p A 0 1019 01000000
# A further landing.
#= landed ..
land p A 1
# From line 13.
#= mem 01000000
showmem p B 1019 4
# From line 16.
#= mem 00
showmem p B 0 1
"""
MACROS = """ntb 1
host a
host b
pair p a b up strict size=4096 mtu=1023
dev d0 p A 0 020000000001 stop=2 start=4
steps
# Prose that isn't directly above a line.

# The author's own.
#= ok 0; ..
# Its second line.
xmit d0 020000000002 0800 61
#call got
landall p A 2
#sometimes empty
  #never ready 0 15 where got landed flag 0 0
recv p B 0
"""


def witnesses(text: str) -> list[tuple[Script, Exploration, str]]:
    """The scripts of the witnesses of a script's failing conditions."""
    script = Script("wrong.ntb", text.encode("latin-1"))
    found = explored(support.program(), script)
    verdicts = [verdict for verdict in judge(support.program(), script, litmus_alone=True).unmet if verdict.witness]
    outcomes = [(found.outcomes[verdict.witness - 1], verdict.condition) for verdict in verdicts if verdict.witness]
    return [(script, found, witness(support.program(), found, *each)) for each in outcomes]


class Witnesses(unittest.TestCase):
    """The scripts, and how they are told."""

    def test_script(self) -> None:
        """The script of a witness: each byte, and that all of its conditions hold."""
        ((_, _, text),) = witnesses(POKED)
        self.assertEqual(text, WITNESS)
        judged = judge(support.program(), Script("w.ntb", text.encode()))
        self.assertEqual((judged.status, len(judged.verdicts), judged.faults), (0, 3, []))

    def test_title(self) -> None:
        """A picture's title is the witness and what it shows."""
        title = Script("w.ntb", WITNESS.encode()).title()
        self.assertEqual(len(title), 1)
        self.assertTrue(title[0].endswith("in it. It shows that this fails: never mem 00 where flags mem 01000000."))

    def test_macros(self) -> None:
        """Macros are single steps; the author's comments stay above the first of them, conditions and others don't."""
        ((_, _, text),) = witnesses(MACROS)
        lines = text.split("\n")
        at = lines.index("# The author's own.")
        wanted = ["# Its second line.", "# From line 12, step 1 of 6.", "xbegin d0 020000000002 0800 61"]
        self.assertEqual(lines[at + 1 : at + 4], wanted)
        self.assertEqual(lines.count("post p A 0"), 5)
        self.assertEqual(lines.count("# The author's own."), 1)
        self.assertNotIn("# Prose that isn't directly above a line.", lines)
        self.assertNotIn("#sometimes", text)
        self.assertIn("#= ready 0 15\nlook p B 0\n# From line 17, step 2 of 4.\ncopy p B 0", text)
        self.assertIn("#= landed flag 0 0\nland p A 0", text)
        self.assertEqual(judge(support.program(), Script("w.ntb", text.encode())).status, 0)

    def test_gallery(self) -> None:
        """Each outcome of small tests has a witness that shows its conditions."""
        for name in ("flags", "message", "half", "once"):
            script = read_script(str(support.TOP / f"examples/litmus/{name}.ntb"))
            found = explored(support.program(), script)
            condition = next(each for each in Conditions(script).found if each.kind in LITMUS)
            for outcome in found.outcomes:
                text = witness(support.program(), found, outcome, condition)
                self.assertEqual(judge(support.program(), Script("w", text.encode("latin-1"))).status, 0)

    def test_none(self) -> None:
        """An outcome with other landings or answers than the program's has no witness."""
        script = Script("wrong.ntb", POKED.encode())
        condition = Conditions(script).found[-1]
        for change in ("landings", "answers"):
            found = explored(support.program(), script)
            outcome = found.outcomes[2]
            if change == "landings":
                outcome.landings[13, 1] = ["land p A 7"]
            else:
                outcome.answers[16] = ["mem 61"]
            with self.assertRaises(Failure) as raised:
                witness(support.program(), found, outcome, condition)
            self.assertEqual(raised.exception.message, "the witness of outcome 3 of wrong.ntb isn't one")

    def test_example(self) -> None:
        """A counterexample in lines; the command has the script's name as a shell needs it."""
        names = {
            "wrong.ntb": "wrong.ntb",
            "a b's.ntb": "'a b'\"'\"'s.ntb'",
            "-x.ntb": "./-x.ntb",
            "a\\n'b": "$'a\\n\\'b'",
            "standard input": "-",
        }
        for name, word in names.items():
            script = Script(name, POKED.encode())
            found = explored(support.program(), script)
            condition = Conditions(script).found[1]
            lines = list(example(found, found.outcomes[2], condition))
            wanted = ["before line 13, a write lands: land p A 1", "line 13: mem 01000000", "line 16: mem 00"]
            command = f"./ntbsim --explore --witness 14 {word} > w.ntb && ./ntbsim --draw w.ntb > w.svg"
            self.assertEqual(lines, [*wanted, command])


class Folders(unittest.TestCase):
    """What a folder for witnesses keeps."""

    def setUp(self) -> None:
        """Makes a folder."""
        kept = tempfile.TemporaryDirectory()
        self.addCleanup(kept.cleanup)
        self.path = Path(kept.name) / "of" / "witnesses"
        self.folder = Folder(support.program(), str(self.path))

    def keep(self, name: str, line: int = 14) -> str:
        """Keeps the witness of a script of this name."""
        return self.folder.keep(Script(name, b""), WITNESS, line)

    def test_names(self) -> None:
        """Scripts of equal base names, and conditions of one line, have different names."""
        told = [self.keep(name) for name in ("a/x.ntb", "b/x.ntb", "a/x.ntb", "standard input")]
        wanted = ["standard input.14", "x.14", "x.14-2", "x.14-3"]
        files = sorted(f"{name}{end}" for name in wanted for end in (".ntb", ".svg"))
        self.assertEqual(sorted(os.listdir(self.path)), files)
        self.assertEqual(told[0], f"witness: {self.path}/x.14.ntb, {self.path}/x.14.svg")
        self.assertEqual((self.path / "x.14.ntb").read_text(), WITNESS)
        self.assertTrue((self.path / "x.14-2.svg").read_text().endswith("</svg>\n"))

    def test_not_written_over(self) -> None:
        """A file, or a link to one, that is there already stays, and the command ends."""
        self.path.mkdir(parents=True)
        (self.path / "x.14.ntb").write_text("mine")
        (self.path / "y.14.ntb").symlink_to(self.path / "absent")
        for name in ("x.ntb", "y.ntb"):
            with self.assertRaises(Failure) as raised:
                self.keep(name)
            self.assertEqual(raised.exception.status, Status.ENVIRONMENT)
        self.assertEqual((self.path / "x.14.ntb").read_text(), "mine")
        self.assertFalse((self.path / "absent").exists())

    def test_no_folder(self) -> None:
        """A folder that can't be made is told."""
        self.path.parent.write_text("a file")
        with self.assertRaises(Failure) as raised:
            self.keep("x.ntb")
        self.assertEqual(raised.exception.status, Status.ENVIRONMENT)

    def test_bytes_of_names(self) -> None:
        """A name whose bytes are UTF-8 keeps them."""
        self.keep("é.ntb".encode().decode("latin-1"))
        self.assertIn("é.14.ntb", os.listdir(self.path))
        self.assertTrue(Trace(support.program().reply("trace", WITNESS.encode()).text.splitlines()).is_whole)


if __name__ == "__main__":
    unittest.main()
