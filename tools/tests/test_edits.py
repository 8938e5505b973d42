"""Edits of sources: the files of wrong bodies and of wrong definitions, and tools/rename."""

from __future__ import annotations

import os
import re
import shutil
import subprocess
import unittest
from pathlib import Path
from typing import Iterator

from edit_files import BODY, DEFINITION, Change, Form, Malformed, read_edits
from tests.support import TOP, Folder

ONE = "# one/adds-two\nfile: src/lib.rt\nold: a + 1\nnew: a + 2\n"
TWO = "# two/forgets\nfile: src/lib.rt\nold: b: c\nnew:\nold:   d\nnew: # e\nfile: src/low.rt\nold: f\nnew: g\n"
DEFINED = "# one-is-two\nabout: One is two.\nfile: crates/one/src/lib.rt\nold: a + 1\\n\nnew: a + 2\\n\n"
# The stand-in for rt says its words, and what stands in each must-fail edit.
RT = """#!/usr/bin/env python3
import sys
from pathlib import Path

print(*sys.argv[1:])
print("this line isn't of an edit")
for path in sorted(Path("crates").glob("*/must-fail/*")):
    for line in path.read_text().splitlines():
        print(f"must-fail {path}: {line}")
sys.exit(7)
"""
UNPACKED = """must-fail one two
must-fail crates/one/must-fail/adds-two.edit: file: src/lib.rt
must-fail crates/one/must-fail/adds-two.edit: old: a + 1
must-fail crates/one/must-fail/adds-two.edit: new: a + 2
must-fail crates/two/must-fail/forgets.edit: file: src/lib.rt
must-fail crates/two/must-fail/forgets.edit: old: b: c
must-fail crates/two/must-fail/forgets.edit: new:
must-fail crates/two/must-fail/forgets.edit: old:   d
must-fail crates/two/must-fail/forgets.edit: new: # e
must-fail crates/two/must-fail/forgets.edit: file: src/low.rt
must-fail crates/two/must-fail/forgets.edit: old: f
must-fail crates/two/must-fail/forgets.edit: new: g
"""

# A small tree for tools/rename: `taken` has two homes, is used with and without `as`, and is named in an edit.
TREE = {
    "crates/one/specs/Parts.antt": """-- What is taken.
use Rattle.std.specs.Prelude.{◌≡◌, ℕ}

-- taken as it is
abbrev pub taken : ℕ → ℕ
taken n = n

pub record IsPart (n : ℕ) : Type 0 where
  pub is : taken n ≡ n
""",
    "crates/one/src/lib.rt": """ghost use Rattle.one.specs.Parts.{taken, IsPart};

/// What is taken.
pub fn taken_of(n: u32) -> u32
    ensures { IsPart (taken n) }
{
    n
}
""",
    "crates/two/specs/Others.antt": """use Rattle.std.specs.Prelude.{ℕ}

abbrev pub taken : ℕ → ℕ
taken n = n + n
""",
    "crates/two/specs/Uses.antt": """use Rattle.std.specs.Prelude.{ℕ}
use Rattle.one.specs.Parts.{taken}
use Rattle.two.specs.Others.{taken as given}

abbrev pub twice : ℕ → ℕ
twice n = taken (taken n) + given n
""",
    "tools/wrong_bodies/one.edits": """# one/takes-more
file: specs/Parts.antt
old: taken n = n
new: taken n = n + 1
""",
    "tools/house_names.txt": "# At most 1 names have two homes.\ntaken one two: of both.\n",
}
RENAMED = {
    "crates/one/specs/Parts.antt": """-- What is taken.
use Rattle.std.specs.Prelude.{◌≡◌, ℕ}

-- taken as it is
abbrev pub part_taken : ℕ → ℕ
part_taken n = n

pub record IsPart (n : ℕ) : Type 0 where
  pub is : part_taken n ≡ n
""",
    "crates/one/src/lib.rt": """ghost use Rattle.one.specs.Parts.{part_taken, IsPart};

/// What is taken.
pub fn taken_of(n: u32) -> u32
    ensures { IsPart (part_taken n) }
{
    n
}
""",
    "crates/two/specs/Others.antt": TREE["crates/two/specs/Others.antt"],
    "crates/two/specs/Uses.antt": """use Rattle.std.specs.Prelude.{ℕ}
use Rattle.one.specs.Parts.{part_taken}
use Rattle.two.specs.Others.{taken as given}

abbrev pub twice : ℕ → ℕ
twice n = part_taken (part_taken n) + given n
""",
    "tools/wrong_bodies/one.edits": """# one/takes-more
file: specs/Parts.antt
old: part_taken n = n
new: part_taken n = n + 1
""",
    "tools/house_names.txt": "# At most 0 names have two homes.\n",
}

class Reading(Folder):
    """The reading of a folder."""

    def refusal(self, form: Form, **texts: str) -> str:
        """Why a folder of these files is refused."""
        folder = self.folder / "edits"
        shutil.rmtree(folder, ignore_errors=True)
        folder.mkdir()
        for name, text in texts.items():
            (folder / f"{name}.edits").write_text(text, encoding="utf-8")
        with self.assertRaises(Malformed) as raised:
            read_edits(folder, form, self.folder)
        return str(raised.exception)

    def test_bodies(self) -> None:
        """Names, places, lines and changes are those that stand there."""
        self.write("x.edits", f"{ONE}\n\n{TWO}")
        one, two = read_edits(self.folder, BODY, self.folder)
        self.assertEqual((one.name, one.head.file, one.head.number), ("one/adds-two", "x.edits", 1))
        self.assertEqual(one.lines, ("file: src/lib.rt", "old: a + 1", "new: a + 2"))
        self.assertEqual(one.changes, (Change("src/lib.rt", "a + 1", "a + 2"),))
        self.assertEqual((two.name, two.head.number, len(two.lines)), ("two/forgets", 7, 8))
        first, second = Change("src/lib.rt", "b: c", ""), Change("src/lib.rt", "  d", "# e")
        self.assertEqual(two.changes, (first, second, Change("src/low.rt", "f", "g")))

    def test_definitions(self) -> None:
        """A wrong definition says in a line of its own what it is about."""
        self.write("x.edits", DEFINED)
        (one,) = read_edits(self.folder, DEFINITION, self.folder)
        self.assertEqual((one.name, one.about), ("one-is-two", "One is two."))
        self.assertEqual(one.changes, (Change("crates/one/src/lib.rt", "a + 1\\n", "a + 2\\n"),))

    def test_lines(self) -> None:
        """A line that isn't wanted where it stands is refused."""
        head = "# one/it\n"
        for text, why in (
            (f"file: x\n{ONE}", "1: no head stands above: file: x"),
            (head + "fils: x\n", "2: no line of an edit: fils: x"),
            (head + "file: x\nold:y\n", "3: no line of an edit: old:y"),
            (head + "file: x\n#y\n", "3: no line of an edit: #y"),
            (head + "about: x\n", "2: no line of an edit: about: x"),
            (head + "old: x\n", "2: `file:` is wanted: old: x"),
            (head + "file: x\nnew: y\n", "3: `old:` is wanted: new: y"),
            (head + "file: x\nold: y\nold: z\n", "4: `new:` is wanted: old: z"),
            (ONE + "new: z\n", "5: `old:` or `file:` is wanted: new: z"),
            (head + "file:\n", "2: nothing stands behind file:"),
            (head + "file: x\nold: \n", "3: nothing stands behind old:"),
        ):
            with self.subTest(text):
                self.assertEqual(self.refusal(BODY, x=text), f"edits/x.edits:{why}")

    def test_ends(self) -> None:
        """An edit that ends before its last new text is refused, at its head."""
        for more, missing in (("", "file"), ("file: x\n", "old"), ("file: x\nold: y\n", "new")):
            for behind in ("", ONE):
                with self.subTest(more + behind):
                    why = f"edits/x.edits:6: two/it ends where `{missing}:` is wanted"
                    first = ONE.replace("one/adds-two", "one/another")
                    self.assertEqual(self.refusal(BODY, x=f"{first}\n# two/it\n{more}\n{behind}"), why)
        for text, missing in (("# it\n", "about"), ("# it\nabout: x\n", "file")):
            why = f"edits/x.edits:1: it ends where `{missing}:` is wanted"
            self.assertEqual(self.refusal(DEFINITION, x=text), why)

    def test_heads(self) -> None:
        """A name stands once, in all files of a folder together, and has its form."""
        why = "edits/x.edits:6: one/adds-two stands at edits/x.edits:1 too"
        self.assertEqual(self.refusal(BODY, x=f"{ONE}\n{ONE}"), why)
        why = "edits/y.edits:10: one/adds-two stands at edits/x.edits:1 too"
        self.assertEqual(self.refusal(BODY, x=ONE, y=TWO + ONE), why)
        for name in ("it", "one/", "one/two three", "one/two/three", " one/it"):
            with self.subTest(name):
                why = f"edits/x.edits:1: no name of an edit: {name}"
                self.assertEqual(self.refusal(BODY, x=ONE.replace("one/adds-two", name)), why)
        self.assertEqual(self.refusal(DEFINITION, x=ONE), "edits/x.edits:1: no name of an edit: one/adds-two")

    def test_folders(self) -> None:
        """A folder without edits is refused, and one with something else in it."""
        self.assertEqual(self.refusal(BODY), "edits:1: no edit stands here")
        self.assertEqual(self.refusal(BODY, x="\n"), "edits:1: no edit stands here")
        folder = self.folder / "edits" / "one"
        folder.mkdir()
        (folder / "it.edit").write_text("file: src/lib.rt\nold: a\nnew: b\n")
        with self.assertRaisesRegex(Malformed, r"^edits/one:1: no file of edits, whose names end in \.edits$"):
            read_edits(folder.parent, BODY, self.folder)


class Tools(Folder):
    """The tools over a small repository."""

    def setUp(self) -> None:
        """Makes the repository."""
        super().setUp()
        for name in ("bin", "tools/wrong_bodies", "tools/wrong_definitions", "crates/one/must-fail"):
            (self.folder / name).mkdir(parents=True)
        for name in ("wrong-bodies", "wrong-definitions", "edit_files.py", "tested_bodies.py"):
            shutil.copy(TOP / "tools" / name, self.folder / "tools" / name)
        for crate in ("one", "two", "three"):
            (self.folder / "crates" / crate / "src").mkdir(parents=True)
        self.write("crates/one/src/lib.rt", "a + 1\n")
        self.write("crates/two/src/lib.rt", "b: c  d\n")
        self.write("crates/two/src/low.rt", "f\n")
        self.write("crates/one/must-fail/tried-by-the-gate.edit", "file: src/lib.rt\nold: a\nnew: b\n")
        for name in ("crates.txt", "HANDLES", "tools/tested_bodies.txt"):
            self.write(name, "")
        self.write("bin/rt", RT).chmod(0o755)
        self.write("tools/wrong_bodies/x.edits", f"{ONE}\n{TWO}")
        self.write("tools/wrong_definitions/x.edits", DEFINED)

    def said(self, name: str, *words: str) -> tuple[int, str, str]:
        """The status of a tool, and what it says on its two outputs."""
        env = {**os.environ, "PATH": f"{self.folder / 'bin'}:{os.environ['PATH']}", "PYTHONDONTWRITEBYTECODE": "1"}
        tool = [str(self.folder / "tools" / name), *words]
        done = subprocess.run(tool, capture_output=True, text=True, env=env, timeout=60, check=False)
        return done.returncode, done.stdout, done.stderr

    def test_bodies_are_tried(self) -> None:
        """The gate's command finds them as must-fail edits, and no others; its status is answered."""
        self.assertEqual(self.said("wrong-bodies"), (7, UNPACKED, ""))
        of_one = "".join(f"{line}\n" for line in UNPACKED.split("\n") if "/one/" in line)
        self.assertEqual(self.said("wrong-bodies", "one"), (7, f"must-fail one\n{of_one}", ""))
        self.assertEqual(self.said("wrong-bodies", "three"), (1, "", "wrong-bodies: no edit is of a crate three\n"))

    def test_bodies_that_fit(self) -> None:
        """Nothing is said of those that fit, and of the others why they don't."""
        self.assertEqual(self.said("wrong-bodies", "--fits"), (0, "", ""))
        self.write("crates/one/src/lib.rt", "a + 1, a + 1\n")
        (self.folder / "crates/two/src/low.rt").unlink()
        one, two = "one/adds-two: its old text stands in src/lib.rt 2 times\n", "two/forgets: there is no src/low.rt\n"
        self.assertEqual(self.said("wrong-bodies", "--fits"), (1, one + two, ""))
        self.assertEqual(self.said("wrong-bodies", "--fits", "two"), (1, two, ""))
        self.assertEqual(self.said("wrong-bodies", "--fits", "three"), (0, "", ""))
        self.assertEqual(self.said("wrong-bodies"), (1, one + two, ""))
        no_crate = (1, "", "wrong-bodies: no edit is of a crate four\n")
        self.assertEqual(self.said("wrong-bodies", "--fits", "four"), no_crate)

    def test_malformed_bodies(self) -> None:
        """What is wrong in a file ends the tool, however it is called."""
        for text, why in (
            (ONE.replace("one/", "four/"), "1: there is no crate four"),
            (TWO + ONE, "10: one/adds-two comes before two/forgets"),
            (ONE + "twice: it\n", "5: no line of an edit: twice: it"),
        ):
            self.write("tools/wrong_bodies/x.edits", text)
            for words in ((), ("--fits",), ("one",)):
                with self.subTest(text, words=words):
                    told = f"wrong-bodies: tools/wrong_bodies/x.edits:{why}\n"
                    self.assertEqual(self.said("wrong-bodies", *words), (1, "", told))

    def test_definitions(self) -> None:
        """They are listed; it is said which don't fit, and what is wrong in a file."""
        self.assertEqual(self.said("wrong-definitions", "--list"), (0, "one-is-two: One is two.\n", ""))
        self.assertEqual(self.said("wrong-definitions", "--fits"), (0, "1 fit, 0 don't\n", ""))
        self.write("crates/one/src/lib.rt", "a + 1")
        misfit = "one-is-two: crates/one/src/lib.rt has 0 times: a + 1\n\n0 fit, 1 don't\n"
        self.assertEqual(self.said("wrong-definitions", "--fits"), (1, misfit, ""))
        self.write("tools/wrong_definitions/x.edits", DEFINED.replace("about: ", "abuot: "))
        why = "wrong-definitions: tools/wrong_definitions/x.edits:2: no line of an edit: abuot: One is two.\n"
        for words in (("--list",), ("--fits",), ("one",)):
            self.assertEqual(self.said("wrong-definitions", *words), (1, "", why))


def named_edits(cell: str) -> Iterator[str]:
    """The edits that a cell of a table names. One without a crate is of the crate before it; other words name none."""
    if re.fullmatch(r"(`[\w/-]+`(, )?)+", cell):
        crate = ""
        for name in re.findall(r"`(.*?)`", cell):
            crate = name.partition("/")[0] if "/" in name else crate
            yield f"{crate}/{name.rpartition('/')[2]}"


class Documents(unittest.TestCase):
    """The table of classic wrong bodies in docs/PROOF.md."""

    def test_classic_wrong_bodies(self) -> None:
        """Each edit that it names stands where the head of its column says."""
        text = (TOP / "docs" / "PROOF.md").read_text(encoding="utf-8")
        table = text.partition("\n| Wrong body |")[2].partition("\n\n")[0]
        rows = [[cell.strip() for cell in line.split("|")[2:4]] for line in table.split("\n")[2:]]
        named = [[name for row in rows for name in named_edits(row[column])] for column in (0, 1)]
        of_gate = {f"{path.parts[-3]}/{path.stem}" for path in Path(TOP, "crates").glob("*/must-fail/*.edit")}
        by_hand = {edit.name for edit in read_edits(TOP / "tools" / "wrong_bodies", BODY)}
        for names, there in zip(named, (of_gate, by_hand)):
            self.assertTrue(names)
            self.assertEqual([name for name in names if name not in there], [])


class Renames(Folder):
    """tools/rename, over a small tree."""

    def setUp(self) -> None:
        """Writes the tree."""
        super().setUp()
        for name, content in TREE.items():
            (self.folder / name).parent.mkdir(parents=True, exist_ok=True)
            self.write(name, content.encode())

    def rename(self, *words: str) -> tuple[int, str]:
        """The status of tools/rename in the tree, and the last line that it prints."""
        tool = [str(TOP / "tools" / "rename"), *words]
        done = subprocess.run(tool, capture_output=True, text=True, cwd=self.folder, check=False)
        return done.returncode, done.stdout.splitlines()[-1]

    def texts(self) -> dict[str, str]:
        """The tree as it is."""
        return {name: (self.folder / name).read_text(encoding="utf-8") for name in TREE}

    def test_one(self) -> None:
        """A name changes at its home, in imports, terms, clauses, edits and the list of names, and nowhere else."""
        self.assertEqual(self.rename("one", "taken", "part_taken"), (0, "1 renamed, 0 refused"))
        self.assertEqual(self.texts(), RENAMED)

    def test_refused(self) -> None:
        """A name without a home, and a new name that is there already, are refused, and nothing changes."""
        names = ("IsPart", "twice", "-x", "a=b", "a\nb", "")
        for words in (("one", "lost", "found"), ("-x", "taken", "found"), *(("one", "taken", name) for name in names)):
            with self.subTest(" ".join(words)):
                self.assertEqual(self.rename(*words), (1, "0 renamed, 1 refused"))
                self.assertEqual(self.texts(), TREE)

    def test_no_table(self) -> None:
        """A table that can't be read, or whose line has two words, is an error, and nothing changes."""
        table = str(self.write("table", "one taken\n"))
        for name in (table, "-none", str(self.folder)):
            tool = [str(TOP / "tools" / "rename"), "--table", name]
            done = subprocess.run(tool, capture_output=True, text=True, cwd=self.folder, check=False)
            self.assertEqual((done.returncode, done.stdout), (1, ""))
            self.assertNotIn("Traceback", done.stderr)
        self.assertEqual(self.texts(), TREE)

    def test_table(self) -> None:
        """A table is done as a whole, or with --skip as far as it can be."""
        table = str(self.write("table", "# two rows\none taken part_taken\none lost found  # of none\n"))
        self.assertEqual(self.rename("--table", table), (1, "0 renamed, 1 refused"))
        self.assertEqual(self.texts(), TREE)
        self.assertEqual(self.rename("--table", table, "--skip"), (0, "1 renamed, 1 refused"))
        self.assertEqual(self.texts(), RENAMED)


if __name__ == "__main__":
    unittest.main()
