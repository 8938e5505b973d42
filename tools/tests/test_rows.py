"""What the program says of scripts, beside a second writing of the rules: every row of tools/script_rows."""

from __future__ import annotations

import subprocess
import sys
import unittest
from concurrent.futures import ThreadPoolExecutor

from tests.support import TOP, program, tool_module

sys.path.insert(0, str(TOP / "tools"))

from script_rows import Row, rows  # noqa: E402
from script_rules import said_of  # noqa: E402

# The seed of the random scripts, and how many come of it.
SEED, RANDOM = 2027, 300
# There are at least this many rows: who lost some of the generator's lines would test less without a word.
LEAST = 2_500
# And this many rows are in files.
LEAST_FILES = 2_000
AT_ONCE = 4


def said(row: Row) -> str:
    """What the program says of a row's script: the first line of `check`."""
    words = [*program().words, "check"]
    done = subprocess.run(words, input=row[1].encode("latin-1"), capture_output=True, timeout=120)
    return done.stdout.decode().split("\n", 1)[0] if done.returncode in (0, 3) else f"status {done.returncode}"


class Rows(unittest.TestCase):
    """The rows of scripts."""

    def test_answers(self) -> None:
        """The program says of each script what the rules say: its first fault, or how much it declares."""
        made = rows(SEED, RANDOM)
        self.assertGreater(len(made), LEAST)
        with ThreadPoolExecutor(AT_ONCE) as pool:
            for row, answer in zip(made, pool.map(said, made)):
                with self.subTest(about=row[0], script=row[1][:400]):
                    self.assertEqual(answer, row[2])

    def test_kinds(self) -> None:
        """There are rows of scripts that are right, and of each cause that a script can be refused for."""
        answers = [row[2].split(" ") for row in rows(SEED, RANDOM)]
        self.assertEqual({words[0] for words in answers}, {"ok", "refused"})
        causes = {words[5] for words in answers if words[0] == "refused"}
        self.assertEqual(
            causes,
            {
                "nottext", "badheader", "unknownword", "badnumber", "badname", "unknownname", "repeated", "badgeometry",
                "badpair", "toomany", "badswitch", "badhex",
            },
        )


class Files(unittest.TestCase):
    """The rows of worked_scripts, which stand in files."""

    def test_rules(self) -> None:
        """The rules say of each script what its row says."""
        worked = tool_module("worked-scripts")
        made = worked.read_tests(TOP / worked.CRATE / "data")["rows"]
        self.assertGreater(len(made), LEAST_FILES)
        for row in made:
            *script, answer = row.parts
            with self.subTest(row.name):
                said = said_of(b"".join(part.data * part.count for part in script))
                self.assertEqual(f"{said}\n".encode(), answer.data)


if __name__ == "__main__":
    unittest.main()
