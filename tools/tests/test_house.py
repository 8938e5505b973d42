"""The rules of the house, and what the sources of the tools themselves have to be."""

from __future__ import annotations

import ast
import re
import shutil
import subprocess
import sys
import unittest
from pathlib import Path
from typing import Iterator, Union

from tests.answers import shown, wanted
from tests.support import TOP, Folder

TOOLS = TOP / "tools"
Function = Union[ast.FunctionDef, ast.AsyncFunctionDef]
MOST_FUNCTION, MOST_FRONT = 40, 3000
TYPED_TOOLS = ("check", "wrong-bodies", "wrong-definitions", "worked-scripts", "edit_files.py", "tested_bodies.py")


def tool(*words: str) -> subprocess.CompletedProcess[str]:
    """What a tool of the repository says."""
    return subprocess.run([str(TOOLS / words[0]), *words[1:]], capture_output=True, text=True, cwd=TOP, check=False)


def known_files() -> list[Path]:
    """The files that git knows or would add."""
    words = ["git", "ls-files", "-z", "--cached", "--others", "--exclude-standard"]
    names = subprocess.run(words, capture_output=True, cwd=TOP, check=True).stdout.decode().split("\0")
    return sorted({TOP / name for name in names if name and (TOP / name).is_file()})


def first_line(path: Path) -> str:
    """The first line of a file, where it is text."""
    return path.read_bytes().split(b"\n", 1)[0].decode("latin-1")


def begins(path: Path, pattern: str) -> bool:
    """Whether a file has no ending, and its first line begins so."""
    return not path.suffix and re.match(pattern, first_line(path)) is not None


def python_files() -> list[Path]:
    """The files in Python: by their ending, or by the first line of a file without one."""
    return [path for path in known_files() if path.suffix == ".py" or begins(path, r"#!.*python3")]


def shell_files() -> list[Path]:
    """The files in shell, in the same way."""
    return [path for path in known_files() if path.suffix == ".sh" or begins(path, r"#!/bin/(ba)?sh")]


def tree_of(path: Path) -> ast.Module:
    """A file's text, as Python 3.9 reads it."""
    return ast.parse(path.read_text(encoding="utf-8"), str(path), feature_version=(3, 9))


def functions(path: Path) -> Iterator[Function]:
    """The functions of a file."""
    return (node for node in ast.walk(tree_of(path)) if isinstance(node, (ast.FunctionDef, ast.AsyncFunctionDef)))


def bare_arguments(function: Function) -> list[str]:
    """The arguments that have no annotation, self and cls aside."""
    has = function.args
    named = [*has.posonlyargs, *has.args, *has.kwonlyargs, *filter(None, [has.vararg, has.kwarg])]
    return [each.arg for each in named if each.annotation is None and each.arg not in ("self", "cls")]


def is_typed(path: Path) -> bool:
    """Whether a file's functions have to be annotated and short: of the front, the tests, benches, soaks and others."""
    folder, of_tools = path.parent.name, path.parent == TOOLS and path.name in TYPED_TOOLS
    return folder in ("ntbview", "tests") or of_tools or path.name.startswith(("bench", "soak-"))


class Rules(unittest.TestCase):
    """The tools that keep the rules on the sources that no prover looks at."""

    def test_house(self) -> None:
        """tools/house finds nothing beyond its lists."""
        done = tool("house")
        found = "\n".join(line for line in done.stdout.splitlines() if " allowed by " not in line)
        self.assertEqual((done.returncode, found), (0, ""), done.stderr)

    def test_headline(self) -> None:
        """What a reader of the headline has to read names no other file of a machine, and stands in docs/MODEL.md."""
        done = tool("headline")
        self.assertEqual((done.returncode, done.stderr), (0, ""))
        there = (TOP / "docs" / "MODEL.md").read_text(encoding="utf-8").split("\n")
        for line in done.stdout.splitlines():
            with self.subTest(line):
                self.assertIn(line, there)

    def test_wrong_definitions(self) -> None:
        """The wrong definitions can still be made in the sources."""
        done = tool("wrong-definitions", "--fits")
        self.assertEqual(done.returncode, 0, done.stdout + done.stderr)
        self.assertRegex(done.stdout, r", 0 don't\n")

    def test_wrong_bodies(self) -> None:
        """The wrong bodies can still be made in the sources."""
        done = tool("wrong-bodies", "--fits")
        self.assertEqual(done.returncode, 0, done.stdout + done.stderr)


class Bound(Folder):
    """The number of files of tools/."""

    def test_bound(self) -> None:
        """tools/house allows 130 files, and finds 131; those that git leaves out aren't counted."""
        (self.folder / "tools").mkdir()
        shutil.copy(TOOLS / "house", self.folder / "tools")
        self.write("crates.txt", "")
        self.write(".gitignore", "*.left-out\n")
        subprocess.run(["git", "init", "-q"], cwd=self.folder, check=True)
        for number in range(129):
            self.write(f"tools/{number}", "")
            self.write(f"tools/{number}.left-out", "")
        words = [str(self.folder / "tools" / "house"), "tools"]
        for found, told in (("0 found", ""), ("1 found", "tools:1: 131 files, and at most 130 may stand here\n")):
            done = subprocess.run(words, capture_output=True, text=True, check=False)
            told += f"tools: {found}, 0 allowed by tools/house_tools.txt\n"
            self.assertEqual((done.returncode, done.stdout, done.stderr), (int(found[0]), told, ""))
            self.write("tools/more", "")


class Crates(Folder):
    """How many crates there are, and how long a chain of them is."""

    def house(self, listed: str) -> tuple[int, list[str]]:
        """The status of tools/house of these crates, and what it finds."""
        (self.folder / "tools").mkdir(exist_ok=True)
        shutil.copy(TOOLS / "house", self.folder / "tools")
        self.write("crates.txt", listed)
        subprocess.run(["git", "init", "-q"], cwd=self.folder, check=True)
        words = [str(self.folder / "tools" / "house"), "crates"]
        done = subprocess.run(words, capture_output=True, text=True, check=False)
        *found, last = done.stdout.splitlines()
        self.assertEqual(last, f"crates: {len(found)} found, 0 allowed by tools/house_crates.txt")
        return done.returncode, found

    def test_number(self) -> None:
        """51 crates are allowed, and not 52."""
        lines = [f"crate_{number}:\n" for number in range(51)]
        self.assertEqual(self.house("".join(lines)), (0, []))
        told = "crates.txt:1: 52 crates, and at most 51 may stand here"
        self.assertEqual(self.house("".join([*lines, "more:\n"])), (1, [told]))

    def test_chain(self) -> None:
        """A chain of 13 crates is allowed, and not one of 14. Libraries of the kit don't count."""
        lines = ["crate_1: hex\n", *(f"crate_{number}: hex crate_{number - 1}\n" for number in range(2, 14))]
        self.assertEqual(self.house("".join(lines)), (0, []))
        told = "crates.txt:14: last ends a chain of 14 crates, at most 13 may be"
        self.assertEqual(self.house("".join([*lines, "last: crate_1 crate_13\n"])), (1, [told]))


class Constants(Folder):
    """One constant and one definition for each number."""

    def house(self, low: str, high: str) -> list[str]:
        """What tools/house finds where these lines stand in two crates, of which the second stands on the first."""
        files = {"crates.txt": "low:\nhigh: low\n", "crates/low/src/lib.rt": low, "crates/high/src/lib.rt": high}
        (self.folder / "tools").mkdir(exist_ok=True)
        shutil.copy(TOOLS / "house", self.folder / "tools")
        for name, content in files.items():
            (self.folder / name).parent.mkdir(parents=True, exist_ok=True)
            self.write(name, content)
        subprocess.run(["git", "init", "-q"], cwd=self.folder, check=True)
        words = [str(self.folder / "tools" / "house"), "constants"]
        done = subprocess.run(words, capture_output=True, text=True, check=False)
        *found, last = done.stdout.splitlines()
        self.assertEqual(last, f"constants: {len(found)} found, 0 allowed by tools/house_constants.txt")
        self.assertEqual((done.returncode, done.stderr), (int(bool(found)), ""))
        return found

    def test_second(self) -> None:
        """A second constant is found: of the same name, or of the same value where its name says the same."""
        low = "pub const MOST_QUEUES: u32 = 16;\n"
        names = {
            "const MOST_QUEUES: u32 = 8;": "MOST_QUEUES",
            "pub(crate) const QUEUES: usize = 1_6;": "QUEUES",
            "const LAST_QUEUE: u32 = 16u32;": "LAST_QUEUE",
        }
        for line, name in names.items():
            with self.subTest(line):
                told = f"crates/high/src/lib.rt:1: {name} is MOST_QUEUES of crates/low/src/lib.rt"
                self.assertEqual(self.house(low, f"{line}\n"), [told])

    def test_others(self) -> None:
        """No other is found: of another value or notion, or made of the first one by its name."""
        low = "pub const MOST_QUEUES: u32 = 16;\n"
        lines = ("const QUEUES: u32 = 15;", "const MOST_PADS: u32 = 16;", "// const MOST_QUEUES: u32 = 16;",
                 "const QUEUES: usize = MOST_QUEUES as usize;", "const QUEUES: u32 = low::MOST_QUEUES;")
        for line in lines:
            with self.subTest(line):
                self.assertEqual(self.house(low, f"{line}\n"), [])

    def test_definitions(self) -> None:
        """A second definition is found, in one crate too."""
        (self.folder / "crates" / "low" / "specs").mkdir(parents=True)
        self.write("crates/low/specs/Lib.antt", "most_queues = 2 ^ 4\nlast_queue = 2 ^ 4\nqueues = most_queues\n")
        told = "crates/low/specs/Lib.antt:2: last_queue is most_queues of crates/low/specs/Lib.antt"
        self.assertEqual(self.house("", ""), [told])


class Names(Folder):
    """The list of names with two homes, and a sample of names."""

    def house(self, *words: str) -> tuple[int, str, str]:
        """What tools/house says where two crates define one name: status, output and error."""
        files = {"crates.txt": "low:\nhigh: low\n", "crates/low/specs/Lib.antt": "abbrev pub same : Numbers\n",
                 "crates/high/specs/Lib.antt": "pub same : Numbers\n"}
        (self.folder / "tools").mkdir(exist_ok=True)
        shutil.copy(TOOLS / "house", self.folder / "tools")
        for name, content in files.items():
            (self.folder / name).parent.mkdir(parents=True, exist_ok=True)
            self.write(name, content)
        subprocess.run(["git", "init", "-q"], cwd=self.folder, check=True)
        words = (str(self.folder / "tools" / "house"), *words)
        done = subprocess.run(words, capture_output=True, text=True, check=False)
        return done.returncode, done.stdout, done.stderr

    def test_bound(self) -> None:
        """The list may have as many names as its head says, and a head that says none is refused."""
        last = "names: {} found, 1 allowed by tools/house_names.txt\n"
        head, line = "# At most {} names have two homes.\n", "same high low: why.\n"
        (self.folder / "tools").mkdir()
        self.write("tools/house_names.txt", head.format(1) + line)
        self.assertEqual(self.house("names"), (0, last.format(0), ""))
        self.write("tools/house_names.txt", head.format(0) + line)
        told = "tools/house_names.txt:1: 1 names, and at most 0 may stand here\n"
        self.assertEqual(self.house("names"), (1, told + last.format(1), ""))
        self.write("tools/house_names.txt", "# Some names.\n" + line)
        told = "tools/house_names.txt:1: the head doesn't say how many names the list may have\n"
        self.assertEqual(self.house("names"), (1, "", told))

    def test_sample(self) -> None:
        """A sample has 16 names of code, 14 of definitions and 10 of lemmas: the same ones for the same seed."""
        done = tool("house", "sample", "1")
        kinds = [line.split()[0] for line in done.stdout.splitlines()]
        self.assertEqual(kinds, ["code"] * 16 + ["definition"] * 14 + ["lemma"] * 10)
        self.assertEqual(tool("house", "sample", "1").stdout, done.stdout)
        self.assertNotEqual(tool("house", "sample", "2").stdout, done.stdout)
        self.assertEqual(len(set(done.stdout.splitlines())), 40)


class Worked(Folder):
    """The files of the tests of worked_scripts, as tools/worked-scripts reads them."""

    def setUp(self) -> None:
        """Makes a folder for each of the three kinds of files, with a test in each."""
        super().setUp()
        for name in ("tools", "crates/worked_scripts/data/cases", "crates/worked_scripts/data/steps",
                     "crates/worked_scripts/data/rows"):
            (self.folder / name).mkdir(parents=True)
        shutil.copy(TOOLS / "worked-scripts", self.folder / "tools")
        self.data("cases/one.ntb", "ntb 1\n")
        self.data("cases/one.want", "replay, status 0, over failing streams: It ends.\n== whole\nend\n")
        self.data("steps/two.ntb", "ntb 1\nsteps\ntrain p\n")
        self.data("steps/two.want", "replay, status 3, lines 2 to 3 9 times: About.\n# A note.\n== answers\n3 ok 1\n")
        self.data("rows/all.rows", "# Rows.\n\nbegin\n    ntb 1\n\n"
                                   "three: host \\x20{3 ab\\t}c => refused line 2 word 1 no\n"
                                   "four => ok pairs 0\n    \\e\n    {2 \\n}host\n")

    def data(self, name: str, content: str) -> None:
        """Writes a file of tests."""
        self.write(f"crates/worked_scripts/data/{name}", content)

    def said(self, *words: str) -> tuple[int, str, str]:
        """What the tool says: its status, and what it wrote."""
        words = (str(self.folder / "tools" / "worked-scripts"), *words)
        done = subprocess.run(words, capture_output=True, text=True, check=False)
        return done.returncode, done.stdout, done.stderr

    def test_written(self) -> None:
        """Input and output are those of the files, and a change of one is told with its line."""
        self.assertEqual(self.said("--write"), (0, "", ""))
        crate = self.folder / "crates" / "worked_scripts"
        self.assertEqual((crate / "stdin").read_bytes().split(b"\n"), [
            b"one streams 0 replay script 1 6 whole 1 4", b"ntb 1", b"end",
            b"two once 3 replay script 1 6 script 9 14 script 1 0 answers 1 7", b"ntb 1", b"steps", b"train p",
            b"3 ok 1",
            b"three once 3 check script 1 12 script 3 3 script 1 2 whole 1 25", b"ntb 1", b"host  ab\tc",
            b"refused line 2 word 1 no",
            b"four once 0 check script 1 7 script 2 1 script 1 5 whole 1 11", b"ntb 1", b"", b"", b"host",
            b"ok pairs 0", b"",
        ])
        told = ("one", "failing-source", "failing-sink", "cut-script", "other-words", "input-too-long", "two", "three",
                "four")
        self.assertEqual((crate / "stdout").read_text(), "".join(f"passed: {name}\n" for name in told))
        self.assertEqual(self.said(), (0, "", ""))
        self.data("steps/two.ntb", "ntb 1\nsteps\ntrain q\n")
        why = "not what the files give: tools/worked-scripts --write"
        self.assertEqual(self.said(), (1, f"crates/worked_scripts/stdin:7: {why}\n", ""))

    def test_forms(self) -> None:
        """A file of another form is refused, with file and line."""
        for name, content, found in (
            ("cases/one.want", "replay status 0: It ends.\n== whole\nend\n", "cases/one.want:1: no head"),
            ("cases/one.want", "replay, status 0: It ends.\n== all\nend\n", "cases/one.want:2: no kind of text"),
            ("cases/one.want", "replay, status 0: It ends.\nend\n", "cases/one.want:2: neither a note"),
            ("cases/one.want", "replay, status 0: It ends.\n== part\n", "cases/one.want:1: no text is wanted"),
            ("cases/one.want", "load 1 1, status 0: It ends.\n== part\nend\n", "cases/one.want:1: 1 files of input"),
            ("cases/one.want", "replay, status 0, lines 1 to 2 3 times: A.\n== part\nend\n", "one.want:1: no such"),
            ("cases/five.ntb", "ntb 1\n", "cases/five.ntb:1: no file of answers"),
            ("cases/one.ntb", "ntb 1", "cases/one.ntb:1: the last line has no end"),
            ("rows/all.rows", "three: host => ok\n", "rows/all.rows:1: no row behind `begin`"),
            ("rows/all.rows", "begin\nthree: host => ok 1\n    host b\n", "rows/all.rows:2: no row behind `begin`"),
            ("rows/all.rows", "begin\nthree: \\q => ok 1\n", "rows/all.rows:2: an escape isn't one"),
            ("rows/all.row", "begin\nfive: host => ok 1\n", "rows/all.row:1: no file of rows"),
            ("rows/all.rows", "begin\none: host => ok 1\n", "rows:1: no name, or one that stands already: one"),
            ("rows/all.rows", "begin\nOne: host => ok 1\n", "rows:1: no name, or one that stands already: One"),
        ):
            with self.subTest(found):
                self.setUp()
                self.data(name, content)
                status, _, why = self.said("--write")
                self.assertEqual(status, 1)
                self.assertRegex(why, rf"crates/worked_scripts/data/\S*{re.escape(found)}")


class Python(unittest.TestCase):
    """The files in Python."""

    def test_version(self) -> None:
        """Python 3.9 reads them."""
        self.assertTrue(python_files())
        for path in python_files():
            with self.subTest(shown(path)):
                tree_of(path)

    def test_annotations(self) -> None:
        """Each function of the front and of the tests has its arguments and its result annotated."""
        for path in filter(is_typed, python_files()):
            with self.subTest(shown(path)):
                bare = [f"{each.name}: {', '.join(bare_arguments(each)) or 'result'}" for each in functions(path)
                        if bare_arguments(each) or each.returns is None]
                self.assertEqual(bare, [])

    def test_lengths(self) -> None:
        """None of them has more than 40 lines."""
        for path in filter(is_typed, python_files()):
            with self.subTest(shown(path)):
                lengths = {each.name: (each.end_lineno or 0) - each.lineno + 1 for each in functions(path)}
                self.assertEqual({name: length for name, length in lengths.items() if length > MOST_FUNCTION}, {})

    def test_columns(self) -> None:
        """Their lines have at most 120 columns."""
        for path in filter(is_typed, python_files()):
            with self.subTest(shown(path)):
                lines = path.read_text(encoding="utf-8").split("\n")
                self.assertEqual([number for number, line in enumerate(lines, 1) if len(line) > 120], [])

    def test_size(self) -> None:
        """The front, page and tests not counted, has fewer than 3,000 lines."""
        paths = [TOP / "ntbsim", TOOLS / "program.sh", *(TOOLS / "ntbview").glob("*.py")]
        counts = {shown(path): path.read_bytes().count(b"\n") for path in sorted(paths)}
        self.assertLess(sum(counts.values()), MOST_FRONT, counts)

    def test_libraries(self) -> None:
        """The front stands on the standard library alone."""
        known = getattr(sys, "stdlib_module_names", None)
        if known is None:
            self.skipTest("this Python doesn't list its own modules, so imports aren't looked at")
        for path in (TOOLS / "ntbview").glob("*.py"):
            with self.subTest(shown(path)):
                roots = {name.split(".")[0] for node in ast.walk(tree_of(path)) for name in imported(node)}
                self.assertEqual(roots - set(known) - {"ntbview"}, set())


def imported(node: ast.AST) -> list[str]:
    """The modules that a node of a tree imports by their whole names."""
    if isinstance(node, ast.Import):
        return [alias.name for alias in node.names]
    return [node.module] if isinstance(node, ast.ImportFrom) and node.module and not node.level else []


class Shell(unittest.TestCase):
    """The files in shell, and that none is in another such language."""

    def test_no_awk(self) -> None:
        """No tool is written in awk or calls it."""
        for path in known_files():
            if TOOLS in path.parents or path in (TOP / "ntbsim", TOP / "Makefile"):
                with self.subTest(shown(path)):
                    self.assertNotEqual(path.suffix, ".awk")
                    if path != Path(__file__).resolve():
                        self.assertNotRegex(path.read_bytes(), rb"(?i)\b[gmn]?awk\b")

    def test_syntax(self) -> None:
        """Each shell that is here reads them."""
        self.assertTrue(shell_files())
        for shell in ("sh", "dash", "bash"):
            program = shutil.which(shell)
            for path in shell_files() if program else []:
                if shell == "bash" or "bash" not in first_line(path):
                    with self.subTest(f"{shell} -n {shown(path)}"):
                        done = subprocess.run([program, "-n", str(path)], capture_output=True, check=False)
                        self.assertEqual((done.returncode, done.stderr), (0, b""))

    def test_shellcheck(self) -> None:
        """shellcheck finds nothing in them."""
        program = wanted("shellcheck", ", so scripts in shell aren't looked at")
        for path in shell_files():
            with self.subTest(shown(path)):
                kind = "bash" if "bash" in first_line(path) else "sh"
                words = [program, "-s", kind, "-x", "-P", "SCRIPTDIR", str(path)]
                done = subprocess.run(words, capture_output=True, text=True, cwd=TOP, check=False)
                self.assertEqual(done.stdout, "")


if __name__ == "__main__":
    unittest.main()
