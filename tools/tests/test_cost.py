"""What docs/COST.md states is read, its limits are seen to fail, and what doesn't hang on seconds is measured."""

from __future__ import annotations

import contextlib
import io
import os
import shutil
import subprocess
import sys
import unittest
from pathlib import Path
from typing import Iterator, Optional

import bench_support
from bench_scripts import SCRIPTS, two_frames
from bench_support import COST, MEMORY, NUMBER, SECONDS, Cost, Limits, NoFigure, cost_of, figure_in, instructions
from bench_support import cell_in, tables_in, tables_of
from tests.answers import wanted
from tests.support import TOP, Folder, is_proved, program, tool_module

TOOLS = TOP / "tools"
MADE_UP = """# Costs

## Replays

Words.

| Name | What | Seconds | Memory | Million instructions |
|---|:--|---|---|---|
| `small` | a script | under 0.01 | 1.5 MB | 1,200 |
| `large` | another | 0.20 | – | some 80 |

| Frames | 1,024 entries |
|---|---|
| `run_plan` | 16.1 ms |

### Beside others

| Name | States | Rate | Times |
|---|---|---|---|
| `small` | 495 | 64,000 | 9.9 times |
| zero | 0 | – | – |
"""


class Reader(Folder):
    """The reader of tables."""

    def test_cells(self) -> None:
        """A cell is found by the heading above it, its row's first cell and its column."""
        tables = tables_of(MADE_UP)
        for wanted_cell, where in {
            "under 0.01": ("Replays", "small", "Seconds"),
            "16.1 ms": ("Replays", "run_plan", "1,024 entries"),
            "495": ("Beside others", "small", "States"),
        }.items():
            self.assertEqual(cell_in(tables, *where), wanted_cell)

    def test_figures(self) -> None:
        """Units, commas and `under` are understood, and a dash states none."""
        for cell, units, value in [
            ("1,234,567", NUMBER, 1234567), ("9.9 times", NUMBER, 9.9), ("0", NUMBER, 0), ("4.9 MB", MEMORY, 4900000),
            ("12 KB", MEMORY, 12000), ("0.11", SECONDS, 0.11), ("under 0.01", SECONDS, 0.01), ("16 ms", SECONDS, 0.016),
        ]:
            with self.subTest(cell):
                figure = figure_in(cell, units)
                self.assertTrue(figure and abs(figure.number * figure.worth - value) <= 1e-9 * value)
        self.assertIsNone(figure_in("–", MEMORY))

    def test_no_figures(self) -> None:
        """What is no figure of the units that are asked for is an error."""
        for cell, units in [
            ("", NUMBER), ("-", NUMBER), ("some 120", NUMBER), ("1,23", NUMBER), ("1.", NUMBER), ("-1", NUMBER),
            ("5 MB", NUMBER), ("45", MEMORY), ("45 GB", MEMORY), ("45 ms", MEMORY), ("5 MB", SECONDS), ("1 2", NUMBER),
            ("2 times", SECONDS), ("below 0.01", SECONDS), ("0.1 to 0.2", SECONDS), ("nan", NUMBER), ("inf", NUMBER),
        ]:
            with self.subTest(cell), self.assertRaises(NoFigure):
                figure_in(cell, units)

    def test_wrong_tables(self) -> None:
        """A cut row, a row of another length, and a row that stands twice are errors."""
        head = "## Costs\n| Name | Seconds |\n|---|---|\n| a | 1 |\n"
        self.assertEqual(len(tables_of(head)), 1)
        for rows in ("| b | 2", "| b |\n", "| b | 2 | 3 |\n", "| a | 2 |\n"):
            with self.subTest(rows), self.assertRaises(NoFigure):
                tables_of(head + rows)

    def test_missing(self) -> None:
        """A missing file, section, row or column, and two cells for one question, are said and fail."""
        document = self.write("COST.md", MADE_UP.encode())
        again = "## Replays\n| Name | Memory |\n|---|---|\n| small | 9 MB |\n"
        twice = self.write("TWICE.md", (MADE_UP + again).encode())
        cut = self.write("CUT.md", (MADE_UP + "| small\n").encode())
        for section, row, column, path, why in [
            ("Replays", "small", "Memory", self.folder / "none.md", "can't be read"),
            ("Replay", "small", "Memory", document, "no section Replay"),
            ("Costs", "small", "Memory", document, "no section Costs"),
            ("Replays", "smaller", "Memory", document, "no row smaller"),
            ("Replays", "small", "Bytes", document, "called Bytes"),
            ("Replays", "small", "Memory", twice, "2 cells"),
            ("Replays", "small", "What", document, "no figure there: a script"),
            ("Replays", "small", "Seconds", document, "no figure there: under 0.01"),
            ("Replays", "small", "Memory", cut, "has no end"),
        ]:
            with self.subTest(why):
                limits = Limits(section, row, path)
                limits.memory(column, 0)
                self.assertEqual(len(limits.broken), 1)
                self.assertIn(why, limits.broken[0])


class Twice(Folder):
    """The limits over made-up figures."""

    def limits(self, section: str, row: str) -> Limits:
        """The limits by a made-up row."""
        return Limits(section, row, self.write("COST.md", MADE_UP.encode()))

    def test_most(self) -> None:
        """Twice a figure passes, and more fails with the limit."""
        limits = self.limits("Replays", "small")
        limits.memory("Memory", 3000000)
        limits.number("Million instructions", 2400)
        self.assertEqual(limits.broken, [])
        limits.memory("Memory", 3100000)
        limits.number("Million instructions", 2401)
        self.assertEqual(limits.broken, ["Memory 3.1 MB, at most 3 MB", "Million instructions 2,401, at most 2,400"])

    def test_seconds(self) -> None:
        """Seconds have twice the figure, and 0.05 where that is less; times in milliseconds have twice alone."""
        limits_of = {("small", "Seconds"): 0.05, ("large", "Seconds"): 0.4, ("run_plan", "1,024 entries"): 0.05}
        for (row, column), most in limits_of.items():
            limits = self.limits("Replays", row)
            limits.seconds(column, most)
            self.assertEqual(limits.broken, [])
            limits.seconds(column, most + 0.01)
            self.assertEqual(len(limits.broken), 1)
        limits = self.limits("Replays", "run_plan")
        limits.fine_seconds("1,024 entries", 0.0322)
        self.assertEqual(limits.broken, [])
        limits.fine_seconds("1,024 entries", 0.0323)
        self.assertEqual(limits.broken, ["1,024 entries 32.3 ms, at most 32.2 ms"])

    def test_exactly(self) -> None:
        """States have to be the same, and of what is better where it is more half is enough."""
        limits = self.limits("Beside others", "small")
        limits.exactly("States", 495)
        limits.at_least_half("Rate", 32000)
        self.assertEqual(limits.broken, [])
        limits.exactly("States", 494)
        limits.exactly("States", 496)
        limits.at_least_half("Rate", 31999)
        exactly = ["States 494, exactly 495", "States 496, exactly 495"]
        self.assertEqual(limits.broken, [*exactly, "Rate 31,999, at least 32,000"])

    def test_none(self) -> None:
        """A dash is no limit, and a figure of 0 is one."""
        limits = self.limits("Replays", "large")
        limits.memory("Memory", 1e12)
        self.assertEqual(limits.broken, [])
        limits = self.limits("Beside others", "zero")
        limits.exactly("States", 0)
        limits.at_least_half("Rate", 0)
        self.assertEqual(limits.broken, [])
        limits.number("States", 1)
        limits.exactly("States", 1)
        self.assertEqual(len(limits.broken), 2)

    def test_not_a_number(self) -> None:
        """What isn't a number is within no limit."""
        limits = self.limits("Replays", "small")
        limits.number("Million instructions", float("nan"))
        self.assertEqual(len(limits.broken), 1)


def limits_over(factor: float) -> Iterator[tuple[str, Limits]]:
    """The limits of each row of each bench, over costs so large, which are nothing where the factor is 0."""
    large, size = Cost(1e4 * factor, 1e4 * factor, int(1e8 * factor)), int(1e11 * factor)
    replay, explore, run = tool_module("bench-replay"), tool_module("bench-explore"), tool_module("bench-run")
    queue, memory, stream, view = map(tool_module, ("bench-queue", "bench-memory", "bench-stream", "bench-view"))
    for name in SCRIPTS:
        yield name, replay.limits_of(name, large, int(1e12 * factor) or 1, 1)
    for name in queue.ROWS:
        yield name, queue.limits_of(name, large.seconds, size, int(1e12 * factor))
    for sides in memory.SIDES:
        yield f"{sides} sides", memory.limits_of(sides, large)
    for name in run.LANES:
        for entries in run.ENTRIES:
            yield name, run.lane_limits(name, entries, large.seconds)
    for name in run.WHOLE:
        yield name, run.whole_limits(name, large)
    for ring, mtu in stream.RINGS:
        yield "stream", stream.limits_of((ring - 4) // mtu, large, large, large)
    for name in ("trace", "--json", "--show", "--draw lines=1-40", "--page"):
        yield name, view.limits_of(name, view.FRAMES, view.Use(0, large.busy, size, 0), None, None)
    for name, count in {"flags": 3, "classes": 4, "offers": 4}.items():
        found = explore.Found(int(count * (1 + factor)) * [""], None, large.seconds)
        for whose in ("spin", "explore"):
            yield f"{name} {whose}", explore.litmus_limits(name, whose, found, True)


class Benches(Folder):
    """The benches by themselves, without the program."""

    def test_questions(self) -> None:
        """Each bench finds what it asks of docs/COST.md, and costs of nothing are within its limits."""
        for name, limits in limits_over(0):
            with self.subTest(name):
                self.assertEqual(limits.broken, [])

    def test_large(self) -> None:
        """Each row of each bench fails where costs are large."""
        for name, limits in limits_over(1):
            with self.subTest(name):
                self.assertNotEqual(limits.broken, [])
                self.assertNotIn("COST.md", " ".join(limits.broken))

    def test_quadratic(self) -> None:
        """Twelve times the instructions of a tenth are the most, whatever the figures."""
        limits_of = tool_module("bench-replay").limits_of
        self.assertEqual(limits_of("frames", Cost(0, 0, 0), 1200, 100).broken, [])
        self.assertEqual(limits_of("frames", Cost(0, 0, 0), 1210, 100).broken, ["12.1 times a tenth, at most 12"])

    def test_own_limits(self) -> None:
        """A stream has its limits beside a run, and a view those that it is given."""
        stream, view = tool_module("bench-stream").limits_of, tool_module("bench-view")
        run, ends = Cost(0.01, 0, 9000), Cost(0.03, 0, 9000)
        self.assertEqual(stream(1024, run, ends, Cost(0, 0, 18000)).broken, [])
        self.assertIn("at most 3 times", " ".join(stream(1024, run, Cost(0.04, 0, 9000), ends).broken))
        self.assertIn("at most 2 times", " ".join(stream(1024, run, ends, Cost(0, 0, 18001)).broken))
        self.assertEqual(view.limits_of("trace", 1, view.Use(2, 2, 2, 0), 1, 1).broken, ["too slow", "too large"])
        self.assertEqual(view.limits_of("trace", 1, view.Use(2, 2, 2, 0), 2, 2).broken, [])

    def test_said(self) -> None:
        """What the small programs print is read: the times of lanes by their kinds, and those of the queue."""
        lanes, took = tool_module("bench-run").lanes, tool_module("bench-queue").TOOK
        kinds = ("rtrb", "run_plan", "steps alone")
        said = [f"{kind}, {ring} entries: 9 frames a second, {{}} us\n" for kind in kinds for ring in (1024, 4)]
        quick, slow = "".join(said).format(*6 * [1000]), "".join(said).format(*6 * [1000000])
        with contextlib.redirect_stdout(io.StringIO()) as printed, contextlib.redirect_stderr(io.StringIO()):
            self.assertTrue(lanes(slow + quick))
            self.assertFalse(lanes(slow))
            self.assertEqual(printed.getvalue().count("FAILS"), 6)
            for wrong in ("", "".join(said[:-1]).format(*5 * [1000]), "".join(said).format(*6 * [1])):
                with self.assertRaises(SystemExit) as ended:
                    lanes(wrong)
                self.assertEqual(ended.exception.code, 1)
        found = took.search("100 from the front: posted in 12 us, landed in 34 us, sum 5\n")
        self.assertEqual(found and found.groups(), ("12", "34"))

    def test_status(self) -> None:
        """A bench ends with status 1 and says so, where states, a memory or the question is wrong, and else with 0."""
        wanted("/usr/bin/time", ", so no bench is run")
        fake = self.write("program", '#!/bin/sh\necho "outcomes 1 states 495"\n')
        fake.chmod(0o755)
        document = COST.read_text(encoding="utf-8")
        for old, new, row, why in [
            ("", "", "1", ""),
            ("", "", "129", "FAILS: States 495, exactly 1,615"),
            ("| 1 | 10 | 0 | 495 |", "| 1 | 10 | 0 | 496 |", "1", "FAILS: States 495, exactly 496"),
            ("| 1 | 10 | 0 | 495 |", "| 1 | 10 | 8 | 495 |", "1", "FAILS: Status 0, exactly 8"),
            ("| 3 MB |", "| 1 KB |", "1", "at most 2 KB"),
            ("| 3 MB |", "| 3 bytes |", "1", "no figure there: 3 bytes"),
            ("| 3 MB |", "| 3 MB | 4 MB |", "1", "8 cells for 7 columns"),
            ("## Explorations", "## Searches", "1", "no section Explorations"),
        ]:
            with self.subTest(why):
                self.assertIn(old, document)
                done = self.bench("bench-explore", document.replace(old, new), "--grow", row, NTBSIM_PROGRAM=str(fake))
                self.assertEqual(done.returncode, 1 if why else 0, done.stderr)
                self.assertIn(why, done.stdout)
                self.assertIn(f"\n{row:>8} ", done.stdout)

    def bench(self, name: str, document: str, *words: str, **env: str) -> subprocess.CompletedProcess[str]:
        """What a bench says that stands beside another docs/COST.md."""
        for folder in ("tools", "docs"):
            (self.folder / folder).mkdir(exist_ok=True)
        for file in (name, "bench_support.py", "bench_scripts.py"):
            shutil.copy(TOOLS / file, self.folder / "tools" / file)
        (self.folder / "docs" / "COST.md").write_text(document, encoding="utf-8")
        command = [sys.executable, "-B", str(self.folder / "tools" / name), *words]
        return subprocess.run(command, capture_output=True, text=True, env={**os.environ, **env}, check=False)


class Proved(Folder):
    """Memory, states and instructions of the proved program, which hardly differ from one run to the next."""

    def setUp(self) -> None:
        """Skips where another program answers, or no program measures."""
        super().setUp()
        wanted("/usr/bin/time", ", so no memory is measured")
        if not is_proved(program().words[0]):
            self.skipTest("the program that answers isn't proved, and docs/COST.md has costs of the proved one alone")

    def written(self, name: str, part: int) -> tuple[list[str], Path]:
        """The command of a script or of a tenth of it, and the script."""
        words, text = SCRIPTS[name](part)
        return [program().words[0], *words], self.write("script", text)

    def test_memory(self) -> None:
        """The largest memory of some scripts."""
        for name in ("frames", "flight", "wide", "load"):
            with self.subTest(name):
                words, script = self.written(name, 1)
                cost, limits = cost_of(words, script), Limits("Replays", name)
                limits.memory("Memory", cost.memory * 1024)
                self.assertEqual((cost.status, limits.broken), (0, []))
                self.assertIsNotNone(limits.stated("Memory", MEMORY))

    def test_states(self) -> None:
        """The states of explorations exactly, and their largest memory."""
        for size in (1, 129, 257):
            with self.subTest(size):
                script, text = self.write("script", two_frames(size)), self.folder / "text"
                cost, limits = cost_of([program().words[0], "explore"], script, text), Limits("Explorations", str(size))
                limits.exactly("Status", cost.status)
                limits.exactly("States", int(text.read_text(encoding="latin-1").split()[3]))
                limits.memory("Memory", cost.memory * 1024)
                self.assertEqual(limits.broken, [])
                self.assertIsNotNone(limits.stated("States", NUMBER))

    def test_instructions(self) -> None:
        """The instructions of a tenth of some scripts are at most a tenth of twice those of the whole."""
        wanted("valgrind", ", so no instructions are counted")
        for name in ("frames", "larger"):
            with self.subTest(name):
                count: Optional[int] = instructions(*self.written(name, 10))
                limits = Limits("Replays", name)
                limits.number("Million instructions", (count or 0) * 10 / 1e6)
                self.assertEqual(limits.broken, [])
                self.assertTrue(count and limits.stated("Million instructions", NUMBER))


class Document(unittest.TestCase):
    """docs/COST.md itself."""

    def test_tables(self) -> None:
        """All its tables can be read, and each section has one."""
        sections = {table.section for table in tables_in(COST)}
        self.assertLessEqual({"Replays", "Explorations", "Beside spin", "Views"}, sections)
        self.assertEqual(bench_support.COST, TOP / "docs" / "COST.md")


if __name__ == "__main__":
    unittest.main()
