"""What benches and soaks share: runs with their costs, the figures of docs/COST.md, copies of crates with a program.

A bench fails where it measures more than twice what docs/COST.md states, and less than half where more is better.
"""

from __future__ import annotations

import contextlib
import functools
import os
import re
import shutil
import subprocess
import sys
import tempfile
from dataclasses import dataclass
from pathlib import Path
from typing import Iterable, Iterator, Mapping, NoReturn, Optional, Sequence

TOP = Path(__file__).resolve().parent.parent
TOOLS = TOP / "tools"
NAME = Path(sys.argv[0]).name
PARTS = ("src", "specs", "proofs")
# Crates that no soak stands on.
TOPMOST = ("worked_scripts", "ntbsim")
COST = TOP / "docs" / "COST.md"
# The units of figures, with what they are in bytes, in seconds and as numbers.
MEMORY: Mapping[str, float] = {"KB": 1e3, "MB": 1e6}
SECONDS: Mapping[str, float] = {"": 1.0, "ms": 1e-3}
NUMBER: Mapping[str, float] = {"": 1.0, "times": 1.0}
CELL = re.compile(r"(?:under )?((?:[0-9]{1,3}(?:,[0-9]{3})+|[0-9]+)(?:\.[0-9]+)?)(?: ([A-Za-z]+))?")
# The least limit of seconds, which are measured in hundredths.
LEAST_SECONDS = 0.05


@dataclass(frozen=True)
class Cost:
    """What a run cost: seconds, processor seconds, the largest memory in KiB. `status` is that of the run."""

    seconds: float
    busy: float
    memory: int
    status: int = 0


def fail(message: str) -> NoReturn:
    """Ends a bench or a soak with a sentence."""
    print(f"{NAME}: {message}", file=sys.stderr)
    sys.exit(1)


def built_program(named: str = "PROGRAM") -> str:
    """The program that stands built, or that of an environment variable."""
    path = os.environ.get(named) or str(TOP / "crates" / "ntbsim" / "out" / "ntbsim")
    if not os.access(path, os.X_OK):
        fail("no program is built: ./ntbsim --build")
    return path


def answering_program() -> str:
    """The program of NTBSIM_PROGRAM, or else the one that answers."""
    path = os.environ.get("NTBSIM_PROGRAM")
    words = [str(TOP / "ntbsim"), "--program"]
    return path or subprocess.run(words, stdout=subprocess.PIPE, text=True, check=True).stdout.rstrip("\n")


@contextlib.contextmanager
def folder() -> Iterator[Path]:
    """A folder that is removed again."""
    with tempfile.TemporaryDirectory(prefix="ntbench.") as name:
        yield Path(name)


def cost_of(words: Sequence[str], script: Optional[Path] = None, output: Optional[Path] = None) -> Cost:
    """Runs a command with a script as its standard input, and gives back its costs, by the program time."""
    with folder() as kept, contextlib.ExitStack() as files:
        out = files.enter_context(output.open("wb")) if output else subprocess.DEVNULL
        source = files.enter_context(script.open("rb")) if script else subprocess.DEVNULL
        timed = ["/usr/bin/time", "-q", "-o", str(kept / "cost"), "-f", "%e %U %S %M", *words]
        try:
            status = subprocess.run(timed, stdin=source, stdout=out, stderr=subprocess.DEVNULL, check=False).returncode
        except OSError as error:
            fail(f"/usr/bin/time can't be run: {error.strerror}")
        elapsed, user, system, memory = (kept / "cost").read_text(encoding="ascii").split()
        return Cost(float(elapsed), float(user) + float(system), int(memory), status)


def least(costs: Iterable[Cost]) -> Cost:
    """The least of each figure."""
    kept = list(costs)
    return Cost(min(each.seconds for each in kept), min(each.busy for each in kept), min(each.memory for each in kept))


def instructions(words: Sequence[str], script: Optional[Path] = None) -> Optional[int]:
    """How many instructions a command takes over a script, by valgrind; none where valgrind isn't there."""
    valgrind = shutil.which("valgrind")
    if not valgrind:
        return None
    command = [valgrind, "--tool=callgrind", "--callgrind-out-file=/dev/null", *words]
    with contextlib.ExitStack() as files:
        source = files.enter_context(script.open("rb")) if script else subprocess.DEVNULL
        done = subprocess.run(command, stdin=source, stdout=subprocess.DEVNULL, stderr=subprocess.PIPE, check=False)
    found = re.search(rb"Collected : ([0-9]+)", done.stderr)
    return int(found.group(1)) if found else fail(f"valgrind counted nothing of {' '.join(words)}")


class NoFigure(Exception):
    """docs/COST.md doesn't say what it is asked."""


@dataclass(frozen=True)
class Table:
    """A table of a document: the heading above it, its columns, and its rows by their first cells."""

    section: str
    columns: list[str]
    rows: dict[str, list[str]]

    def add(self, cells: list[str]) -> None:
        """Adds a row, but not the line below the columns."""
        if len(cells) != len(self.columns):
            raise NoFigure(f"{self.section}: the row {cells[0]} has {len(cells)} cells for {len(self.columns)} columns")
        if cells[0] in self.rows:
            raise NoFigure(f"{self.section}: two rows {cells[0]}")
        if not all(re.fullmatch(r":?-+:?", cell) for cell in cells):
            self.rows[cells[0]] = cells


@dataclass(frozen=True)
class Figure:
    """A figure as it is stated: its number, its unit, and what the unit is in bytes, seconds or numbers."""

    number: float
    unit: str
    worth: float

    def shown(self, value: float) -> str:
        """A value in this figure's unit."""
        number = f"{value / self.worth:,.3f}".rstrip("0").rstrip(".")
        return f"{number} {self.unit}".rstrip()


def tables_of(text: str) -> list[Table]:
    """The tables of a document. Marks of code in cells are left out."""
    section, tables, is_open = "", list[Table](), False
    for line in text.split("\n"):
        heading = re.fullmatch(r"#+ (.*)", line)
        section = heading[1] if heading else section
        if not line.startswith("|"):
            is_open = False
            continue
        cells = [cell.strip() for cell in line.rstrip().replace("`", "").split("|")]
        if cells[-1] or len(cells) < 3:
            raise NoFigure(f"{section}: a row has no end: {line}")
        if is_open:
            tables[-1].add(cells[1:-1])
        else:
            tables.append(Table(section, cells[1:-1], {}))
        is_open = True
    return tables


@functools.lru_cache(maxsize=None)
def tables_in(document: Path) -> list[Table]:
    """The tables of a file."""
    try:
        return tables_of(document.read_text(encoding="utf-8"))
    except OSError as error:
        raise NoFigure(f"{document} can't be read: {error.strerror}") from error


def cell_in(tables: Iterable[Table], section: str, row: str, column: str) -> str:
    """The one cell of a section in this row and column."""
    there = [table for table in tables if table.section == section]
    if not there:
        raise NoFigure(f"there is no section {section} with a table")
    rows = [table for table in there if row in table.rows]
    if not rows:
        raise NoFigure(f"{section}: there is no row {row}")
    cells = [table.rows[row][table.columns.index(column)] for table in rows if column in table.columns]
    if len(cells) != 1:
        raise NoFigure(f"{section}: {len(cells)} cells of {row} are called {column}, and one is wanted")
    return cells[0]


def figure_in(cell: str, units: Mapping[str, float], where: str = "a cell") -> Optional[Figure]:
    """The figure that a cell states in one of these units; none where it has a dash."""
    found = CELL.fullmatch(cell)
    unit = (found[2] or "") if found else ""
    if cell == "–":
        return None
    if not found or unit not in units:
        raise NoFigure(f"{where}: this is no figure there: {cell}")
    return Figure(float(found[1].replace(",", "")), unit, units[unit])


class Limits:
    """The limits by a row of docs/COST.md. `broken` says which of them were passed, and what couldn't be read."""

    def __init__(self, section: str, row: str, document: Path = COST) -> None:
        """The limits by this row of this section."""
        self.section, self.row, self.document = section, row, document
        self.broken: list[str] = []

    def stated(self, column: str, units: Mapping[str, float]) -> Optional[Figure]:
        """The figure of a column. None is stated by a dash; what can't be read is as a limit that is passed."""
        where = f"{self.section}: {self.row}, {column}"
        try:
            return figure_in(cell_in(tables_in(self.document), self.section, self.row, column), units, where)
        except NoFigure as error:
            why = f"{self.document.name}: {error}"
            self.broken += [why] if why not in self.broken else []
            return None

    def check(self, column: str, value: float, figure: Optional[Figure], least: float, most: float) -> None:
        """A value is within these limits, where a figure is stated at all."""
        if figure is None or least <= value <= most:
            return
        limit = f"at most {figure.shown(most)}" if value > most else f"at least {figure.shown(least)}"
        limit = f"exactly {figure.shown(most)}" if least == most else limit
        self.broken.append(f"{column} {figure.shown(value)}, {limit}")

    def at_most_twice(self, column: str, value: float, units: Mapping[str, float], least_limit: float = 0.0) -> None:
        """A value is at most twice the figure, or at most this limit where that is more."""
        figure = self.stated(column, units)
        most = max(2 * figure.number * figure.worth, least_limit) if figure else 0.0
        self.check(column, value, figure, 0.0, most)

    def memory(self, column: str, size: float) -> None:
        """A memory in bytes is at most twice the figure."""
        self.at_most_twice(column, size, MEMORY)

    def seconds(self, column: str, seconds: float) -> None:
        """Seconds that are measured in hundredths are at most twice the figure, or five hundredths."""
        self.at_most_twice(column, seconds, SECONDS, LEAST_SECONDS)

    def fine_seconds(self, column: str, seconds: float) -> None:
        """Seconds that are measured in microseconds are at most twice the figure."""
        self.at_most_twice(column, seconds, SECONDS)

    def number(self, column: str, number: float) -> None:
        """A number is at most twice the figure."""
        self.at_most_twice(column, number, NUMBER)

    def at_least_half(self, column: str, number: float) -> None:
        """A number of which more is better is at least half the figure."""
        figure = self.stated(column, NUMBER)
        self.check(column, number, figure, figure.number / 2 if figure else 0.0, float("inf"))

    def exactly(self, column: str, number: float) -> None:
        """A number is the figure."""
        figure = self.stated(column, NUMBER)
        self.check(column, number, figure, figure.number if figure else 0.0, figure.number if figure else 0.0)

    def show(self, row: str) -> bool:
        """Prints a row, with the limits that it is past; whether there are none."""
        print(f"{row}  FAILS: {'; '.join(self.broken)}" if self.broken else row, flush=True)
        return not self.broken


def number_word(default: int) -> int:
    """The first word as a number."""
    if len(sys.argv) < 2:
        return default
    if not re.fullmatch(r"[1-9][0-9]{0,8}", sys.argv[1]):
        fail(f"a number is wanted here: {sys.argv[1]}")
    return int(sys.argv[1])


def ends_well(text: Path, what: str) -> None:
    """Fails where a text has no line `end` at its end."""
    with text.open("rb") as file:
        file.seek(max(0, text.stat().st_size - 5))
        if not (b"\n" + file.read()).endswith(b"\nend\n"):
            fail(f"{what}: the text has no end")


def run_shown(words: Sequence[str], cwd: Path) -> None:
    """Runs a command, and shows what it says where it fails."""
    pipe = subprocess.PIPE
    done = subprocess.run(list(words), input=b"", stdout=pipe, stderr=subprocess.STDOUT, cwd=cwd, check=False)
    if done.returncode:
        sys.stdout.write(done.stdout.decode("utf-8", "replace"))
        sys.exit(1)


def copy_crates(copy: Path, names: Optional[Sequence[str]] = None, with_built: bool = False) -> None:
    """Copies the sources of crates, all of them unless they are named, and the libraries that stand built."""
    for crate in sorted((TOP / "crates").iterdir()):
        if names is not None and crate.name not in names:
            continue
        to = copy / "crates" / crate.name
        to.mkdir(parents=True)
        for part in PARTS:
            if (crate / part).is_dir():
                shutil.copytree(crate / part, to / part)
        if with_built and (crate / "out" / "rlib").is_dir():
            shutil.copytree(crate / "out" / "rlib", to / "out" / "rlib")
    shutil.copy(TOP / "HANDLES", copy)


def crate_lines(leave_out: Sequence[str] = ()) -> list[str]:
    """The lines of crates.txt, those of some crates left out."""
    lines = (TOP / "crates.txt").read_text(encoding="utf-8").splitlines()
    return [line for line in lines if not line.startswith(tuple(leave_out) or ("\0",))]


def add_program(copy: Path, name: str, sources: dict[str, str], lines: Sequence[str]) -> Path:
    """Puts a program into a copy of the crates: its sources by their names there, and the lines of crates.txt."""
    crate = copy / "crates" / name
    for to, source in sources.items():
        (crate / to).parent.mkdir(parents=True, exist_ok=True)
        shutil.copy(TOOLS / source, crate / to)
    (copy / "crates.txt").write_text("".join(f"{line}\n" for line in lines), encoding="utf-8")
    return crate


def small_program(copy: Path, crates: Sequence[str], name: str, sources: dict[str, str], lines: Sequence[str]) -> Path:
    """Puts a program of tools/ over a copy of a few crates, without handles, and gives back its crate."""
    copy_crates(copy, crates)
    crate = add_program(copy, name, sources, lines)
    (copy / "HANDLES").write_text("Handles allowed: none.\n", encoding="utf-8")
    (crate / "specs").mkdir()
    (crate / "specs" / "Lib.antt").touch()
    return crate


def soak(name: str, runs: int, libraries: str) -> None:
    """Runs a program of threads over a copy of the crates, pinned to one, to two and to four cores."""
    with folder() as copy:
        copy_crates(copy)
        lines = [*crate_lines(TOPMOST), f"{name}: {libraries}"]
        crate = add_program(copy, name, {"src/main.rt": f"{name}/main.rattle"}, lines)
        for cores in ("0", "0-1", "0-3"):
            print(f"cores {cores}", flush=True)
            words = ["taskset", "-c", cores, "rt", "try", "--seconds", "3000", "--", str(runs)]
            done = subprocess.run(words, cwd=crate, check=False)
            if done.returncode:
                sys.exit(done.returncode)
