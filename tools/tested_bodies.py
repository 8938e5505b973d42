"""Wrong bodies that no contract refuses, and the test that has to refuse each. tools/wrong-bodies says how to call it.

One program has all of them, so it is compiled once: a function that a body changes stands beside its wrong copy, and
asks first whether that copy is chosen. Which one is chosen is a byte of the compiled program.
"""

from __future__ import annotations

import os
import re
import shutil
import signal
import subprocess
import tempfile
import threading
import time
from concurrent.futures import ThreadPoolExecutor, as_completed
from dataclasses import dataclass
from pathlib import Path
from typing import Iterator, Optional

TOP = Path(__file__).resolve().parent.parent
LIST = TOP / "tools" / "tested_bodies.txt"
# The crates whose programs are tests themselves, and what `rt try` is told of each.
PROGRAMS = {"thread_tests": ["--test"], "worked_scripts": [], "examples": []}
# What the files of tools/tests ask, and the words with which it runs for some seconds.
PROGRAM, LOAD = "ntbsim", ["--", "load", "1", "2000"]
# The byte behind the mark says which body is chosen, from 1 on.
MARK, MOST_BODIES = b"the chosen wrong body has number ", 255
CHOOSER = """//! Which wrong body is chosen.

static CHOSEN: [u8; 34] = *b"the chosen wrong body has number \\0";

/// Whether it is this one.
pub(crate) fn is_chosen(body: u8) -> bool {
    CHOSEN[33] == body
}
"""
# A test may take this many seconds, and this many times those that it takes without a body.
LEAST_SECONDS, TIMES = 60, 8
# Without a body it may take this many.
MOST_SECONDS = 1800
# The processes that run now, and the folders: they go if this process does.
RUNNING: set[subprocess.Popen[bytes]] = set()
# While a program is written none begins, since a process that is begun would hold the file open.
WRITING = threading.Lock()
FOLDERS: list[str] = []


class Misfit(Exception):
    """Why a body can't be made in the sources."""


@dataclass(frozen=True)
class Body:
    """A wrong body: what it does, the test that has to fail, and what is changed, as file, old and new text."""

    name: str
    test: str
    edits: list[tuple[str, str, str]]

    def texts(self) -> dict[str, str]:
        """The files that it changes, with its changes."""
        texts: dict[str, str] = {}
        for file, old, new in self.edits:
            text = texts.get(file) or "\n".join(lines_of(file)) + "\n"
            if text.count(old) != 1:
                raise Misfit(f"its old text stands in {file} {text.count(old)} times")
            texts[file] = text.replace(old, new)
        return texts


@dataclass(frozen=True)
class Span:
    """A function in a file: the numbers of its first line, the line that opens its body, and its last one; its name."""

    first: int
    opening: int
    last: int
    name: str


def bodies() -> list[Body]:
    """The bodies of the list. A stanza has a line `body:`, one `test:`, and then those of an edit."""
    found = []
    for stanza in LIST.read_text(encoding="utf-8").split("\n\n"):
        lines = [line.partition(": ")[::2] for line in stanza.splitlines() if not line.startswith("#")]
        if lines and [word for word, _ in lines[:2]] != ["body", "test"]:
            raise SystemExit(f"wrong-bodies: no stanza of {LIST.name}: {lines[0][1]}")
        if lines:
            found.append(Body(lines[0][1], lines[1][1], list(edits(lines[2:]))))
    if len(found) > MOST_BODIES:
        raise SystemExit(f"wrong-bodies: more than {MOST_BODIES} bodies")
    return found


def edits(lines: list[tuple[str, str]]) -> Iterator[tuple[str, str, str]]:
    """The changes of a stanza."""
    file = old = ""
    for word, rest in lines:
        if word == "file":
            file = rest
        elif word == "old":
            old = rest
        elif word in ("new", "new:"):
            yield file, old, rest
        else:
            raise SystemExit(f"wrong-bodies: no line of {LIST.name}: {word}: {rest}")


def misfits(crates: list[str]) -> list[str]:
    """Of each body that can't be made in these crates, or in any, why."""
    said = []
    for body in bodies():
        if crates and not {Path(file).parts[1] for file, _, _ in body.edits} & set(crates):
            continue
        try:
            for file, text in body.texts().items():
                woven(lines_of(file), [(0, text.splitlines())])
            is_there(f"crates/{body.test}" if body.test in PROGRAMS else f"tools/tests/test_{body.test}.py")
        except Misfit as why:
            said.append(f"{body.name}: {why}")
    return said


def is_there(name: str) -> None:
    """Whether a file or a folder is."""
    if not (TOP / name).exists():
        raise Misfit(f"there is no {name}")


def lines_of(file: str) -> list[str]:
    """The lines of a file of the repository."""
    is_there(file)
    return (TOP / file).read_text(encoding="utf-8").splitlines()


def span(lines: list[str], place: int) -> Span:
    """The function that a line is of, in the layout of `rt fmt`."""
    for first in range(place, -1, -1):
        head = re.match(r"( *)(?:pub(?:\(\w+\))? )?fn (\w+)", lines[first])
        if head:
            last = lines.index(f"{head[1]}}}", first)
            opens = re.compile(rf"{head[1]}(\{{|\S.* \{{)$")
            opening = next(number for number in range(first, last) if opens.match(lines[number]))
            if opening < place < last:
                return Span(first, opening, last, head[2])
            break
    raise Misfit(f"line {place + 1} is in no function's body")


def bracketed(text: str) -> tuple[list[str], str]:
    """What commas part in the brackets that a text begins with, and what follows them."""
    depth, begin, parts = 0, 1, []
    for place, letter in enumerate(text.replace("->", "  ")):
        depth += (letter in "(<[{") - (letter in ")>]}")
        if depth == 0 or (depth == 1 and letter == ","):
            parts.append(text[begin:place].strip())
            begin = place + 1
        if depth == 0:
            return [part for part in parts if part], text[begin:]
    raise Misfit(f"no brackets: {text}")


def call(lines: list[str], it: Span, name: str) -> str:
    """The call of a function's copy of this name with the function's own arguments."""
    rest = " ".join(line.strip() for line in lines[it.first : it.opening + 1]).partition(f"fn {it.name}")[2]
    parts = bracketed(bracketed(rest)[1] if rest.startswith("<") else rest)[0]
    names = [re.sub(r"^mut ", "", part.partition(":")[0]) for part in parts]
    if names and names[0] in ("self", "&self", "&mut self"):
        return f"self.{name}({', '.join(names[1:])})"
    return f"{'Self::' if lines[it.first].startswith(' ') else ''}{name}({', '.join(names)})"


def placed(lines: list[str], it: Span, copy: list[str]) -> tuple[int, list[str]]:
    """Behind which line a copy of a function goes, and how. That of a trait's method is a method of the type itself."""
    head = next((line for line in reversed(lines[: it.first]) if line.startswith("impl")), "")
    of_trait = re.match(r"(impl(?:<.*?>)?) .* for (.*) \{$", head)
    if of_trait and lines[it.first].startswith(" "):
        return lines.index("}", it.last), [f"{of_trait[1]} {of_trait[2]} {{", *copy, "}"]
    return it.last, copy


def woven(lines: list[str], wrong: list[tuple[int, list[str]]]) -> str:
    """A file with its wrong copies. Of each body its number is given, and the lines that the file would have."""
    behind: dict[int, list[str]] = {}
    for number, others in wrong:
        if len(lines) != len(others):
            raise Misfit("one line isn't changed into one line")
        changed = [place for place, line in enumerate(lines) if line != others[place]]
        for it in {span(lines, place): None for place in changed}:
            name = f"{it.name}_wrong_{number}"
            asked = f"if crate::chosen_body::is_chosen({number}) {{ return {call(lines, it, name)}; }}"
            behind.setdefault(it.opening, []).append(asked)
            copy = [others[it.first].replace(f"fn {it.name}", f"fn {name}", 1), *others[it.first + 1 : it.last + 1]]
            place, copy = placed(lines, it, copy)
            behind.setdefault(place, []).extend(copy)
    return "".join(f"{each}\n" for place, line in enumerate(lines) for each in (line, *behind.get(place, [])))


def make_copy(copy: Path, chosen: list[tuple[int, Body]]) -> None:
    """Makes a copy of the crates in which each function stands beside its wrong copies."""
    ignored = shutil.ignore_patterns("out", "incremental", "must-fail", "proofs")
    shutil.copytree(TOP / "crates", copy / "crates", ignore=ignored)
    for name in ("crates.txt", "HANDLES"):
        shutil.copy(TOP / name, copy)
    wrong: dict[str, list[tuple[int, list[str]]]] = {}
    for number, body in chosen:
        for file, text in body.texts().items():
            wrong.setdefault(file, []).append((number, text.splitlines()))
    for file, copies in wrong.items():
        (copy / file).write_text(woven(lines_of(file), copies), encoding="utf-8")
    for crate in {Path(file).parts[1] for file in wrong}:
        folder = copy / "crates" / crate / "src"
        (folder / "chosen_body.rt").write_text(CHOOSER, encoding="utf-8")
        root = next(path for path in (folder / "lib.rt", folder / "main.rt") if path.exists())
        text = root.read_text(encoding="utf-8")
        text = text.replace("#![tactic(auto)]\n", "#![tactic(auto)]\n\nmod chosen_body;\n", 1)
        root.write_text(text, encoding="utf-8")


def begun(words: list[str], **how: object) -> subprocess.Popen[bytes]:
    """A process in a group of its own, which ends if this one does."""
    how = {"stderr": subprocess.STDOUT, "start_new_session": True, **how}
    with WRITING:
        process = subprocess.Popen(words, **how)  # type: ignore[call-overload]
        RUNNING.add(process)
    return process


def end(process: subprocess.Popen[bytes], number: int = signal.SIGKILL) -> None:
    """Ends a process and those that it left in its group."""
    try:
        os.killpg(process.pid, number)
    except ProcessLookupError:
        pass
    if number == signal.SIGKILL:
        process.wait()
        RUNNING.discard(process)


def stop(number: int, _frame: object) -> None:
    """Ends all that runs, and then this process by the same signal."""
    for process in list(RUNNING):
        end(process, signal.SIGTERM)
    time.sleep(1)
    for process in list(RUNNING):
        end(process)
    for folder in FOLDERS:
        shutil.rmtree(folder, ignore_errors=True)
    signal.signal(number, signal.SIG_DFL)
    os.kill(os.getpid(), number)


def input_of(test: str) -> Path:
    """The standard input of a program that is a test."""
    path = TOP / "crates" / test / "stdin"
    return path if path.exists() else Path(os.devnull)


def compiled(copy: Path, crate: str) -> Path:
    """Compiles a program of the copy without proof. `rt try` compiles it to run it, and meanwhile it is linked to."""
    program, said = copy / f"{crate}.program", copy / f"{crate}.said"
    folder = Path(tempfile.mkdtemp(dir=copy))
    words = ["rt", "try", *(PROGRAMS[crate] if crate in PROGRAMS else LOAD)]
    with input_of(crate).open("rb") as stdin, said.open("wb") as output:
        members = {**os.environ, "TMPDIR": str(folder)}
        tried = begun(words, cwd=copy / "crates" / crate, stdin=stdin, stdout=output, env=members)
        while tried.poll() is None:
            for found in folder.glob("*/*/program"):
                link(found, program)
            time.sleep(0.05)
        end(tried)
    if not program.exists():
        raise SystemExit(f"{said.read_text(encoding='utf-8', errors='replace')}\nwrong-bodies: {crate} wasn't compiled")
    return program


def link(found: Path, program: Path) -> None:
    """Links to a program that may go."""
    new = program.with_suffix(".new")
    try:
        if os.access(found, os.X_OK):
            os.link(found, new)
            os.replace(new, program)
            new.unlink()
    except FileNotFoundError:
        pass


def answer(words: list[str], seconds: float, **how: object) -> tuple[Optional[int], str]:
    """The status and the output of a process, and no status if it ran for longer. It and its own are ended then."""
    with tempfile.TemporaryFile() as output:
        process = begun(words, **{"stdin": subprocess.DEVNULL, "stdout": output, **how})
        try:
            status: Optional[int] = process.wait(seconds)
        except subprocess.TimeoutExpired:
            status = None
            end(process, signal.SIGTERM)
            time.sleep(1)
        end(process)
        output.seek(0)
        return status, output.read().decode("utf-8", "replace")


def failure(test: str, program: Path, seconds: float) -> str:
    """Why a test fails over a program, or nothing if it passes."""
    if test == "thread_tests":
        names = re.findall(r"(?m)^(.*): test$", answer([str(program), "--list"], seconds)[1])
        return next(filter(None, (thread_failure(name, program, seconds) for name in names)), "")
    if test in PROGRAMS:
        with input_of(test).open("rb") as stdin:
            status, output = answer([str(program)], seconds, stdin=stdin)
        rows = (TOP / "crates" / test / "stdout").read_text(encoding="utf-8")
        return "" if (status, output) == (0, rows) else said(status, seconds) or "its rows differ"
    members = {**os.environ, "NTBSIM_PROGRAM": str(program)}
    status, output = answer([str(TOP / "tools" / "check"), test], seconds, env=members)
    failed = re.findall(r"(?m)^FAILED: (.*)$", output) if status else []
    return f"{failed[0]}, {len(failed)} in all" if failed else said(status, seconds)


def thread_failure(name: str, program: Path, seconds: float) -> str:
    """Why one of the tests in threads fails, or nothing if it passes."""
    status, output = answer([str(program), name], seconds)
    asserted = next((line for line in output.splitlines() if "assert" in line), "")
    return f"{name}: {asserted or said(status, seconds)}" if status != 0 else ""


def said(status: Optional[int], seconds: float) -> str:
    """What a status says, if it isn't 0."""
    return f"it still ran after {seconds:.0f} seconds" if status is None else f"status {status}" if status else ""


@dataclass(frozen=True)
class Trial:
    """The compiled programs by their crates, and the folder of their copies."""

    programs: dict[str, Path]
    folder: Path

    def failure(self, test: str, number: int, seconds: float) -> str:
        """Why a test fails over the program in which a body is chosen, or none by 0; nothing if it passes."""
        program = self.programs[test if test in PROGRAMS else PROGRAM]
        path = self.folder / f"{program.stem}-{test}-{number}"
        with WRITING:
            path.write_bytes(program.read_bytes().replace(MARK + b"\0", MARK + bytes([number])))
            path.chmod(0o700)
        try:
            return failure(test, path, seconds)
        finally:
            path.unlink()

    def limits(self, tests: list[str]) -> dict[str, float]:
        """The seconds that each test may take. Without a body all have to pass, and are measured."""
        limits = {}
        for test in tests:
            began = time.monotonic()
            why = self.failure(test, 0, MOST_SECONDS)
            took = time.monotonic() - began
            print(f"{test} without a body: {why or f'passed in {took:.0f} seconds'}", flush=True)
            if why:
                raise SystemExit(1)
            limits[test] = LEAST_SECONDS + TIMES * took
        return limits


def try_bodies(words: list[str]) -> int:
    """Tries the bodies whose names have one of these words, or all; 0 if each is refused."""
    wrong = misfits([])
    if wrong:
        raise SystemExit("\n".join(wrong))
    chosen = [it for it in enumerate(bodies(), 1) if not words or any(word in it[1].name for word in words)]
    tests = sorted({body.test for _, body in chosen})
    for number in (signal.SIGHUP, signal.SIGINT, signal.SIGTERM):
        signal.signal(number, stop)
    with tempfile.TemporaryDirectory(prefix="tested-bodies-") as name, ThreadPoolExecutor(os.cpu_count()) as pool:
        FOLDERS.append(name)
        copy = Path(name)
        make_copy(copy, chosen)
        crates = sorted({test if test in PROGRAMS else PROGRAM for test in tests})
        trial = Trial(dict(zip(crates, pool.map(lambda crate: compiled(copy, crate), crates))), copy)
        limits = trial.limits(tests)
        asked = {pool.submit(trial.failure, it.test, number, limits[it.test]): it for number, it in chosen}
        missed = 0
        for done in as_completed(asked):
            body, why = asked[done], done.result()
            missed += not why
            print(f"{'refused' if why else 'NOT REFUSED'} by {body.test}: {body.name} [{why}]", flush=True)
    print(f"{len(chosen) - missed} refused, {missed} not refused")
    return 1 if missed or not chosen else 0
