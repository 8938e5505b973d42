"""What the tests share: the program, the door, and folders that are removed again."""

from __future__ import annotations

import functools
import importlib.machinery
import importlib.util
import os
import shutil
import subprocess
import sys
import tempfile
import unittest
from pathlib import Path
from types import ModuleType
from typing import Mapping, Optional, Sequence, Union

from ntbview.common import Script
from ntbview.process import Program
from ntbview.trace import Trace

TOP = Path(__file__).resolve().parents[2]
Word = Union[str, bytes, Path]


@functools.lru_cache(maxsize=None)
def program() -> Program:
    """The program that answers: that of NTBSIM_PROGRAM, else that which the door chooses."""
    path = os.environ.get("NTBSIM_PROGRAM")
    if not path:
        asked = subprocess.run([str(TOP / "ntbsim"), "--program"], stdout=subprocess.PIPE, check=True)
        path = asked.stdout.decode().rstrip("\n")
    return Program((path,))


def is_proved(path: str) -> bool:
    """Whether a record stands beside a program and has its checksum, as it does of a proved one."""
    record = Path(f"{path}.proved")
    words = ["sh", "-c", 'top=$1; . "$1/tools/program.sh"; printf "program %s" "$(sum <"$2")"', "sh", str(TOP), path]
    asked = subprocess.run(words, stdout=subprocess.PIPE, check=True).stdout
    return record.is_file() and record.read_bytes().split(b"\n", 1)[0] == asked


def tool_module(name: str) -> ModuleType:
    """A tool whose file has no ending, as a module."""
    loader = importlib.machinery.SourceFileLoader(name.replace("-", "_"), str(TOP / "tools" / name))
    spec = importlib.util.spec_from_loader(loader.name, loader)
    if spec is None:
        raise AssertionError(f"{name} can't be loaded")
    module = importlib.util.module_from_spec(spec)
    sys.modules[loader.name] = module
    loader.exec_module(module)
    return module


def trace_of(script_text: str) -> tuple[Script, Trace]:
    """A script, and its trace by the program."""
    script = Script("script.ntb", script_text.encode("latin-1"))
    return script, Trace(program().reply("trace", script.data).text.splitlines())


def run(
    words: Sequence[Word],
    input: bytes = b"",
    env: Optional[Mapping[str, str]] = None,
    cwd: Union[str, Path] = TOP,
    door: Word = TOP / "ntbsim",
) -> subprocess.CompletedProcess[bytes]:
    """What the door does with words: its status, and what it wrote. `env` is added to the environment."""
    members = {**os.environ, "NTBSIM_QUIET": "1", **(env or {})}
    return subprocess.run([door, *words], input=input, capture_output=True, env=members, cwd=cwd, timeout=300)


class Folder(unittest.TestCase):
    """A test with a temporary folder, `self.folder`."""

    def setUp(self) -> None:
        """Makes the folder."""
        kept = tempfile.TemporaryDirectory(prefix="ntbsim-test.")
        self.addCleanup(kept.cleanup)
        self.folder = Path(kept.name).resolve()

    def write(self, name: str, content: Union[str, bytes]) -> Path:
        """Writes a file into the folder, and gives back its path."""
        path = self.folder / name
        path.write_bytes(content.encode("latin-1") if isinstance(content, str) else content)
        return path


# The stand-in for rt: `rt try` has its program among temporary files while it runs, `rt run` leaves one in out/.
RT = """#!/bin/sh
case $1 in
version) echo stand-in ;;
try)
    echo try >>"$FAKE_LOG"
    mkdir "$TMPDIR/run"
    printf '#!/bin/sh\\necho "tried: $*"\\ncat\\nexit %s\\n' "${FAKE_STATUS-3}" >"$TMPDIR/run/program"
    chmod +x "$TMPDIR/run/program"
    [ -z "${FAKE_EDITS-}" ] || echo more >../low/src/more.rt
    [ -z "${FAKE_WAITS-}" ] || { sh -c 'sleep 97; :' & sleep 97; }
    sleep 1.5
    rm -r "$TMPDIR/run"
    echo "${FAKE_SAYS-run=ended status=0 runners=1 proved=no}" >&2
    ;;
run)
    cat >/dev/null
    [ -z "${FAKE_WAITS-}" ] || sleep 97
    [ -z "${FAKE_FAILS-}" ] || exit 1
    mkdir -p out && printf '#!/bin/sh\\necho "built: $*"\\ncat\\nexit 3\\n' >out/ntbsim && chmod +x out/ntbsim
    [ -z "${FAKE_EDITS-}" ] || echo more >>../low/src/lib.rt
    ;;
esac
"""


class Clone(Folder):
    """A test over a clone with three small crates, of which the program stands on `low` and not on `other`.
    A stand-in for rt, the cache, temporary files and a log stand in `self.folder`."""

    def setUp(self) -> None:
        """Makes the clone."""
        super().setUp()
        self.clone, self.cache, self.log = self.folder / "a clone", self.folder / "cache", self.folder / "log"
        (self.folder / "tmp").mkdir()
        tools = ("tools/program.sh", "tools/build", "tools/install")
        for name in ("ntbsim", "HANDLES", "Makefile", "docs/ntbsim.1", *tools):
            (self.clone / name).parent.mkdir(parents=True, exist_ok=True)
            shutil.copy(TOP / name, self.clone / name)
        for name in ("tools/explore-brute", "tools/explore_random.py", "tools/record-proved"):
            shutil.copy(TOP / name, self.clone / name)
        for name in ("tools/ntbview", "tools/complete", "tools/vim"):
            shutil.copytree(TOP / name, self.clone / name, ignore=shutil.ignore_patterns("__pycache__"))
        (self.clone / "crates.txt").write_text("# Crates.\nlow:\nother: low\nntbsim may_wait=1: low std\n")
        for crate in ("low", "other", "ntbsim"):
            for part, file in (("src", "lib.rt"), ("proofs", "Lib.antt")):
                (self.clone / "crates" / crate / part).mkdir(parents=True)
                (self.clone / "crates" / crate / part / file).write_text(f"{crate}\n")
        (self.folder / "bin").mkdir()
        self.write("bin/rt", RT).chmod(0o755)
        self.built = self.clone / "crates/ntbsim/out/ntbsim"
        self.env = {
            "FAKE_LOG": str(self.log),
            "NTBSIM_CACHE": str(self.cache),
            "NTBSIM_QUIET": "",
            "TMPDIR": str(self.folder / "tmp"),
            "PATH": f"{self.folder / 'bin'}:{os.environ['PATH']}",
        }

    def door(self, *words: Word, **env: str) -> subprocess.CompletedProcess[bytes]:
        """What the clone's door does with words, on the input `text`."""
        return run(words, b"text\n", {**self.env, **env}, door=self.clone / "ntbsim")

    def compiled(self) -> int:
        """How often the program was compiled."""
        return len(self.log.read_text().splitlines()) if self.log.exists() else 0

    def kept(self) -> list[str]:
        """The names of what the cache keeps."""
        return sorted(path.name for path in self.cache.iterdir() if path.name[0] != ".") if self.cache.exists() else []
