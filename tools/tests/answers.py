"""The program by itself: its answers to bytes, and at standard streams that fail."""

from __future__ import annotations

import os
import re
import shutil
import subprocess
import unittest
from pathlib import Path
from typing import Any, Iterator, Optional, Sequence, Union

from tests.support import TOP, program

Bytes = Union[bytes, Path]
EXAMPLES = TOP / "examples"
# One byte more than a script may have.
TOO_LONG = bytes((1 << 24) + 1)


def answer(
    words: Sequence[Union[str, bytes]], script: Bytes = b"", output: Optional[Path] = None
) -> subprocess.CompletedProcess[bytes]:
    """What the program answers to words, with these bytes or this file or folder as its standard input."""
    command = [*program().words, *words]
    out = os.open(output, os.O_WRONLY) if output else subprocess.PIPE
    source = os.open(script, os.O_RDONLY) if isinstance(script, Path) else None
    try:
        given: dict[str, Any] = {"input": script} if source is None else {"stdin": source}
        return subprocess.run(command, stdout=out, stderr=subprocess.PIPE, timeout=1200, check=False, **given)
    finally:
        for file in (source, out if output else None):
            if file is not None:
                os.close(file)


def stories(ending: str = "ntb") -> list[Path]:
    """The stories whose scripts end so."""
    return sorted(EXAMPLES.glob(f"*.{ending}"))


def litmus_tests() -> list[Path]:
    """The scripts of the gallery of litmus tests."""
    return sorted((EXAMPLES / "litmus").glob("*.ntb"))


def shown(path: Path) -> str:
    """The path of a file of the repository, as its documents have it."""
    return path.relative_to(TOP).as_posix()


def has_traffic(script: Path) -> bool:
    """Whether a script has traffic."""
    return re.search(rb"(?m)^traffic$", script.read_bytes()) is not None


def is_refused(script: Path) -> bool:
    """Whether a story's report says that its script is refused."""
    return script.with_suffix(".report").read_bytes().startswith(b"refused")


def matches(text: bytes, pattern: str) -> Iterator[str]:
    """What a pattern finds in a text of any bytes, by lines."""
    return (found.group() for found in re.finditer(f"(?m){pattern}", text.decode("latin-1")))


def wanted(name: str, words: str = "") -> str:
    """The path of a program of this machine; the test is skipped where it isn't there."""
    path = shutil.which(name)
    if path is None:
        raise unittest.SkipTest(f"{name} isn't here{words}")
    return path
