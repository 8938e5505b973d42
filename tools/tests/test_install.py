"""Tests of `make install` and `make uninstall`, over a clone with a stand-in for the program."""

from __future__ import annotations

import os
import shutil
import subprocess
import unittest
from pathlib import Path

from .support import Clone, run


@unittest.skipUnless(shutil.which("make"), "no make")
class Install(Clone):
    """What is put in place, and taken away again."""

    def make(self, *words: str) -> subprocess.CompletedProcess[bytes]:
        """What make does in the clone."""
        env = {**os.environ, **self.env}
        return subprocess.run(["make", "-s", *words], cwd=self.clone, env=env, capture_output=True, check=False)

    def files(self, folder: Path) -> list[str]:
        """What stands in a folder that is no folder."""
        files = (path for path in folder.rglob("*") if not path.is_dir() or path.is_symlink())
        return sorted(str(path.relative_to(folder)) for path in files)

    def test_unproved(self) -> None:
        """Where no proved program stands, nothing is installed, and this is an error."""
        done = self.make("install", f"PREFIX={self.folder}/to")
        self.assertNotEqual(done.returncode, 0)
        self.assertIn(b"no proved program stands", done.stderr)
        self.assertFalse((self.folder / "to").exists())

    def test_install(self) -> None:
        """What is installed answers; what is uninstalled is just that, also where names have spaces and quotes."""
        self.door("--build")
        for prefix, dest in (("/usr/a b", f"{self.folder}/de'st \"x"), (f"{self.folder}/to", "")):
            to = Path(dest + prefix)
            (to / "lib/ntbsim").mkdir(parents=True)
            (to / "lib/ntbsim/mine").write_text("mine")
            (self.folder / "de'st").mkdir(exist_ok=True)
            (self.folder / "de'st/kept").write_text("kept")
            for _ in range(2):
                done = self.make("install", f"PREFIX={prefix}", f"DESTDIR={dest}")
                self.assertEqual((done.returncode, done.stdout, done.stderr), (0, b"", b""))
            self.assertEqual([path.name for path in (to / "bin").iterdir()], ["ntbsim"])
            done = run(["replay"], b"text\n", self.env, cwd="/", door=to / "bin/ntbsim")
            self.assertEqual(done.stdout, b"built: replay\ntext\n")
            self.assertEqual(run(["--help"], b"", self.env, door=to / "bin/ntbsim").returncode, 0)
            self.assertIn(b"proved and built", run(["--version"], b"", self.env, door=to / "bin/ntbsim").stdout)
            done = run(["--build"], b"", self.env, door=to / "bin/ntbsim")
            self.assertEqual((done.returncode, b"sources are not here" in done.stderr), (9, True))
            self.assertTrue({"share/man/man1/ntbsim.1", "lib/ntbsim/tools/explore-brute"} <= set(self.files(to)))
            self.assertEqual(self.make("uninstall", f"PREFIX={prefix}", f"DESTDIR={dest}").returncode, 0)
            self.assertEqual(self.files(to), ["lib/ntbsim/mine"])
            self.assertTrue((self.folder / "de'st/kept").exists())
            self.assertNotEqual(self.make("uninstall", f"PREFIX={prefix}", f"DESTDIR={dest}").returncode, 0)

    def test_targets(self) -> None:
        """`make` alone tells the targets."""
        done = self.make()
        self.assertEqual(done.returncode, 0)
        for target in (b"make build", b"make install", b"make uninstall", b"make check"):
            self.assertIn(target, done.stdout)
