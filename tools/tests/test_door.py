"""Tests of the door: which program answers, how words and files are handed on, and what signals leave behind."""

from __future__ import annotations

import os
import pty
import shutil
import signal
import subprocess
import sys
import time
from pathlib import Path

from .support import TOP, Clone, Folder, program, run

SMALL = "sh cat sha256sum readlink find sed rm tail mktemp touch cut sort xargs cksum cmp diff mkdir git tr ps"
COMMANDS = "replay trace check run explore stream reads".split()


def wait_for(what: object, seconds: float = 20.0) -> bool:
    """Whether something comes to be so in time."""
    ends = time.monotonic() + seconds
    while time.monotonic() < ends:
        if what():  # type: ignore[operator]
            return True
        time.sleep(0.05)
    return False


class Choices(Clone):
    """Which program answers: by checksums of the program and of the sources that it stands on."""

    def unproved(self, why: str) -> None:
        """The program isn't called proved, this is why, and one without proof answers."""
        self.assertIn(f"\nprogram not proved: {why}".encode(), self.door("--version").stdout)
        done = self.door("replay")
        self.assertEqual((done.returncode, done.stdout), (3, b"tried: replay\ntext\n"))

    def proved(self) -> None:
        """The proved program answers, and nothing is noted."""
        done = self.door("replay")
        self.assertEqual((done.returncode, done.stdout, done.stderr), (3, b"built: replay\ntext\n", b""))

    def test_unproved(self) -> None:
        """What is said without proof is one line, once an hour; the compiled program is kept."""
        done = self.door("replay")
        self.assertEqual((done.returncode, done.stdout), (3, b"tried: replay\ntext\n"))
        self.assertRegex(done.stderr, rb"^ntbsim: answers come without proof.*20 to 60 seconds, once.*--build[^\n]*\n$")
        self.assertEqual(self.door("replay").stderr, b"")
        mark = next(self.cache.glob(".said.*"))
        os.utime(mark, (time.time() - 3700,) * 2)
        self.assertEqual(self.door("replay", NTBSIM_QUIET="1").stderr, b"")
        self.assertRegex(self.door("replay").stderr, rb"^ntbsim: answers come without proof, .* slower; .*\n$")
        self.assertEqual(self.door("replay").stderr, b"")
        self.assertEqual((self.compiled(), len(self.kept())), (1, 1))
        self.assertEqual(self.door("--program").stdout, f"{self.cache}/{self.kept()[0]}\n".encode())

    def test_proved(self) -> None:
        """A program is proved with just its bytes and the sources below it."""
        self.unproved("no program is built")
        self.assertEqual(self.door("--build", FAKE_FAILS="1").returncode, 9)
        done = self.door("--build", FAKE_EDITS="1")
        self.assertEqual(done.returncode, 9)
        self.assertIn(b"a source was changed while", done.stderr)
        self.unproved("the program there wasn't built by --build")
        self.assertEqual(self.door("--build").returncode, 0)
        self.assertIn(b"\nprogram proved and built\n", self.door("--version").stdout)
        self.proved()
        with open(self.clone / "crates.txt", "a") as crates, open(self.clone / "crates/other/src/lib.rt", "a") as other:
            crates.write("# A line.\nanother: other\n")
            other.write("more\n")
        os.utime(self.clone / "crates/low/src/lib.rt", (2000000000, 2000000000))
        self.proved()
        whole = self.built.read_bytes()
        self.built.write_bytes(whole + b"# put in its place\n")
        self.unproved("the program there was changed")
        self.built.write_bytes(whole)
        self.proved()
        proof = self.clone / "crates/low/proofs/Lib.antt"
        proof.write_text("low\nmore\n")
        self.unproved("crates/low/proofs/Lib.antt was changed")
        proof.write_text("low\n")
        (self.clone / "crates/low/src/lib.rt").rename(self.clone / "crates/low/src/other.rt")
        self.unproved("crates/low/src/lib.rt was changed")
        self.assertEqual(list((self.folder / "tmp").iterdir()), [])

    def test_compile(self) -> None:
        """A program that faults is none; a source that is edited meanwhile is compiled anew; a status is handed on."""
        done = self.door("replay", FAKE_SAYS="run=fault status=4 proved=no")
        self.assertEqual((done.returncode, done.stdout), (9, b""))
        self.assertIn(b"no program was compiled", done.stderr)
        done = self.door("replay", FAKE_EDITS="1", FAKE_STATUS="77")
        self.assertEqual((done.returncode, done.stdout), (77, b"tried: replay\ntext\n"))
        self.assertEqual((self.compiled(), len(self.kept())), (3, 1))

    def test_python(self) -> None:
        """Where a tool in Python needs a program, it is compiled first, and the words are handed on again."""
        done = self.door("--json", "--", self.write("-a b.ntb", "ntb 1\n"))
        self.assertEqual((done.returncode, done.stdout, self.compiled()), (9, b"", 1))
        self.assertIn(b"\nntbsim: this is no trace, and no refusal of a script\n", done.stderr)

    def test_record(self) -> None:
        """What `rt ci` built is recorded by tools/record-proved."""
        self.built.parent.mkdir()
        self.built.write_text("#!/bin/sh\necho 'built: replay'\ncat\nexit 3\n")
        self.built.chmod(0o755)
        self.unproved("the program there wasn't built by --build")
        subprocess.run([self.clone / "tools/record-proved"], check=True)
        self.proved()

    def test_cache(self) -> None:
        """Four programs stay, and no other file of the cache is touched; without a folder for it nothing answers."""
        self.cache.mkdir()
        for name in [f"{number:064x}" for number in range(6)] + ["notes", "a\n" + "0" * 64, "-rf"]:
            (self.cache / name).write_text("old")
            os.utime(self.cache / name, (1000000000, 1000000000))
        self.assertEqual(self.door("replay").returncode, 3)
        self.assertEqual((len(self.kept()), "notes" in self.kept(), "-rf" in self.kept()), (7, True, True))
        done = self.door("replay", NTBSIM_CACHE="/dev/null/cache")
        self.assertEqual((done.returncode, done.stdout), (9, b""))
        self.assertIn(b"can't be kept", done.stderr)

    def test_few_commands(self) -> None:
        """Without rt, and without Python, what needs them ends with 9; wrong words are answered all the same."""
        few = self.folder / "few"
        few.mkdir()
        for name in [*SMALL.split(), "sleep", "ls", "ln", "cp", "mv", "grep"]:
            found = shutil.which(name)
            if found:
                (few / name).symlink_to(found)
        for words in (["replay"], ["--build"], ["--program"]):
            done = self.door(*words, PATH=str(few))
            self.assertEqual((words, done.returncode), (words, 9))
            self.assertIn(b"no command rt here", done.stderr)
        for word in ("--show", "--help", "help"):
            done = self.door(word, "x", PATH=str(few))
            self.assertEqual(done.returncode, 9)
            self.assertIn(b"no command python3 here", done.stderr)
        self.assertEqual(self.door("replay", "a", "b", PATH=str(few)).returncode, 2)
        self.door("--build")
        self.assertEqual(self.door("replay", PATH=str(few)).returncode, 3)
        (few / "python3").symlink_to(sys.executable)
        for words in (["--show"], ["--show", "a", "b"], ["--draw", "a", "--sho"], ["replya"]):
            self.assertEqual(self.door(*words, PATH=str(few)).returncode, 2)

    def test_lazy(self) -> None:
        """Nothing is compiled for words that are wrong, or that need no program."""
        for words, status in (("--help", 0), ("help show", 0), ("--show", 2), ("--show a b", 2), ("x", 2)):
            self.assertEqual((words, self.door(*words.split()).returncode), (words, status))
        self.assertEqual(self.compiled(), 0)


class Signals(Clone):
    """What a signal ends, and what it leaves: nothing."""

    def ended(self, number: int, *words: str) -> None:
        """A signal while rt runs ends the door by it, with all below."""
        env = {**os.environ, **self.env, "FAKE_WAITS": "1"}
        nothing = subprocess.DEVNULL
        done = subprocess.Popen([self.clone / "ntbsim", *words], env=env, stderr=nothing, stdin=nothing)
        mark = str(self.folder)
        self.assertTrue(wait_for(lambda: len(below(mark)) >= 1 and (self.log.exists() or words[0] == "--build")))
        time.sleep(0.7)
        done.send_signal(number)
        self.assertEqual(done.wait(10), -number)
        self.assertTrue(wait_for(lambda: not below(mark), 3), below(mark))
        self.assertEqual(list((self.folder / "tmp").iterdir()), [])
        self.assertEqual(self.kept(), [])

    def test_signals(self) -> None:
        """INT, TERM and HUP while a program is compiled, and while it is proved."""
        for number in (signal.SIGINT, signal.SIGTERM, signal.SIGHUP):
            for words in (["replay"], ["--build"]):
                with self.subTest(number=number, words=words):
                    self.ended(number, *words)

    def test_reaches(self) -> None:
        """The program stands in the door's place, so that a signal reaches it."""
        self.door("--build")
        self.built.write_text("#!/bin/sh\necho $$\n")
        record = self.built.with_suffix(".proved")
        digest = subprocess.run(["sha256sum", self.built], capture_output=True, check=True).stdout.split()[0].decode()
        record.write_text("\n".join([f"program {digest}", *record.read_text().split("\n")[1:]]))
        for words in (["replay"], ["load", "1", "1"]):
            pipe, env = subprocess.PIPE, {**os.environ, **self.env}
            command = [self.clone / "ntbsim", *words]
            with subprocess.Popen(command, env=env, stdout=pipe, stdin=subprocess.DEVNULL) as door:
                self.assertEqual(door.communicate()[0], f"{door.pid}\n".encode())


def below(mark: str) -> list[str]:
    """The processes that run with a word that has this mark in their environment, those that are dead aside."""
    found = []
    for path in Path("/proc").glob("[0-9]*"):
        try:
            if mark.encode() in (path / "environ").read_bytes() and int(path.name) != os.getpid():
                found.append(f"{path.name} {(path / 'cmdline').read_bytes()!r}")
        except OSError:
            continue
    return found


class Files(Clone):
    """Files that the program's own commands read, and places from which the door is called."""

    def setUp(self) -> None:
        """Makes a clone with a proved program."""
        super().setUp()
        self.door("--build")

    def test_files(self) -> None:
        """A file becomes standard input, whatever its name; `-` is standard input; other words are wrong."""
        names = [b"a.ntb", b"a b", b"a\nb", b"'\"$(x)`x`", b"\xff\x1b[31m", b"*", b"a=b", b"n" * 255]
        for name in names:
            path = os.fsencode(self.folder) + b"/" + name
            with open(path, "wb") as file:
                file.write(b"of the file\n")
            for command in COMMANDS:
                for words in ([path], [b"--", path]):
                    done = self.door(command, *words)
                    self.assertEqual((done.returncode, done.stdout), (3, f"built: {command}\nof the file\n".encode()))
        self.assertEqual(self.door("replay", "-").stdout, b"built: replay\ntext\n")
        self.assertEqual(self.door("load", "1", "20").stdout, b"built: load 1 20\ntext\n")

    def test_dashes(self) -> None:
        """A word that begins with a dash is a file behind `--` alone."""
        for name in ("-delete", "--", "-x", "--show"):
            self.write(name, "of the file\n")
            done = run(["replay", "--", name], b"", self.env, cwd=self.folder, door=self.clone / "ntbsim")
            self.assertEqual(done.stdout, b"built: replay\nof the file\n")
            done = run(["replay", name], b"", self.env, cwd=self.folder, door=self.clone / "ntbsim")
            self.assertEqual((done.returncode, done.stdout), (2, b"usage\n"))
            self.assertIn(f"is written ./{name}\n".encode(), done.stderr)

    def test_no_file(self) -> None:
        """A file that can't be read is status 9, and its name is shown as a terminal can show it."""
        for name in ("absent", "/", "", "a\x1b[31m\nb"):
            done = self.door("replay", name)
            self.assertEqual((done.returncode, done.stdout, done.stderr.count(b"\n")), (9, b"", 1))
            self.assertNotIn(b"\x1b", done.stderr)

    def test_wrong(self) -> None:
        """Words that can be no command have the program's answer and a sentence."""
        table = {
            "replay a b": "ntbsim replay [FILE]",
            "stream a b": "ntbsim stream [FILE]",
            "load": "ntbsim load SEED FRAMES",
            "load 1": "ntbsim load SEED FRAMES",
            "load one 1": "with numbers: ntbsim load SEED FRAMES",
            "load 1 2 3": "ntbsim load SEED FRAMES",
            "--version 1": "--version stands alone",
            "--build replay": "--build stands alone",
            "--program x": "--program stands alone",
        }
        for words, meant in table.items():
            done = self.door(*words.split())
            self.assertEqual((words, done.returncode, done.stdout), (words, 2, b"usage\n"))
            self.assertRegex(done.stderr.decode(), r"^ntbsim: [^\n]*\n$")
            self.assertIn(meant, done.stderr.decode())

    def test_links(self) -> None:
        """Through links with any name, from any folder, and by PATH."""
        names = ["link", "-l", "a b", "a\nb", "'$(x)", "\n"]
        last, bin_folder = self.clone / "ntbsim", self.folder / "links"
        bin_folder.mkdir()
        for at, name in enumerate(names):
            link = bin_folder / name
            link.symlink_to(last if at % 2 else os.path.relpath(last, bin_folder))
            last = link
            done = run(["replay"], b"text\n", self.env, cwd="/", door=link)
            self.assertEqual((name, done.stdout, done.stderr), (name, b"built: replay\ntext\n", b""))
        self.env["PATH"] = f"{self.clone}:{self.env['PATH']}"
        env = {**os.environ, **self.env}
        done = subprocess.run(["ntbsim", "replay"], input=b"text\n", env=env, cwd="/", capture_output=True)
        self.assertEqual(done.stdout, b"built: replay\ntext\n")

    def test_terminal(self) -> None:
        """A command that reads from a terminal says so."""
        top, low = pty.openpty()
        env = {**os.environ, **self.env}
        with subprocess.Popen([self.clone / "ntbsim", "replay"], stdin=low, stdout=-1, stderr=-1, env=env) as door:
            os.write(top, b"ntb 1\n\x04")
            out, said = door.communicate()
        os.close(low)
        os.close(top)
        self.assertIn(b"ntbsim: replay reads its script from this terminal, up to Ctrl-D", said)
        self.assertEqual(out, b"built: replay\nntb 1\n")


class Ways(Folder):
    """The statuses 0, 2, 3, 4, 5 and 7 of the program, with their texts, through the door."""

    def test_ways(self) -> None:
        """What the program answers comes through the door as it is."""
        big = self.write("big.ntb", b"\0" * 16777217)
        first, refused = TOP / "examples/first.ntb", TOP / "examples/refused.ntb"
        report, refusal = ((TOP / f"examples/{name}.report").read_bytes() for name in ("first", "refused"))
        traffic = self.write("one.ntb", "ntb 1\nhost a\nhost b\npair p a b\ntraffic\nframe p A 0 61\n")
        rows = [
            (0, "replay", first, report),
            (3, "replay", refused, refusal),
            (3, "replay", "/dev/null", b"refused line 1 badheader\n"),
            (7, "replay", big, b"too long\n"),
            (3, "check", refused, b"refused line 12 word 5 badhex\n"),
            (7, "check", big, b"too long\n"),
            (0, "run", traffic, b"lane p A 0 1 accepted 1 delivered 1 left 0\nframe 0 61\nend\n"),
            (0, "stream", traffic, b"stream p A 0 items 1 sessions 1\nitem 0 61\nend\n"),
            (3, "reads", self.write("bad", "reads 1\nland A 07\n"), b"refused line 2 badline\n"),
        ]
        for status, command, path, text in rows:
            done = run([command, path])
            found = (command, path, done.returncode, done.stdout, done.stderr)
            self.assertEqual(found, (command, path, status, text, b""))
        self.assertEqual(program().reply("replay", first.read_bytes()).text, report)

    def test_streams(self) -> None:
        """Standard input that fails is 4, standard output that is full is 5."""
        env = {**os.environ, "NTBSIM_QUIET": "1"}
        folder = os.open("/", os.O_RDONLY)
        self.assertEqual(subprocess.run([TOP / "ntbsim", "replay"], stdin=folder, env=env).returncode, 4)
        os.close(folder)
        with open(TOP / "examples/first.ntb", "rb") as script, open("/dev/full", "wb") as full:
            done = subprocess.run([TOP / "ntbsim", "replay"], stdin=script, stdout=full, env=env)
            self.assertEqual(done.returncode, 5)
