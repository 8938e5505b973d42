"""Tests of the command line in Python: words, dispatch, names, statuses, signals. Tools and program are stand-ins."""

from __future__ import annotations

import json
import os
import pty
import random
import shutil
import signal
import subprocess
import sys
import time
import unittest
from pathlib import Path
from typing import Optional

from .support import TOP, Folder, Word, run
from .test_door import below, wait_for

PROGRAM = """#!/bin/sh
text=$(cat)
case $text in
*endless*) while :; do sleep 0.2; done ;;
*lots*) while :; do echo '{"trace":1} a line that is as long as many another'; done ;;
*'too much'*) echo 'too long'; exit 7 ;;
*memory*) exit 6 ;;
*crash*) kill -SEGV $$ ;;
*fault*)
    [ "$1" = check ] && echo 'refused line 2 word 5 badgeometry 16 99' || echo 'refused line 2 badgeometry'
    exit 3
    ;;
esac
case $1 in
run) printf 'lane p A 0 1 accepted 0 delivered 0 left 0\\nend\\n' ;;
stream) printf 'stream p A 0 items 0 sessions 1\\nend\\n' ;;
*) printf '{"trace":1}\\n{"pair":"p","up":true,"strict":true,"raw":false,'
   printf '"A":{"windows":1,"rings":[]},"B":{"windows":1,"rings":[]}}\\n'
   printf '{"end":true}\\n' ;;
esac
"""
# What stands in for each tool says that it was called, and with what.
STAND_INS = {
    "listing": "def listing(script, trace): yield f'listing {script.name}\\n'\n"
    "def listing_of_reads(script, reply): yield f'reads {script.name}\\n'\n"
    "def page(script, lines, pair): yield f'page {script.name} {pair!r}\\n'.encode()\n"
    "def devices_of(script, pair): return {}\ndef capture(script, trace, pair): yield b'capture\\n'\n",
    "draw": "def picture(script, trace, choice): return f'picture {script.name} {choice}\\n'\n"
    "from typing import Any, NamedTuple\n"
    "class Choice(NamedTuple):\n    pair: str = ''\n    first: Any = None\n    last: Any = None\n"
    "    queue: Any = None\n"
    "def switch_picture(script, trace): return f'switches {script.name}\\n'\n",
    "reads": "def reads_picture(script, reply): return f'reads picture {script.name}\\n'\n",
    "sessions": "def session_picture(script, text, pair, queue): return f'sessions {text} {pair!r} {queue}\\n'\n"
    "END = 'lane p A 0 sessions 1 accepted 0 left 0'\n"
    "def joined(lines): return (f'{line} joined' if line != 'end' else END for line in lines)\n",
    "messages": "def fault_text(script, answer): return [f'{script.name}: {answer}']\n"
    "class Checked:\n    def __init__(self, status, lines): self.status, self.lines = status, lines\n"
    "def check(program, script):\n    reply = program.reply('check', script.data)\n"
    "    return Checked(reply.status, [f'checked {script.name}'])\n",
    "explore": "BRUTE = 'brute'\ndef Folder(program, path): return path\n",
    "judge": "def judge(*words): return words[1:]\n"
    "def scripts_below(words, endings): return list(words)\ndef shard(scripts, text): return scripts[:1]\n"
    "def shown_witness(program, script, line, brute): return f'witness {script.name} {line} {brute}\\n'\n"
    "def report(names, judging, write, tell, form, is_all, folder):\n"
    "    from .common import Script\n    judged = judging(Script('s', b''))[1:]\n"
    "    write(f'report {names} {form} {is_all} {folder} {judged}')\n    return 1\n",
}
SMALL = "ntb 1\nhost a\npair p a b\n"


class Lines(Folder):
    """A test of the command line, with stand-ins."""

    def setUp(self) -> None:
        """Makes the package with its stand-ins, and a folder to work in."""
        super().setUp()
        self.tools, self.here = self.folder / "tools", self.folder / "here"
        shutil.copytree(TOP / "tools/ntbview", self.tools / "ntbview", ignore=shutil.ignore_patterns("__pycache__"))
        for name, text in STAND_INS.items():
            (self.tools / "ntbview" / f"{name}.py").write_text(text)
        self.here.mkdir()
        self.write("program", PROGRAM).chmod(0o755)
        self.env = {**os.environ, "NTBSIM_PROGRAM": str(self.folder / "program"), "TMPDIR": str(self.folder)}
        self.words: list[Word] = [sys.executable, "-I", self.tools / "ntbview"]

    def script(self, name: str = "a.ntb", text: str = SMALL) -> str:
        """Writes a script, and gives back its name."""
        with open(os.fsencode(self.here) + b"/" + os.fsencode(name), "wb") as file:
            file.write(text.encode("latin-1"))
        return name

    def view(
        self, *words: Word, input: bytes = b"", env: Optional[dict[str, str]] = None
    ) -> subprocess.CompletedProcess[bytes]:
        """What the command line does with words."""
        members = {**self.env, **(env or {})}
        given = [*self.words, *words]
        done = subprocess.run(given, input=input, cwd=self.here, env=members, capture_output=True, timeout=60)
        self.assertNotIn(b"Traceback", done.stderr)
        return done

    def says(self, text: str, *words: Word, status: int = 0) -> None:
        """The command has this status and this text."""
        done = self.view(*words)
        self.assertEqual((words, done.returncode, done.stdout.decode("latin-1")), (words, status, text))


class Dispatch(Lines):
    """Which tool is called, with what."""

    def test_tools(self) -> None:
        """Each option calls its tool with what it was given."""
        self.script("s.ntb", "ntb 1\nswitch s a b\nsteps\n")
        self.script("r.reads", "reads 1\n")
        self.script()
        self.says("listing a.ntb\n", "--show", "a.ntb")
        self.says("reads r.reads\n", "--show", "r.reads")
        self.says("reads picture r.reads\n", "--draw", "r.reads")
        self.says("switches s.ntb\n", "--draw", "s.ntb")
        self.says("picture s.ntb Choice(pair='', first=None, last=None, queue=1)\n", "--draw", "s.ntb", "queue=1")
        self.says("picture a.ntb Choice(pair='p', first=2, last=3, queue=None)\n", "--draw", "a.ntb", "lines=2-3", "p")
        run = ["lane p A 0 1 accepted 0 delivered 0 left 0", "end"]
        stream = ["stream p A 0 items 0 sessions 1", "end"]
        joined = [f"{run[0]} joined", "lane p A 0 sessions 1 accepted 0 left 0"]
        self.says(f"sessions {run} '' None\n", "--draw", "a.ntb", "--run")
        self.says(f"sessions {stream} 'p' 2\n", "--draw", "--stream", "a.ntb", "p", "queue=2")
        self.says(f"sessions {joined + stream} '' None\n", "--draw", "a.ntb", "--joined", "--stream")
        self.says("page a.ntb 'p'\n", "--page", "a.ntb", "p")
        self.says("capture\n", "--pcap", "a.ntb")
        self.says("checked a.ntb\nchecked r.reads\n", "--check", "a.ntb", "r.reads")
        self.says("report ['a.ntb', 'b'] plain False None (False, False, None)\n", "--test", "a.ntb", "b", status=1)
        words = ["--test", "--junit", "--shard", "1/2", "a.ntb", "b", "--allow-vacuous"]
        self.says("report ['a.ntb'] junit False None (True, False, None)\n", *words, status=1)
        words = ["--explore", "--into", "f", "a.ntb", "--brute"]
        self.says("report ['a.ntb'] plain True f (False, True, 'brute')\n", *words, status=1)
        self.says("witness a.ntb 7 None\n", "--explore", "a.ntb", "--witness=7")
        self.says("listing standard input\n", "--show", "-")

    def test_json(self) -> None:
        """A trace is copied; of a refused script one object tells where and why."""
        self.script()
        self.assertTrue(self.view("--json", "a.ntb").stdout.endswith(b'\n{"end":true}\n'))
        done = self.view("--json", self.script("f", "fault"))
        members = {"refused": {"line": 2, "word": 5, "cause": "badgeometry", "least": 16, "most": 99}}
        self.assertEqual((done.returncode, json.loads(done.stdout), done.stdout.count(b"\n")), (3, members, 1))

    def test_refused(self) -> None:
        """A refused script is listed and drawn, standard error says why, and the status is 3."""
        self.script("f", "a\nfault\n")
        for words in (["--show", "f"], ["--draw", "f"], ["--draw", "f", "--run"], ["--page", "f"], ["--pcap", "f"]):
            done = self.view(*words)
            self.assertEqual((words, done.returncode), (words, 3))
            self.assertEqual(done.stderr, b"f: refused line 2 word 5 badgeometry 16 99\n")
            self.assertEqual(done.stdout == b"", words[0] == "--pcap")

    def test_from(self) -> None:
        """A saved text is taken in the program's place, if it is of this script."""
        env = {"NTBSIM_PROGRAM": ""}
        text = self.view("--json", self.script()).stdout
        self.script("t", text.decode())
        self.script("other.ntb", "ntb 1\npair q a b\n")
        self.script("run", "lane p A 0 1 accepted 0 delivered 0 left 0\nend\n")
        for words, status in (
            (["--show", "a.ntb", "--from", "t"], 0),
            (["--show", "a.ntb", "--from=t"], 0),
            (["--page", "a.ntb", "--from", "t"], 0),
            (["--draw", "a.ntb", "--from", "run"], 0),
            (["--draw", "other.ntb", "--from", "t"], 9),
            (["--show", "a.ntb", "--from", "a.ntb"], 9),
            (["--show", "a.ntb", "--from", "absent"], 9),
            (["--draw", "a.ntb", "--from", "run", "lines=1-2"], 2),
            (["--draw", "a.ntb", "--from", "t", "--run"], 2),
            (["--show", "-", "--from", "-"], 2),
        ):
            self.assertEqual((words, self.view(*words, env=env).returncode), (words, status))
        self.assertEqual(self.view("--show", "a.ntb", "--from", "-", input=text, env=env).stdout, b"listing a.ntb\n")

    def test_statuses(self) -> None:
        """What fails has its status, and a sentence on standard error."""
        for text, status, said in (
            ("too much", 7, "f: too long: a script has at most 16,777,216 bytes"),
            ("memory", 6, "the program is out of memory"),
            ("crash", 9, "the program was ended by signal 11, so what it wrote is no answer"),
        ):
            self.script("f", text)
            for option in ("--show", "--draw", "--json", "--page", "--pcap"):
                done = self.view(option, "f")
                self.assertEqual((option, done.returncode, done.stdout), (option, status, b""))
                self.assertEqual(done.stderr, f"ntbsim: {said}\n".encode())
        self.assertEqual(self.view("--check", self.script(), self.script("f", "fault"), "absent").returncode, 9)
        self.assertEqual(self.view("--check", "f", "a.ntb").returncode, 3)
        self.assertEqual(self.view("--show", "absent").returncode, 9)
        self.assertEqual(self.view("--show", ".").returncode, 9)
        self.assertEqual(self.view("--show", "a.ntb", env={"NTBSIM_PROGRAM": "/absent"}).returncode, 9)
        self.assertEqual(self.view("--show", "a.ntb", env={"NTBSIM_PROGRAM": ""}).returncode, 10)


class Wrong(Lines):
    """Words that can be no command."""

    def test_wrong(self) -> None:
        """They have the answer `usage`, and one sentence with what was meant; nothing is abbreviated."""
        self.script()
        table = {
            "": "ntbsim --help",
            "replya": "did you mean replay?",
            "streem": "did you mean stream?",
            "laod": "did you mean load?",
            "show": "did you mean --show?",
            "--shwo": "did you mean --show?",
            "xyzzy": "ntbsim --help",
            "help me": "there is no command me",
            "--help me": "--help stands alone",
            "--show": "ntbsim --show FILE",
            "--show a.ntb b": "ntbsim --show FILE",
            "--sho a.ntb": "did you mean --show?",
            "--show --fro a.ntb": "did you mean --from?",
            "--show --from": "ntbsim --show FILE",
            "--show --quiet=1 a.ntb": "ntbsim --show FILE",
            "--test --ta a.ntb": "did you mean --tap?",
            "--test --tap --json a.ntb": "one form",
            "--test": "ntbsim --test FILE..",
            "--json a.ntb --from t": "takes no option --from",
            "--draw a.ntb lines=3": "lines=3 isn't known",
            "--draw a.ntb queue=x": "queue=x isn't known",
            "--draw a.ntb p q": "this was chosen before",
            "--page a.ntb lines=1-2": "wanted PAIR",
            "--page a.ntb nopair": "the script has no pair nopair",
            "--draw a.ntb -x": "written ./-x",
            "--show -delete": "written ./-delete",
            "--color always": "there is no command --color",
            "--show a.ntb --color red": "--color takes auto, always or never",
            "--explore a.ntb --witness x": "--witness takes the line",
            "--manual": "there is no command",
        }
        for words, meant in table.items():
            done = self.view(*words.split())
            self.assertEqual((words, done.returncode, done.stdout), (words, 2, b"usage\n"))
            self.assertRegex(done.stderr.decode(), r"^ntbsim: [^\n]*\n$")
            self.assertIn(meant, done.stderr.decode())


class Names(Lines):
    """Names of files are data: nothing is run, removed or written, and the name is shown so that a terminal can."""

    def test_names(self) -> None:
        """Each command takes each name, behind `--` where it begins with a dash."""
        seed = random.randrange(1 << 32)
        print(f"seed {seed}")
        chance = random.Random(seed)
        names = [b"-delete", b"-fevil.ntb", b'-eBEGIN{system("touch pwned")}#.ntb', b"a=b.ntb", b"a b", b"a'b", b'a"b']
        names += [b"a\nb", b"\x1b[31mred", b"..ntb", b"...", b"$(touch pwned)", b"`touch pwned`", b";touch pwned"]
        names += [b"--help", b"--", b"%s%n"]
        names += [bytes(chance.choice(b"\x80\xff\xfe\x01\x9b") for _ in range(255)), b"\xc2\x9b31m"]
        letters = [byte for byte in range(1, 256) if byte != 47]
        names += [bytes(chance.choice(letters) for _ in range(chance.randint(3, 200))) for _ in range(6)]
        for name in names:
            self.script(os.fsdecode(name))
        there = sorted(os.listdir(os.fsencode(self.here)))
        for name in names:
            says_of = {"--show": "listing", "--draw": "picture", "--page": "page", "--check": "checked"}
            for option, says in says_of.items():
                for words in ([option, "--", name], [option, b"./" + name]):
                    done = self.view(*words)
                    self.assertEqual((seed, words, done.returncode, done.stderr), (seed, words, 0, b""))
                    self.assertRegex(done.stdout, rf"^{says} [^\x00-\x1f\x7f]*\n$".encode())
            self.assertEqual(self.view("--json", "--", name).returncode, 0)
            text = self.view("--show", "./-delete", "--from", b"./" + name)
            self.assertEqual((text.returncode, b"\x1b" in text.stderr), (9, False))
        self.assertEqual(sorted(os.listdir(os.fsencode(self.here))), there)


class RealTools(Folder):
    """The tools themselves, through the door, over files with any name."""

    def test_names(self) -> None:
        """No name is run, removed or written, and each is shown so that a terminal can show it."""
        script = b"ntb 1\nhost a\nhost b\npair p a b up strict size=4096 mtu=1023\nsteps\n"
        script += b"send p A 0 61\nlandall p A 4\n"
        script += b"#sometimes ready 0 1\n#= ready 0 1; ..\nrecv p B 0\n"
        names = [b"-delete", b"-fevil.ntb", b'-eBEGIN{system("touch pwned")}#.ntb', b"a=b.ntb"]
        names += [b"a\n\x1b[31mb.ntb", b"\xff" * 255]
        folder = os.fsencode(self.folder)
        for name in names:
            with open(folder + b"/" + name, "wb") as file:
                file.write(script)
        there, whole = sorted(os.listdir(folder)), run(["--show", "-"], script).stdout
        for name in names:
            for option in ("--show", "--draw", "--json", "--page", "--pcap", "--check", "--test", "--explore"):
                done = run([option, "--", name], cwd=self.folder)
                self.assertEqual((name, option, done.returncode, done.stderr.count(b"\x1b")), (name, option, 0, 0))
                self.assertTrue(option != "--show" or done.stdout == whole)
                if option in ("--check", "--test", "--explore"):
                    self.assertRegex(done.stdout, rb"^[^\x00-\x09\x0b-\x1f\x7f]*$")
            done = run(["--show", b"./" + name, "--from", b"./" + name], cwd=self.folder)
            self.assertEqual((done.returncode, done.stdout, b"\x1b" in done.stderr), (9, b"", False))
        self.assertEqual(sorted(os.listdir(folder)), there)

    def test_abbreviation(self) -> None:
        """An abbreviated option is wrong, through the door too."""
        for words in (["--sho", "a.ntb"], ["--show", "--fro", "a.ntb"]):
            done = run(words)
            self.assertEqual((done.returncode, done.stdout), (2, b"usage\n"))


class Streams(Lines):
    """Standard output that is full, closed or a terminal."""

    def begun(self, *words: Word, **streams: int) -> subprocess.Popen[bytes]:
        """A command line that runs."""
        streams = {"stdout": subprocess.PIPE, "stderr": subprocess.PIPE, "stdin": subprocess.DEVNULL, **streams}
        return subprocess.Popen([*self.words, *words], cwd=self.here, env=self.env, **streams)  # type: ignore

    def test_full(self) -> None:
        """A device without room is status 9, with a sentence alone."""
        self.script()
        with open("/dev/full", "wb") as full:
            for words in (["--show", "a.ntb"], ["--json", "a.ntb"], ["--help"], ["xyzzy"]):
                given, pipe = [*self.words, *words], subprocess.PIPE
                done = subprocess.run(given, cwd=self.here, env=self.env, stdout=full, stderr=pipe)
                self.assertEqual((words, done.returncode), (words, 9))
                said = b"ntbsim: standard output can't be written: No space left on device\n"
                self.assertTrue(done.stderr.endswith(said))
                self.assertNotIn(b"Traceback", done.stderr)

    def test_closed(self) -> None:
        """Where nobody reads on, the command ends by SIGPIPE with what it runs; without an output it is status 9."""
        with self.begun("--json", self.script("l", "lots")) as done:
            assert done.stdout is not None and done.stderr is not None
            self.assertTrue(done.stdout.readline().startswith(b'{"trace":1}'))
            done.stdout.close()
            self.assertEqual((done.wait(10), done.stderr.read()), (-signal.SIGPIPE, b""))
        self.assertTrue(wait_for(lambda: not below(str(self.folder)), 3), below(str(self.folder)))
        given = ["sh", "-c", '"$@" >&-', "sh", *self.words, "--show", self.script()]
        closed = subprocess.run(given, cwd=self.here, env=self.env, stderr=subprocess.PIPE)
        self.assertEqual((closed.returncode, closed.stderr.count(b"\n")), (9, 1))

    def test_signals(self) -> None:
        """INT, TERM and HUP end the command by the signal, at once, with what it runs, and leave nothing."""
        for number in (signal.SIGINT, signal.SIGTERM, signal.SIGHUP):
            for option in ("--show", "--json", "--check", "--draw"):
                with self.subTest(f"{option} {number}"), self.begun(option, self.script("e", "endless")) as done:
                    self.assertTrue(wait_for(lambda: len(below(str(self.folder))) >= 3))
                    begun = time.monotonic()
                    done.send_signal(number)
                    assert done.stderr is not None
                    self.assertEqual((done.wait(10), done.stderr.read()), (-number, b""))
                    self.assertLess(time.monotonic() - begun, 2)
                    self.assertTrue(wait_for(lambda: not below(str(self.folder)), 3), below(str(self.folder)))
        self.assertEqual(sorted(path.name for path in self.folder.iterdir()), ["here", "program", "tools"])

    def test_early_signals(self) -> None:
        """A signal at any time leaves no process."""
        self.script("e", "endless")
        for wait in range(12):
            with self.begun("--show", "e") as done:
                time.sleep(0.02 * wait)
                done.send_signal(signal.SIGTERM)
                self.assertEqual(done.wait(10), -signal.SIGTERM)
        self.assertTrue(wait_for(lambda: not below(str(self.folder)), 3), below(str(self.folder)))

    def test_terminal(self) -> None:
        """At a terminal a capture is refused, and a long run tells its progress, which is wiped."""
        top, low = pty.openpty()
        self.script()
        done = self.begun("--pcap", "a.ntb", stdout=low)
        self.assertEqual(done.wait(20), 9)
        self.assertIn(b"a capture is no text", done.communicate()[1])
        for words, is_shown in (([], True), (["--quiet"], False)):
            done = self.begun("--show", self.script("e", "endless"), *words, stderr=low)
            time.sleep(3.2)
            done.send_signal(signal.SIGTERM)
            done.communicate()
            os.write(low, b"!")
            time.sleep(0.2)
            said = os.read(top, 10000)
            self.assertEqual(b"trace of e: 2 s" in said, is_shown, said)
            self.assertEqual(said.endswith(b"\r\x1b[K!"), is_shown, said)
        os.close(low)
        os.close(top)

    def test_large(self) -> None:
        """A trace of 150 MB is copied within two seconds more than the program takes."""
        path = Path(self.folder / "large")
        step = b'{"line":1,"step":{"name":"post"},"answer":{"name":"ok"},"made":true}\n'
        path.write_bytes(b'{"trace":1}\n' + step * 2200000)
        self.write("program", f"#!/bin/sh\ncat >/dev/null\ncat '{path}'\n")
        times = []
        for words in ([self.folder / "program"], [*self.words, "--json", self.script()]):
            begun = time.monotonic()
            done = subprocess.run(words, cwd=self.here, env=self.env, stdout=subprocess.PIPE, stdin=subprocess.DEVNULL)
            times.append(time.monotonic() - begun)
            self.assertEqual(len(done.stdout), path.stat().st_size)
        self.assertLess(times[1], times[0] + 2)
