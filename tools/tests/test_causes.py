"""What no clause refuses of the program: out of memory where there is memory, and a run that never ends."""

from __future__ import annotations

import re
import resource
import subprocess
import sys
import unittest

from tests.answers import answer
from tests.support import program

COMMANDS = ["replay", "trace", "run", "stream", "explore", "check"]
HEAD = "ntb 1\nhost a\nhost b\n"
UP = HEAD + "pair p a b up size=4096 mtu=1023\n"
DEVICES = HEAD + "pair p a b\ndev d p A 0 020000000001 stop=1 start=2\ndev e p B 0 020000000002 stop=1 start=2\n"
# Each cause with a script and the line that is refused for it, by the table of causes in docs/FORMATS.md.
CAUSES: dict[str, tuple[str, int]] = {
    "nottext": ("ntb 1\nhost \x01\n", 2),
    "badheader": ("ntb 2\n", 1),
    "unknownword": ("ntb 1\nhots a\n", 2),
    "badnumber": (UP + "steps\npost p A 01\n", 6),
    "badname": ("ntb 1\nhost 9a\n", 2),
    "repeated": ("ntb 1\nhost a\nhost a\n", 3),
    "unknownname": ("ntb 1\nhost a\npair p a c\n", 3),
    "badhex": (UP + "steps\nsend p A 0 616\n", 6),
    "badgeometry": (HEAD + "pair p a b size=4097\n", 4),
    "badpair": (HEAD + "pair p a b raw\ntraffic\nframe p A 0 61\n", 6),
    "badswitch": (DEVICES + "switch s d e\n", 7),
    "toomany": ("ntb 1\n" + "".join(f"host h{number}\n" for number in range(17)), 18),
}
LONG = bytes(range(130)).hex()
FIRST_64 = bytes(range(64)).hex()
# Steps that take memory: scripts, and lines that their texts have. A frame of 130 bytes is two chunks, and its entry is
# two parts. A slot begins with its payload.
FRAME = f"steps\nsend p A 0 {LONG}\nlandall p A 6\nrecv p B 0 2\nshowmem p B 0 64\n"
FRAME_LINES = ["6 ok 0", "6 posted chunk 0 0 1", "8 ready 0 130", "8 copied 0 0", f"8 frame 0 {LONG}"]
# Host d is seen on port 2 of the switch, and then host a sends to it.
SWITCH = """ntb 1
host a
host b
host c
host d
pair p a b up strict size=4096 mtu=1023
pair r b c up strict size=4096 mtu=1023
pair t b d up strict size=4096 mtu=1023
dev d1 p B 0 020000000011 stop=1 start=1
dev d2 r A 0 020000000012 stop=1 start=1
dev d3 t A 0 020000000013 stop=1 start=1
switch s d1 d2 d3
steps
send t B 0 ffffffffffff02000000000d88b57e
landall t B 5
recv t A 0
relay s 2
send p A 0 02000000000d02000000000a88b5a1
landall p A 5
recv p B 0
relay s 0
xnext d3
"""
SWITCH_LINES = ["17 flood 2", "21 to 2", "22 ok 0"]
READS = f"reads 1\nwrite A 0 {LONG[:256]} strict\nland A 0\nshow B 0 64\nread A 0 128\nland A 0\nland B 0\n"
READS_LINES = ["3 landed write 0 128", f"4 mem {FIRST_64}", "6 landed read 0", f"7 data 0 {LONG[:256]}"]
# The last byte of a window of 256 MiB, in a memory that has pages where bytes are alone.
POKE = HEAD + "pair p a b up raw size=268435456\nsteps\npoke p A 0 268435455 61\n"
MOST_KILOBYTES = 131072
# Runs the words, and prints how many kilobytes of memory they had at most.
PEAK = """import resource, subprocess, sys
subprocess.run(sys.argv[1:], check=True)
print(resource.getrusage(resource.RUSAGE_CHILDREN).ru_maxrss)
"""
# A run whose links are lost is to end within this many seconds.
MOST_SECONDS = 120
TRAFFIC = "traffic\nflood p A 0 200 8\nflood p B 0 200 8\nflood q A 0 200 8\n"
# Of a stream whose link is lost 40 times, sessions that all began at the first item would bring 20 times as many. A
# program that takes fewer seconds of a processor for the first number of items gets the second.
ITEMS, LEAST_SECONDS = (10_000, 100_000), 0.1
BREAKS, MOST_TIMES = 40 * "break p\n", 8
PAIRS = HEAD + "pair p a b size=4096 mtu=1023\npair q a b size=4096 mtu=1023\n"


class Causes(unittest.TestCase):
    """Each cause of a refused script, by each command that reads one."""

    def test_each(self) -> None:
        """A script with a fault ends with status 3, and names the line and the cause."""
        for cause, (script, line) in CAUSES.items():
            for command in COMMANDS:
                with self.subTest(cause=cause, command=command):
                    done = answer([command], script.encode("latin-1"))
                    self.assertEqual((done.returncode, done.stderr), (3, b""))
                    word, limits = (r"word \d+ ", r"( \d+ \d+)?") if command == "check" else ("", "")
                    place = f"line {line} {word}{cause}{limits}"
                    self.assertRegex(done.stdout.decode(), rf"\Arefused {place}\n\Z")

    def test_reads(self) -> None:
        """A text of reads with a fault names its line."""
        for line in ("lnad A 0", "land A 01", "read A 0 0", "write A 0 6 strict", "show C 0 1"):
            with self.subTest(line):
                done = answer(["reads"], f"reads 1\n{line}\n".encode())
                self.assertEqual((done.returncode, done.stdout), (3, b"refused line 2 badline\n"))


class Memory(unittest.TestCase):
    """Steps that take memory, where there is some."""

    def has_lines(self, command: str, script: str, lines: list[str]) -> None:
        """The text of a command has these lines, in this order, and its status is 0."""
        done = answer([command], script.encode())
        self.assertEqual((done.returncode, done.stderr), (0, b""))
        told = done.stdout.decode().splitlines()
        self.assertEqual([line for line in told if line in lines], lines)

    def test_frame(self) -> None:
        """A frame of 130 bytes is begun, its entry is looked at, and its memory is shown."""
        self.has_lines("replay", UP + FRAME, [*FRAME_LINES, f"9 mem {FIRST_64}"])

    def test_switch(self) -> None:
        """A switch relays a frame to port 2, where its destination is."""
        self.has_lines("replay", SWITCH, SWITCH_LINES)

    def test_reads(self) -> None:
        """Writes, reads and bytes that are shown on a read path."""
        self.has_lines("reads", READS, READS_LINES)

    def test_poke(self) -> None:
        """A byte at the end of a large window takes no memory for those before it."""
        words = [sys.executable, "-c", PEAK, *program().words, "replay"]
        done = subprocess.run(words, input=POKE.encode(), capture_output=True, timeout=MOST_SECONDS, check=True)
        *told, peak = done.stdout.decode().splitlines()
        self.assertEqual(told[:1], ["6 ok"])
        self.assertLess(int(peak), MOST_KILOBYTES)


def processor_seconds(command: str, script: str) -> float:
    """How much of a processor the program takes for a command over a script."""
    before = resource.getrusage(resource.RUSAGE_CHILDREN)
    subprocess.run([*program().words, command], input=script.encode(), capture_output=True, timeout=600, check=True)
    after = resource.getrusage(resource.RUSAGE_CHILDREN)
    return after.ru_utime + after.ru_stime - before.ru_utime - before.ru_stime


class Losses(unittest.TestCase):
    """Runs and streams whose links are lost, which have to end."""

    def lanes(self, command: str, breaks: str) -> list[str]:
        """The lines of lanes that a command prints of two pairs, with these lines behind their traffic."""
        script = (PAIRS + TRAFFIC + breaks).encode()
        done = subprocess.run([*program().words, command], input=script, capture_output=True, timeout=MOST_SECONDS)
        self.assertEqual((done.returncode, done.stderr), (0, b""))
        return re.findall(r"(?m)^(?:lane|stream) .*$", done.stdout.decode())

    def test_run(self) -> None:
        """Of two pairs one breaks: its lanes have a session for each loss, the other's one; all accept their frames."""
        for breaks in (0, 1, 3):
            with self.subTest(breaks):
                accepted: dict[str, int] = {}
                sessions: dict[str, int] = {}
                for line in self.lanes("run", breaks * "break p\n"):
                    words = line.split()
                    lane = " ".join(words[1:4])
                    accepted[lane] = accepted.get(lane, 0) + int(words[6])
                    sessions[lane] = sessions.get(lane, 0) + 1
                self.assertEqual(accepted, {"p A 0": 200, "p B 0": 200, "q A 0": 200})
                self.assertEqual(sessions, {"p A 0": breaks + 1, "p B 0": breaks + 1, "q A 0": 1})

    def test_stream(self) -> None:
        """A stream brings each lane's whole traffic, whatever is lost."""
        found = self.lanes("stream", 3 * "break p\n" + "break q\n")
        ends = [f"{lane} items 200 sessions {count}" for lane, count in (("p A 0", 4), ("p B 0", 4), ("q A 0", 2))]
        self.assertEqual(found, [f"stream {end}" for end in ends])

    def test_acknowledged(self) -> None:
        """What was acknowledged before a loss isn't sent again behind it."""
        for items in ITEMS:
            script = HEAD + f"pair p a b size=65536 mtu=16\ntraffic\nflood p A 0 {items} 4\n"
            whole = processor_seconds("stream", script)
            if whole >= LEAST_SECONDS:
                break
        self.assertLess(processor_seconds("stream", script + BREAKS), MOST_TIMES * whole)


if __name__ == "__main__":
    unittest.main()
