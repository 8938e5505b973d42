"""What no clause refuses of a program that lacks memory: a run that never ends, and a text without all of its lines."""

from __future__ import annotations

import resource
import subprocess
import unittest
from pathlib import Path

from tests.support import program

# Two pairs, of which one has much traffic. Their rings are long, so that a run without threads takes no long time.
PAIRS = "ntb 1\nhost a\nhost b\npair p a b size=1048576 mtu=1023\npair q a b size=1048576 mtu=1023\n"
FRAMES = 5_000
SCRIPT = f"{PAIRS}traffic\nflood p A 0 {FRAMES} 64\nframe q A 0 61\n".encode()
# What the program prints of them: the counts of each lane, and how many lines.
COUNTS = {
    "run": (b"lane p A 0 1 accepted 5000 delivered 5000 left 0\n", b"lane q A 0 1 accepted 1 delivered 1 left 0\n"),
    "stream": (b"stream p A 0 items 5000 sessions 1\n", b"stream q A 0 items 1 sessions 1\n"),
}
LINES = FRAMES + 1 + 2 + 1
# A run that lacks memory is to end within this many seconds.
MOST_SECONDS = 120
# How many sizes are tried, and how many of them are below one that lets a whole run end. How much a run of several
# threads takes differs from time to time; with the last size, the largest, each has enough. A thread's stack is small
# beside them.
MOST_SIZES, MOST_STEPS = 64, 56
LARGEST = 1 << 30
STACK = 1 << 19


def limited(command: str, size: int) -> subprocess.CompletedProcess[bytes]:
    """What the program answers to a command, where its data has at most this many bytes."""

    def limit() -> None:
        resource.setrlimit(resource.RLIMIT_STACK, (STACK, STACK))
        resource.setrlimit(resource.RLIMIT_DATA, (size, size))

    words = [*program().words, command]
    return subprocess.run(words, input=SCRIPT, capture_output=True, preexec_fn=limit, timeout=MOST_SECONDS)


def least(command: str, status: int) -> int:
    """A size with which a command ended with this status, where it didn't with a page less."""
    low, high = 0, LARGEST
    while high - low > resource.getpagesize():
        middle = (low + high) // 2
        low, high = (low, middle) if limited(command, middle).returncode == status else (middle, high)
    return high


class Memory(unittest.TestCase):
    """Runs and streams with too little memory."""

    def setUp(self) -> None:
        """A program that was compiled without proof reserves more than any limit lets it."""
        if b"AddressSanitizer" in Path(program().words[0]).read_bytes():
            self.skipTest("the program that answers was compiled without proof, so its memory isn't limited")

    def sweep(self, command: str) -> None:
        """With each size, from that of a start on, it ends: with all of its text, or out of memory and without any."""
        first, last = least("usage", 2), least(command, 0)
        self.assertLess(first, last)
        found = set()
        for size in (*(first + (last - first) * number // MOST_STEPS for number in range(MOST_SIZES)), LARGEST):
            with self.subTest(command=command, size=size):
                done = limited(command, size)
                self.assertIn((done.returncode, done.stderr), ((0, b""), (6, b"")))
                found.add(done.returncode)
                counts = [done.stdout.count(part) for part in (b"\n", *COUNTS[command])]
                self.assertEqual(counts, [LINES, 1, 1] if done.returncode == 0 else [0, 0, 0])
        self.assertEqual(found, {0, 6})

    def test_run(self) -> None:
        """A run."""
        self.sweep("run")

    def test_stream(self) -> None:
        """A stream."""
        self.sweep("stream")


if __name__ == "__main__":
    unittest.main()
