"""The scripts that benches and the tests of costs measure, each whole or a tenth of it."""

from __future__ import annotations

from typing import Callable

COMMENT = "# A comment of one hundred bytes, in which nothing stands that a reader of the script would keep."
SMALL, LARGE, FEW = "size=4096 mtu=1023", "size=1048576 mtu=65536", "size=1048576 mtu=16"
TWO_CLASSES = "ntb 1\nhost a\nhost b\npair p a b up size=4096 mtu=1023 queues=2\nclass p A 1 3\nsteps\n"


def head_of(options: str) -> str:
    """A script up to its steps, of one pair."""
    return f"ntb 1\nhost a\nhost b\npair p a b up {options}\nsteps\n"


def frames(count: int, length: int, options: str) -> str:
    """Each frame is sent, landed, received and given back."""
    chunks = (length + 127) // 128
    one = f"send p A 0 {length * '61'}\nlandall p A {chunks + 4}\nrecv p B 0 {chunks}\nland p B 0\n"
    return head_of(options) + count * one


def flight(count: int) -> str:
    """This many frames of one byte in flight, and then landed from the front."""
    return head_of(FEW) + count * "send p A 0 61\n" + f"landall p A {5 * count}\n"


def lines(count: int, text: str) -> str:
    """A line this many times."""
    return head_of(SMALL) + count * f"{text}\n"


def wide(count: int) -> str:
    """Pairs of four windows of 256 MiB with slots of 16 bytes, one byte sent each way on each window."""
    pairs = [f"pair p{pair} a b up windows=4 queues=4 size=268435456 mtu=16\n" for pair in range(count)]
    sent = [f"send p{pair} A {queue} 61\nsend p{pair} B {queue} 61\n" for pair in range(count) for queue in range(4)]
    return "".join(["ntb 1\nhost a\nhost b\n", *pairs, "steps\n", *sent])


def pushed(count: int) -> str:
    """This many times a write, a read, and the landings of both."""
    return "reads 1\n" + count * "write A 0 61 strict\nread A 0 1\nland A 0\nland A 0\n"


# The scripts by name, each with its words: whole if the part is 1, a tenth of it if the part is 10.
SCRIPTS: dict[str, Callable[[int], tuple[list[str], str]]] = {
    "frames": lambda part: (["replay"], frames(62500 // part, 1, SMALL)),
    "larger": lambda part: (["replay"], frames(2000 // part, 900, SMALL)),
    "largest": lambda part: (["replay"], frames(50 // part, 65000, LARGE)),
    "flight": lambda part: (["replay"], flight(60000 // part)),
    "nothing": lambda part: (["replay"], lines(1, f"landall p A {1000000 // part}")),
    "posts": lambda part: (["replay"], lines(986000 // part, "post p A 0      ")),
    "comments": lambda part: (["replay"], lines(160000 // part, COMMENT)),
    "words": lambda part: (["replay"], 8000000 // part * "a "),
    "wide": lambda part: (["replay"], wide(16 if part == 1 else 2)),
    "load": lambda part: (["load", "1", str(30000 // part)], ""),
    "traced": lambda part: (["trace"], frames(10000 // part, 5, SMALL)),
    "reads": lambda part: (["reads"], pushed(250000 // part)),
}
# Those that stand in another section than Replays.
TRACES = ("traced", "reads")


def section_of(name: str) -> str:
    """The section of docs/COST.md that states what a script costs."""
    return "Traces and reads" if name in TRACES else "Replays"


def two_frames(size: int) -> str:
    """Two frames of this many bytes, sent on two queues of two classes, and looked for."""
    frame = size * "00"
    return f"{TWO_CLASSES}send p A 0 {frame}\nsend p A 1 {frame}\nlook p B 1\nlook p B 0\n"
