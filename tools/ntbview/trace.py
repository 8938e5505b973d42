"""A trace: what the program says of each step of a script, a JSON object a line. docs/FORMATS.md has its form."""

import functools, itertools, json, re
from dataclasses import dataclass
from typing import Any, Iterable, NamedTuple, Optional

from .common import environment

Members = dict[str, Any]
REFUSED = re.compile(rb"refused line (\d+) ([a-z]+)\n?$")
STEP, COUNTS = b'{"line":', (b'{"lane":', b'{"device":')
WRITES = re.compile(rb'"(?:write|waits_for)":(\d+)')
# The labels of the writes of those steps whose answers don't say them. What `offer` posts is told when it lands.
POSTED = {"ack": "index {queue} {number}", "spad": "pad {index} {value}", "poke": "raw {window} {offset} {size}"}
POSTED.update(offer="pad {index}", ready="pad 1")
# Where a script is refused, and why.
Refusal = NamedTuple("Refusal", [("line", int), ("cause", str)])


@dataclass
class StepLine:
    """A step with its answer, and whether it was made. `changes` has the members behind these: `write`, `passed`,
    `waits_for`, `dropped`, `link`, `session`, each if the step changed that. `said` is the answer in the words of the
    report, `answered` its first word. A step of the link has no side. `write` is the number of the write that was
    posted, landed or was blocked; a posted one without is lost."""

    line: int
    step: Members
    answer: Members
    made: bool
    changes: Members

    def __post_init__(self) -> None:
        self.name, self.pair, self.side = self.step["name"], self.step["pair"], self.step.get("side", "")
        self.queue, self.write = self.step.get("queue"), self.changes.get("write")
        self.answered, self.label = self.answer["name"], self.answer.get("label") or {}
        self.posts, self.said = "write" in self.changes and self.name != "land", words_in(self.answer)

    def posted_label(self) -> str:
        """The label of the write that the step posts or lands."""
        members = {**self.answer, **self.step, "size": len(self.step.get("bytes", "")) // 2}
        return POSTED[self.name].format(**members) if self.name in POSTED else self.said.partition(" ")[2]


def step_line(text: bytes) -> StepLine:
    """The step of a line of a trace."""
    members: Members = json.loads(text)
    return StepLine(*map(members.pop, ("line", "step", "answer", "made")), members)


class Trace:
    """The lines of a trace. `step` takes the one at a place apart, and keeps the last; `pairs` has those of pairs."""

    def __init__(self, lines: Iterable[bytes]) -> None:
        self.lines, self.first, self.pairs = list(lines), 1, dict[str, Members]()
        self.step = functools.lru_cache(maxsize=256)(lambda at: step_line(self.lines[at]))
        last = self.lines[-1] if self.lines else b""
        found, self.is_whole = REFUSED.match(last), last.startswith(b'{"end":')
        self.refusal = Refusal(int(found[1]), found[2].decode()) if found else None
        if self.refusal:
            return
        if not self.lines or not self.lines[0].startswith(b'{"trace":'):
            raise environment("this is no trace, and no refusal of a script")
        version = json.loads(self.lines[0])["trace"]
        if version != 1:
            raise environment(f"the trace has version {version}, and version 1 is known here")
        while self.first < len(self.lines) and self.lines[self.first].startswith(b'{"pair":'):
            pair = json.loads(self.lines[self.first])
            self.pairs[pair["pair"]] = pair
            self.first += 1

    def line_at(self, at: int) -> int:
        """The line of the script whose step stands at a place of the trace, or 0 behind the steps."""
        if at >= len(self.lines) or not self.lines[at].startswith(STEP):
            return 0
        return int(self.lines[at][len(STEP) : self.lines[at].index(b",")])

    def ending(self) -> list[Members]:
        """The counts behind the steps, each as a JSON object."""
        behind = [*itertools.takewhile(lambda line: not line.startswith(STEP), reversed(self.lines))]
        return [json.loads(line) for line in reversed(behind) if line.startswith(COUNTS)]

    @functools.cached_property
    def labels(self) -> dict[tuple[str, str, Optional[int]], str]:
        """The labels of the writes that were blocked or that stopped one, by pair, side and number."""
        wanted = {number for line in self.lines if b'"waits_for":' in line for number in WRITES.findall(line)}
        lines = (line for line in self.lines if wanted and wanted.intersection(WRITES.findall(line)))
        steps = (step for step in map(step_line, lines) if "waits_for" not in step.changes)
        return {(step.pair, step.side, step.write): step.posted_label() for step in steps}

    def more_of_landing(self, step: StepLine) -> str:
        """What is said of a landing beside its answer: how many earlier writes it passed, or which one stops it."""
        if "waits_for" in step.changes:
            numbers = (step.write, step.changes["waits_for"])
            labels = (self.labels.get((step.pair, step.side, number), "") for number in numbers)
            return ": " + " may not pass ".join(labels)
        return f", past {step.changes['passed']} earlier" if step.changes.get("passed") else ""


def words_in(value: Any) -> str:
    """The values of an object, one behind the other."""
    if isinstance(value, dict):
        return " ".join(map(words_in, value.values()))
    return "-" if value is None or value == "" else str(value)


def count_text(members: Members) -> str:
    """A line of counts in the words of the report."""
    if "device" in members:
        return "dev {device} tx {tx} {tx_bytes} {refused} rx {rx} {rx_bytes} {short}".format(**members)
    return "lane {} {session} accepted {accepted} delivered {delivered}".format(words_in(members["lane"]), **members)
