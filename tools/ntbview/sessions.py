"""A script's traffic by sessions: what `run` delivered and left in each, what `stream` brought. The text of a run
joined, which is the same at each run, wherever the cuts fell; and pictures of these texts."""

import re
from collections import Counter
from itertools import accumulate, count, dropwhile, takewhile
from typing import Iterable, Iterator, NamedTuple, Optional

from .common import Script, counted, environment
from .svg import Picture, style

HIGH, MOST_ROWS, BANDS = 20, 300, 120
LANE = re.compile(r"lane (\w+ \w+ \d+) (\d+) accepted (\d+) delivered (\d+) left (\d+)$")
FRAME = re.compile(r"(frame|left|item) (\d+) (\S+)$")
HEADS = {
    "run": re.compile(r"lane (\w+ [AB] \d+) \d+ accepted (?P<count>\d+) delivered (?P<came>\d+) left (?P<left>\d+)$"),
    "joined": re.compile(r"lane (\w+ [AB] \d+) sessions \d+ accepted (?P<count>\d+) left \d+$"),
    "stream": re.compile(r"stream (\w+ [AB] \d+) items (?P<count>\d+) sessions (?P<sessions>\d+)$"),
}
OTHER = "the text is that of another script"
LOOKS = ["<style>", style("texts", "sessions"), "</style>"]
# How the frames of a lane look, and what is said of all its sessions: a joined text doesn't tell how they divide.
WHOLE = dict.fromkeys(["run", "joined"], ("came", "delivered", ""))
WHOLE["stream"] = ("item", "items", "each came once, in order")
SOME = ("some", "accepted", "each is delivered, or left and lost")
CUTS = "When a cut falls differs from run to run, and so do the numbers of a run with cuts."
AGAIN = "A stream's session begins at the item that was acknowledged before it. What was lost is sent again"
# A lane: `parts` has of each session of a run the first frame, how many are delivered, and how many left.
Parts = list[tuple[int, int, int]]
Lane = NamedTuple("Lane", [("name", str), ("hosts", str), ("frames", int), ("sessions", int), ("parts", Parts)])


def blocks(lines: Iterable[str]) -> Iterator[tuple[int, str, list[str], list[str]]]:
    """The lines of a text of run or of stream that aren't frames: number, line, the kinds and bytes of its frames."""
    at, head, kinds, frames, number = 0, "", list[str](), list[str](), 0
    for number, line in enumerate(lines, 1):
        line = line.rstrip("\r\n")
        frame = FRAME.match(line)
        if not frame:
            if at:
                yield at, head, kinds, frames
            at, head, kinds, frames = number, line, [], []
        elif not at or int(frame[2]) != len(frames):
            raise environment(f"line {number}: another line is next")
        else:
            kinds.append(frame[1])
            frames.append(frame[3])
    if head != "end" or frames:
        raise environment(f"line {number}: the text was cut off: it has no line end")
    yield at, head, kinds, frames


def joined(lines: Iterable[str]) -> Iterator[str]:
    """The lines of a run's text, joined: of each lane one line, with what the last session left, and all frames."""
    name, session, left, frames = "", 0, 0, list[str]()
    for at, head, kinds, more in blocks(lines):
        lane = LANE.match(head)
        if name and not (lane and lane[1] == name):
            yield f"lane {name} sessions {session} accepted {len(frames)} left {left}"
            yield from (f"frame {number} {frame}" for number, frame in enumerate(frames))
            name, session, frames = "", 0, []
        if head == "end" and not more:
            yield head
        elif not lane or int(lane[2]) != session + 1:
            raise environment(f"line {at}: another session is next" if lane else f"line {at}: it is no line of a run")
        else:
            name, (session, accepted, delivered, left) = lane[1], map(int, lane.groups()[1:])
            if accepted != delivered + left or kinds != ["frame"] * delivered + ["left"] * left:
                raise environment(f"line {at}: the session has other frames than it says")
            frames += more


def session_picture(script: Script, text: list[str], pair: str, queue: Optional[int]) -> str:
    """The picture of a script with the lines of one text or two, of all lanes or of those of a pair or a queue."""
    lanes, texts = texts_read(lanes_of(script), text)
    drawn, titles = Bands(texts, max((lane.frames for lane in lanes), default=0)), script.title()
    begins, ends = f"{pair} " if pair else "", "" if queue is None else f" {queue}"
    lanes = [lane for lane in lanes if lane.name.startswith(begins) and lane.name.endswith(ends)]
    rows = list(takewhile(lambda rows: rows <= MOST_ROWS, accumulate((lane.sessions for lane in lanes), initial=0)))
    y = drawn.put_titles(titles, drawn.wide)
    for name, x in drawn.at.items():
        drawn.put(x, y + 12, "frame", "run, sessions joined" if name == "joined" else name)
    y, left_out = y + 24, len(lanes) - len(rows) + 1
    for lane in lanes[: len(rows) - 1]:
        y = drawn.draw_lane(lane, y)
    drawn.note_y = y + 14
    drawn.draw_legend(*(any((lane.sessions > 1) == many for lane in lanes) for many in (True, False)))
    chosen = (f" pair {pair}" if pair else "") + (f" queue{ends}" if ends else "")
    drawn.remark(f"Drawn are the lanes of{chosen} alone.", chosen != "")
    drawn.remark(f"The picture stops here, after {rows[-1]} sessions: {left_out} lanes are left out.", left_out > 0)
    drawn.remark("Drawn by ntbsim --draw, which isn't proved; the numbers are the text's own.")
    return drawn.text(drawn.wide, drawn.note_y - 4, LOOKS, [*titles, "A script's traffic by sessions"][0])


def lanes_of(script: Script) -> dict[str, Lane]:
    pairs = {words[1]: words[2:4] for words in script.declarations() if words[0] == "pair"}
    ways = {f"{pair} {side}": hosts[::way] for pair, hosts in pairs.items() for side, way in (("A", 1), ("B", -1))}
    frames, breaks = Counter[str](), Counter[str]()
    for words in dropwhile(lambda words: words != ["traffic"], map(script.words, range(1, len(script.lines) + 1))):
        if words[:1] == ["break"]:
            breaks[words[1]] += 1
        elif words[:1] in (["frame"], ["flood"]):
            frames[" ".join(words[1:4])] += 1 if words[0] == "frame" else int(words[4])
    found = [(name, name.rpartition(" ")[0], many) for name, many in frames.items()]
    return {name: Lane(name, " to ".join(ways[of]), many, breaks[of[:-2]] + 1, []) for name, of, many in found}


def texts_read(lanes: dict[str, Lane], lines: list[str]) -> tuple[list[Lane], set[str]]:
    """Reads one text or two, and gives back their lanes, and which texts they are."""
    seen, counts = dict[str, Lane](), Counter[tuple[str, str]]()
    for at, head, _, frames in blocks(lines):
        if head == "end" and not frames:
            continue
        text, found = next(((text, found) for text, form in HEADS.items() if (found := form.match(head))), ("", None))
        if not found or len(frames) != int(found["count"]):
            raise environment(f"line {at} isn't the next one of a text of run or of stream, or has other frames")
        name = found[1]
        if name not in lanes:
            raise environment(f"{OTHER}: it has a lane {name}")
        lane = seen[name] = lanes[name]
        if text == "stream" and int(found["sessions"]) != lane.sessions:
            raise environment(f"{OTHER}: lane {name} has {counted(lane.sessions, 'session')}")
        if text == "run":
            lane.parts.append((counts[name, text], int(found["came"]), int(found["left"])))
        counts[name, text] += len(frames)
    texts = {text for _, text in counts}
    if {"run", "joined"} <= texts:
        raise environment("there are two texts of a run")
    for name, lane in seen.items():
        if any(counts[name, text] != lane.frames for text in texts):
            raise environment(f"{OTHER}: lane {name} has {counted(lane.frames, 'frame')}")
    return list(seen.values()), texts


class Bands(Picture):
    """Draws lanes: across stand the frames, down the sessions. `at` has the x of each text."""

    def __init__(self, texts: set[str], most: int) -> None:
        super().__init__()
        self.across = 240 if len(texts) > 1 else 400
        self.wide = BANDS + self.across + (410 if "run" in texts and most > 999 else 300)
        self.at = {text: BANDS for text in HEADS if text in texts}
        if len(texts) > 1:
            self.at["stream"] = self.wide + 14
            self.wide += 14 + self.across + 220

    def draw_lane(self, lane: Lane, y: int) -> int:
        """A lane: its name, its hosts where there is room for them, its bands. Gives back the y behind it."""
        long, many, left = len(lane.name), lane.sessions > 1, sum(part[2] for part in lane.parts)
        hosts = f"{lane.hosts}, " if long + len(lane.hosts) < 24 else ""
        self.put(8, y + 13, "frame", lane.name)
        self.put(100 if long < 12 else 20 + long * 73 // 10, y + 13, "", hosts + counted(lane.frames, "frame"))
        said = {"run": ("refused" if left else "", f"left in all {left}"), "stream": ("", "none missing")}
        for text in (text for text in self.at if many and text in said):
            self.put(self.at[text] + self.across + 10, y + 13, *said[text])
        edges = range(y + HIGH, y + (lane.sessions + 1) * HIGH, HIGH)
        for session, edge in enumerate(edges, 1):
            self.rule(8, edge, self.wide - 8, edge, "row")
            self.put(BANDS - 14, edge + 13, "right script", f"session {session}")
        for text, x in self.at.items():
            look, what, more = SOME if many and text == "joined" else WHOLE[text]
            bands = [[(0, lane.frames, look, what)]]
            if text == "run":
                bands = [[(at, came, look, what), (at + came, lost, "left", "left")] for at, came, lost in lane.parts]
            for edge, parts in zip(count(edges[0], HIGH), bands):
                self.draw_band(x, edge, HIGH if text == "run" else HIGH * lane.sessions, lane.frames, parts)
            if many and text != "run":
                self.put(x + self.across + 10, edges[0] + 13 + HIGH, "note", more)
            for edge in edges[1:]:
                self.rule(x - 6, edge, x + self.across + 6, edge, "loss")
        return edges[-1] + HIGH + 10

    def draw_band(self, x: int, y: int, high: int, frames: int, parts: list[tuple[int, int, str, str]]) -> None:
        """A band with its parts: the first frame of each, how many, how it looks and what it is."""
        for begins, many, look, _ in (part for part in parts if part[1]):
            left, right = (x + number * self.across // frames for number in (begins, begins + many))
            self.box(left, y + 3, max(right - left, 1), high - 6, look)
        x += self.across + 10
        for begins, many, look, what in (part for part in parts if part[1] or part[2] != "left"):
            which = f" ({begins}-{begins + many - 1})" if many > 1 else f" ({begins})" * many
            self.put(x, y + 13, "refused" if look == "left" else "", f"{what} {many}{which}")
            x += len(f"{what} {many}{which}  ") * 73 // 10

    def draw_legend(self, losses: bool, whole: bool) -> None:
        """What colours and lines mean, and what is said of losses, as far as they are drawn."""
        has_run, has_joined, has_stream = (text in self.at for text in HEADS)
        entries = {
            ("box", "came", "delivered"): has_run or has_joined and whole,
            ("box", "left", "left: accepted, and lost with the link"): has_run and losses,
            ("box", "some", "delivered or left, by when the cuts fell"): has_joined and losses,
            ("box", "item", "brought, once"): has_stream,
            ("line", "loss", "the link is lost"): losses,
        }
        self.legend(8, [entry for entry, is_drawn in entries.items() if is_drawn], 0, 24, 32, 52)
        self.note_y += 22
        self.remark("Across stand the frames of a lane by their numbers in its traffic, down its sessions.")
        self.remark(CUTS, has_run and losses)
        self.remark(f"{AGAIN}; how much isn't told.", has_stream and losses)
