"""Pictures of texts of reads: one row a step, one slanted arrow for each write, read request and completion."""

from typing import NamedTuple

from .common import Script, environment, shortened
from .svg import PEER, Picture, arrowhead, style

AT, COMPLETION = {"A": 500, "B": 800}, 128
KINDS = dict(relaxed="relaxed write", strict="strict write", request="read request", completion="completion")
HEADS = [arrowhead(kind, 8, 9, colour) for kind, colour in zip(KINDS, ("#3f7fbf", "#15233b", "#2a8a4a", "#8e44ad"))]
LOOKS = [f"<style>{style('reads')}</style>", "<defs>", *HEADS, "</defs>"]
# What a side has in flight: its kind, its name, the y from which it was sent, and how many bytes it asks for.
Sent = NamedTuple("Sent", [("kind", str), ("name", str), ("y", int), ("asked", int)])


def reads_picture(script: Script, reply: list[str]) -> str:
    """The picture of a text of reads with the lines of its reply."""
    if not reply or not (reply[-1] == "end" or reply[-1].startswith("refused ")):
        raise environment("the reply was cut off: it has no line end")
    rows = Rows()
    for line in reply[:-1]:
        number, answer = line.split(" ", 1)
        rows.draw_step(int(number), script.words(int(number)), answer)
    rows.draw_left(rows.y + 10, "open")
    if reply[-1] != "end":
        rows.y += 20
        rows.put(40, rows.y + 4, "no", reply[-1])
    for x in AT.values():
        rows.rule(x, 40, x, rows.y + 10, "life")
    for x, (kind, name) in zip(range(12, 812, 200), KINDS.items()):
        rows.rule(x, rows.y + 34, x + 40, rows.y + 34, kind, kind)
        rows.put(x + 48, rows.y + 38, "note", name)
    rows.put(12, rows.y + 56, "note", "Drawn by ntbsim --draw, which isn't proved; the answers are the reply's own.")
    return rows.text(860, rows.y + 70, LOOKS, paper='fill="#fff"')


class Rows(Picture):
    """Draws step after step. `y` is the middle of the last row, `flight` what each side has in flight."""

    def __init__(self) -> None:
        super().__init__()
        self.y, self.is_up, self.flight = 30, True, {"A": list[Sent](), "B": list[Sent]()}
        for side, x in AT.items():
            self.put(x, 24, "head", f"side {side}")

    def draw_step(self, number: int, step: list[str], answer: str) -> None:
        """The row of a step. An answer of one word is a refusal, but for `ok`."""
        self.y += 20
        is_made = answer == "ok" or " " in answer
        self.rule(8, self.y + 10, 840, self.y + 10, "row")
        self.put(32, self.y + 4, "right", number)
        self.put(40, self.y + 4, "step", shortened(" ".join(step), 44))
        self.put(300, self.y + 4, "" if is_made else "no", shortened(answer, 44))
        if not is_made and answer != "blocked":
            return
        if step[0] == "write":
            self.flight[step[1]].append(Sent(step[4], f"{step[4]} write of line {number}", self.y, 0))
        elif step[0] == "read":
            self.flight[step[1]].append(Sent("request", f"{step[1]}'s {answer}", self.y, int(step[3])))
        elif step[0] == "land":
            self.draw_landing(step[1], int(step[2]), is_made)
        elif step[0] in ("break", "relink"):
            self.is_up = step[0] == "relink"
        elif step[0] == "drop":
            self.draw_left(self.y, "cross")

    def draw_landing(self, side: str, place: int, is_made: bool) -> None:
        """A landing; one that was blocked goes a little way, and says what it may not pass."""
        sent, to, one = self.flight[side], PEER[side], self.flight[side][place]
        if is_made:
            self.rule(AT[side], one.y, AT[to], self.y, one.kind, one.kind)
            sent.pop(place)
            parts = -(-one.asked // COMPLETION) if self.is_up else 0
            self.flight[to].extend([Sent("completion", one.name, self.y, 0)] * parts)
        else:
            x, look, beside = (575, "why", 585) if side == "A" else (725, "why end", 715)
            self.rule(AT[side], one.y, x, self.y, "refused", end="cross")
            before = sent[0].name if place == 1 else f"one of {place} before it"
            self.put(beside, self.y + 4, look, f"not past {before}")

    def draw_left(self, y: int, end: str) -> None:
        """What is in flight: half the way, to what it ends with."""
        for side, sent in self.flight.items():
            for one in sent:
                self.rule(AT[side], one.y, 650, y, one.kind, end=end)
            sent.clear()
