"""Pictures of the steps of a script; time runs downward. Of one pair: one row an answer, one slanted arrow a write. Of
switches: the pairs side by side, and the switches between the first pair and the others."""

from collections import Counter
from enum import Enum
from itertools import accumulate, chain, groupby
from typing import Iterator, NamedTuple, Optional

from .common import PARAGRAPH, Script, counted, cut, shown_name, wrong
from .svg import PEER, UNNAMED, Picture, arrowhead, shown, style, width
from .trace import Members, StepLine, Trace, count_text

# Four or more answers in a row that differ in their last number alone, as those of a long frame, have one row.
# A line of another pair is one row with its first and last answer. Rows count from 1; 0 is what was before the first.
MOST_ROWS, LEAST_RUN, MOST_SLOTS = 300, 4, 8
Look = Enum("Look", "PLAIN REFUSED FRAME OTHER")
End = Enum("End", "LANDED LOST DROPPED FLYING")
# The kinds of writes by the labels that `post` says, and by the other steps; what isn't here is a scratchpad, `pad`.
KINDS = dict(chunk="field", len="field", ver="field", flag="flag", down="flag", bell="bell", ack="index", poke="raw")
# What a side says in its peer's scratchpads, and then for each window.
PADS, SIZES = ["version", "ready", "queues", "windows"], ["size, high", "size, low"]
# The stages of an entry, each with the owner of a slot whose entry didn't come to it.
STAGES = {"sent": "sender", "flagged": "flight", "read": "landed", "acked": "receiver"}
# The stage to which an answer brings an entry: by one of `OWN` in the lane of the step's side, else in its peer's.
OWN = {"ok": "sent", "posted": "sent", "landed flag": "flagged", "landed down": "flagged"}
REACHED = {**OWN, "landed index": "freed", "ready": "ready", "copied": "read", "frame": "read", "acked": "acked"}
HIGH, HALF, APART, NARROWEST = 18, 9, 230, 640
# Of each kind of write its colour, how large its arrow's head is, and its text.
WRITES = {
    "field": ("#3f7fbf", 7, "bytes, length, version"), "flag": ("#15233b", 10, "flags"),
    "bell": ("#15233b", 8, "doorbell"), "index": ("#2a8a4a", 8, "index word back"),
    "pad": ("#8e44ad", 8, "scratchpad"), "raw": ("#b5651d", 8, "poked bytes"),
}
# The owners of slots, and what they are called; the last one is of a link that isn't up.
OWNERS = [("sender", "the sender"), ("flight", "in flight"), ("landed", "landed"), ("receiver", "the receiver")]
OWNERS += [("back", "on its way back"), ("none", "no session")]
HEADS = [arrowhead(f"head-{kind}", size, size, colour) for kind, (colour, size, _) in WRITES.items()]
LOOKS = ["<style>", style("texts", "pair"), "</style>", "<defs>", *HEADS, "</defs>"]
BOARD = ["<style>", style("texts", "switches"), "</style>", f"<defs>{arrowhead('head-flag', 10, 10, '#15233b')}</defs>"]
# An answer, or a run of them, beside its side; a step of the link or of another pair has no side.
Row = NamedTuple("Row", [("line", int), ("side", str), ("look", Look), ("text", str)])
# A state of the link, from the middle of a row on.
Band = NamedTuple("Band", [("row", int), ("link", str), ("session", int)])
# A write from its post to its end, and its place among this many that ended there.
Arrow = NamedTuple("Arrow", [
    ("side", str), ("kind", str), ("queue", Optional[int]), ("posted", int),
    ("how", End), ("ended", int), ("place", int), ("of", int),
])
# What a side sends on a queue: how many entries came to each stage in this session, and the owners of slots by row.
Lane = NamedTuple("Lane", [
    ("name", str), ("queue", int), ("slots", int),
    ("entries", Counter[str]), ("last_chunk", dict[int, int]), ("owners", list[list[str]]),
])


class Choice(NamedTuple):
    """What is drawn: the pair, else the script's first; the lines, else all; the queue, else all."""

    pair: str = ""
    first: Optional[int] = None
    last: Optional[int] = None
    queue: Optional[int] = None


class Flight:
    """The rows, arrows and bands of one pair, the lanes whose slots are told, and how many answers were left out."""

    def __init__(self, script: Script, trace: Trace, choice: Choice) -> None:
        self.script, self.trace, self.choice = script, trace, choice
        name, there = choice.pair or next(iter(trace.pairs), ""), len(script.lines)
        if name not in trace.pairs:
            raise wrong(f"the script has no pair {shown_name(name)}".rstrip())
        self.name, self.pair = name, trace.pairs[name]
        queues = max(len(self.pair[side]["rings"]) for side in "AB")
        if choice.queue is not None and choice.queue >= queues:
            raise wrong(f"pair {name} has no queue {choice.queue}: it has {counted(queues, 'queue')}, counted from 0")
        self.first = 1 if choice.first is None else choice.first
        self.last = there if choice.last is None else choice.last
        if not 0 < self.first <= min(self.last, there):
            raise wrong(f"lines={self.first}-{self.last} chooses no line: the script has lines 1 to {there}")
        self.rows, self.arrows, self.left_out = list[Row](), list[Arrow](), 0
        self.flying, self.lanes = dict[tuple[str, int], int](), dict[tuple[str, int], Lane]()
        self.bands = [Band(0, "up" if self.pair["up"] else "down", int(self.pair["up"]))]
        for run in self.runs():
            self.follow(run)
        self.end_row()
        for side in "AB":
            self.end_flights(End.FLYING, [place for (of, _), place in self.flying.items() if of == side])
        self.told = [lane for lane in self.lanes.values() if not (self.pair["raw"] or self.is_other_queue(lane.queue))]

    def is_other_queue(self, queue: Optional[int]) -> bool:
        """Whether a queue was chosen, and this is another one."""
        return self.choice.queue is not None and queue not in (None, self.choice.queue)

    def runs(self) -> Iterator[list[int]]:
        """The steps that have a row together, up to the last chosen line, by their places in the trace."""
        lines, drawn = self.trace.lines, b'"pair":"%s"' % self.name.encode()
        for number, places in groupby(range(self.trace.first, len(lines)), self.trace.line_at):
            if not 0 < number <= self.last:
                return
            run = list(places)
            if drawn in lines[run[0]]:
                for _, same in groupby(run, lambda at: lines[at].partition(b',"made":')[0].partition(b',"part":')[0]):
                    run = list(same)
                    yield from [run] if len(run) >= LEAST_RUN else [[at] for at in run]
            elif not self.choice.pair and number >= self.first:
                yield run

    def follow(self, run: list[int]) -> None:
        """Steps that have one row together, or none if their line or queue wasn't chosen, and what they change."""
        if self.left_out and self.choice.queue is None:
            self.left_out += 1
            return
        step = self.trace.step(run[0])
        is_other, queue = step.pair != self.name, step.queue
        if step.name == "land":
            stopped = self.flying.get((step.side, step.write)) if "waits_for" in step.changes else None
            queue = step.label.get("queue") if stopped is None else self.arrows[stopped].queue
        if is_other or step.line >= self.first and not (step.side and self.is_other_queue(queue)):
            if len(self.rows) >= MOST_ROWS:
                self.left_out += 1
                return
            self.end_row()
            self.rows.append(self.row(step, self.trace.step(run[-1]), len(run)))
        for at in run if step.made and not is_other and not self.left_out else ():
            self.change(self.trace.step(at))

    def end_row(self) -> None:
        """Notes who owns each slot where the last row ends: the owner of the entry that stands there."""
        for lane in self.lanes.values() if self.rows else ():
            freed, owners = lane.entries["freed"], list[str]()
            for slot in range(min(lane.slots, MOST_SLOTS)):
                entry = freed + (slot - freed) % lane.slots
                owners.append(next((owner for stage, owner in STAGES.items() if entry >= lane.entries[stage]), "back"))
            lane.owners.append(["none"] * len(owners) if self.bands[-1].link == "down" else owners)

    def end_flights(self, how: End, arrows: list[int]) -> None:
        """Ends the flight of these writes of one side, by their places among all."""
        for place, at in enumerate(arrows):
            self.arrows[at] = self.arrows[at]._replace(how=how, ended=len(self.rows), place=place, of=len(arrows))

    def change(self, step: StepLine) -> None:
        """What a step changes of the writes, of the link and of the rings. A write without a number is lost."""
        row, changes = len(self.rows), step.changes
        for side, numbers in changes.get("dropped", {}).items():
            self.end_flights(End.DROPPED, [self.flying.pop((side, number)) for number in numbers])
        if "link" in changes:
            self.bands[len(self.bands) if row else 0 :] = [Band(row, changes["link"], changes["session"])]
            for lane in self.lanes.values() if changes["link"] == "up" else ():
                lane.entries.clear()
        elif step.name == "land":
            self.end_flights(End.LANDED, [self.flying.pop((step.side, changes["write"]))])
        elif step.posts:
            if step.write is not None:
                self.flying[step.side, step.write] = len(self.arrows)
            kind = KINDS.get(step.label.get("name", step.name), "pad")
            queue = None if kind in ("pad", "raw") else step.queue
            self.arrows.append(Arrow(step.side, kind, queue, row, End.LOST, 0, 0, 1))
        self.follow_lane(step)

    def follow_lane(self, step: StepLine) -> None:
        """What a step does to its lane. An entry is read where its last chunk was copied, or its frame is whole."""
        name, answer = step.answered, {**step.step, **step.answer, **step.label}
        stage = REACHED.get(f"landed {answer['name']}" if name == "landed" else name)
        if stage is None or "number" not in answer:
            return
        side, queue = step.side if stage in OWN.values() else PEER[step.side], answer["queue"]
        if (side, queue) not in self.lanes:
            lane_name = f"{side}>{PEER[side]}" + (f" q{queue}" if queue else "")
            slots = self.pair[side]["rings"][queue]["entries"]
            self.lanes[side, queue] = Lane(lane_name, queue, slots, Counter(), {}, [])
        lane = self.lanes[side, queue]
        number = {"ok": lane.entries["sent"], "frame": lane.entries["ready"] - 1}.get(name, answer["number"])
        if name == "posted" and "part" in answer:
            lane.last_chunk[number] = answer["part"]
        if name != "copied" or answer["part"] == lane.last_chunk.get(number):
            lane.entries[stage] = max(lane.entries[stage], number + 1)

    def row(self, step: StepLine, last: StepLine, many: int) -> Row:
        """The row of this many steps, by the first and the last: the answer, with what it means."""
        name, changes, more, said = step.name, step.changes, "", step.said
        if step.pair != self.name:
            text = last.said if said == last.said else f"{cut(said, 8, 4)} .. {last.said}"
            return Row(last.line, "", Look.OTHER if last.made else Look.REFUSED, f"pair {step.pair}: {text}")
        if step.answered == "offered" or name == "land" and step.label.get("name") == "pad":
            pads, pad = PADS + SIZES * self.pair[step.side]["windows"], {**step.answer, **step.label}["index"]
            more = f" ({pads[pad]})" if pad < len(pads) else ""
        if "link" in changes:
            lost = sum(map(len, changes.get("dropped", {}).values()))
            said = changes["link"] + (f", session {changes['session']}" if changes["link"] == "up" else "")
            more = f", {lost} lost" if lost else ""
        elif name == "land":
            more += self.trace.more_of_landing(step)
        if many > 1:
            more += "".join(f" .. {of['part']}" for of in (last.answer, last.label) if "part" in of) + f" ({many})"
        is_named = not step.side or not step.made and self.script.words(step.line)[:1] != [name]
        text = (f"{name}: " if is_named and name != "land" else "") + said + more
        look = Look.FRAME if step.answered == "frame" else Look.PLAIN if step.made else Look.REFUSED
        return Row(step.line, PEER[step.side] if name == "land" else step.side, look, text)


def picture(script: Script, trace: Trace, choice: Choice) -> str:
    """The picture of one pair; or of a script that was refused: its lines, up to the one that was refused."""
    if not trace.refusal:
        return Drawing(Flight(script, trace, choice)).whole()
    drawn, last = Picture(), trace.refusal.line
    texts = {number: shown(script.line(number), 110, 12) for number in range(max(last - 39, 1), last + 1)}
    wide = max(NARROWEST, width(max(map(len, texts.values())) + 6) + 20)
    titles = Script(script.name, "\n".join(script.lines[:last]).encode("latin-1")).title()
    y = drawn.put_titles(titles, wide) + HALF + 4
    for number, text in texts.items():
        drawn.put_line(y, number, text, "refused frame" if number == last else "script")
        y += HIGH
    drawn.put(40, y, "refused", f"refused: {trace.refusal.cause}. No step of the script was made.")
    drawn.note_y = y + 26
    drawn.remark("Drawn by ntbsim --draw, which isn't proved; the answer is the report's own.")
    return drawn.text(wide, drawn.note_y - 4, LOOKS, [*titles, UNNAMED][0])


class Drawing(Picture):
    """The picture of a pair, with the places of its columns and strips."""

    def __init__(self, flight: Flight) -> None:
        super().__init__()
        self.flight, self.script, self.titles = flight, flight.script, flight.script.title()
        self.rows = [(row, shown(row.text, 46, 12)) for row in flight.rows]
        self.lanes = [lane for lane in flight.told if lane.slots <= MOST_SLOTS][:3]
        seen = (arrow for arrow in flight.arrows if arrow.posted or arrow.ended or arrow.how is End.FLYING)
        seen = (arrow._replace(queue=None) for arrow in seen if not flight.is_other_queue(arrow.queue))
        self.arrows, note = list(dict.fromkeys(seen)), " ".join(self.declared())
        lines = max([12, *(len(shown(self.script.line(row.line), 44, 12)) for row in flight.rows)])
        a = max([8, *(len(text) for row, text in self.rows if row.side != "B")])
        b = max([8, *(len(text) for row, text in self.rows if row.side == "B")])
        head_a, head_b = (len(head) * 73 // 20 + 1 for head in self.heads)
        self.at_a = max(40 + width(lines) + 14 + width(a) + 10, 8 + head_a)
        self.at_b = self.at_a + APART
        strips = [26 + max(width(b), head_b), *(16 + max(12 * lane.slots, 46) for lane in self.lanes)]
        _, *self.strips, wide = accumulate(strips, initial=self.at_b)
        self.wide = max(wide - 4, NARROWEST)
        self.top = self.put_titles(self.titles, self.wide, note) + 32
        self.bottom = self.top + len(self.rows) * HIGH + 26

    def declared(self) -> Iterator[str]:
        """Finds the heads of the sides, and says the pair's options, devices and classes."""
        for words in self.script.declarations():
            if words[:2] == ["pair", self.flight.name]:
                self.heads = [f"side {side}, host {host}" for side, host in zip("AB", words[2:])]
                yield f"Pair {words[1]}: {' '.join(words[4:]) or 'no option'}."
            elif words[0] == "dev" and words[2] == self.flight.name:
                yield f"Device {words[1]}: side {words[3]}, queue {words[4]}, {words[6]} {words[7]}."
            elif words[:2] == ["class", self.flight.name]:
                yield f"Class {words[4]}: queue {words[3]} of side {words[2]}."

    def middle(self, row: int) -> int:
        return self.top + (row - 1) * HIGH + HALF

    def whole(self) -> str:
        self.draw_ground()
        ends = [(self.draw_arrow(arrow), arrow.how) for arrow in self.arrows]
        for x in (x for x, how in ends if how is End.FLYING):
            self.end(x, self.bottom - 10, "open")
        for at in (self.at_a, self.at_b):
            self.rule(at, self.top - 4, at, self.bottom, "life")
        for number, (row, text) in enumerate(self.rows, 1):
            # What is of neither side stands beside side A, so that nothing covers an arrow.
            at, right = (self.at_b + 10, "") if row.side == "B" else (self.at_a - 10, "right ")
            self.put(at, self.middle(number) + 4, right + row.look.name.lower(), text)
        for lane, begin in zip(self.lanes, self.strips):
            self.put(begin, self.top - 26, "", lane.name)
            for slot, x in enumerate(range(begin, begin + 12 * lane.slots, 12)):
                self.put(x + 6, self.top - 9, "small", slot)
                y = self.middle(len(self.rows) - len(lane.owners) + 1) - HALF
                # One box for each run of rows in which a slot keeps its owner.
                for owner, run in groupby(owners[slot] for owners in lane.owners):
                    high = len(list(run)) * HIGH
                    self.box(x, y, 11, high, owner)
                    y += high
        self.note_y = self.bottom + 24
        self.draw_legend()
        self.draw_notes()
        return self.text(self.wide, self.note_y - 4, LOOKS, [*self.titles, UNNAMED][0])

    def draw_ground(self) -> None:
        """Draws what stands behind the writes: the heads, the states of the link, and the lines of the script."""
        pair, bands, top = self.flight.pair, self.flight.bands, self.top
        for at, head in zip((self.at_a, self.at_b), self.heads):
            self.put(at, top - 26, "head", head)
        session = f", session {bands[0].session}" if bands[0].link == "up" else ""
        self.put((self.at_a + self.at_b) // 2, top - 9, "middle", f"link {bands[0].link}{session}")
        self.put(8, top - 26, "frame", f"pair {self.flight.name}" + ", strict" * pair["strict"] + ", raw" * pair["raw"])
        edges = [top - 4, *(self.middle(band.row) for band in bands[1:]), self.bottom]
        for band, begin, end in zip(bands, edges, edges[1:]):
            self.box(self.at_a, begin, APART, end - begin, band.link)
        y = top
        for line, rows in groupby(self.flight.rows, lambda row: row.line):
            self.rule(8, y, self.wide - 8, y, "row")
            self.put_line(y + HALF + 4, line, shown(self.script.line(line), 44, 12))
            y += len(list(rows)) * HIGH

    def draw_arrow(self, arrow: Arrow) -> int:
        """Draws a write, and gives back the x of its end."""
        begin, away = (self.at_a, 1) if arrow.side == "A" else (self.at_b, -1)
        end, part = self.middle(arrow.ended), APART * (9 * arrow.of - 8 * arrow.place) // (10 * arrow.of)
        x, y, head, mark = {
            End.LANDED: (APART - 1, end, f"head-{arrow.kind}", ""),
            End.DROPPED: (part, end - 13, "", "cross"),
            End.FLYING: (part, self.bottom - 10, "", ""),
            End.LOST: (40, self.middle(arrow.posted) + 6, "", "cross"),
        }[arrow.how]
        self.rule(begin, self.middle(arrow.posted), begin + away * x, y, arrow.kind, head, mark)
        return begin + away * x

    def draw_legend(self) -> None:
        """Draws what arrows, their ends, red, the states of the link and the slots mean, as far as they are drawn."""
        kinds, ends = {arrow.kind for arrow in self.arrows}, {arrow.how for arrow in self.arrows}
        links = list(dict.fromkeys(band.link for band in self.flight.bands)) * (len(self.flight.bands) > 1)
        entries = [("line", kind, text) for kind, (_, _, text) in WRITES.items() if kind in kinds]
        entries += [("open", "", "still in flight")] * (End.FLYING in ends)
        entries += [("cross", "cross", "lost")] * bool(ends & {End.LOST, End.DROPPED})
        is_red = any(row.look is Look.REFUSED for row, _ in self.rows)
        entries += [("", "refused", "red: refused, nothing changed")] * is_red
        self.legend(8, entries + [("box", link, f"link {link}") for link in links], self.wide)
        if self.lanes:
            self.note_y += 20
            self.put(8, self.note_y, "note", "Slots of the ring, by owner:")
            owners = OWNERS if links or End.DROPPED in ends else OWNERS[:-1]
            self.legend(190, [("box", *owner) for owner in owners], self.wide)
        self.note_y += 22

    def draw_notes(self) -> None:
        """Draws the report's counts, of the chosen pair or of all, and what the reader has to know of the picture."""
        flight, choice, pairs = self.flight, self.flight.choice, len(self.flight.trace.pairs)
        devices = {words[1]: words[2] for words in self.script.declarations() if words[0] == "dev"}
        for counts in flight.trace.ending():
            pair = counts["lane"]["pair"] if "lane" in counts else devices.get(counts["device"])
            self.remark(count_text(counts), choice.pair in ("", pair), "")
        for lane in (lane for lane in flight.told if lane not in self.lanes):
            many = f"its ring has {lane.slots} slots, more than {MOST_SLOTS}"
            why = many if lane.slots > MOST_SLOTS else "three rings are drawn"
            self.remark(f"The slots of {lane.name} aren't drawn: {why}.")
        others = "." if choice.pair else "; the others show the first and last answer of a line."
        last = flight.last if flight.last < len(self.script.lines) else "the end"
        left_out = f"after {len(flight.rows)} rows: {flight.left_out} answers are left out."
        self.remark(f"Lines {flight.first} to {last} are drawn.", flight.first > 1 or last != "the end")
        self.remark(f"Of queues, {choice.queue} alone is drawn.", choice.queue is not None)
        self.remark(f"The picture stops here, {left_out}", flight.left_out > 0)
        self.remark(f"Pair {flight.name} of {pairs} is drawn{others}", pairs > 1)
        self.remark("The trace was cut off: it has no line `end`.", not flight.trace.is_whole)
        self.remark("Drawn by ntbsim --draw, which isn't proved; the answers are the report's own.")


def switch_picture(script: Script, trace: Trace) -> str:
    """The picture of a script whose declarations have a switch, and that isn't refused. Equal writes are one row."""
    lines = groupby(range(trace.first, len(trace.lines)), trace.line_at)
    steps = {number: list(places) for number, places in lines if number}
    names = {number: script.line(number) if script.words(number)[0] in ("post", "land") else "" for number in steps}
    rows = [list(row) for _, row in groupby(steps, lambda number: names[number] or number)]
    board, left_out = Board(script, len(rows[:MOST_ROWS])), sum(map(len, rows[MOST_ROWS:]))
    for row in rows[:MOST_ROWS]:
        board.draw_row(row, [map(trace.step, steps[number]) for number in row])
    for arrow in board.arrows.values():
        board.rule(*arrow)
    for x in board.sides.values():
        board.rule(x, board.top - 4, x, board.bottom, "life")
    board.note_y = board.bottom + 24
    for counts in trace.ending():
        board.remark(count_text(counts), look="")
    board.remark("An arrow is an entry, from the post of its flags to their landing. "
                 "Under a port: frames in its inbox / frames that wait.")
    board.remark("Red: refused, nothing changed.")
    board.remark(f"The picture stops here, after {MOST_ROWS} rows: {left_out} lines are left out.", left_out > 0)
    board.remark("Drawn by ntbsim --draw, which isn't proved; the answers are the report's own.")
    return board.text(board.wide, board.note_y, BOARD, [*board.titles, UNNAMED][0])


class Board(Picture):
    """The pairs and switches of a script, and what its steps do to them. `y` is the middle of the last row."""

    def __init__(self, script: Script, rows: int) -> None:
        super().__init__()
        self.script, self.titles = script, script.paragraphs(PARAGRAPH)
        self.top = 24 + 19 * len(self.titles) + 32
        self.y, self.bottom, self.wide = self.top - HIGH // 2, self.top + rows * HIGH + 26, 330
        declared = list(script.declarations())
        hosts = {words[1]: words[2:4] for words in declared if words[0] == "pair"}
        switches = {words[1]: words[2:] for words in declared if words[0] == "switch"}
        devices = {words[1]: (words[2], words[3], int(words[4])) for words in declared if words[0] == "dev"}
        # The x of each side and port. An arrow is drawn when it is known how it ends: by pair, side and number.
        self.sides, self.ports = dict[tuple[str, str], int](), dict[str, list[int]]()
        self.arrows = dict[tuple[str, str, int], tuple[int, int, int, int, str, str, str]]()
        for place, pair in enumerate(hosts):
            self.sides[pair, "A"], self.sides[pair, "B"] = self.wide + 130, self.wide + 290
            self.wide += 430
            for name, ports in switches.items() if place == 0 else ():
                self.ports[name] = [self.wide + 162 + 64 * port for port in range(len(ports))]
                self.wide += 64 * len(ports) + 140
        self.port_of = {devices[dev]: x for name, xs in self.ports.items() for dev, x in zip(switches[name], xs)}
        self.inbox, self.waiting = Counter[int](), Counter[int]()
        self.counted = dict.fromkeys(self.port_of.values(), "0 / 0")
        # The head: titles, and of pairs and switches the ground and the names.
        tall, y = self.bottom - self.top + 4, self.top - 12
        for place, text in enumerate(self.titles):
            self.put(8, 24 + 19 * place, "title", text)
        for pair in hosts:
            self.box(self.sides[pair, "A"], self.top - 4, 160, tall, "up")
            for side, host in zip("AB", hosts[pair]):
                self.put(self.sides[pair, side], y, "head", f"{host} ({pair} {side})")
        for name, xs in self.ports.items():
            self.box(xs[0] - 162, self.top - 4, 64 * len(xs) + 130, tall, "switch")
            self.put(xs[0] - 156, self.top - 30, "frame", f"switch {name}")
            for port, x in enumerate(xs):
                self.put(x, y, "head", f"{port}: {switches[name][port]}")

    def draw_row(self, row: list[int], lines: list[Iterator[StepLine]]) -> None:
        """A row of lines with the steps of each: what the last one says, and the counts at the ports that changed."""
        self.y += HIGH
        for steps in lines:
            first, landed, frame = next(steps), 0, Members()
            for last in chain([first], steps):
                self.follow(last)
                landed += last.answered == "landed"
                frame = last.answer if last.answered == "frame" else frame
        self.rule(8, self.y - 9, self.wide - 8, self.y - 9, "row")
        self.put_line(self.y + 4, row[0], shown(self.script.line(row[0]), 36, 20))
        # Beside a side or at a switch stand: a delivered frame, how many writes landed, or the first answer.
        word, look = self.script.words(row[0])[0], "plain" if first.made or landed else "refused"
        text = f"{landed} landed" if landed > 1 else "posted" if word == "post" else first.said
        side = PEER.get(last.side, "B") if word.startswith("land") else last.side or "A"
        x, anchor = self.sides[last.pair, side] + (8 if side == "B" else -8), "" if side == "B" else "right "
        if frame:
            look, text = "frame", f"frame {frame['number']}, {len(frame['frame']) // 2} bytes"
        if word == "relay":
            x, anchor, text = self.ports[last.step["switch"]][0] - 156, "", f"port {last.step['port']}: {first.said}"
        times = f", {len(row)}x" if len(row) > 1 else ""
        self.put(x, self.y + 4, anchor + look, shown(text, 17, 20) + times)
        for x, before in self.counted.items():
            self.counted[x] = f"{self.inbox[x]} / {self.waiting[x]}"
            if self.counted[x] != before:
                self.put(x, self.y + 4, "middle", self.counted[x])

    def follow(self, step: StepLine) -> None:
        number = -len(self.arrows) - 1 if step.write is None else step.write
        port = self.port_of.get((step.pair, step.side, step.queue or 0))
        if step.name == "post" and step.label.get("name") in ("flag", "down"):
            x, half = self.sides[step.pair, step.side], self.sides[step.pair, "A"] + 80
            y, end = (self.y + 6, "cross") if step.write is None else (self.bottom - 10, "")
            self.arrows[step.pair, step.side, number] = (x, self.y, half, y, "flag", "", end)
        elif step.name == "relay" and step.made:
            ports, to = self.ports[step.step["switch"]], step.answer.get("port")
            self.inbox[ports[step.step["port"]]] -= 1
            for place, x in enumerate(ports):
                self.waiting[x] += place == to or step.answered == "flood" and place != step.step["port"]
        elif port and step.answered == "frame":
            self.inbox[port] += 1
        elif port and step.name == "xnext" and step.made:
            self.waiting[port] -= 1
        dropped = step.changes.get("dropped", {}).items()
        for key in self.arrows.keys() & {(step.pair, side, write) for side, writes in dropped for write in writes}:
            self.arrows[key] = (*self.arrows[key][:3], self.y, "flag", "", "cross")
        if step.answered == "landed" and (step.pair, step.side, number) in self.arrows:
            x, y, half = self.arrows[step.pair, step.side, number][:3]
            end = 2 * half - x + (1 if x > half else -1)
            self.arrows[step.pair, step.side, number] = (x, y, end, self.y, "flag", "head-flag", "")
