"""The rules of scripts, written a second time from docs/FORMATS.md: what `check` says of a script.

`said_of` judges a script. It asks no program and shares no code with one, so that the rows of tools/script_rows say
what is right, and not what the program does.
"""

import re
from dataclasses import dataclass, field
from typing import Callable, Dict, List, NoReturn, Optional, Set, Tuple

MOST_STEPS = 1_000_000
MOST_FRAMES = 100_000
MOST_TRAFFIC_BYTES = 67_108_864
MOST_BREAKS = 100
MOST_FRAME_BYTES = 65_536
MOST_ENTRIES = 65_535
MOST_POKE_BYTES = 128
MOST_OF = {"host": 16, "pair": 16, "dev": 64, "switch": 16}
MOST_NUMBER = 4_294_967_295
WINDOW_BYTES = 4_096
HEADER_OF_DEVICE = 14
CHUNK_BYTES = 128

Range = Tuple[int, int]
SIZES: Range = (WINDOW_BYTES, 268_435_456)
THRESHOLDS: Range = (0, 65_535)
# The keys of a pair that have a form for each side, and the one that has none.
SIDED: Dict[str, Range] = {"size": SIZES, "cap": SIZES, "windows": (1, 4), "queues": (1, 16), "version": (3, 5)}
PLAIN: Dict[str, Range] = {"mtu": (16, 65_536)}
DEFAULTS = {"size": 65_536, "windows": 1, "queues": 1, "version": 4, "mtu": 65_536}
WORDS = ("up", "strict", "raw")


class Fault(Exception):
    """A line's first fault: the word at which it was found, 0 for the line as a whole, and its range, if it has one."""

    def __init__(self, word: int, cause: str, limits: Optional[Range] = None) -> None:
        super().__init__(cause)
        self.word = word
        self.cause = cause
        self.limits = limits

    def said(self, line: int) -> str:
        """What `check` says of the fault."""
        limits = "" if self.limits is None else f" {self.limits[0]} {self.limits[1]}"
        return f"refused line {line} word {self.word} {self.cause}{limits}"


@dataclass
class Lane:
    """What follows from the numbers of the side that sends, of one of its queues."""

    entries: int
    payload: int


@dataclass(eq=False)
class Pair:
    """A bridge: its hosts, its plain words, and its numbers as they were declared."""

    hosts: Tuple[str, str]
    options: Dict[str, int]
    words: Set[str]
    breaks: int = 0

    def number(self, key: str, side: str) -> int:
        """A number of a side: its own one, the plain one, or what comes without either."""
        for name in (key + side, key):
            if name in self.options:
                return self.options[name]
        return self.number("size", other(side)) if key == "cap" else DEFAULTS[key]

    def fits(self) -> bool:
        """Whether each size is at most the peer's cap."""
        return all(self.number("size", side) <= self.number("cap", other(side)) for side in "AB")

    def alike(self) -> bool:
        """Whether the pair can start: versions from 4 on, as many queues and windows on both sides, sizes that fit."""
        equal = all(self.number(key, "A") == self.number(key, "B") for key in ("queues", "windows"))
        return equal and self.fits() and all(self.number("version", side) >= 4 for side in "AB")

    def goes_together(self) -> bool:
        """Whether the numbers of the declaration go together."""
        versions = [self.number("version", side) for side in "AB"]
        return (
            max(versions) >= 4
            and (5 not in versions or self.number("mtu", "") >= 20)
            and ("up" not in self.words or self.alike())
            and ("raw" not in self.words or self.fits())
        )

    def is_five(self) -> bool:
        """Whether the sides speak version 5."""
        return all(self.number("version", side) == 5 for side in "AB")

    def lane(self, side: str, queue: int) -> Lane:
        """The ring of a side's queue."""
        size, windows, queues = (self.number(key, side) for key in ("size", "windows", "queues"))
        shared = queues // windows + (1 if queue % windows < queues % windows else 0)
        area = size // shared
        slot = min(self.number("mtu", ""), (area - 4) // 2)
        return Lane((area - 4) // slot, slot - (16 if self.is_five() else 12))

    def writes(self, side: str, queue: int, frame: int) -> int:
        """The writes of a frame: of each piece its chunks and four more."""
        piece = self.lane(side, queue).payload if self.is_five() else frame
        pieces = [min(piece, frame - start) for start in range(0, frame, piece)]
        return sum(-(-length // CHUNK_BYTES) + 4 for length in pieces)


@dataclass
class Device:
    """A device, by its pair, side and queue."""

    pair: Pair
    side: str
    queue: int


@dataclass
class Script:
    """What the lines before say."""

    part: str = "declarations"
    hosts: Set[str] = field(default_factory=set)
    pairs: Dict[str, Pair] = field(default_factory=dict)
    devices: Dict[str, Device] = field(default_factory=dict)
    switches: Dict[str, int] = field(default_factory=dict)
    ports: Set[str] = field(default_factory=set)
    classes: Set[Tuple[str, str, int]] = field(default_factory=set)
    steps: int = 0
    frames: int = 0
    traffic_bytes: int = 0
    breaks: int = 0

    def said(self) -> str:
        """What `check` says of a script without a fault."""
        return (
            f"ok pairs {len(self.pairs)} devices {len(self.devices)} switches {len(self.switches)} steps {self.steps} "
            f"frames {self.frames} breaks {self.breaks} hosts {len(self.hosts)}"
        )


def other(side: str) -> str:
    """The other side."""
    return "B" if side == "A" else "A"


def refuse(word: int, cause: str, limits: Optional[Range] = None) -> NoReturn:
    raise Fault(word, cause, limits)


def spelled_number(text: str) -> Optional[int]:
    """A number below 2^32 in decimal digits without a leading zero."""
    return int(text) if re.fullmatch(r"0|[1-9][0-9]{0,9}", text) and int(text) <= MOST_NUMBER else None


class Line:
    """A line's words, read from left to right. Words are counted from 1."""

    def __init__(self, script: Script, words: List[str]) -> None:
        self.script = script
        self.words = words
        self.at = 1

    def take(self) -> str:
        """The next word."""
        self.at += 1
        return self.words[self.at - 1]

    def name(self) -> str:
        """A name that is spelled as one."""
        word = self.take()
        if not re.fullmatch(r"[a-z][a-z0-9]{0,15}", word):
            refuse(self.at, "badname")
        return word

    def new_name(self, known: object) -> str:
        """A name that none of its kind has."""
        word = self.name()
        if word in known:  # type: ignore[operator]
            refuse(self.at, "repeated")
        return word

    def known_name(self, known: object) -> str:
        """A name that is declared."""
        word = self.name()
        if word not in known:  # type: ignore[operator]
            refuse(self.at, "unknownname")
        return word

    def pair(self) -> Pair:
        return self.script.pairs[self.known_name(self.script.pairs)]

    def device(self) -> Device:
        return self.script.devices[self.known_name(self.script.devices)]

    def side(self) -> str:
        word = self.take()
        if word not in ("A", "B"):
            refuse(self.at, "badname")
        return word

    def number(self, limits: Optional[Range] = None) -> int:
        """A number; where it has a range, in that range."""
        value = spelled_number(self.take())
        if value is None or (limits is not None and not limits[0] <= value <= limits[1]):
            refuse(self.at, "badnumber", limits)
        return value

    def number_below(self, most: int) -> int:
        """A number of something that there is: a queue, a window or a port."""
        value = self.number()
        if value >= most:
            refuse(self.at, "unknownname")
        return value

    def queue(self, pair: Pair, side: str) -> int:
        return self.number_below(pair.number("queues", side))

    def lane(self) -> Tuple[Pair, str, int]:
        pair, side = self.pair(), self.side()
        return pair, side, self.queue(pair, side)

    def hex(self, digits: Optional[int] = None) -> int:
        """Hexadecimal digits, this many or an even number of them; how many bytes they are."""
        word = self.take()
        right = len(word) == digits if digits else len(word) >= 2 and len(word) % 2 == 0
        if not right or not re.fullmatch(r"[0-9a-fA-F]+", word):
            refuse(self.at, "badhex")
        return len(word) // 2

    def threshold(self, key: str) -> int:
        """`stop=` or `start=` with its number."""
        word = self.take()
        if not word.startswith(f"{key}="):
            refuse(self.at, "unknownword")
        value = spelled_number(word[len(key) + 1 :])
        if value is None:
            refuse(self.at, "badnumber", THRESHOLDS)
        if not THRESHOLDS[0] <= value <= THRESHOLDS[1]:
            refuse(self.at, "badgeometry", THRESHOLDS)
        return value

    def option(self, pair: Pair) -> None:
        """An option of a pair: its spelling, whether it stands already, and its range."""
        word = self.take()
        if word in WORDS:
            if word in pair.words:
                refuse(self.at, "repeated")
            pair.words.add(word)
            return
        key, equals, digits = word.partition("=")
        limits = PLAIN.get(key) or SIDED.get(key) or (SIDED.get(key[:-1]) if key[-1:] in ("A", "B") else None)
        if not equals or limits is None:
            refuse(self.at, "unknownword")
        value = spelled_number(digits)
        if value is None:
            refuse(self.at, "badnumber")
        if key in pair.options:
            refuse(self.at, "repeated")
        if not limits[0] <= value <= limits[1] or (limits == SIZES and value % WINDOW_BYTES):
            refuse(self.at, "badgeometry", limits)
        pair.options[key] = value

    def add_steps(self, count: int = 1) -> None:
        """Makes this many steps more, as the last test of the line."""
        if self.script.steps + count > MOST_STEPS:
            refuse(0, "toomany")
        self.script.steps += count


def keep(kind: str, count: int) -> None:
    """The limit of hosts, pairs, devices and switches, of which this many stand before."""
    if count >= MOST_OF[kind]:
        refuse(0, "toomany")


def host(line: Line) -> None:
    name = line.new_name(line.script.hosts)
    keep("host", len(line.script.hosts))
    line.script.hosts.add(name)


def declare_pair(line: Line) -> None:
    pairs = line.script.pairs
    name = line.new_name(pairs)
    first, second = (line.known_name(line.script.hosts) for _ in range(2))
    pair = Pair((first, second), {}, set())
    while line.at < len(line.words):
        line.option(pair)
    if first == second:
        refuse(0, "repeated")
    if not pair.goes_together():
        refuse(0, "badgeometry")
    keep("pair", len(pairs))
    pairs[name] = pair


def dev(line: Line) -> None:
    devices = line.script.devices
    name = line.new_name(devices)
    pair, side, queue = line.lane()
    line.hex(12)
    stop, start = line.threshold("stop"), line.threshold("start")
    if any((it.pair is pair and (it.side, it.queue) == (side, queue)) for it in devices.values()):
        refuse(0, "repeated")
    if start < stop:
        refuse(0, "badgeometry")
    keep("dev", len(devices))
    devices[name] = Device(pair, side, queue)


def declare_class(line: Line) -> None:
    lane = line.lane()
    line.number((0, 7))
    key = (line.words[1], lane[1], lane[2])
    if key in line.script.classes:
        refuse(0, "repeated")
    line.script.classes.add(key)


def switch(line: Line) -> None:
    script = line.script
    name = line.new_name(script.switches)
    ports: List[str] = []
    while line.at < len(line.words):
        port = line.known_name(script.devices)
        if port in script.ports or port in ports:
            refuse(line.at, "repeated")
        ports.append(port)
    owners = {it.pair.hosts["AB".index(it.side)] for it in map(script.devices.__getitem__, ports)}
    if len(owners) > 1:
        refuse(0, "badswitch")
    keep("switch", len(script.switches))
    script.switches[name] = len(ports)
    script.ports.update(ports)


def of_pair(line: Line) -> None:
    line.pair()
    line.add_steps()


def of_side(line: Line) -> None:
    line.pair()
    line.side()
    line.add_steps()


def of_queue(line: Line) -> None:
    line.lane()
    line.add_steps()


def offerall(line: Line) -> None:
    pair, side = line.pair(), line.side()
    line.add_steps(2 * pair.number("windows", side) + 3)


def with_number(limits: Range) -> Callable[[Line], None]:
    """A step with a pair, a side and a number of this range."""

    def read(line: Line) -> None:
        line.pair()
        line.side()
        line.number(limits)
        line.add_steps()

    return read


def begin(line: Line) -> None:
    line.lane()
    if line.hex() > MOST_FRAME_BYTES:
        refuse(0, "toomany")
    line.add_steps()


def send(line: Line) -> None:
    pair, side, queue = line.lane()
    frame = line.hex()
    if frame > MOST_FRAME_BYTES:
        refuse(0, "toomany")
    line.add_steps(1 + pair.writes(side, queue, frame))


def device_frame(line: Line) -> Tuple[Device, int]:
    """The device and the bytes of its frame, with its header."""
    device = line.device()
    line.hex(12)
    line.hex(4)
    frame = line.hex() + HEADER_OF_DEVICE
    if frame > MOST_FRAME_BYTES:
        refuse(0, "toomany")
    return device, frame


def xbegin(line: Line) -> None:
    device_frame(line)
    line.add_steps()


def xmit(line: Line) -> None:
    device, frame = device_frame(line)
    line.add_steps(1 + device.pair.writes(device.side, device.queue, frame))


def landall(line: Line) -> None:
    line.pair()
    line.side()
    line.add_steps(line.number((1, MOST_STEPS)))


def recv(line: Line) -> None:
    line.lane()
    line.add_steps(3 + (line.number((1, 512)) if len(line.words) == 5 else 1))


def spad(line: Line) -> None:
    pair = line.pair()
    line.side()
    index = line.number((0, 15))
    line.number()
    if index < 12 and "raw" not in pair.words:
        refuse(0, "badpair")
    line.add_steps()


def poke(line: Line) -> None:
    pair, side = line.pair(), line.side()
    line.number_below(min(pair.number("windows", "A"), pair.number("windows", "B")))
    offset, length = line.number(), line.hex()
    if offset + length > min(pair.number("size", side), pair.number("cap", other(side))):
        refuse(line.at, "badnumber")
    if "raw" not in pair.words:
        refuse(0, "badpair")
    if length > MOST_POKE_BYTES:
        refuse(0, "toomany")
    line.add_steps()


def showmem(line: Line) -> None:
    pair, side = line.pair(), line.side()
    place, length = line.number(), line.number((1, 64))
    if place + length > pair.number("windows", side) * pair.number("cap", side):
        refuse(line.at, "badnumber")
    line.add_steps()


def wake(line: Line) -> None:
    line.device()
    line.add_steps()


def relay(line: Line) -> None:
    name = line.known_name(line.script.switches)
    line.number_below(line.script.switches[name])
    line.add_steps()


def xnext(line: Line) -> None:
    line.device()
    if line.words[1] not in line.script.ports:
        refuse(line.at, "unknownname")
    line.add_steps()


def add_traffic(line: Line, lane: Tuple[Pair, str, int], count: int, length: int) -> None:
    """This many frames of this many bytes: whether a slot takes them, whether the pair may have them, and the limits."""
    pair, side, queue = lane
    ring = pair.lane(side, queue)
    if length > ring.payload or ring.entries > MOST_ENTRIES:
        refuse(0, "badgeometry")
    if "raw" in pair.words or not pair.alike():
        refuse(0, "badpair")
    script = line.script
    if script.frames + count > MOST_FRAMES or script.traffic_bytes + count * length > MOST_TRAFFIC_BYTES:
        refuse(0, "toomany")
    script.frames += count
    script.traffic_bytes += count * length


def frame_of_traffic(line: Line) -> None:
    add_traffic(line, line.lane(), 1, line.hex())


def flood(line: Line) -> None:
    lane = line.lane()
    count = line.number((1, MOST_FRAMES))
    add_traffic(line, lane, count, line.number((1, MOST_FRAME_BYTES)))


def break_of_traffic(line: Line) -> None:
    pair = line.pair()
    if "raw" in pair.words or not pair.alike():
        refuse(0, "badpair")
    if pair.breaks >= MOST_BREAKS:
        refuse(0, "toomany")
    pair.breaks += 1
    line.script.breaks += 1


def begin_part(line: Line) -> None:
    line.script.part = line.words[0]


# How a line is read, and the least and the most of its words.
Form = Tuple[Callable[[Line], None], int, int]
LONG = 10**9
DECLARATIONS: Dict[str, Form] = {
    "host": (host, 2, 2),
    "pair": (declare_pair, 4, LONG),
    "dev": (dev, 8, 8),
    "class": (declare_class, 5, 5),
    "switch": (switch, 4, 18),
    "steps": (begin_part, 1, 1),
    "traffic": (begin_part, 1, 1),
}
ANY_NUMBER = with_number((0, MOST_NUMBER))
STEPS: Dict[str, Form] = {
    **{word: (of_pair, 2, 2) for word in ("train", "break", "drop")},
    **{word: (of_side, 3, 3) for word in ("enable", "clean", "offer", "check", "irq")},
    **{word: (of_queue, 4, 4) for word in ("ready", "join", "qpdown", "post", "look", "copy", "clear", "ack")},
    **{word: (ANY_NUMBER, 4, 4) for word in ("land", "mask", "unmask", "showq")},
    "showspad": (with_number((0, 15)), 4, 4),
    "begin": (begin, 5, 5),
    "send": (send, 5, 5),
    "xbegin": (xbegin, 5, 5),
    "xmit": (xmit, 5, 5),
    "landall": (landall, 4, 4),
    "recv": (recv, 4, 5),
    "offerall": (offerall, 3, 3),
    "spad": (spad, 5, 5),
    "poke": (poke, 6, 6),
    "showmem": (showmem, 5, 5),
    "wake": (wake, 2, 2),
    "relay": (relay, 3, 3),
    "xnext": (xnext, 2, 2),
    "traffic": (begin_part, 1, 1),
}
TRAFFIC: Dict[str, Form] = {
    "frame": (frame_of_traffic, 5, 5),
    "flood": (flood, 6, 6),
    "break": (break_of_traffic, 2, 2),
}
PARTS = {"declarations": DECLARATIONS, "steps": STEPS, "traffic": TRAFFIC}


def read_line(script: Script, number: int, text: bytes) -> None:
    """Reads a line; a fault is raised."""
    bare = text.strip(b" ")
    if number > 1 and (not bare or bare.startswith(b"#")):
        return
    if re.search(rb"[^ -~]", text):
        refuse(0, "nottext")
    words = [word for word in text.decode("ascii").split(" ") if word]
    if number == 1:
        if words != ["ntb", "1"]:
            refuse(0, "badheader")
        return
    form = PARTS[script.part].get(words[0])
    if form is None or not form[1] <= len(words) <= form[2]:
        refuse(1, "unknownword")
    form[0](Line(script, words))


def said_of(text: bytes) -> str:
    """What `check` says of a script, without the line feed."""
    script = Script()
    lines = text.split(b"\n")
    if not lines[-1] and len(lines) > 1:
        lines.pop()
    for number, line in enumerate(lines, 1):
        try:
            read_line(script, number, line[:-1] if line.endswith(b"\r") else line)
        except Fault as fault:
            return fault.said(number)
    return script.said()
