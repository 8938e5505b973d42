"""Rows of scripts, made by a second writing of the rules.

For each kind of line: the line alone, each single fault, each two faults that can come together and whose causes
differ, and words in other spellings, among them numbers at the ends of their ranges. Then come random scripts. Each
answer comes of tools/script_rules; of a fault, and of two, it is stated here beside it too, and both have to agree.
"""

import random
from dataclasses import dataclass, field
from typing import Dict, FrozenSet, Iterator, List, Optional, Tuple

from script_rules import STEPS, TRAFFIC, said_of

# What a row is: what it shows, its script and what `check` says of it.
Row = Tuple[str, str, str]

# How many random scripts there are where none says it.
RANDOM = 200
# Faults of the line as a whole, in the order of their tests.
WHOLE = {"repeated": 0, "badgeometry": 1, "badpair": 2, "badswitch": 2, "toomany": 3}
# What is tested of a word after its spelling.
LATER = {"unknownname", "repeated", "badgeometry", "badnumber"}


@dataclass(frozen=True)
class Fault:
    """A fault that a line can have: what stands in the place of its words, behind it and before it."""

    about: str
    word: int
    cause: str
    limits: str = ""
    words: Tuple[Tuple[int, str], ...] = ()
    # Words that have to be right, so that this one is a fault.
    needs: FrozenSet[int] = frozenset()
    more: str = ""
    kept: Optional[int] = None
    end: str = ""
    before: str = ""
    # Whether it stands in the place of the lines before.
    is_full: bool = False

    def said(self, line: int) -> str:
        """What `check` says of it."""
        return f"refused line {line} word {self.word} {self.cause}{self.limits}"

    def place(self) -> Tuple[int, int, int]:
        """Where its test stands among those of the line."""
        if self.cause == "nottext":
            return (0, 0, 0)
        if self.word:
            return (1, self.word, 1 if self.cause in LATER and self.cause != "unknownword" else 0)
        return (2, WHOLE[self.cause], 0)

    def touched(self) -> FrozenSet[int]:
        """The words that it changes."""
        return frozenset(at for at, _ in self.words)

    def cuts(self, other: "Fault") -> bool:
        """Whether it takes away what the other one is made of."""
        if self.kept is None:
            return False
        return bool(other.more) or max(other.touched() | other.needs | {other.word}) > self.kept


@dataclass(frozen=True)
class Subject:
    """A kind of line: what stands before it, the line, its faults, and which of its words have other spellings."""

    name: str
    before: str
    line: str
    faults: Tuple[Fault, ...]
    kinds: Dict[int, str] = field(default_factory=dict)

    def script(self, *faults: Fault) -> str:
        """The script in which the line has these faults."""
        words = dict(enumerate(self.line.split(" "), 1))
        before, end, more = self.before, "", ""
        kept = min([it.kept for it in faults if it.kept is not None], default=len(words))
        for fault in faults:
            words.update(fault.words)
            before = fault.before if fault.is_full else before + fault.before
            more += fault.more
            end += fault.end
        line = " ".join(words[at] for at in sorted(words) if at <= kept or at > len(self.line.split(" ")))
        return f"{before}{line}{more}{end}\n"

    def row(self, about: str, *faults: Fault) -> Row:
        """A row of the line with these faults; what is stated of the earlier one has to be what the rules say."""
        script = self.script(*faults)
        said = said_of(script.encode("latin-1"))
        if faults:
            stated = min(faults, key=Fault.place).said(script.count("\n"))
            if said != stated:
                raise ValueError(f"{self.name}, {about}: {stated} is stated, and the rules say {said}: {script[-200:]}")
        return (f"In the line {self.name}, {about}.", script, said)

    def rows(self) -> Iterator[Row]:
        """The line alone, each fault, and each two of them."""
        yield self.row("no fault")
        for fault in self.faults:
            yield self.row(fault.about, fault)
        for first in self.faults:
            for second in self.faults:
                if first.place() < second.place() and come_together(first, second):
                    yield self.row(f"{first.about} before {second.about}", first, second)


def come_together(first: Fault, second: Fault) -> bool:
    """Whether a line can have both faults, and their causes differ."""
    return (
        first.cause != second.cause
        and not first.touched() & (second.touched() | second.needs)
        and not second.touched() & first.needs
        and not (first.more and second.more)
        and not (first.before and second.before)
        and not any(one.cuts(other) for one, other in ((first, second), (second, first)))
    )


def fault(about: str, answer: str, words: Optional[Dict[int, str]] = None, needs: Tuple[int, ...] = (),
          **more: object) -> Fault:
    """A fault by its answer, `WORD CAUSE` and perhaps ` LEAST MOST`."""
    word, cause, *limits = answer.split(" ")
    return Fault(about, int(word), cause, "".join(f" {it}" for it in limits), tuple((words or {}).items()),
                 frozenset(needs), **more)  # type: ignore[arg-type]


TAB = fault("a tab", "0 nottext", end="\t")
TOO_MANY = fault("a word too many", "1 unknownword", more=" x")


def too_few(last: int) -> Fault:
    """Words are missing, and this many are left."""
    return fault("a word too few", "1 unknownword", kept=last)


def pair_faults(at: int, name: str = "pair", other: str = "x") -> List[Fault]:
    """Faults of the name of something that is declared."""
    return [
        fault(f"a misspelled {name}", f"{at} badname",
              {at: "D" if name == "device" else "S" if name == "switch" else "P"}),
        fault(f"a {name} that is not declared", f"{at} unknownname", {at: other}),
    ]


def side_faults(at: int) -> List[Fault]:
    return [fault("a misspelled side", f"{at} badname", {at: "C"})]


def queue_faults(at: int) -> List[Fault]:
    return [
        fault("a misspelled queue", f"{at} badnumber", {at: "00"}),
        fault("a queue that the side lacks", f"{at} unknownname", {at: "9"}, (at - 2, at - 1)),
        fault("a queue that no side has", f"{at} unknownname", {at: "16"}),
    ]


def lane_faults(at: int) -> List[Fault]:
    return pair_faults(at) + side_faults(at + 1) + queue_faults(at + 2)


HOSTS = "ntb 1\nhost a\nhost b\n"
STEPS_OF_ONE = f"{HOSTS}pair p a b up size=4096 mtu=1023\nsteps\n"
STEPS_OF_RAW = (
    f"{HOSTS}pair p a b up size=4096 mtu=1023 windows=2\npair r a b raw size=4096 mtu=1023 windowsA=2\nsteps\n"
)
STEPS_OF_DEVICE = f"{HOSTS}pair p a b up size=4096 mtu=1023\ndev d p A 0 020000000001 stop=0 start=0\nsteps\n"
TRAFFIC_OF_SMALL = (
    f"{HOSTS}pair p a b up size=4096 mtu=16\npair r a b raw size=4096 mtu=16\npair u a b size=1052672 mtu=16\ntraffic\n"
)
LAST_STEP = fault("a step past the millionth", "0 toomany", before="landall p A 1000000\n")
ODD = "616"


def many(count: int, text: str) -> str:
    """A text this many times."""
    return text * count


def declared_hosts() -> Subject:
    full = "ntb 1\n" + "".join(f"host h{n}\n" for n in range(1, 17))
    return Subject("host", "ntb 1\nhost h1\n", "host b", (
        TAB, TOO_MANY, too_few(1),
        fault("a misspelled name", "2 badname", {2: "B"}),
        fault("a name that stands already", "2 repeated", {2: "h1"}),
        fault("a seventeenth host", "0 toomany", before=full, is_full=True),
    ), {2: "name"})


def declared_pairs() -> Subject:
    sizes = "4096 268435456"
    return Subject("pair", f"{HOSTS}pair q a b\n", "pair p a b size=4096 queues=2 up", (
        TAB,
        fault("a host too few", "1 unknownword", kept=3),
        fault("a misspelled name", "2 badname", {2: "P"}),
        fault("a name that stands already", "2 repeated", {2: "q"}),
        fault("a misspelled first host", "3 badname", {3: "A"}),
        fault("a first host that is not declared", "3 unknownname", {3: "c"}),
        fault("a misspelled second host", "4 badname", {4: "B"}),
        fault("a second host that is not declared", "4 unknownname", {4: "d"}),
        fault("a first option that is not known", "5 unknownword", {5: "sizes=4096"}),
        fault("a misspelled number of the first option", "5 badnumber", {5: "size=04096"}),
        fault("a first option out of its range", f"5 badgeometry {sizes}", {5: "size=4097"}),
        fault("a second option that is not known", "6 unknownword", {6: "queue=2"}),
        fault("a misspelled number of the second option", "6 badnumber", {6: "queues="}),
        fault("a second option that stands already", "6 repeated", {6: "size=8192"}, (5,)),
        fault("a second option out of its range", "6 badgeometry 1 16", {6: "queues=17"}),
        fault("a third option that stands already", "7 repeated", {7: "queues=3"}, (6,)),
        fault("one host twice", "0 repeated", {4: "a"}, (3,)),
        fault("numbers that do not go together", "0 badgeometry", {5: "versionA=3"}),
        fault("a seventeenth pair", "0 toomany", before="".join(f"pair p{n} a b\n" for n in range(2, 17))),
    ), {2: "name", 5: "option", 6: "option"})


def full_devices() -> str:
    """All that stands before a sixty-fifth device."""
    pairs = "pair p a b queues=16\npair q a b queues=16\npair r a b queues=2\n"
    queues = [(pair, side, queue) for pair in "pq" for side in "AB" for queue in range(16)]
    return HOSTS + pairs + "".join(
        f"dev d{pair}{side.lower()}{queue} {pair} {side} {queue} 020000000001 stop=0 start=0\n" for pair, side,
        queue in queues
    )


def devices() -> Subject:
    limits = "0 65535"
    before = f"{HOSTS}pair p a b queues=2\ndev c p A 1 020000000001 stop=0 start=0\n"
    return Subject("dev", before, "dev d p A 0 020000000002 stop=1 start=2", (
        TAB, TOO_MANY, too_few(7),
        fault("a misspelled name", "2 badname", {2: "D"}),
        fault("a name that stands already", "2 repeated", {2: "c"}),
        *lane_faults(3),
        fault("an address of five bytes", "6 badhex", {6: "0200000000"}),
        fault("a word in the place of stop", "7 unknownword", {7: "stops=1"}),
        fault("a misspelled number of stop", f"7 badnumber {limits}", {7: "stop=01"}),
        fault("a stop past 65,535", f"7 badgeometry {limits}", {7: "stop=65536"}),
        fault("a word in the place of start", "8 unknownword", {8: "begin=2"}),
        fault("a misspelled number of start", f"8 badnumber {limits}", {8: "start="}),
        fault("a start past 65,535", f"8 badgeometry {limits}", {8: "start=65536"}),
        fault("a second device on a queue", "0 repeated", {5: "1"}, (3, 4)),
        fault("a start below its stop", "0 badgeometry", {8: "start=0"}, (7,)),
    ), {2: "name", 5: "number", 6: "address", 7: "stop", 8: "start"})


def last_device() -> Subject:
    """The sixty-fifth device, whose limit stands behind each other test."""
    limits = "0 65535"
    return Subject("dev of a sixty-fifth device", full_devices(), "dev e r A 0 020000000002 stop=1 start=2", (
        fault("a sixty-fifth device", "0 toomany"),
        TAB, TOO_MANY,
        fault("a misspelled name", "2 badname", {2: "1d"}),
        fault("a name that stands already", "2 repeated", {2: "dpa0"}),
        fault("a misspelled pair", "3 badname", {3: "P"}),
        fault("a pair that is not declared", "3 unknownname", {3: "x"}),
        fault("a misspelled side", "4 badname", {4: "C"}),
        fault("a misspelled queue", "5 badnumber", {5: "00"}),
        fault("a queue that the side lacks", "5 unknownname", {5: "2"}, (3, 4)),
        fault("an address of five bytes", "6 badhex", {6: "0200000000"}),
        fault("a word in the place of stop", "7 unknownword", {7: "strt=1"}),
        fault("a misspelled number of stop", f"7 badnumber {limits}", {7: "stop=01"}),
        fault("a stop past 65,535", f"7 badgeometry {limits}", {7: "stop=65536", 8: "start=65536"}),
        fault("a word in the place of start", "8 unknownword", {8: "stat=2"}),
        fault("a misspelled number of start", f"8 badnumber {limits}", {8: "start=02"}),
        fault("a start past 65,535", f"8 badgeometry {limits}", {8: "start=65536"}),
        fault("a second device on a queue", "0 repeated", {3: "p"}),
        fault("a start below its stop", "0 badgeometry", {7: "stop=2", 8: "start=1"}),
    ))


def classes() -> Subject:
    return Subject("class", f"{HOSTS}pair p a b queues=2\nclass p A 1 3\n", "class p A 0 2", (
        TAB, TOO_MANY, too_few(4), *lane_faults(2),
        fault("a misspelled class", "5 badnumber 0 7", {5: "02"}),
        fault("a class past 7", "5 badnumber 0 7", {5: "8"}),
        fault("a second class of a queue", "0 repeated", {4: "1"}, (2, 3)),
    ), {4: "number", 5: "number"})


def devices_on(places: List[Tuple[str, str, int]]) -> List[str]:
    """Lines of devices on these sides and queues, numbered from 0."""
    return [
        f"dev d{number} {pair} {side} {queue} {0x020000000000 + number:012x} stop=1 start=1"
        for number, (pair, side, queue) in enumerate(places)
    ]


def ports_before() -> str:
    """Two pairs round one host, and devices of which all but the first are on that host's sides."""
    lines = ["ntb 1", "host a", "host b", "host c", "pair p a b up queues=4", "pair r b c up queues=4"]
    lines += devices_on([("p", "A", 0), ("p", "B", 0), ("r", "A", 0), ("p", "B", 1), ("r", "A", 1), ("r", "A", 2)])
    return "\n".join(lines) + "\nswitch s d1 d2\n"


def full_switches() -> str:
    """Sixteen switches of the devices of one host, and devices that are left."""
    lines = ["ntb 1", "host a", "host b", "host c", "pair p a b up queues=16", "pair r b c up queues=16",
             "pair u b c up queues=16"]
    sides = (("p", "B"), ("r", "A"), ("u", "A"))
    places = [("p", "A", 0)] + [(pair, side, queue) for pair, side in sides for queue in range(16)]
    lines += devices_on(places[:35])
    lines += ["switch s d1 d2"] + [f"switch s{n} d{2 * n + 3} d{2 * n + 4}" for n in range(1, 16)]
    return "\n".join(lines) + "\n"


def switches() -> Subject:
    return Subject("switch", ports_before(), "switch t d3 d4", (
        TAB,
        fault("a word too many", "1 unknownword", more=many(15, " d5")),
        fault("one device alone", "1 unknownword", kept=3),
        fault("a misspelled name", "2 badname", {2: "T"}),
        fault("a name that stands already", "2 repeated", {2: "s"}),
        fault("a misspelled first device", "3 badname", {3: "D3"}),
        fault("a first device that is not declared", "3 unknownname", {3: "x"}),
        fault("a first device that is a port already", "3 repeated", {3: "d1"}),
        fault("a misspelled second device", "4 badname", {4: "D4"}),
        fault("a second device that is not declared", "4 unknownname", {4: "x"}),
        fault("a second device that is a port already", "4 repeated", {4: "d2"}),
        fault("the first device once more", "4 repeated", {4: "d3"}, (3,)),
        fault("a device of another host", "0 badswitch", more=" d0"),
        fault("a seventeenth switch", "0 toomany", before=full_switches(), is_full=True),
    ), {2: "name", 3: "known"})


def of_steps() -> List[Subject]:
    """Steps whose words are a pair, a side and a queue, or less."""
    found = []
    for word in ("train", "break", "drop"):
        found.append(Subject(word, STEPS_OF_ONE, f"{word} p", (TAB, TOO_MANY, too_few(1), *pair_faults(2), LAST_STEP),
                             {2: "known"}))
    for word in ("enable", "clean", "offer", "check", "irq", "offerall"):
        faults = (TAB, TOO_MANY, too_few(2), *pair_faults(2), *side_faults(3), LAST_STEP)
        found.append(Subject(word, STEPS_OF_ONE, f"{word} p A", faults, {2: "known", 3: "side"}))
    for word in ("ready", "join", "qpdown", "post", "look", "copy", "clear", "ack"):
        side = "B" if word in ("look", "copy", "clear", "ack") else "A"
        faults = (TAB, TOO_MANY, too_few(3), *lane_faults(2), LAST_STEP)
        found.append(Subject(word, STEPS_OF_ONE, f"{word} p {side} 0", faults, {2: "known", 3: "side", 4: "number"}))
    recv = (TAB, fault("a word too many", "1 unknownword", more=" x x"), too_few(3), *lane_faults(2), LAST_STEP)
    found.append(Subject("recv", STEPS_OF_ONE, "recv p B 0", recv, {3: "side", 4: "number"}))
    copies = (TAB, TOO_MANY, *lane_faults(2), fault("a misspelled number of copies", "5 badnumber 1 512", {5: "03"}),
              fault("no copies", "5 badnumber 1 512", {5: "0"}), LAST_STEP)
    found.append(Subject("recv with copies", STEPS_OF_ONE, "recv p B 0 3", copies, {5: "number"}))
    return found


def with_numbers() -> List[Subject]:
    """Steps with a number behind the side."""
    found = []
    for word in ("land", "mask", "unmask", "showq"):
        faults = (TAB, TOO_MANY, too_few(3), *pair_faults(2), *side_faults(3),
                  fault("a misspelled number", "4 badnumber 0 4294967295", {4: "1x"}), LAST_STEP)
        found.append(Subject(word, STEPS_OF_ONE, f"{word} p A 1", faults, {4: "number"}))
    faults = (TAB, TOO_MANY, too_few(3), *pair_faults(2), *side_faults(3),
              fault("a misspelled scratchpad", "4 badnumber 0 15", {4: "-1"}),
              fault("a scratchpad past 15", "4 badnumber 0 15", {4: "16"}),
              LAST_STEP)
    found.append(Subject("showspad", STEPS_OF_ONE, "showspad p A 15", faults, {4: "number"}))
    landings = "1 1000000"
    faults = (TAB, TOO_MANY, too_few(3), *pair_faults(2), *side_faults(3),
              fault("a misspelled number", f"4 badnumber {landings}", {4: "02"}),
              fault("no landing", f"4 badnumber {landings}", {4: "0"}),
              fault("a number past 1,000,000", f"4 badnumber {landings}", {4: "1000001"}),
              fault("steps past the millionth", "0 toomany", {4: "1000000"}))
    found.append(Subject("landall", f"{STEPS_OF_ONE}train p\n", "landall p A 2", faults, {4: "number"}))
    return found


def frames() -> List[Subject]:
    """Steps with the bytes of a frame."""
    found = []
    for word in ("begin", "send"):
        faults = (TAB, TOO_MANY, too_few(4), *lane_faults(2),
                  fault("bytes with an odd number of digits", "5 badhex", {5: ODD}),
                  fault("a frame of 65,537 bytes", "0 toomany", {5: many(65_537, "00")}), LAST_STEP)
        found.append(Subject(word, STEPS_OF_ONE, f"{word} p A 0 61", faults, {5: "hex"}))
    for word in ("xbegin", "xmit"):
        faults = (TAB, TOO_MANY, too_few(4), *pair_faults(2, "device", "p"),
                  fault("an address of five bytes", "3 badhex", {3: "0200000000"}),
                  fault("a kind of three digits", "4 badhex", {4: "080"}),
                  fault("bytes with an odd number of digits", "5 badhex", {5: ODD}),
                  fault("65,523 bytes", "0 toomany", {5: many(65_523, "00")}), LAST_STEP)
        found.append(Subject(word, STEPS_OF_DEVICE, f"{word} d 020000000002 0800 61", faults,
                             {3: "address", 4: "kind", 5: "hex"}))
    wake = (TAB, TOO_MANY, too_few(1), *pair_faults(2, "device", "p"), LAST_STEP)
    found.append(Subject("wake", STEPS_OF_DEVICE, "wake d", wake, {2: "known"}))
    return found


def memories() -> List[Subject]:
    """Steps on scratchpads and memory, and those of switches."""
    spad = (TAB, TOO_MANY, too_few(4), *pair_faults(2), *side_faults(3),
            fault("a misspelled scratchpad", "4 badnumber 0 15", {4: "012"}),
            fault("a scratchpad past 15", "4 badnumber 0 15", {4: "16"}),
            fault("a misspelled value", "5 badnumber", {5: "x"}),
            fault("a scratchpad of the transport", "0 badpair", {4: "11"}, (2,)), LAST_STEP)
    showmem = (TAB, TOO_MANY, too_few(4), *pair_faults(2), *side_faults(3),
               fault("a misspelled place", "4 badnumber", {4: "x"}),
               fault("a misspelled number of bytes", "5 badnumber 1 64", {5: "064"}),
               fault("65 bytes", "5 badnumber 1 64", {5: "65"}),
               fault("no bytes", "5 badnumber 1 64", {5: "0"}),
               fault("a place past the memory", "5 badnumber", {4: "4096"}, (2, 3, 5)), LAST_STEP)
    poke = (TAB, TOO_MANY, too_few(5), *pair_faults(2), *side_faults(3),
            fault("a misspelled window", "4 badnumber", {4: "00"}),
            fault("a window that a side lacks", "4 unknownname", {4: "1"}, (2,)),
            fault("a window that no side has", "4 unknownname", {4: "4"}),
            fault("a misspelled offset", "5 badnumber", {5: "0x0"}),
            fault("bytes with an odd number of digits", "6 badhex", {6: ODD}),
            fault("an offset past the window", "6 badnumber", {5: "4096"}),
            fault("a pair that is not raw", "0 badpair", {2: "p"}),
            fault("more than 128 bytes", "0 toomany", {6: many(129, "00")}), LAST_STEP)
    ports = f"{ports_before()}steps\n"
    relay = (TAB, TOO_MANY, too_few(2), *pair_faults(2, "switch"), fault("a misspelled port", "3 badnumber", {3: "01"}),
             fault("a port that the switch lacks", "3 unknownname", {3: "2"}, (2,)), LAST_STEP)
    xnext = (TAB, fault("a word too many", "1 unknownword", more=" x x"), too_few(1),
             fault("a misspelled device", "2 badname", {2: "D1"}),
             fault("a device that is not declared", "2 unknownname", {2: "x"}),
             fault("a device that is no port", "2 unknownname", {2: "d3"}), LAST_STEP)
    return [
        Subject("spad", STEPS_OF_ONE, "spad p A 12 1", spad, {4: "number", 5: "number"}),
        Subject("showmem", STEPS_OF_ONE, "showmem p A 0 64", showmem, {4: "number", 5: "number"}),
        Subject("poke", STEPS_OF_RAW, "poke r A 0 0 61", poke, {4: "number", 5: "number", 6: "hex"}),
        Subject("relay", ports, "relay s 1", relay, {2: "known", 3: "number"}),
        Subject("xnext", ports, "xnext d1", xnext, {2: "known"}),
    ]


def traffic() -> List[Subject]:
    frame = (TAB, TOO_MANY, too_few(4), *lane_faults(2), fault("bytes with an odd number of digits", "5 badhex",
                                                               {5: ODD}),
             fault("a frame that no slot takes", "0 badgeometry", {5: "6162636465"}, (2,)),
             fault("a frame of 65,537 bytes, which no slot takes", "0 badgeometry", {5: many(65_537, "00")}),
             fault("a ring of more than 65,535 slots", "0 badgeometry", {2: "u"}),
             fault("a raw pair", "0 badpair", {2: "r"}),
             fault("a frame past the hundred thousandth", "0 toomany", before="flood p A 0 100000 1\n"))
    count, length = "1 100000", "1 65536"
    flood = (TAB, TOO_MANY, too_few(4), *lane_faults(2), fault("a misspelled number of frames",
                                                               f"5 badnumber {count}", {5: "03"}),
             fault("no frames", f"5 badnumber {count}", {5: "0"}),
             fault("more than 100,000 frames", f"5 badnumber {count}", {5: "100001"}),
             fault("a misspelled length", f"6 badnumber {length}", {6: "4b"}),
             fault("frames without bytes", f"6 badnumber {length}", {6: "0"}),
             fault("frames of 65,537 bytes", f"6 badnumber {length}", {6: "65537"}),
             fault("frames that no slot takes", "0 badgeometry", {6: "5"}, (2,)),
             fault("frames of 65,536 bytes, which no slot takes", "0 badgeometry", {6: "65536"}),
             fault("a ring of more than 65,535 slots", "0 badgeometry", {2: "u"}),
             fault("a raw pair", "0 badpair", {2: "r"}),
             fault("frames past the hundred thousandth", "0 toomany", {5: "100000"}, before="frame p A 0 61\n"))
    losses = (TAB, TOO_MANY, too_few(1), *pair_faults(2), fault("a raw pair", "0 badpair", {2: "r"}),
              fault("a hundred and first link loss", "0 toomany", needs=(2,), before=many(100, "break p\n")))
    return [
        Subject("frame of the traffic", TRAFFIC_OF_SMALL, "frame p A 0 61626364", frame, {4: "number", 5: "hex"}),
        Subject("flood of the traffic", TRAFFIC_OF_SMALL, "flood p A 0 3 4", flood,
                {4: "number", 5: "number", 6: "number"}),
        Subject("break of the traffic", TRAFFIC_OF_SMALL, "break p", losses, {2: "known"}),
    ]


def subjects() -> List[Subject]:
    """Every kind of line."""
    declared = [declared_hosts(), declared_pairs(), devices(), classes(), switches()]
    return [*declared, *of_steps(), *with_numbers(), *frames(), *memories(), *traffic()]


# Other spellings of a word, by its kind, right and wrong ones.
NUMBERS = ("0", "1", "2", "7", "8", "15", "16", "64", "65", "512", "513", "65535", "65536", "100000", "1000000",
           "4294967295",
           "4294967296", "00", "007", "-1", "+1", "0x1", "1e3", "1.", "x", "10000000000000000000000")
SPELLINGS: Dict[str, Tuple[str, ...]] = {
    "name": ("z", "z9", "zzzzzzzzzzzzzzzz", "zzzzzzzzzzzzzzzzz", "9z", "Z", "z_z", "z-z", "z.", "#z", "z=z"),
    "known": ("z", "Z", "9", "d_", "zzzzzzzzzzzzzzzzz", "~"),
    "side": ("A", "B", "C", "a", "b", "AB", "0", "-"),
    "number": NUMBERS,
    "hex": ("00", "ff", "FF", "aA", "0", "000", "0g", "g0", "0x61", "-1", "61:"),
    "address": ("ffffffffffff", "ABCDEFabcdef", "00000000000", "0000000000000", "00000000000g", "0200:0000001"),
    "kind": ("0000", "FFFF", "fff", "fffff", "ffff00", "ff", "fffg"),
    "stop": tuple(f"stop={it}" for it in NUMBERS) + ("stop", "Stop=1", "start=1", "=1", "stop==1"),
    "start": tuple(f"start={it}" for it in NUMBERS) + ("start", "Start=1", "stop=1", "=1", "start==1"),
    "option": ("up", "strict", "raw", "Up", "up=1", "strict=", "sizeA=8192", "sizeB=4096", "sizeC=4096",
               "sizeAB=4096", "size=0", "size=4095",
               "size=268435456", "size=268439552", "cap=4096", "capA=4100", "capB=268439552", "cap", "windows=0",
               "windows=1", "windowsA=4",
               "windows=5", "queues=0", "queuesB=16", "queues=17", "version=2", "version=3", "versionA=5",
               "versionB=6", "mtu=15", "mtu=16",
               "mtuA=16", "mtu=65536", "mtu=65537", "=4096", "size==4096", "size=+4096", "size=4k", "mtu=4294967296"),
}


def spelled(subject: Subject) -> Iterator[Row]:
    """The line with each of its words in other spellings."""
    for at, kind in sorted(subject.kinds.items()):
        for text in SPELLINGS[kind]:
            script = subject.script(Fault("", 0, "", words=((at, text),)))
            yield (f"In the line {subject.name}, {text} as word {at}.", script, said_of(script.encode("latin-1")))


def declaration_lines(dice: random.Random) -> List[str]:
    """Lines that may stand before the steps."""
    pick = dice.choice
    lines = ["host a", "host b"] + (["host c"] if dice.random() < 0.5 else [])
    for name, second in (("p", "b"), ("q", pick("bbac")))[: dice.randint(1, 2)]:
        options = dice.sample(SPELLINGS["option"], dice.randint(0, 3)) if dice.random() < 0.4 else dice.sample(
            ("up", "strict", "raw", "size=4096", "mtu=1023", "queues=2", "windows=2", "version=5", "cap=1048576"),
            dice.randint(0, 4))
        lines.append(" ".join(["pair", name, "a", second, *options]))
    for number in range(dice.randint(0, 3)):
        stop, start = dice.randint(0, 4), dice.randint(0, 4)
        place = f"{pick('ppq')} {pick('AB')} {dice.randint(0, 1)}"
        lines.append(f"dev d{number} {place} 02000000000{number} stop={stop} start={start}")
    lines += [f"class {pick('ppq')} {pick('AB')} {dice.randint(0, 2)} {dice.randint(0, 8)}"] * (dice.random() < 0.3)
    return lines + ["switch s d0 d1"] * (dice.random() < 0.2)


def line_of(dice: random.Random, form: str) -> str:
    """A line of a form, its words mostly right."""
    words = {
        "P": "ppppqqz", "S": "AAABBBC", "Q": ("0", "0", "0", "1", "1", "2", "00"), "D": ("d0", "d0", "d1", "d2", "p"),
        "N": ("0", "1", "2", "3", "12", "15", "16", "x"), "H": ("61", "6263", "616", "00" * 200, "zz"),
        "E": ("0200000000ff", "0200"),
        "K": ("88b5", "88b"), "W": ("s", "s", "t"), "L": ("1", "2", "64", "65"),
    }
    return " ".join(dice.choice(words[it]) if it in words else it for it in form.split(" "))


STEP_FORMS = ("begin P S Q H", "send P S Q H", "land P S N", "landall P S N", "recv P S Q", "recv P S Q N",
              "offerall P S", "spad P S N N",
              "poke P S Q N H", "showmem P S N L", "wake D", "relay W N", "xnext D", "xmit D E K H", "xbegin D E K H",
              "train P", "enable P S",
              "look P S Q", "mask P S N", "showspad P S N", "qpdown P S Q")
TRAFFIC_FORMS = ("frame P S Q H", "flood P S Q N L", "break P")


def random_script(dice: random.Random) -> str:
    """A script of some lines, of which few have a fault."""
    lines = ["ntb 1"] + declaration_lines(dice)
    if dice.random() < 0.8:
        lines += ["steps"] + [line_of(dice, dice.choice(STEP_FORMS)) for _ in range(dice.randint(0, 4))]
    if dice.random() < 0.4:
        lines += ["traffic"] + [line_of(dice, dice.choice(TRAFFIC_FORMS)) for _ in range(dice.randint(0, 3))]
    if dice.random() < 0.2:
        lines.insert(dice.randrange(len(lines)), dice.choice(("", "  ", "# a comment", "steps", "peek p A 0", "\t")))
    return "".join(f"{line}{dice.choice(('', '', '', ' ', chr(13)))}\n" for line in lines)


def parts() -> Iterator[Row]:
    """Each first word in each part of a script: it may stand in some of them, and not in the others."""
    heads = {"declarations": f"{HOSTS}pair p a b\n", "steps": f"{HOSTS}pair p a b\nsteps\n",
             "traffic": f"{HOSTS}pair p a b\ntraffic\n"}
    for word in ["host", "pair", "dev", "class", "switch", "steps", "traffic", *sorted(set(STEPS) - {"traffic"}),
                 *sorted(set(TRAFFIC) - {"break"})]:
        for part, head in heads.items():
            script = f"{head}{word}\n"
            yield (f"The word {word} alone among the {part}.", script, said_of(script.encode("latin-1")))


def rows(seed: int, count: int = RANDOM) -> List[Row]:
    """All rows, and this many random scripts of a seed."""
    made: List[Row] = []
    for subject in subjects():
        made += subject.rows()
        made += spelled(subject)
    made += last_device().rows()
    made += parts()
    dice = random.Random(seed)
    for number in range(1, count + 1):
        script = random_script(dice)
        made.append((f"Random script {number}.", script, said_of(script.encode("latin-1"))))
    seen: Dict[str, Row] = {}
    for row in made:
        seen.setdefault(row[1], row)
    return list(seen.values())
