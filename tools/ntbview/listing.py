"""Listings: each line of a script with its answers under it. Pages: a browser goes through the steps in one file.
Captures (pcapng): the Ethernet frames that were delivered on queues with devices, in the order of delivery."""

import itertools, re, struct
from typing import Iterable, Iterator, Optional

from .common import Script, cut, plain
from .svg import FILES, UNNAMED, escape
from .trace import StepLine, Trace, count_text

# What a step's line has: most are listed by these, without being taken apart.
NAME, MEMBER = b'"step":{"name":"', re.compile(rb'"[a-z_]+":')
MORE = re.compile(rb'"(?:passed":[1-9]|waits_for":)')
SPACED, INDENT = bytes.maketrans(b",", b" "), " " * 9
SOURCE = "\n(ntbsim --show, not proved; the answers are the report's own words)\n"
# The most bytes that a capture has of a frame, and the fewest of an Ethernet frame.
MOST, HEADER = 65535, 14


def shown_line(text: str) -> str:
    """A line or an answer, with its long payloads cut."""
    return plain(cut(text, 16, 12))


def numbered(script: Script) -> Iterator[tuple[int, str]]:
    return ((number, f"{number:5d}  {shown_line(line)}\n") for number, line in enumerate(script.lines, 1))


def listing(script: Script, trace: Trace) -> Iterator[str]:
    """The listing of a script with its trace, line by line."""
    if trace.refusal:
        yield from refused_listing(script, trace.refusal.line, trace.refusal.cause)
        return
    at = trace.first
    for number, line in numbered(script):
        yield line
        word = "".join(script.words(number)[:1])
        while trace.line_at(at) == number:
            yield f"{INDENT}{answer_text(trace, at, word)}\n"
            at += 1
    yield "\n"
    yield from (f"       {count_text(counts)}\n" for counts in trace.ending())
    yield f"       {'end' if trace.is_whole else '(the trace was cut off: it has no line `end`)'}\n{SOURCE}"


def answer_text(trace: Trace, at: int, word: str) -> str:
    """What stands under a line for a step: of a macro's step its name too, of a landing what it passed or waits for."""
    line = trace.lines[at]
    answer, more = line.index(b'"answer":') + 9, line.index(b',"made":')
    if MORE.search(line, more):
        step = trace.step(at)
        name, said = step.name, step.said + trace.more_of_landing(step)
    else:
        begins = line.index(NAME) + len(NAME)
        name = line[begins : line.index(b'"', begins)].decode()
        values = MEMBER.sub(b"", line[answer:more].replace(b'""', b"-").replace(b"null", b"-"))
        said = values.translate(SPACED, b'{}"').decode("latin-1")
    return shown_line(said) if name == word else f"{name:<6}  {shown_line(said)}"


def refused_listing(script: Script, last: int, cause: str) -> Iterator[str]:
    yield from (line for _, line in itertools.islice(numbered(script), last))
    yield f"{INDENT}refused: {cause}. No step of the script was made.\n{SOURCE}"


def listing_of_reads(script: Script, reply: list[str]) -> Iterator[str]:
    """The listing of a text of reads with the lines of its reply."""
    if reply and reply[-1].startswith("refused "):
        _, _, at, cause = reply[-1].split(" ")
        yield from refused_listing(script, int(at), cause)
        return
    answers = dict(line.split(" ", 1) for line in reply if line[:1].isdigit())
    for number, line in numbered(script):
        answer = answers.get(str(number))
        yield line if answer is None else f"{line}{INDENT}{shown_line(answer)}\n"
    yield f"\n       {'end' if reply[-1:] == ['end'] else '(the reply was cut off: it has no line `end`)'}\n{SOURCE}"


def page(script: Script, lines: Iterable[bytes], pair: str) -> Iterator[bytes]:
    """The page of a script with the lines of its trace as they come, with line feeds; of one pair, or of all."""
    titles = script.title() or [UNNAMED]
    pair, title, *more = [escape(text).replace('"', "&quot;") for text in [pair, *titles]]
    heading = "\n".join([f"<h1>{title}</h1>", *(f"<p>{text}</p>" for text in more)])
    filled = {"title": f"<title>{title}</title>", "heading": heading, "body": f'<body data-pair="{pair}">'}
    texts = {"script": (f"{line}\n".encode("latin-1") for line in script.lines), "trace": lines}
    parts = re.split("@(.+)@", (FILES / "page.html").read_text("latin-1"))
    for part, mark in itertools.zip_longest(parts[::2], parts[1::2], fillvalue=""):
        yield part.encode("latin-1")
        if mark.startswith("file "):
            yield (FILES / mark[5:]).read_bytes().removesuffix(b"\n")
        elif mark in texts:
            yield from (text.replace(b"&", b"&amp;").replace(b"<", b"&lt;") for text in texts[mark])
        else:
            yield filled.get(mark, "").encode("latin-1")


def devices_of(script: Script, pair: str) -> dict[tuple[str, str, Optional[int]], str]:
    """The devices of a script, or of one pair of it, by pair, side and queue. Without one a capture has no frame."""
    found = [words for words in script.declarations() if words[0] == "dev" and pair in ("", words[2])]
    return {(words[2], words[3], int(words[4])): words[1] for words in found}


def capture(script: Script, trace: Trace, pair: str) -> Iterator[bytes]:
    """The capture of a script that isn't refused, block by block, of all its pairs or of one. Side A sees each pair."""
    devices = devices_of(script, pair)
    interfaces = list(dict.fromkeys(name for name, _, _ in devices))
    yield block(0x0A0D0D0A, struct.pack("<IHHq", 0x1A2B3C4D, 1, 0, -1), option(4, "ntbsim"))
    for name in interfaces:
        yield block(1, struct.pack("<HHI", 1, 0, MOST), option(2, name), option(3, f"pair {name}, seen from side A"))
    for number, places in itertools.groupby(range(trace.first, len(trace.lines)), trace.line_at):
        for place, at in enumerate(places):
            if number and b'"answer":{"name":"frame"' in trace.lines[at]:
                step = trace.step(at)
                frame, device = bytes.fromhex(step.answer["frame"]), devices.get((step.pair, step.side, step.queue))
                if device is not None and len(frame) >= HEADER:
                    yield packet(step, device, interfaces.index(step.pair), place, frame)


def packet(step: StepLine, device: str, interface: int, place: int, frame: bytes) -> bytes:
    """A frame that a side got, at as many seconds as its line, and microseconds as its place there. Side A sees it."""
    time, (way, out) = step.line * 1000000 + place, ("A to B", 2) if step.side == "B" else ("B to A", 1)
    head = struct.pack("<IIIII", interface, time >> 32, time & 0xFFFFFFFF, min(len(frame), MOST), len(frame))
    about = option(1, f"line {step.line}, {step.pair} {way}, device {device}")
    return block(6, head + frame[:MOST], about, struct.pack("<HHI", 2, 4, out))


def option(code: int, text: str) -> bytes:
    return struct.pack("<HH", code, len(text)) + text.encode("latin-1")


def block(kind: int, *parts: bytes) -> bytes:
    """A block: its parts filled up to words of four, the end of its options, and its whole length at both ends."""
    body = b"".join(part + bytes(-len(part) % 4) for part in parts) + bytes(4)
    size = struct.pack("<I", len(body) + 12)
    return struct.pack("<I", kind) + size + body + size
