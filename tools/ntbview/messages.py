"""Messages of refused scripts, with what was wanted at the word at fault, and checks, which tell each faulty line.
Line, word, cause and range are the program's own. The hints come from the table of forms and from what the script
declares before that line, and decide nothing."""

import itertools, re
from typing import NamedTuple

from .common import TOO_LONG, UNPRINTED, Script, Status, nearest, shortened, words_of
from .conditions import Fault
from .forms import FORMS, OPTIONS, WRITTEN
from .process import Program

PARTS, MOST_TOLD, MOST_ASKED = ("steps", "traffic"), 20, 100
WORD, ZERO_X = re.compile(r"[^ ]+"), re.compile(r"(.*=)?0[xX]")
# What a first word declares, and what a word of a form names.
NOUNS = {"host": "host", "pair": "pair", "dev": "device", "switch": "switch", "P": "pair", "S": "side", "Q": "queue"}
NOUNS.update({word: word.lower() for word in ("HOST", "PAIR", "SWITCH", "SIDE", "QUEUE", "WINDOW", "PORT")})
NOUNS.update({"DEV": "device", "DEV..": "device"})
# What is said of a cause: at a noun or a word of a form, in lines with a first word, or of the cause alone, `*`. The
# first of these that stands here is taken. In the place of `{pair}` comes which line declares the pair.
DIGITS = "in decimal digits without a leading zero"
SLOT = "no slot takes such a frame, or the ring has more than 65535 entries; {pair}"
MANY = {"host": "hosts", "pair": "pairs", "dev": "devices", "switch": "switches"}
MANY.update({"frame": "traffic", "flood": "traffic", "*": "steps, or a frame, a poke or the traffic no more bytes"})
SAYINGS = {
    "nottext *": "a line has printed characters and spaces alone; a comment may have other bytes",
    "badheader *": "the first line of a script is: ntb 1",
    "badline *": "the first line of a text of reads is: reads 1",
    "badnumber showmem 5": "AT and LEN are together at most the bytes of the side's memory; {pair}",
    "badnumber poke 6": "OFFSET and the bytes are together at most what reaches the peer's memory; {pair}",
    "badnumber OPTION..": f"behind the equals sign a number is wanted, {DIGITS}",
    "badnumber *": f"a number below 4294967296 is wanted here, {DIGITS}",
    "badname side": "a side is wanted here: A or B",
    "badname *": "a name is wanted here: 1 to 16 small letters and digits, the first a letter",
    "repeated pair": "a pair joins two hosts that differ",
    "repeated dev": "a queue of a side has one device",
    "repeated class": "a queue of a side has one class",
    "badhex ADDRESS": "12 hexadecimal digits are wanted here",
    "badhex KIND": "4 hexadecimal digits are wanted here",
    "badhex *": "two hexadecimal digits are wanted here for each byte",
    "badgeometry pair": "the numbers of the two sides don't go together: docs/FORMATS.md, Declarations",
    "badgeometry dev": "the number behind start= is at least that behind stop=",
    **dict.fromkeys(("badgeometry frame", "badgeometry flood"), SLOT),
    "badpair poke": "bytes are written past the transport on a pair that is declared raw; {pair}",
    "badpair spad": "scratchpads below 12 are written on a pair that is declared raw; {pair}",
    "badpair *": "a pair with traffic isn't raw, and its sides go together; {pair}",
    "badswitch *": "the devices of a switch are all on sides of one host",
    **{f"toomany {word}": f"a script has no more {many}: docs/FORMATS.md, Limits" for word, many in MANY.items()},
}
# What a check came to: the program's status at the whole script, and the lines to print.
Checked = NamedTuple("Checked", [("status", Status), ("lines", "list[str]")])


def fault_text(script: Script, check_answer: str) -> list[str]:
    """What there is to say of a script that `check` or `reads` answered so; nothing where it wasn't refused."""
    if check_answer == "too long":
        return [f"{script.name}: {TOO_LONG}"]
    return Refused(script, check_answer).message() if check_answer.startswith("refused") else []


def shown_fault(script: Script, fault: Fault) -> list[str]:
    """A fault as a compiler shows it: the place, the line or the part of a long one, carets, and the hint."""
    text, most, column = script.line(fault.line).removesuffix("\r"), 100, fault.column
    lines = [f"{script.name}:{fault.line}:{column}: {fault.what}"]
    if fault.length:
        is_far = len(text) > most and column + fault.length > most - 2 and column > 20
        first, front = (column - 18, "..") if is_far else (1, "")
        line = shortened(front + UNPRINTED.sub("?", text[first - 1 : first + most]), most)
        column += len(front) + 1 - first
        lines += ["    " + line, "    " + " " * (column - 1) + "^" * min(fault.length, len(line) + 1 - column)]
    return lines + [fault.hint] * (fault.hint != "")


class Refused:
    """A refused line, with what the script declares before it. Words count from 1; word 0 is the line as a whole."""

    def __init__(self, script: Script, answer: str) -> None:
        says = answer.split()
        at = 5 if says[3] == "word" else 3
        self.script, self.line, self.place = script, int(says[2]), int(says[4]) if at == 5 else 0
        self.cause, self.range = says[at], says[at + 1 : at + 3]
        self.text = script.line(self.line).removesuffix("\r")
        found = list(itertools.islice(WORD.finditer(self.text), 64))
        self.words = ["", *(word[0] for word in found)]
        # The word that it should begin with: its own where that begins any line.
        self.first = "".join(self.words[1:2])
        is_known = any(self.first in written for written in WRITTEN.values())
        self.head = self.first if is_known else nearest(self.first, WRITTEN["declarations"]) or ""
        self.columns = [word.start() + 1 for word in [*found[:1], *found]] or [1]
        self.part = "reads" if self.cause == "badline" else "declarations"
        self.began, self.declarations = dict[str, int](), dict[int, list[str]]()
        for number, line in enumerate(script.lines[: self.line - 1], 1):
            words = words_of(line) if self.part == "declarations" or "traffic" in line else []
            if words[:1] in (["steps"], ["traffic"]):
                self.part = words[0]
                self.began[self.part] = number
            elif words and self.part == "declarations" and not words[0].startswith("#"):
                self.declarations[number] = words
        # The words of the form that the line is of. The last one may stand for several, or for none.
        self.form = [""] * (2 * len(self.words) + 1)
        for form in (["", *form.split()] for form in FORMS[self.part]):
            more = len(self.words) - len(form)
            if form[1:2] == self.words[1:2] and (more >= -1 if form[-1].endswith("..") else more == 0):
                self.form = form + form[-1:] * more + self.form
                break
        # What each word names: a declared name is one of what the line's first word declares.
        self.nouns = [NOUNS.get(self.words[1] if form == "NAME" else form, "") for form in self.form]
        self.word, self.noun = self.words[self.place], self.nouns[self.place]

    def message(self) -> list[str]:
        stands = self.word if self.place else self.text.strip(" ")[:200].rstrip(" ")
        what = shortened(UNPRINTED.sub("?", stands), 60) or "nothing stands here"
        place = (self.line, self.columns[self.place], len(stands))
        return shown_fault(self.script, Fault(*place, f"{self.cause}: {what}", self.hint()))

    def hint(self) -> str:
        if self.cause == "unknownword" or self.cause == "badline" and self.line > 1:
            return self.option_hint() if self.place > 1 else self.line_hint()
        hint = {"unknownname": self.name_hint, "repeated": self.once_hint}.get(self.cause, self.said)()
        if self.cause in ("badhex", "badnumber") and ZERO_X.match(self.word):
            hint += ", without 0x"
        strange = UNPRINTED.search(self.text)
        if self.cause == "badhex":
            hint += "; this is one character" if len(self.word) == 1 else f"; these are {len(self.word)} characters"
        elif self.cause == "nottext" and strange:
            hint += f"; column {strange.start() + 1} has {'a tab' if strange[0] == chr(9) else 'another byte'}"
        return hint

    def named(self, noun: str, before: int) -> str:
        """The name in the line that is of a kind, before a place."""
        return [self.words[1], *(word for word, of in zip(self.words[2:before], self.nouns[2:]) if of == noun)][-1]

    def declared(self, noun: str) -> dict[str, int]:
        return {words[1]: line for line, words in self.declarations.items() if NOUNS.get(words[0]) == noun}

    def declares(self, noun: str, name: str) -> str:
        line = self.declared(noun)[name]
        text = self.script.line(line).removesuffix("\r").lstrip(" ")
        return f"line {line} declares {name}: {shortened(text, 60)}"

    def said(self) -> str:
        """What is said of the cause here: the range of a number, or what the table of sayings has."""
        if len(self.range) == 2:
            steps = ", in steps of 4096," * (self.cause == "badgeometry" and self.word.startswith(("size", "cap")))
            digits = f", {DIGITS}" * (self.cause == "badnumber")
            return f"a number from {self.range[0]} to {self.range[1]}{steps} is wanted here{digits}"
        places = [f"{self.first} {self.place}", self.noun, self.form[self.place]] if self.place else [self.first]
        keys = (f"{self.cause} {place}" for place in [*places, "*"])
        said = next((SAYINGS[key] for key in keys if key in SAYINGS), "")
        return said.replace("{pair}", self.declares("pair", self.named("pair", 64))) if "{" in said else said

    def line_hint(self) -> str:
        """Of a line that is of no form of its part: the forms of its first word or of a near one, or its own part."""
        first, part, written = self.words[1], self.part, WRITTEN[self.part]
        home = next((part for part in WRITTEN if first in WRITTEN[part]), "reads")
        if first in written and part == "reads":
            return f"this is written: {written[first]}; docs/FORMATS.md, A text of reads, has the ranges"
        if first in written:
            hint = f"this is written: {written[first]}"
        elif "reads" in (home, part):
            near, small = nearest(first, written), "; words are small letters" * (first != first.lower())
            hint = f"no line of the {part} begins so"
            hint += f"{small}; did you mean {near}? It is written: {written[near]}" if near else ""
        elif first in self.began:
            hint = f"line {self.began[first]} begins the {first} already"
        elif home == "declarations" or part == "traffic":
            hint = f"{first} stands among the {home}, and line {self.began[part]} begins the {part}"
        else:
            hint = f"{first} stands among the {home}, after a line: {home}"
        return hint + "; a comment is a line of its own" * (" #" in self.text)

    def option_hint(self) -> str:
        if self.form[self.place] != "OPTION..":
            return f"{self.form[self.place]} is wanted here"
        key, keys = self.word.split("=")[0], {option.split("=")[0]: option for option in OPTIONS}
        near, small = nearest(key, keys), "; words are small letters" * (key != key.lower())
        if not near:
            return f"an option of a pair is wanted here: {', '.join(OPTIONS)}"
        return f"no option of a pair is written so{small}; did you mean {keys[near]}?"

    def name_hint(self) -> str:
        """Of a name that isn't declared, or a queue, a window or a port that isn't there."""
        noun, word, declared = self.noun, self.word, self.declared(self.noun)
        if noun in ("queue", "window", "port"):
            of = "switch" if noun == "port" else "pair"
            name = self.named(of, self.place)
            where = {"queue": f" on side {self.words[self.place - 1]}", "window": " on both sides"}.get(noun, "")
            return f"{of} {name} has no {noun} {word}{where}; {noun}s count from 0, and {self.declares(of, name)}"
        if word in declared:
            return f"{noun} {word} is no port of a switch; {self.declares(noun, word)}"
        for other in ("host", "pair", "device", "switch"):
            if word in self.declared(other):
                return f"no {noun} is called {word}, but a {other} is; {self.declares(other, word)}"
        near = nearest(word, declared)
        these = f"these are declared: {shortened(', '.join(declared), 60)}" if declared else "none is declared yet"
        these = f"did you mean {near}? {self.declares(noun, near)}" if near else these
        return f"no {noun} is called {word}; {these}"

    def once_hint(self) -> str:
        """Where the first of two stands: of a name, an option, a port, or of a queue's device or class."""
        place, words = self.place, self.words
        if place == 2:
            return f"this name is declared already; {self.declares(self.noun, self.word)}"
        for at in range(3, place):
            if words[at].split("=")[0] == self.word.split("=")[0]:
                return f"the first one stands in column {self.columns[at]}: {words[at]}"
        same = [at for at in range(2, len(words)) if self.nouns[at] in ("pair", "side", "queue")]
        for line, others in self.declarations.items():
            is_alike = others[0] == words[1] != "pair"
            if is_alike and (self.word in others[2:] if place else all(others[at - 1] == words[at] for at in same)):
                what, text = "this device is a port already" if place else self.said(), self.script.line(line)
                return f"{what}; line {line} has the first one: {shortened(text.removesuffix(chr(13)), 60)}"
        return self.said()

    def follows_from(self) -> tuple[str, str]:
        """What a fault follows from where that is lost: a name with its kind, or a part that hasn't begun."""
        if self.cause == "unknownname":
            return self.noun, self.word
        is_strange = self.cause == "unknownword" and self.place == 1 and self.word not in WRITTEN[self.part]
        part = next((part for part in PARTS if is_strange and self.word in WRITTEN[part]), "")
        return ("part", part) if part and part not in self.began else ("", "")

    def lost(self) -> set[tuple[str, str]]:
        """What is lost with the line, by the word that it should begin with: its name, ports, a part not begun."""
        noun, of = NOUNS.get(self.head, ""), self.follows_from()
        has_name = noun and (self.cause, self.place) != ("badname", 2)
        lost = {(noun, name) for name in self.words[2:3] if has_name and name not in self.declared(noun)}
        lost |= {("device", port) for port in self.words[3:] if noun == "switch" and port in self.declared("device")}
        return lost | {of} if of[0] == "part" else lost

    def without(self, is_alike: bool) -> Script:
        """The script with the line made a comment, or the line that begins a part if it should have begun one; where
        `is_alike`, steps and traffic that are alike up to the word at fault become comments too."""
        lines = list(self.script.lines)
        begins = self.head in PARTS and self.head not in self.began and self.part in ("declarations", "steps")
        lines[self.line - 1] = self.head if begins else "#"
        if is_alike and self.part in PARTS:
            alike = re.compile(" *" + " +".join(map(re.escape, self.words[1 : self.place + 1])) + "(?![^ \r])")
            lines[self.line :] = ["#" if alike.match(line) else line for line in lines[self.line :]]
        return Script(self.script.name, ("\n".join(lines) + "\n" * self.script.data.endswith(b"\n")).encode("latin-1"))


def check(program: Program, script: Script) -> Checked:
    """Checks a script. Of one with faults the program is asked again without the lines that were found to be faulty."""
    command = "reads" if script.is_reads else "check"
    reply = program.reply(command, script.data)
    if reply.status != Status.REFUSED:
        said = f"ok steps {reply.text.count(10) - 1}" if script.is_reads else reply.first
        return Checked(Status(reply.status), fault_text(script, reply.first) or [f"{script.name}: {said}"])
    lines, lost, told, left, asked = list[str](), set[tuple[str, str]](), 0, script, 0
    while reply.status == Status.REFUSED and told < MOST_TOLD and asked < MOST_ASKED:
        fault = Refused(left, reply.first)
        is_told = fault.follows_from() not in lost
        lines, told = lines + (fault.message() if is_told else []), told + is_told
        if fault.line == 1:
            return Checked(Status.REFUSED, lines)
        lost, left = lost | fault.lost(), fault.without(not is_told)
        reply, asked = program.reply(command, left.data), asked + 1
    if reply.status == Status.REFUSED:
        lines.append(f"{told} faulty {'line is' if told == 1 else 'lines are'} told; there may be more")
    return Checked(Status.REFUSED, lines)
