"""Conditions: what a script's comments say of the answers of its lines. docs/FORMATS.md has their grammar. A comment is
a condition, or an error, exactly if `=`, `!` or a letter stands right after its `#`."""

import itertools, re
from typing import Iterator, NamedTuple, NoReturn

from .common import Script, nearest
from .forms import CAUSES, COUNTS, READS, RUN, STEPS, STREAM, answers_of

Tokens = list[re.Match[str]]
LITMUS = ("always", "sometimes", "never")
KEYWORDS = (*LITMUS, "call")
NAME = re.compile(r"(?!(?:where|and|or|not)$)[a-z][a-z0-9]{0,15}")
NAMED = "a name has 1 to 16 small letters and digits, the first a letter, and is none of where, and, or, not"
HEAD, TOKEN = re.compile(r"#([=!]|[A-Za-z][^ ;]*)"), re.compile(r";|[^ ;]+")
SPACED = re.compile(r"# +(always|sometimes|never|call) +([^ ;]+)")
ANSWER_WORDS = {form.split()[0] for forms in (*STEPS.values(), *READS.values(), COUNTS, RUN, STREAM) for form in forms}
ABOVE, NO_STEP = "a condition stands directly above its line", "no line with a step stands directly below"
BEGINS = "a condition begins with #=, #!, #always, #sometimes, #never or #call; prose has a space after its #"
# What is said of words that stand in no answer, and of words that are no answer to compare.
HINTS = {
    "where": "where belongs to #always, #sometimes and #never, once in a part",
    "and": "and parts what stands behind where; ; parts conditions",
    "or": "; parts conditions, and all of them have to hold",
    "end": "the line end is never compared",
    "refused": "a refusal is compared by #= refused CAUSE alone, above the line that is refused",
}


class Wish(NamedTuple):
    """An answer as a condition writes it: its words. An open one ends with `..`: any words or none may follow."""

    words: tuple[str, ...]
    is_open: bool

    def fits(self, answer: str) -> bool:
        """Whether an answer is as this says."""
        words = tuple(answer.split(" "))
        return words[: len(self.words)] == self.words if self.is_open else words == self.words


# Any answer; in `#=` any number of answers.
ANY = Wish((), True)
# A condition: the line and column of its `#`, the word behind that, and the answers that it speaks of: of a line, of
# line 0, which is the counts, or in a command's text. All `#=` of a line are one; each other has one wish.
Condition = NamedTuple("Condition", [
    ("at", tuple[int, int]), ("kind", str), ("of", int), ("command", str),
    ("wishes", tuple[Wish, ...]), ("wheres", tuple[tuple[int, Wish], ...]), ("text", str),
])
# What stands below a comment: its line, or 0; its part of the script if it has answers, and their forms.
Place = NamedTuple("Place", [("line", int), ("part", str), ("forms", tuple[str, ...])])


class Fault(Exception):
    """What is wrong with a line: the column (from 1) and the length of the words, and a hint."""

    def __init__(self, line: int, column: int, length: int, what: str, hint: str) -> None:
        self.line, self.column, self.length, self.what, self.hint = line, column, length, what, hint


def bad(tokens: Tokens, what: str, hint: str = "") -> NoReturn:
    """Refuses words of a comment."""
    raise Fault(0, tokens[0].start() + 1, tokens[-1].end() - tokens[0].start(), f"condition: {what}", hint)


def comments_of(script: Script) -> Iterator[tuple[int, Place]]:
    """The lines of a script's comments, each with what stands below."""
    held, part = list[int](), "reads" if script.is_reads else "declarations"
    for number in range(1, len(script.lines) + 2):
        words = script.words(number)
        if words and words[0].startswith("#"):
            held.append(number)
            continue
        if number > len(script.lines):
            part = "counts"
        elif words in (["steps"], ["traffic"]) and part in ("declarations", "steps"):
            part = words[0]
        forms = answers_of(part, "".join(words[:1]))
        place = Place(number if words else 0, part if forms else "", forms)
        yield from ((each, place) for each in held)
        held = []


class Conditions:
    """The conditions of a script, `found`, and what is wrong with comments that are neither such nor prose."""

    def __init__(self, script: Script) -> None:
        self.faults, self.called, kept = list[Fault](), dict[str, Place](), dict[object, Condition]()
        # All names first, since a condition may name a later line.
        comments = sorted(comments_of(script), key=lambda each: not script.words(each[0])[0].startswith("#call"))
        for number, place in comments:
            try:
                for new in list(self.read(number, script.line(number).rstrip("\r"), place)):
                    key: object = (new.of, new.command) if new.kind == "=" else len(kept)
                    old = kept.get(key, new._replace(wishes=(), text=""))
                    text = "; ".join(filter(None, (old.text, new.text)))
                    kept[key] = old._replace(wishes=old.wishes + new.wishes, text=text)
            except Fault as fault:
                fault.line = number
                self.faults.append(fault)
        self.faults.sort(key=lambda fault: (fault.line, fault.column))
        self.found = list(kept.values())

    def read(self, number: int, text: str, place: Place) -> Iterator[Condition]:
        """Reads a comment: its conditions, or the name that it gives to the line below; prose has none."""
        at = text.index("#")
        head, spaced = HEAD.match(text, at), SPACED.match(text, at)
        if spaced and spaced[2] in ANSWER_WORDS:
            words = f"{spaced[1]} {spaced[2]}"
            bad([spaced], f"prose doesn't begin with {words}", f"a condition has no space after its #: #{words}")
        if not head:
            return
        word, tokens = head[1], list(TOKEN.finditer(text, head.end()))
        if word[0] not in "=!" and word not in KEYWORDS:
            near = nearest(word.lower(), KEYWORDS)
            bad([head], f"no condition begins with {head[0]}", f"did you mean #{near}? {BEGINS}" if near else BEGINS)
        if word != "call":
            yield from self.conditions(number, head, tokens, place)
            return
        name = " ".join(token[0] for token in tokens)
        if not NAME.fullmatch(name):
            bad(tokens or [head], "one name is wanted behind #call", NAMED)
        if name in self.called:
            bad(tokens, f"another line is called {name} already")
        if place.part not in ("steps", "reads"):
            bad([head, *tokens], NO_STEP, "#call names the line below it")
        self.called[name] = place

    def conditions(self, number: int, head: re.Match[str], tokens: Tokens, place: Place) -> Iterator[Condition]:
        """The conditions behind `#=`, `#!` or a keyword."""
        kind, is_litmus, command = head[1], head[1] in LITMUS, "run" if place.part == "traffic" else ""
        if is_litmus and place.part != "steps":
            bad([head], "a text of reads isn't explored" if place.part == "reads" else NO_STEP, ABOVE)
        if not place.line and place.part != "counts":
            bad([head], "it speaks of no line", ABOVE)
        if not tokens and kind != "=":
            bad([head], "it names no answer")
        parts = [list(part) for is_part, part in itertools.groupby(tokens, lambda token: token[0] != ";") if is_part]
        between = [token for token in tokens if token[0] == ";"]
        if between and len(parts) <= len(between):
            bad(between[:1], "an answer is missing beside ;")
        if command and any(part[0][0] in ("stream", "item") for part in parts):
            command = "stream"
        for group in [parts] if kind == "=" else [[part] for part in parts]:
            words = [[token[0] for token in part] for part in group]
            split = words[0].index("where") if is_litmus and "where" in words[0] else None
            if split == 0:
                bad(group[0][:1], "it names no answer before where")
            wishes = tuple(read_wish(part[:split], kind, place) for part in group)
            wheres = tuple(self.wheres(group[0][split:], kind)) if split else ()
            text = " ".join([kind] * is_litmus + ["; ".join(map(" ".join, words))])
            yield Condition((number, head.start() + 1), kind, place.line, command, wishes, wheres, text)

    def wheres(self, tokens: Tokens, kind: str) -> Iterator[tuple[int, Wish]]:
        """Reads `where NAME ANSWER`, and `and NAME ANSWER` behind it."""
        starts = [i for i, token in enumerate(tokens) if i == 0 or token[0] == "and"] + [len(tokens)]
        for begin, end in zip(starts, starts[1:]):
            if end - begin < 3:
                bad(tokens[begin:end], f"a name and its answer are wanted behind {tokens[begin][0]}")
            name = tokens[begin + 1][0]
            if name not in self.called:
                near, known = nearest(name, self.called), ", ".join(self.called)
                hint = f"did you mean {near}?" if near else f"called are: {known}" if known else "#call names a line"
                bad(tokens[begin + 1 : begin + 2], f"no line is called {name}", hint)
            place = self.called[name]
            yield place.line, read_wish(tokens[begin + 2 : end], kind, place)


def read_wish(tokens: Tokens, kind: str, place: Place) -> Wish:
    """Reads an answer, which has to be of a form that a step of the line can give; capitals in it are any word."""
    for token in tokens:
        word = token[0]
        if word in ("where", "and", "or", "not") or "(" in word or ")" in word:
            bad([token], f"{word} can't stand here", HINTS.get(word, HINTS["or"]))
        if word == ".." and token is not tokens[-1]:
            bad([token], "words stand behind ..", ".. stands at an answer's end, for any words or none")
    is_open = tokens[-1][0] == ".."
    words = tuple(token[0] for token in (tokens[:-1] if is_open else tokens))
    if not words and kind == "=":
        return ANY
    if not words:
        bad(tokens, "this says no answer", ".. alone is any number of answers, in #= alone")
    refusals = [["refused", cause] for cause in CAUSES] if kind == "=" and place.line else []
    forms = sorted([form.split(" ") for form in place.forms] + refusals)
    same = [[word == wanted or wanted.isupper() for word, wanted in zip(words, form)] + [False] for form in forms]
    most = max((each.index(False) for each in same), default=0)
    best = [form for form, each in zip(forms, same) if each.index(False) == most]
    if most == len(words) and any(is_open or kind == "!" or len(form) == most for form in best):
        return Wish(words, is_open)
    near = nearest("".join(words[most : most + 1]), [form[most] for form in best if len(form) > most])
    written = f"it is written {', or '.join(map(' '.join, best[:6]))}{', ..' * (len(best) > 6)}"
    hint = f"did you mean {near}?" if near else written if best else "this line has no step"
    so_far = " ".join(words[: most + 1])
    bad(tokens[most : most + 1] or tokens, f"no step of this line is answered {so_far}", HINTS.get(so_far, hint))
