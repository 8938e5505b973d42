"""What all tools share: exit statuses, the failures that end with one of them, texts that a terminal, a picture or a
log can show, and scripts. Texts of scripts and answers have one character for each byte."""

import enum, functools, itertools, os, re, sys
from typing import Collection, Iterator, Optional

# One byte more than a script may have: the program says that this is too long.
MOST_READ, TOO_LONG = (1 << 24) + 1, "too long: a script has at most 16,777,216 bytes"
STANDARD_INPUT = "standard input"
UNPRINTED, PARAGRAPH, CONDITION = re.compile(r"[^ -~]"), re.compile(r"(Question|Result):"), re.compile(r"#[=!A-Za-z]")


class Status(enum.IntEnum):
    """What the exit status of a command says. Of several files the largest counts."""

    HOLDS, FAILS, WORDS, REFUSED, MEMORY, LONG, STATES, ENVIRONMENT = 0, 1, 2, 3, 6, 7, 8, 9


class Failure(Exception):
    """Ends the command with a status, and a sentence on standard error."""

    def __init__(self, status: Status, message: str) -> None:
        super().__init__(message)
        self.status, self.message = status, message


# The failures of words that are no command, and of what a command needs and doesn't find: a file, the program, room.
wrong, environment = functools.partial(Failure, Status.WORDS), functools.partial(Failure, Status.ENVIRONMENT)


def plain(text: str) -> str:
    """A line without what a terminal or a picture can't show."""
    text = text.removesuffix("\r")
    return UNPRINTED.sub("?", text[:400]) if UNPRINTED.search(text) else text


def cut(text: str, most: int, few: int) -> str:
    """A text in which each payload of more bytes than `most` shows its first `few` alone."""
    if len(text) <= 2 * most:
        return text
    payload = f"[0-9A-Fa-f]{{{2 * most + 1},}}"
    return re.sub(payload, lambda found: f"{found[0][:2 * few]}..({len(found[0]) // 2} bytes)", text)


def shortened(text: str, most: int) -> str:
    """A text of at most this many characters."""
    return text if len(text) <= most else text[: most - 2] + ".."


def brief(text: str) -> str:
    """A text of which a terminal can show all, and not too much."""
    text = UNPRINTED.sub("?", text)
    return text if len(text) <= 100 else f"{text[:90]}.. ({len(text)} letters)"


def shown_name(name: str, most: int = sys.maxsize) -> str:
    """A file's name as a terminal can show it, or so much of it: what isn't printed is escaped, as in `\\xff`."""
    raw = os.fsencode(name)
    text = raw.decode("utf-8", "backslashreplace")
    encoding = "latin-1" if text.isprintable() and "\\" not in text else "unicode_escape"
    return shortened(raw.decode("latin-1").encode(encoding).decode("latin-1"), most)


def counted(count: int, noun: str) -> str:
    """How many of something there are: `1 script`, `2 scripts`."""
    return f"{count} {noun}" if count == 1 else f"{count} {noun}s"


def distance(one: str, other: str) -> int:
    """How many letters have to be changed, added, taken away or exchanged with the next to make one text the other."""
    far = {(i, j): i + j for i in range(len(one) + 1) for j in range(len(other) + 1)}
    for i, j in itertools.product(range(1, len(one) + 1), range(1, len(other) + 1)):
        far[i, j] = min(far[i - 1, j] + 1, far[i, j - 1] + 1, far[i - 1, j - 1] + (one[i - 1] != other[j - 1]))
        if i > 1 and j > 1 and one[i - 2 : i] == other[j - 1] + other[j - 2]:
            far[i, j] = min(far[i, j], far[i - 2, j - 2] + 1)
    return far[len(one), len(other)]


def nearest(word: str, names: Collection[str]) -> Optional[str]:
    """The first name nearest to a word, or else to its small letters: at most two letters off, and two alike."""
    for spelled in (word[:40], word[:40].lower()):
        far = {name: distance(spelled, name) for name in names}
        near = [name for name in far if far[name] < min(3, len(name) - 1)]
        if near:
            return min(near, key=lambda name: far[name])
    return None


class Script:
    """The bytes of a script, or of a text of reads, with the name that it is shown by. Lines count from 1."""

    def __init__(self, name: str, data: bytes) -> None:
        self.name, self.data = name, data
        self.lines = data.decode("latin-1").removesuffix("\n").split("\n") if data else []
        self.is_reads = self.words(1)[:1] == ["reads"]

    def line(self, number: int) -> str:
        """The text of a line, and nothing past the last one."""
        return self.lines[number - 1] if 0 < number <= len(self.lines) else ""

    def words(self, number: int) -> list[str]:
        """The words of a line."""
        return words_of(self.line(number))

    def declarations(self) -> Iterator[list[str]]:
        """The words of each line before the steps and the traffic, comments left out."""
        for words in map(words_of, self.lines[1:]):
            if words[:1] in (["steps"], ["traffic"]):
                return
            if words and not words[0].startswith("#"):
                yield words

    def title(self) -> list[str]:
        """The question and the result, each as one paragraph of comments; without such the first comment."""
        return self.paragraphs(PARAGRAPH) or self.paragraphs(re.compile(r"[^=!]"))

    def paragraphs(self, begins: re.Pattern[str]) -> list[str]:
        """The first paragraphs of comments that begin so. One that is no question or result is one paragraph."""
        found: list[str] = []
        for line in (line.lstrip(" ") for line in self.lines[1:]):
            if found and not line.startswith("#"):
                break
            if not line.startswith("#") or CONDITION.match(line):
                continue
            text = plain(line[1:].lstrip(" "))
            if begins.match(text) and (not found or begins is PARAGRAPH):
                found.append(text)
            elif found:
                found[-1] += " " + text
        return found


def words_of(text: str) -> list[str]:
    """The words of a line."""
    return [word for word in text.removesuffix("\r").split(" ") if word]


def content(word: str, what: str, most: int = -1) -> bytes:
    """What a file has, or a pipe, or standard input where the word is `-`; this many bytes of it at most."""
    if word == "-" and sys.stdin is not None and sys.stdin.isatty():
        print(f"ntbsim: the {what} is read from this terminal, up to Ctrl-D", file=sys.stderr)
    try:
        with open(0 if word == "-" else word, "rb", closefd=word != "-") as source:
            return source.read(most)
    except OSError as error:
        name = STANDARD_INPUT if word == "-" else shown_name(word)
        raise environment(f"{name} can't be read: {error.strerror}") from None


def read_script(word: str) -> Script:
    """The script that a word names."""
    return Script(STANDARD_INPUT if word == "-" else shown_name(word), content(word, "script", MOST_READ))
