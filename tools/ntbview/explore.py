"""Explorations: the outcomes that a script can have, read from the text of `explore`, and their witnesses: the landings
that lead to an outcome, told in lines, or as a script of single steps that is replayed."""

import itertools, os, shlex, sys
from collections import Counter, defaultdict
from typing import Iterator, NamedTuple

from .common import CONDITION, STANDARD_INPUT, TOO_LONG, Failure, Script, Status, brief, environment, shown_name, wrong
from .conditions import ANY, Condition, Wish
from .draw import Choice, picture
from .process import Program
from .trace import Trace, words_in

# A search outside the program, which finds the same outcomes.
BRUTE = Program((sys.executable, "-I", os.path.abspath(os.path.join(__file__, "../../explore-brute"))))
WHY = {Status.LONG: TOO_LONG, Status.STATES: "more than 1,000,000 states can be reached"}
# An outcome: by line the answers that not all outcomes have, and by line and step the landings of its witness.
Outcome = NamedTuple("Outcome", [
    ("number", int), ("answers", dict[int, list[str]]), ("landings", dict[tuple[int, int], list[str]]),
])


class Exploration(NamedTuple):
    """The outcomes of a script, and by line the answers that all of them have."""

    script: Script
    outcomes: list[Outcome]
    always: dict[int, list[str]]

    def answers(self, outcome: Outcome, line: int) -> list[str]:
        """The answers of a line's steps in an outcome: first those that all outcomes have."""
        return self.always.get(line, []) + outcome.answers.get(line, [])

    def told_place(self, line: int, place: int) -> str:
        """Which step of a script's line it is."""
        many = len(self.answers(self.outcomes[0], line))
        return f"line {line}, step {place} of {many}" if many > 1 else f"line {line}"


def whole(program: Program, command: str, script: bytes) -> list[str]:
    """The lines of an answer that has its end, or of a refusal."""
    reply = program.reply(command, script)
    if reply.status in WHY:
        raise Failure(Status(reply.status), WHY[Status(reply.status)])
    lines = reply.text.decode("latin-1").split("\n")
    if reply.status == Status.WORDS or reply.status != Status.REFUSED and lines[-2:] != ["end", ""]:
        raise environment(f"this program writes no whole answer to the command {command}")
    return lines[:-1]


def explored(program: Program, script: Script) -> Exploration:
    """The exploration of a script."""
    if script.is_reads:
        raise wrong("a text of reads has no schedules: wanted are scripts")
    lines, found = whole(program, "explore", script.data), Exploration(script, [], defaultdict(list))
    if lines[-1] != "end":
        raise Failure(Status.REFUSED, "the script is refused, so it has no outcomes")
    for text in lines[1:-1]:
        first, _, rest = text.partition(" ")
        if first == "outcome":
            found.outcomes.append(Outcome(int(rest), defaultdict(list), defaultdict(list)))
        elif first == "by":
            line, place, step = rest.split(" ", 2)
            found.outcomes[-1].landings[int(line), int(place)].append(step)
        else:
            line, _, answer = (rest if first == "always" else text).partition(" ")
            (found.always if first == "always" else found.outcomes[-1].answers)[int(line)].append(answer)
    return found


def witness(program: Program, found: Exploration, outcome: Outcome, condition: Condition) -> str:
    """The script of an outcome's witness, proved to be one. What it shows of a condition has a condition above it."""
    script, made = found.script, list(steps_of(program, found, outcome))
    head = [*map(" ".join, script.declarations()), "steps"]
    text = "\n".join(["ntb 1", *head, *(step for _, _, step in made), ""]).encode("latin-1")
    lines = (line.partition(" ") for line in whole(program, "replay", text))
    answers = [answer for number, _, answer in lines if number.isdigit()]
    every = {*found.always, *outcome.answers}
    wanted = Counter((line, answer) for line in every for answer in found.answers(outcome, line))
    came = ((line, answer) for (line, _, _), answer in zip(made, answers))
    if Counter((line, answer) for line, answer in came if line or not answer.startswith("landed ")) != wanted:
        raise environment(f"the witness of outcome {outcome.number} of {script.name} isn't one")
    of = f"outcome {outcome.number} of {len(found.outcomes)} of {script.name}"
    so = "is so" if condition.kind == "sometimes" else "fails"
    title = f"# The witness of {of}: further landings are in it.\n# It shows that this {so}: {brief(condition.text)}."
    steps = ["ntb 1", title, *head]
    for (line, above, step), answer in zip(made, answers):
        is_shown = any(line == of and wish.fits(answer) for of, wish in shown(condition))
        steps += [*above, *[f"#= {answer}"] * is_shown, step]
    return "\n".join([*steps, ""])


def steps_of(program: Program, found: Exploration, outcome: Outcome) -> Iterator[tuple[int, list[str], str]]:
    """The steps of a script and the further landings of an outcome: the line or 0, comments above, and its text."""
    script, places = found.script, Counter[int]()
    trace = Trace(program.reply("trace", script.data).text.splitlines())
    for at in itertools.takewhile(trace.line_at, itertools.count(trace.first)):
        step = trace.step(at)
        line, words = step.line, script.words(step.line)
        places[line] += 1
        for text in outcome.landings.get((line, places[line]), []):
            yield 0, ["# A further landing.", "#= landed .."], text
        above = map(script.line, range(line - 1, 0, -1) if places[line] == 1 else ())
        comments = itertools.takewhile(lambda text: text.startswith("#"), (text.strip(" \r") for text in above))
        prose = [text for text in comments if not CONDITION.match(text)][::-1]
        has_words = words[0] == step.name or "device" in step.step
        text = " ".join([step.name, *words[1:]]) if has_words else words_in(step.step)
        yield line, [*prose, f"# From {found.told_place(line, places[line])}."], text


def shown(condition: Condition) -> list[tuple[int, Wish]]:
    """The lines whose answers show what is so of a condition, and which of these: of `always` all of its own line."""
    return [*condition.wheres, (condition.of, ANY if condition.kind == "always" else condition.wishes[0])]


def example(found: Exploration, outcome: Outcome, condition: Condition) -> Iterator[str]:
    """What an outcome shows of a condition, in lines: its further landings, the answers, and how to draw it."""
    for (line, place), texts in outcome.landings.items():
        yield from (f"before {found.told_place(line, place)}, a write lands: {text}" for text in texts)
    for line, wish in shown(condition):
        yield f"line {line}: {brief('; '.join(filter(wish.fits, found.answers(outcome, line))))}"
    name = found.script.name
    name = "-" if name == STANDARD_INPUT else "./" * name.startswith("-") + name
    word = "$'" + name.replace("'", "\\'") + "'" if "\\" in name else shlex.quote(name)
    yield f"./ntbsim --explore --witness {condition.at[0]} {word} > w.ntb && ./ntbsim --draw w.ntb > w.svg"


class Folder:
    """A folder for witnesses and their pictures. What this run didn't write is never written over."""

    def __init__(self, program: Program, path: str) -> None:
        self.program, self.path, self.taken = program, path, Counter[str]()

    def keep(self, script: Script, text: str, line: int) -> str:
        """Writes the witness of the condition at a line, and its picture, and says where they are."""
        base = f"{os.path.basename(script.name).removesuffix('.ntb')}.{line}"
        self.taken[base] += 1
        base += f"-{self.taken[base]}" * (self.taken[base] > 1)
        data, told = text.encode("latin-1"), list[str]()
        trace = Trace(self.program.reply("trace", data).text.splitlines())
        drawn = picture(Script(f"{base}.ntb", data), trace, Choice()).encode("latin-1")
        for name, content in ((f"{base}.ntb", data), (f"{base}.svg", drawn)):
            path = os.path.join(os.fsencode(self.path), name.encode("latin-1"))
            told.append(shown_name(os.fsdecode(path)))
            try:
                os.makedirs(self.path, exist_ok=True)
                with open(path, "xb") as output:
                    output.write(content)
            except OSError as error:
                raise environment(f"{told[-1]} can't be written: {error.strerror}") from None
        return f"witness: {', '.join(told)}"
