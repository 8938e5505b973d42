"""Judges scripts by their conditions: whether each holds, what is said of it, and where it fails a counterexample.
Reports of many scripts: which are taken, how they are judged side by side, and what is printed of them."""

import concurrent.futures, itertools, json, os, re, time
from collections import Counter, defaultdict
from typing import Callable, Iterator, NamedTuple, Optional, Sequence
from xml.etree import ElementTree

from .common import Failure, Script, Status, brief, counted, environment, plain, read_script, shown_name, wrong
from .conditions import ANY, LITMUS, Condition, Conditions, Fault, Wish
from .explore import Exploration, Folder, example, explored, whole, witness
from .messages import fault_text, shown_fault
from .process import GREEN, RED, Program, paint
from .sessions import joined

REFUSED = re.compile(r"^(refused) line (\d+) (\w+)")
# A condition judged: what is said of it, the outcome that shows it, and of one that fails, this in lines. It `holds`,
# `fails`, or is `vacuous`: it speaks of no outcome, and has to speak of one.
Verdict = NamedTuple("Verdict", [
    ("condition", Condition), ("ruling", str), ("said", str), ("witness", Optional[int]), ("example", list[str]),
])


class Judged:
    """A script judged. `troubles` say why something can't be judged; `message` shows where, beside a report."""

    def __init__(self, script: Script, faults: list[Fault], troubles: list[tuple[Status, str]]) -> None:
        self.script, self.faults, self.troubles = script, faults, troubles
        self.verdicts, self.message, self.seconds = list[Verdict](), list[str](), 0.0
        self.exploration: Optional[Exploration] = None

    @property
    def unmet(self) -> list[Verdict]:
        """The verdicts on conditions that aren't met."""
        return [verdict for verdict in self.verdicts if verdict.ruling != "holds"]

    @property
    def told(self) -> list[str]:
        """The lines of the troubles and of the message."""
        return [text for _, text in self.troubles] + self.message

    @property
    def status(self) -> Status:
        """What the exit status of this script is."""
        found = Status.REFUSED if self.faults else Status.FAILS if self.unmet else Status.HOLDS
        return max([found, *(status for status, _ in self.troubles)])


class Answers:
    """What the program answers to a script: by line, the counts as line 0, and which line it refuses."""

    def __init__(self, program: Program, script: Script) -> None:
        self.program, self.script, self.texts = program, script, dict[str, list[str]]()
        self.by_line: dict[int, list[str]] = defaultdict(list)
        lines = self.text("reads" if script.is_reads else "replay")
        for text in lines:
            number, _, answer = REFUSED.sub(r"\2 \1 \3", text).partition(" ")
            self.by_line[int(number) if number.isdigit() else 0].append(answer if number.isdigit() else text)
        self.refused = max(self.by_line) if lines and REFUSED.match(lines[-1]) else 0

    def text(self, command: str) -> list[str]:
        """The lines of a command's answer, but for its end. The sessions of a run are joined."""
        if command not in self.texts:
            lines = whole(self.program, command, self.script.data)
            self.texts[command] = [text for text in (joined(lines) if command == "run" else lines) if text != "end"]
        return self.texts[command]

    def verdict(self, condition: Condition) -> Verdict:
        """The verdict on a condition `#=` or `#!`, by the answers that it speaks of."""
        is_text = condition.command and not self.refused
        came = self.text(condition.command) if is_text else self.by_line[condition.of]
        if condition.kind == "=":
            holds = are_wanted(condition.wishes, came)
            wished = "; ".join(map(brief, condition.text.split("; ")))
            some = [*map(brief, came[:6])] + [f"and {len(came) - 6} more"] * (len(came) > 6)
            said = f"wanted: {wished or 'no answer'}; came: {'; '.join(some) or 'no answer'}"
        else:
            found = list(filter(Wish(condition.wishes[0].words, True).fits, came))
            holds = not found
            said = f"not wanted: {brief(condition.text)}; came: {brief(found[0]) if found else 'no such answer'}"
        return Verdict(condition, "holds" if holds else "fails", said, None, [])


def are_wanted(wishes: Sequence[Wish], came: Sequence[str]) -> bool:
    """Whether answers are the wanted ones in order, where `..` alone stands for any number of them."""
    wishes = [wish for wish, before in zip(wishes, (None, *wishes)) if not wish == before == ANY]
    places = {0}
    for answer in came:
        places |= {place + 1 for place in places if wishes[place : place + 1] == [ANY]}
        fitting = (place for place in places if place < len(wishes) and wishes[place].fits(answer))
        places = {place if wishes[place] == ANY else place + 1 for place in fitting}
    return any(wishes[place:] in ([], [ANY]) for place in places)


def weighed(condition: Condition, found: Exploration, allow_vacuous: bool) -> Verdict:
    """The verdict on a litmus condition, by the outcomes of which it speaks: those that have it, and those without."""
    having: dict[bool, list[int]] = {True: [], False: []}
    for outcome in found.outcomes:
        if all(any(map(wish.fits, found.answers(outcome, line))) for line, wish in condition.wheres):
            has = any(map(condition.wishes[0].fits, found.answers(outcome, condition.of)))
            having[has].append(outcome.number)
    so, of = len(having[True]), len(having[True] + having[False])
    holds = {"always": so == of, "never": so == 0, "sometimes": so > 0}[condition.kind] if of else allow_vacuous
    ruling = "holds" if holds else "fails" if of else "vacuous"
    said = f"{brief(condition.text)}: in {so} of {of} outcomes"
    said += f" that are so, of {len(found.outcomes)}" if condition.wheres else ""
    shows = next(iter(having[condition.kind != "always"]), None)
    lines = example(found, found.outcomes[shows - 1], condition) if shows and ruling == "fails" else ()
    return Verdict(condition, ruling, said, shows, list(lines))


def judge(program: Program, script: Script, vacuous: bool = False, litmus_alone: bool = False,
          brute: Optional[Program] = None) -> Judged:
    """Judges the conditions of a script, or the litmus ones alone; they may be vacuous; `brute` explores instead."""
    begun, conditions = time.monotonic(), Conditions(script)
    judged = Judged(script, conditions.faults, [])
    direct = [each for each in conditions.found if each.kind not in LITMUS and not litmus_alone]
    litmus = [each for each in conditions.found if each.kind in LITMUS]
    try:
        if not litmus_alone:
            answers = Answers(program, script)
            judged.verdicts += [answers.verdict(each) for each in direct]
            line = answers.refused
            if line and not any(each.kind == "=" and each.of == line for each in direct):
                said = f"{script.name}:{line}: {answers.by_line[line][0]}, and no condition says so"
                judged.troubles.append((Status.REFUSED, said))
        if litmus or litmus_alone:
            judged.exploration = found = explored(brute or program, script)
            judged.verdicts += [weighed(each, found, vacuous) for each in litmus]
    except Failure as failure:
        judged.troubles.append((failure.status, f"{script.name}: {failure.message}"))
        for each in (direct + litmus)[len(judged.verdicts) :]:
            judged.verdicts.append(Verdict(each, "fails", f"{brief(each.text)}: it can't be judged", None, []))
    judged.verdicts.sort(key=lambda verdict: verdict.condition.at)
    judged.message += [line for fault in conditions.faults for line in shown_fault(script, fault)]
    if judged.status in (Status.FAILS, Status.REFUSED):
        judged.message += fault_text(script, program.reply("reads" if script.is_reads else "check", script.data).first)
    judged.seconds = time.monotonic() - begun
    return judged


def scripts_below(words: list[str], endings: tuple[str, ...]) -> list[str]:
    """The scripts that words name: of a folder those below it with one of these endings, sorted by their bytes."""
    found, unread = list[str](), list[OSError]()
    for word in words:
        if word != "-" and os.path.isdir(word):
            below = (os.path.join(at, name) for at, _, names in os.walk(word, onerror=unread.append) for name in names)
            scripts = (path for path in below if path.endswith(endings) and os.path.isfile(path))
            found += sorted(scripts, key=os.fsencode)
            if unread:
                raise environment(f"{shown_name(str(unread[0].filename))} can't be read: {unread[0].strerror}")
        elif word != "-" and not os.path.exists(word):
            raise environment(f"{shown_name(word)} is no file and no folder")
        elif word != "-" or word not in found:
            found.append(word)
    if not found:
        raise environment("there is no script below these folders")
    return found


def shard(scripts: list[str], text: str) -> list[str]:
    """Of scripts each N-th one from the I-th on, where the text is I/N."""
    found = re.fullmatch(r"([1-9][0-9]*)/([1-9][0-9]*)", text)
    if not found or int(found[1]) > int(found[2]):
        raise wrong(f"behind --shard is wanted I/N, where I is a number from 1 to N: {plain(text)}")
    return scripts[int(found[1]) - 1 :: int(found[2])]


def report(names: list[str], judging: Callable[[Script], Judged], write: Callable[[str], None],
           complain: Callable[[str], None], form: str = "plain", is_all: bool = False,
           folder: Optional[Folder] = None) -> Status:
    """Judges scripts, writes the report line by line, complains what isn't of it, and gives back the largest status."""
    sums = Counter(scripts=len(names), conditions=0, failed=0, status=0)
    workers = concurrent.futures.ThreadPoolExecutor(os.cpu_count())

    def judged(name: str) -> Judged:
        try:
            return judging(read_script(name))
        except Failure as failure:
            return Judged(Script(shown_name(name), b""), [], [(failure.status, failure.message)])

    def each() -> Iterator[Judged]:
        for found in workers.map(judged, names):
            for line in found.message:
                complain(line)
            for verdict in found.verdicts:
                if folder and verdict.witness and verdict.ruling == "fails":
                    text = witness_of(folder.program, found, verdict)
                    verdict.example.append(folder.keep(found.script, text, verdict.condition.at[0]))
            sums.update(conditions=len(found.verdicts), failed=found.status > 0)
            sums["status"] = max(sums["status"], found.status)
            yield found

    forms = {"json": json_lines(each(), sums), "junit": junit_lines(each())}
    try:
        for line in forms.get(form) or text_lines(each(), sums, is_all, form == "tap"):
            write(line)
    finally:
        workers.shutdown(wait=False, cancel_futures=True)
    return Status(sums["status"])


def witness_of(program: Program, judged: Judged, verdict: Verdict) -> str:
    """The script of the witness that shows what is so of a condition."""
    found = judged.exploration
    if found is None or not verdict.witness:
        raise Failure(Status.FAILS, f"no outcome of {judged.script.name} shows that: {verdict.said}")
    return witness(program, found, found.outcomes[verdict.witness - 1], verdict.condition)


def shown_witness(program: Program, script: Script, line: int, brute: Optional[Program] = None) -> str:
    """The script of the witness of a litmus condition at a line: one that fails, if there are several."""
    judged = judge(program, script, litmus_alone=True, brute=brute)
    if judged.exploration is None:
        raise Failure(judged.status, "\n".join(judged.told))
    there = [verdict for verdict in judged.verdicts if verdict.condition.at[0] == line]
    if not there:
        raise wrong(f"line {line} of {script.name} is no litmus condition")
    return witness_of(program, judged, min(there, key=lambda each: (each.witness is None, each.ruling == "holds")))


def text_lines(all_judged: Iterator[Judged], sums: Counter[str], is_all: bool, is_tap: bool) -> Iterator[str]:
    """The report for people, or that of the Test Anything Protocol. All verdicts are told, or those that aren't met."""
    yield from ("TAP version 13", f"1..{sums['scripts']}") if is_tap else ()
    for number, judged in enumerate(all_judged, 1):
        name, mark = judged.script.name, "# " * is_tap
        parts = [counted(len(judged.exploration.outcomes), "outcome")] if judged.exploration else []
        parts.append(counted(len(judged.verdicts), "condition"))
        parts += [f"{len(judged.unmet)} not met"] if judged.unmet else []
        parts += [f"{counted(len(judged.faults), 'comment')} not read"] if judged.faults else []
        if is_tap:
            skip = "" if judged.verdicts or judged.status else " # SKIP it has no condition"
            begin = f"{'not ok' if judged.status else 'ok'} {number} - " + re.sub(r"([\\#])", r"\\\1", name)
        else:
            skip, begin = "", f"{paint('failed', RED) if judged.status else paint('ok', GREEN)} {name}"
        yield f"{begin}: {', '.join(parts)}{skip}"
        for verdict in judged.verdicts if is_all else judged.unmet:
            ruling = f"{verdict.ruling}: " if verdict.condition.kind in LITMUS else ""
            yield f"{mark}{name}:{verdict.condition.at[0]}: {ruling}{verdict.said}"
            yield from (f"{mark}    {text}" for text in verdict.example)
        yield from (f"{mark}{text}" for _, text in judged.troubles)
    counts = (sums["scripts"], "script"), (sums["conditions"], "condition"), (sums["failed"], "script")
    yield from () if is_tap else [", ".join(itertools.starmap(counted, counts)) + " failed"]


def json_lines(all_judged: Iterator[Judged], sums: Counter[str]) -> Iterator[str]:
    """A JSON object for each script, and one with the sums."""
    for judged in all_judged:
        verdicts = [
            {"line": of.at[0], "column": of.at[1], "kind": of.kind, "text": plain(of.text)}
            | {"verdict": each.ruling, "said": each.said, "witness": each.witness, "example": each.example}
            for each, of in ((verdict, verdict.condition) for verdict in judged.verdicts)
        ]
        outcomes = len(judged.exploration.outcomes) if judged.exploration else None
        members = {"script": judged.script.name, "status": judged.status, "verdicts": verdicts, "outcomes": outcomes}
        yield json.dumps({**members, "messages": judged.told, "seconds": round(judged.seconds, 3)}, ensure_ascii=False)
    yield json.dumps(sums)


def junit_lines(all_judged: Iterator[Judged]) -> Iterator[str]:
    """The report as JUnit has it: a suite a script, a case a condition, and one for what can't be judged."""
    yield from ('<?xml version="1.0" encoding="UTF-8"?>', "<testsuites>")
    for judged in all_judged:
        name, errors = judged.script.name, int(judged.status > Status.FAILS)
        suite = ElementTree.Element("testsuite", name=name, errors=f"{errors}", time=f"{judged.seconds:.3f}")
        suite.attrib.update(tests=f"{len(judged.verdicts) + errors}", failures=f"{len(judged.unmet)}")
        for verdict in judged.verdicts:
            text = f"{verdict.condition.at[0]}: {plain(verdict.condition.text)}"
            case = ElementTree.SubElement(suite, "testcase", classname=name, name=text)
            if verdict.ruling != "holds":
                ElementTree.SubElement(case, "failure", message=verdict.said).text = "\n".join(verdict.example)
        if errors:
            case = ElementTree.SubElement(suite, "testcase", classname=name, name="it can be judged")
            ElementTree.SubElement(case, "error", message=judged.told[0]).text = "\n".join(judged.told)
        yield ElementTree.tostring(suite, encoding="unicode")
    yield "</testsuites>"
