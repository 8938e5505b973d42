"""The command line: words become a command, a command calls the tools, and what fails becomes a status."""

import itertools, json, os, re, signal, sys
from typing import Any, Callable, Iterable, Optional, Union

from . import draw, listing, reads, sessions, words
from .common import TOO_LONG, Failure, Script, Status, content, environment, nearest, read_script, shown_name, wrong
from .messages import check, fault_text
from .process import SETTINGS, chosen_program, end_by, flush, note, progress, stop_all, tell, write
from .trace import REFUSED, Trace

# What the door is told of words that are right where no program stands yet.
NEEDS_PROGRAM = 10
# The commands that show one script with what the program said of it.
VIEWS = ("--show", "--draw", "--page", "--pcap")
FAULT = re.compile(r"refused line (?P<line>\d+) word (?P<word>\d+) (?P<cause>[a-z]+)( (?P<least>\d+) (?P<most>\d+))?")
CHOICE = re.compile(r"lines=(?P<first>\d{1,9})-(?P<last>\d{1,9})|queue=(?P<queue>\d{1,9})|(?P<pair>[a-z0-9]+)", re.A)
Given = dict[str, Any]


def parsed(command: words.Command, given: list[str]) -> tuple[Given, list[str]]:
    """The options of a command, and its other words. Behind `--` each word is one of these."""
    takes = dict(option.partition(" ")[::2] for option in command.options if option.startswith("--"))
    options: Given = {name[2:]: "" if value else False for name, value in takes.items()}
    rest, left, usage = list[str](), iter(given), wrong(f"this is written: ntbsim {command.form}")
    for word in left:
        name, is_joined, value = word.partition("=")
        if word == "--":
            rest += left
        elif word == "-" or word[:1] != "-":
            rest.append(word)
        elif name in takes:
            value = next(left, "") if takes[name] and not is_joined else value
            if bool(value) != bool(takes[name]) or value.startswith("--"):
                raise usage
            options[name[2:]] = value or True
        else:
            near = nearest(name, takes)
            hint = f"did you mean {near}?" if near else f"a file of this name is written ./{shown_name(word, 60)}"
            raise wrong(f"{command.name} takes no option {shown_name(word, 60)}; {hint}")
    is_long = len(rest) > 1 and command.takes != "FILE.." and "PAIR" not in command.options
    if is_long or not rest and command.takes != "[FILE]":
        raise usage
    return options, rest


def chosen(command: words.Command, given: list[str]) -> Given:
    """What the words behind a file choose: a pair, and of a picture the lines and the queue."""
    found: Given = {}
    for word in given:
        match = CHOICE.fullmatch(word)
        if not match or not match["pair"] and command.name != "--draw":
            forms = ", ".join(option for option in command.options if option[0] != "-")
            raise wrong(f"{shown_name(word, 60)} isn't known: behind FILE is wanted {forms}")
        new = {name: value if name == "pair" else int(value) for name, value in match.groupdict().items() if value}
        if found.keys() & new:
            raise wrong(f"{shown_name(word, 60)}: this was chosen before")
        found.update(new)
    return {"pair": "", "first": None, "last": None, "queue": None, **found}


def said_of(script: Script, command: str, source: str = "") -> list[bytes]:
    """The lines of what the program says of a script, or of a text that was saved."""
    with progress(f"{command} of {script.name}"):
        text = content(source, "text") if source else chosen_program().reply(command, script.data).text
    if text == b"too long\n":
        raise Failure(Status.LONG, f"{script.name}: {TOO_LONG}")
    return (text := text.removesuffix(b"\n")).split(b"\n")


def decoded(lines: Iterable[bytes]) -> list[str]:
    """Lines as texts."""
    return [line.decode("latin-1") for line in lines]


def check_saved(script: Script, found: list[Union[str, int]], is_whole: bool) -> None:
    """Ends where a saved text has other pairs or lines of steps than a script. One that is cut off has fewer."""
    wanted, in_steps = list[Union[str, int]](), script.is_reads
    for number in range(2, len(script.lines) + 1):
        words = script.words(number) or ["#"]
        if words in (["steps"], ["traffic"]):
            in_steps = words == ["steps"]
        elif in_steps:
            wanted += [number] * (words[0][0] != "#")
        elif words[0] == "pair":
            wanted += words[1:2]
    if found != wanted[: None if is_whole else len(found)]:
        raise environment("the text is that of another script")


def traced(script: Script, lines: list[bytes], given: Given) -> Trace:
    """The trace of a script; a saved one has to be of this script, and a pair that is named has to be in it."""
    trace = Trace(lines)
    if trace.refusal:
        return trace
    if given["from"]:
        steps = [*itertools.takewhile(bool, map(trace.line_at, itertools.count(trace.first)))]
        found = [*trace.pairs, *(number for number, _ in itertools.groupby(steps))]
        check_saved(script, found, trace.first + len(steps) < len(trace.lines))
    if given["pair"] and given["pair"] not in trace.pairs:
        raise wrong(f"the script has no pair {given['pair']}")
    return trace


def pieces_of(name: str, script: Script, trace: Trace, given: Given) -> Iterable[Union[str, bytes]]:
    """What a command makes of a script with its trace. No capture is written of a refused script, or to a terminal."""
    if name == "--show":
        return listing.listing(script, trace)
    if name == "--page":
        return listing.page(script, (line + b"\n" for line in trace.lines), given["pair"])
    if name == "--draw":
        choice = draw.Choice(given["pair"], given["first"], given["last"], given["queue"])
        has_switch = any(words[0] == "switch" for words in script.declarations())
        is_whole = has_switch and choice == draw.Choice() and not trace.refusal
        return [draw.switch_picture(script, trace) if is_whole else draw.picture(script, trace, choice)]
    if os.isatty(1):
        raise environment("a capture is no text: send it into a file, as in > FILE.pcapng")
    if not trace.refusal and not listing.devices_of(script, given["pair"]):
        note(f"no device is declared in {script.name} for this, so the capture has no frame")
    return () if trace.refusal else listing.capture(script, trace, given["pair"])


def traffic_of(script: Script, given: Given) -> list[bytes]:
    """What is drawn of a script's traffic: the texts of `run`, of `stream` or of both; or where it is refused."""
    lines: list[bytes] = []
    for command in ["run"] * (given["run"] or given["joined"]) + ["stream"] * given["stream"]:
        if given["from"]:
            raise wrong("--run, --joined and --stream stand without --from")
        said = said_of(script, command)
        if REFUSED.match(said[-1]):
            return said
        is_joined = given["joined"] and command == "run"
        lines += (line.encode("latin-1") for line in sessions.joined(decoded(said))) if is_joined else said
    return lines


def view(name: str, script: Script, given: Given) -> Status:
    """Writes what a command makes of a script with what the program said of it. Why it is refused is told first."""
    has_reads = script.is_reads and name in ("--show", "--draw")
    lines = traffic_of(script, given) if name == "--draw" else []
    lines = lines or said_of(script, "reads" if has_reads else "trace", given["from"])
    if has_reads:
        texts = decoded(lines)
        if given["from"]:
            check_saved(script, [int(line.split()[0]) for line in texts if line[:1].isdigit()], texts[-1] == "end")
        pieces = listing.listing_of_reads(script, texts) if name == "--show" else [reads.reads_picture(script, texts)]
    elif name == "--draw" and lines[0].startswith((b"lane ", b"stream ")):
        if given["first"] is not None:
            raise wrong("lines= chooses among the steps of a script, and here its traffic is drawn")
        pieces = [sessions.session_picture(script, decoded(lines), given["pair"], given["queue"])]
    else:
        pieces = pieces_of(name, script, traced(script, lines, given), given)
    is_refused = bool(REFUSED.match(lines[-1]))
    if is_refused:
        # At which word it is refused, `check` alone says.
        is_known = script.is_reads or given["from"]
        answer = lines[-1].decode("latin-1") if is_known else chosen_program().reply("check", script.data).first
        tell(*fault_text(script, answer))
    for piece in pieces:
        write(piece)
    return Status.REFUSED if is_refused else Status.HOLDS


def copy_trace(script: Script) -> Status:
    """Writes a trace as the program does; of a refused script a JSON object."""
    blocks = chosen_program().blocks("trace", script.data)
    first = next(blocks, b"")
    if first.startswith(b"{"):
        for block in itertools.chain([first], blocks):
            write(block)
        return Status.HOLDS
    fault = FAULT.fullmatch(said_of(script, "check")[0].decode("latin-1"))
    if not fault:
        raise environment("this is no trace, and no refusal of a script")
    members = {name: value if name == "cause" else int(value) for name, value in fault.groupdict().items() if value}
    write(json.dumps({"refused": members}, separators=(",", ":")) + "\n")
    return Status.REFUSED


def check_all(names: list[str], _given: Given) -> int:
    """Checks scripts, each for itself. The largest status counts."""
    from .judge import scripts_below

    def checked(name: str) -> int:
        found = check(chosen_program(), read_script(name))
        write("".join(f"{line}\n" for line in found.lines))
        return found.status

    found, worst = scripts_below(names, (".ntb", ".reads")), 0
    with progress("scripts", len(found)) as done:
        for name in found:
            worst = max(worst, guarded(checked, name))
            done.append(name)
    return worst


def judge_all(names: list[str], given: Given) -> Optional[int]:
    """Judges scripts by their conditions, or, where there is an option `--into`, by their litmus conditions alone."""
    from . import explore, judge
    is_litmus, program, brute = "into" in given, chosen_program(), explore.BRUTE if given.get("brute") else None
    found = judge.scripts_below(names, (".ntb",) if is_litmus else (".ntb", ".reads"))
    found = judge.shard(found, given["shard"]) if given["shard"] else found
    if given.get("witness"):
        if len(found) != 1 or not re.fullmatch("[0-9]{1,9}", given["witness"]):
            raise wrong("--witness takes the line of a condition of one script")
        return write(judge.shown_witness(program, read_script(found[0]), int(given["witness"]), brute))
    forms = [form for form in ("tap", "json", "junit") if given[form]] or ["plain"]
    if len(forms) > 1:
        raise wrong("a report is written in one form: --tap, --json or --junit")
    folder = explore.Folder(program, given["into"]) if given.get("into") else None
    with progress("scripts", len(found)) as done:
        def judging(script: Script) -> "judge.Judged":
            judged = judge.judge(program, script, given["allow-vacuous"], is_litmus, brute)
            done.append(script.name)
            return judged

        return judge.report(found, judging, lambda line: write(f"{line}\n"), tell, forms[0], is_litmus, folder)


def join_all(names: list[str], _given: Given) -> None:
    """Joins the sessions in the text of a run."""
    lines = content([*names, "-"][0], "text").removesuffix(b"\n").split(b"\n")
    for line in sessions.joined(decoded(lines)):
        write(f"{line}\n")


OF_FILES = {"--check": check_all, "--test": judge_all, "--explore": judge_all, "--join": join_all}


def known(name: str) -> words.Command:
    """The command of this name."""
    if name in words.COMMANDS:
        return words.COMMANDS[name]
    near = nearest(name, [*words.COMMANDS, "help"]) or nearest(f"--{name}", words.COMMANDS)
    hint = f"did you mean {near}? For help: ntbsim --help" if near else "for the commands: ntbsim --help"
    raise wrong(f"{f'there is no command {shown_name(name, 60)}' if name else 'a command is wanted'}; {hint}")


def run(given: list[str]) -> Optional[int]:
    """Does what words say, and gives back the status."""
    name, rest = "".join(given[:1]), given[1:]
    if name == "--manual" and rest:
        return write(words.filled(content(rest[0], "text").decode("latin-1")))
    if name in ("-h", "--help", "help"):
        if len(rest) > (name == "help"):
            raise wrong(f"{name} stands alone; of one command: ntbsim help COMMAND")
        names = [each for word in rest for each in (word, f"--{word}") if each in words.COMMANDS] + rest
        return write(words.help_of(known(names[0])) if rest else words.help_text())
    command, asks_help = known(name), {"-h", "--help"} & {*itertools.takewhile(lambda word: word != "--", rest)}
    if asks_help or name not in (*VIEWS, *OF_FILES, "--json"):
        return write(words.help_of(command))
    options, files = parsed(command, rest)
    SETTINGS.quiet = options["quiet"] or os.environ.get("NTBSIM_QUIET") == "1"
    SETTINGS.color = options["color"] or "auto"
    if SETTINGS.color not in ("auto", "always", "never"):
        raise wrong("--color takes auto, always or never")
    if options.get("from") == "-" == files[0]:
        raise wrong("one of FILE and TEXT at most is standard input")
    options.update(chosen(command, files[1:]) if name in VIEWS else {})
    if name != "--join" and not options.get("from") and os.environ.get("NTBSIM_PROGRAM") == "":
        return NEEDS_PROGRAM
    if name in OF_FILES:
        return OF_FILES[name](files, options)
    script = read_script(files[0])
    return copy_trace(script) if name == "--json" else view(name, script, options)


def guarded(act: Callable[..., Optional[int]], *given: Any) -> int:
    """Does something, and gives back its status; of a failure the message is told."""
    try:
        return int(act(*given) or 0)
    except Failure as failure:
        status, message = failure.status, failure.message
    except MemoryError:
        status, message = Status.MEMORY, "out of memory"
    except BrokenPipeError:
        while True:  # Until no process begins just now.
            end_by(signal.SIGPIPE)
    except OSError as error:
        status, message = Status.ENVIRONMENT, str(error.strerror or error)
    write("usage\n" if status == Status.WORDS else "")
    tell(f"ntbsim: {message}")
    return int(status)


def main(given: list[str]) -> int:
    """Does what words say, whatever happens meanwhile, and gives back the status."""
    for stream, way in zip((sys.stdin, sys.stdout, sys.stderr), (os.O_WRONLY, os.O_RDONLY, os.O_WRONLY)):
        if stream is None:
            os.open(os.devnull, way)
    for number in (signal.SIGINT, signal.SIGTERM, signal.SIGHUP):
        if signal.getsignal(number) is not signal.SIG_IGN:
            signal.signal(number, end_by)
    status = max(guarded(run, given), guarded(flush))
    stop_all()
    return status
