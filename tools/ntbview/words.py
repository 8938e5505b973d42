"""The one table of commands and options: how each is written and what it does. Help and the manual follow it."""

import re, textwrap
from typing import NamedTuple

# A command is a line `FORM STATUSES LISTS: what it does`. `+` begins one of its own options, before those of its lists.
TABLE = """
replay [FILE] 02345679: make the steps of a script and print the report
trace [FILE] 02345679: make the steps of a script and print each with its answer as JSON, one object a line
check [FILE] 02345679: say how much a script declares, or at which line and word it is refused, and why
run [FILE] 02345679: send a script's traffic by threads and print what each session delivered and left
explore [FILE] 023456789: find every outcome that a script can have, in whatever order its writes land, with witnesses
stream [FILE] 02345679: send a script's traffic by threads as resumable streams and print what each lane brought
reads [FILE] 02345679: make the writes and reads of a text on one bridge and print their answers
load SEED FRAMES 02569: make the steps of a generated plan, of 1 to 30,000 frames, and print one line
--check FILE.. 023679 ALL: how much each script declares, or each faulty line, and what was wanted there
--show FILE 023679 FROM ALL: the answers as a listing: each line of the script with its answers under it
--draw FILE 023679 FROM ALL: the answers as a picture, an SVG on standard output
+ PAIR
+ lines=K-L: the lines that are drawn, with the writes that are in flight before them
+ queue=Q: the one queue that is drawn
+ --run: draw by sessions what run delivered and left
+ --joined: draw what run sent, with the sessions of each lane joined
+ --stream: draw what stream brought; beside --run or --joined both
--json FILE 023679 ALL: the trace of a script: each step with its answer as JSON, one object a line
--page FILE 023679 PAIR FROM ALL: a page, in which a browser goes through the steps and shows what stands after each
--pcap FILE 023679 PAIR FROM ALL: the Ethernet frames that devices got, as a capture (pcapng) on standard output
--test FILE.. 01236789 TEST ALL: whether the answers are those that the script's conditions say
--explore FILE.. 01236789 TEST ALL: whether the litmus conditions of each script hold, in whatever order its writes land
+ --into FOLDER: write a witness of each condition that fails, as a script and as a picture
+ --witness LINE: print a witness of the condition in this line of one file
+ --brute: take the outcomes of tools/explore-brute
--join [FILE] 029 ALL: the text of run with the sessions of each lane joined: what is the same at each run
--build 029: prove and build the program, once (some minutes); later runs are then proved
--program 029: print the path of the program that answers, for a loop of many calls
--version 02: the version, the revision, the kit, and whether the proved program stands; also -V
--help 02: this text; also -h. Of one command: COMMAND --help, or help COMMAND
"""
LISTS = {
    "FROM": "--from TEXT: take what the program said of this script, saved before; - is standard input",
    "PAIR": "PAIR: the name of the pair that is shown; else the tool chooses",
    "TEST": """--tap: write the lines of the Test Anything Protocol
--json: write one JSON object
--junit: write XML as JUnit does
--shard I/N: take each N-th script, from the I-th on
--allow-vacuous: let a condition hold that speaks of no outcome""",
    "ALL": """--quiet: leave notes and the line on the progress out
--color WHEN: colour the text: auto, at a terminal and without NO_COLOR; always; or never""",
}
STATUSES = [
    "0 done", "1 a condition of --test or --explore doesn't hold", "2 the words are no command; the text is usage",
    "3 a line of the script has a fault", "4 standard input failed", "5 standard output failed", "6 out of memory",
    "7 the input has more than 16,777,216 bytes", "8 more than 1,000,000 states can be reached by exploring",
    "9 what is needed isn't there: a file, room on the device, the command rt, Python",
]
END_OF_HELP = """
FILE may be -, standard input. FILE.. may be folders: all scripts below are taken. Behind -- each word is a file.

Until the program is built, and after one of its sources was changed, answers come without proof, some hundred times
slower; the first takes 20 to 60 seconds. Other words are answered `usage`, with what was meant.

To begin: README.md, docs/GUIDE.md, examples/README.md; docs/CALLING.md for programs that call the crates.
"""
# A part of a file that is made here: between two lines that name it.
PART = re.compile(r"(?m)^(\S+ begin (\w+)\n)[^\0]*?^(\S+ end \2\n)")
# A command: how it is written, without the options that most take; its name, what it takes and does, its statuses, and
# its options with what each does.
Command = NamedTuple("Command", [
    ("form", str), ("name", str), ("takes", str), ("says", str), ("statuses", list[str]), ("options", dict[str, str]),
])


def read_command(text: str) -> Command:
    """A command, of its lines in the table."""
    line, *own = text.split("\n+ ")
    head, says = line.split(": ", 1)
    [(name, takes, statuses, lists)] = re.findall(r"^(\S+)(?: (\D+))? (\d+)((?: [A-Z]+)*)$", head)
    texts = "\n".join(LISTS.get(each, each) for each in own + lists.split())
    options = dict(text.split(": ", 1) for text in texts.splitlines())
    form = " ".join([name, *takes.split(), *(f"[{each}]" for each in options if f"{each}: " not in LISTS["ALL"])])
    return Command(form, name, takes, says, [STATUSES[int(digit)] for digit in statuses], options)


COMMANDS = {each.name: each for each in map(read_command, re.split(r"\n(?!\+)", TABLE.strip()))}


def help_of(command: Command) -> str:
    """What `ntbsim COMMAND --help` says."""
    rows = "".join(f"    {option:20} {says}\n" for option, says in command.options.items())
    parts = [f"ntbsim {command.form}\n", f"{command.says[0].upper()}{command.says[1:]}.\n", rows]
    return "\n".join([*filter(None, parts), exit_line(command.statuses)])


def help_text() -> str:
    """What `ntbsim --help` says."""
    rows = (f"    ntbsim {f'{each.name} {each.takes}':20} {each.says}\n" for each in COMMANDS.values())
    head = "ntbsim: a simulator of hosts that are joined in pairs by PCI Express non-transparent bridges"
    return f"{head}\n\n{''.join(rows)}{END_OF_HELP}\n{exit_line(STATUSES)}"


def exit_line(statuses: list[str]) -> str:
    """What statuses mean, in lines."""
    return textwrap.fill(f"Exit status: {'; '.join(statuses)}.", 118) + "\n"


def roff(text: str) -> str:
    """A text as the manual page has it."""
    return text.replace("\\", "\\e").replace("-", "\\-").replace("'", "\\(cq")


def item(head: str, text: str) -> str:
    """A head of the manual page, and the sentence below it."""
    return f"{head}\n{roff(textwrap.fill(f'{text[0].upper()}{text[1:]}.', 72, break_on_hyphens=False))}\n"


def described(command: Command) -> str:
    """What a command does, and each of its options, in the manual page."""
    options = "".join(item(f'.IP "{roff(option)}" 4', says) for option, says in command.options.items())
    head = f".TP\n.B {roff(f'{command.name} {command.takes}'.rstrip())}"
    return item(head, command.says) + (f".RS\n{options}.RE\n" if options else "")


def word_line(command: Command) -> str:
    """For completion a command's name, what it takes, and its options."""
    options = [option.split()[0] for option in command.options if option[0] == "-"]
    return " ".join([command.name, command.takes.replace(" ", "_") or "-", *options]) + "\n"


def filled(text: str) -> str:
    """A text, as the manual page or completion, with its parts between lines `begin NAME` and `end NAME` made anew."""
    parts = {
        "synopsis": ".br\n".join(f".B ntbsim {roff(command.form)}\n" for command in COMMANDS.values()),
        "commands": "".join(map(described, COMMANDS.values())),
        "statuses": "".join(item(f".TP\n.B {line[0]}", line[2:]) for line in STATUSES),
        "words": "".join(map(word_line, COMMANDS.values())),
    }
    return PART.sub(lambda found: found[1] + parts[found[2]] + found[3], text)
