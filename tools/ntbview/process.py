"""This process and those that it runs: what is written, to standard output as bytes, and to standard error as messages
and a line on the progress; the program that answers; and how all of them end by a signal."""

import contextlib, functools, io, os, select, signal, subprocess, tempfile, threading, time, types
from typing import Iterator, NamedTuple, Union

from .common import Failure, Status, environment

GREEN, RED, MOST_KEPT = 32, 31, 1 << 16
KEPT, TELLS = bytearray(), threading.RLock()
# What the options say of colours and notes, and whether a line of progress stands at the terminal.
SETTINGS = types.SimpleNamespace(color="auto", quiet=False, is_shown=False)
# The status of the program, what it wrote to standard output, and the first line of that.
Reply = NamedTuple("Reply", [("status", int), ("text", bytes), ("first", str)])
# The processes that run now: all of them end where this one does.
RUNNING: set[subprocess.Popen[bytes]] = set()
# Held while a process begins, so that none is missed by a signal that comes meanwhile: it waits here.
BEGINS, WAITING = threading.Lock(), list[int]()


def paint(text: str, colour: int) -> str:
    """A text in a colour, by its number at a terminal, if `--color` says so or it is written to a terminal."""
    is_plain = bool(os.environ.get("NO_COLOR")) or os.environ.get("TERM") == "dumb"
    is_colored = SETTINGS.color == "always" or SETTINGS.color == "auto" and os.isatty(1) and not is_plain
    return f"\033[{colour}m{text}\033[0m" if is_colored else text


def write(piece: Union[str, bytes]) -> None:
    """Writes to standard output. Small pieces are kept until there are many, or until `flush`."""
    KEPT.extend(piece.encode("latin-1", "replace") if isinstance(piece, str) else piece)
    if len(KEPT) >= MOST_KEPT:
        flush()


def flush() -> None:
    """Writes what is kept. Where nobody reads it, this ends with BrokenPipeError."""
    left = memoryview(bytes(KEPT))
    KEPT.clear()
    tell()
    while left:
        try:
            left = left[os.write(1, left) :]
        except BlockingIOError:
            select.select([], [1], [])
        except BrokenPipeError:
            raise
        except OSError as error:
            raise environment(f"standard output can't be written: {error.strerror}") from None


def tell(*lines: str, end: str = "\n") -> None:
    """Writes lines to standard error, in the place of a line of progress. Without an end it is such a line itself."""
    with TELLS, contextlib.suppress(OSError):
        text = "\r\033[K" * SETTINGS.is_shown + "".join(line + end for line in lines)
        SETTINGS.is_shown = end == ""
        os.write(2, text.encode("latin-1", "replace"))


def note(text: str) -> None:
    """Writes a note to standard error, unless `--quiet` leaves notes out."""
    if not SETTINGS.quiet:
        tell(f"ntbsim: {text}")


@contextlib.contextmanager
def progress(text: str, total: int = 0) -> Iterator[list[str]]:
    """Shows a line at a terminal's standard error, from the third second on, which is rewritten, and wiped at the end:
    `explore of a.ntb: 5 s`, or, of many things, of which those that are done are added, `12 of 40 scripts`."""
    done, begun, ended = list[str](), time.monotonic(), threading.Event()

    def show() -> None:
        while not ended.wait(0.5 if SETTINGS.is_shown else 2.0):
            tell(f"{len(done)} of {total} {text}" if total else f"{text}: {int(time.monotonic() - begun)} s", end="")

    thread = threading.Thread(target=show, daemon=True)
    if os.isatty(2) and not SETTINGS.quiet:
        thread.start()
    try:
        yield done
    finally:
        ended.set()
        if thread.is_alive():
            thread.join()
        tell()


class Program(NamedTuple):
    """A program, by its path, or by its words where it is a stand-in."""

    words: tuple[str, ...]

    def reply(self, command: str, script: bytes) -> Reply:
        """What a command says of a script."""
        with self.begin(command, script) as process:
            text, said = process.communicate()
            RUNNING.discard(process)
            first = io.BytesIO(text).readline().rstrip(b"\n").decode("latin-1")
            return Reply(checked(process.returncode, said), text, first)

    def blocks(self, command: str, script: bytes) -> Iterator[bytes]:
        """A command's answer in large pieces, as it comes."""
        with self.begin(command, script) as process:
            assert process.stdout is not None and process.stderr is not None
            try:
                yield from iter(functools.partial(os.read, process.stdout.fileno(), 1 << 20), b"")
                checked(process.wait(), process.stderr.read())
            finally:
                process.kill()
                RUNNING.discard(process)

    def begin(self, command: str, script: bytes) -> subprocess.Popen[bytes]:
        """Runs a command over a script. The script is a file without a name, so nothing is left of it."""
        with tempfile.TemporaryFile() as source:
            source.write(script)
            source.seek(0)
            words, pipe = [*self.words, command], subprocess.PIPE
            try:
                with BEGINS:
                    process = subprocess.Popen(words, stdin=source, stdout=pipe, stderr=pipe, start_new_session=True)
                    RUNNING.add(process)
            except OSError as error:
                raise environment(f"the program can't be run: {error.strerror}") from None
            finally:
                if WAITING:
                    os.kill(os.getpid(), WAITING[0])
        return process


def checked(status: int, said: bytes) -> int:
    """The program's status; where it is none of an answer, the command ends."""
    if status == Status.MEMORY:
        raise Failure(Status.MEMORY, "the program is out of memory")
    if status not in (Status.HOLDS, Status.REFUSED, Status.LONG, Status.STATES):
        how = f"was ended by signal {-status}" if status < 0 else f"ended with status {status}"
        why = said.decode("latin-1").strip().split("\n")[-1]
        raise environment(f"the program {how}, so what it wrote is no answer{': ' + why if why else ''}")
    return status


def stop_all() -> None:
    """Ends the processes that run now, with all that they began."""
    for process in list(RUNNING):
        if process.poll() is None:
            os.killpg(process.pid, signal.SIGKILL)


def end_by(number: int, _frame: object = None) -> None:
    """Ends the processes that run now, and then this one by a signal, as if nothing had caught it."""
    tell()
    WAITING.append(number)
    if not BEGINS.locked():
        stop_all()
        signal.signal(number, signal.SIG_DFL)
        os.kill(os.getpid(), number)


def chosen_program() -> Program:
    """The program that the door chose."""
    path = os.environ.get("NTBSIM_PROGRAM")
    if not path:
        raise environment("no program is chosen: call ./ntbsim")
    return Program((path,))
