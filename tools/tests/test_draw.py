"""Pictures of one pair: what they show, fold, leave out and refuse."""

from __future__ import annotations

import unittest
import xml.etree.ElementTree

from ntbview.common import Failure, Script, Status
from ntbview.draw import Choice, End, Flight, Look, picture
from ntbview.trace import Trace

from . import support

HEAD = "ntb 1\n# A long frame & more.\nhost a\nhost b\n"
LONG = (
    f"{HEAD}pair p a b up strict queues=2 mtu=2048\nclass p A 1 3\nsteps\nsend p A 1 62\nsend p A 0 {'61' * 1200}\n"
    "landall p A 40\nrecv p B 0 10\n"
)
FRAME = "send p A 0 61\nlandall p A 5\nrecv p B 0 1\nlandall p B 1\n"
SMALL = f"{HEAD}pair p a b up size=4096 mtu=1023\nsteps\n"


def drawn(text: str, choice: Choice = Choice()) -> str:
    """The picture of a script, which has to be XML."""
    svg = picture(*support.trace_of(text), choice)
    xml.etree.ElementTree.fromstring(svg)
    return svg


def laid_out(text: str, choice: Choice = Choice()) -> Flight:
    """What is laid out of a script."""
    return Flight(*support.trace_of(text), choice)


class Shown(unittest.TestCase):
    """What a picture shows."""

    def has(self, svg: str, *texts: str) -> None:
        """A picture has each of these texts, whole."""
        for text in texts:
            self.assertIn(f">{text}<", svg)

    def test_stories(self) -> None:
        """The pictures beside the stories are those of the stories, whose comment `# Drawn:` chooses what is drawn."""
        svg = drawn((support.TOP / "examples/full.ntb").read_text("latin-1"))
        self.assertEqual(svg, (support.TOP / "examples/full.svg").read_text("latin-1"))

    def test_long_frame(self) -> None:
        """Answers that differ in their last number alone have one row, and so have equal refusals."""
        svg = drawn(LONG)
        self.has(svg, "A long frame &amp; more.", "nothing (21)")
        self.has(svg, "posted chunk 0 0 0 .. 9 (10)", "landed chunk 0 0 0 .. 9 (10)")
        self.has(svg, "Pair p: up strict queues=2 mtu=2048. Class 3: queue 1 of side A.")
        self.has(svg, "The slots of A&gt;B aren't drawn: its ring has 15 slots, more than 8.")
        self.assertEqual(svg, drawn(LONG))

    def test_chosen(self) -> None:
        """Of another queue and of other lines nothing is drawn."""
        svg = drawn(LONG, Choice("p", 8, 10, 1))
        self.assertNotIn("chunk 0 0 0", svg)
        self.assertNotIn(">recv ", svg)
        self.has(svg, "Lines 8 to 10 are drawn.", "Of queues, 1 alone is drawn.")
        self.has(drawn(LONG, Choice(first=10, last=99)), "Lines 10 to the end are drawn.")

    def test_without_queue(self) -> None:
        """A step that names no queue is drawn whichever queue is chosen."""
        text = LONG + "irq p B\n"
        for queue in (0, 1):
            self.assertEqual(laid_out(text, Choice(queue=queue)).rows[-1].text, "irq 3")

    def test_before(self) -> None:
        """Writes that are in flight before the first chosen line are drawn, and those that are over aren't."""
        flight = laid_out(SMALL + FRAME + "send p A 0 61\nlandall p A 4\n", Choice(first=12))
        texts = ["landed chunk 0 1 0", "landed len 0 1", "landed ver 0 1", "landed flag 0 1"]
        self.assertEqual([row.text for row in flight.rows], texts)
        self.assertEqual([arrow.how for arrow in flight.arrows if arrow.ended], [End.LANDED] * 4 + [End.FLYING])

    def test_full(self) -> None:
        """After 300 rows the picture stops, and says how many answers are left out."""
        svg = drawn(SMALL + FRAME * 20 + "landall p A 9\n")
        self.has(svg, "The picture stops here, after 300 rows: 21 answers are left out.")
        queue = drawn(SMALL + FRAME * 20 + "landall p A 9\n", Choice(queue=0))
        self.has(queue, "The picture stops here, after 300 rows: 21 answers are left out.")

    def test_other_pair(self) -> None:
        """A line of another pair is one row, unless a pair is chosen."""
        text = f"{HEAD}pair p a b up\npair q a b up\nsteps\nsend q A 0 61\nlandall p A 1\n"
        self.has(drawn(text), "pair q: ok 0 .. posted bell 0")
        self.has(drawn(text), "Pair p of 2 is drawn; the others show the first and last answer of a line.")
        self.has(drawn(text, Choice("p")), "Pair p of 2 is drawn.")
        self.assertNotIn(">pair q", drawn(text, Choice("p")))
        self.assertEqual([row.side for row in laid_out(text, Choice("q")).rows], ["A"] * 6)

    def test_lost(self) -> None:
        """Where a drop comes, what was in flight is lost, and the slots have no session."""
        flight = laid_out(f"{SMALL}send p A 0 61\nland p A 0\nbreak p\nsend p A 0 62\ndrop p\n")
        self.assertEqual(flight.rows[-1].text, "drop: down, 4 lost")
        self.assertEqual([band.link for band in flight.bands], ["up", "closing", "down"])
        self.assertEqual([arrow.how for arrow in flight.arrows][:5], [End.LANDED] + [End.DROPPED] * 4)
        self.assertEqual({owners[0] for owners in flight.told[0].owners}, {"flight", "none"})

    def test_owners(self) -> None:
        """A slot goes from the sender to the receiver, and back."""
        flight = laid_out(SMALL + FRAME)
        owners = [of[0] for of in flight.told[0].owners]
        self.assertEqual(list(dict.fromkeys(owners)), ["flight", "landed", "receiver", "back", "sender"])

    def test_red(self) -> None:
        """Red is what the trace says was not made, whatever the answer is."""
        script, trace = support.trace_of(f"{SMALL}recv p B 0\n")
        rows = Flight(script, trace, Choice()).rows
        texts = ["look: empty", "copy: outofturn", "clear: outofturn", "ack: outofturn"]
        self.assertEqual([row.text for row in rows], texts)
        self.assertEqual({row.look for row in rows}, {Look.REFUSED})
        self.assertIn(">red: refused, nothing changed<", picture(script, trace, Choice()))
        lines = [line.replace(b'"made":false', b'"made":true') for line in trace.lines]
        self.assertNotIn('refused"', picture(script, Trace(lines), Choice()))

    def test_short(self) -> None:
        """A frame that a switch takes out and drops isn't red."""
        flight = laid_out((support.TOP / "examples/short.ntb").read_text("latin-1"), Choice("p"))
        self.assertEqual({row.look for row in flight.rows if row.text.startswith("short")}, {Look.PLAIN})

    def test_cut_off(self) -> None:
        """A trace without its last line was cut off, and the picture says so."""
        script, trace = support.trace_of(SMALL + FRAME)
        self.has(picture(script, Trace(trace.lines[:-1]), Choice()), "The trace was cut off: it has no line `end`.")


class Refused(unittest.TestCase):
    """What is refused, by the program or by the picture."""

    def test_script(self) -> None:
        """A refused script is drawn up to the line that was refused."""
        svg = drawn(SMALL + "landall p A 1\n" * 60 + "send p A 0 616\n# Question: behind it?\nland p A 0\n")
        self.assertIn(">refused: badhex. No step of the script was made.<", svg)
        self.assertIn(">A long frame &amp; more.<", svg)
        self.assertEqual(svg.count(">landall p A 1<"), 39)
        self.assertNotIn("behind it", svg)

    def test_choices(self) -> None:
        """What the script doesn't have can't be chosen, and the message says what there is."""
        cases = {
            Choice("q"): "the script has no pair q",
            Choice(first=9, last=2): "lines=9-2 chooses no line: the script has lines 1 to 11",
            Choice(first=12, last=13): "lines=12-13 chooses no line: the script has lines 1 to 11",
            Choice(first=0, last=3): "lines=0-3 chooses no line: the script has lines 1 to 11",
            Choice(queue=2): "pair p has no queue 2: it has 2 queues, counted from 0",
        }
        for choice, message in cases.items():
            with self.assertRaises(Failure) as caught:
                drawn(LONG, choice)
            self.assertEqual((caught.exception.status, caught.exception.message), (Status.WORDS, message))

    def test_no_pair(self) -> None:
        """A script without a pair has no picture."""
        with self.assertRaisesRegex(Failure, "^the script has no pair$"):
            picture(Script("s", b"ntb 1\n"), Trace([b'{"trace":1}\n', b'{"end":true}\n']), Choice())


class Long(unittest.TestCase):
    """A picture of some lines reads no step behind them."""

    def test_behind(self) -> None:
        """What stands behind the last chosen line isn't taken apart."""
        script, trace = support.trace_of(SMALL + FRAME * 3)
        fronts = [b'{"line":%d,' % trace.line_at(at) for at in range(len(trace.lines))]
        lines = [line if trace.line_at(at) < 9 else fronts[at] for at, line in enumerate(trace.lines)]
        self.assertEqual(len(Flight(script, Trace(lines), Choice(first=1, last=8)).rows), 11)


if __name__ == "__main__":
    unittest.main()
