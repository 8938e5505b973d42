"""Conditions: which comments are some, what is read of them, each error with its place, and what stays prose."""

from __future__ import annotations

import unittest

from ntbview.common import Script
from ntbview.conditions import ANY, Condition, Conditions, Wish
from ntbview.messages import shown_fault

STORY = """ntb 1
host a
host b
pair p a b
# The steps.

steps
{}
{} p A 0
"""
TRAFFIC = """ntb 1
host a
host b
pair p a b
{}
traffic
frame p A 0 61
"""
NO_STEP = "no line with a step stands directly below"

# Each error of docs/FORMATS.md: the comments above a step, the line of the error, the words under its carets, and what
# is said. The first comment is line 8, and {..} are the carets.
ERRORS = [
    ("post", "{#Never} empty", "no condition begins with #Never", "did you mean #never? a condition begins"),
    ("post", "{#nevr} empty", "no condition begins with #nevr", "did you mean #never? a condition begins with #=, #!,"),
    ("post", "{#exists} empty", "no condition begins with #exists", "a condition begins with #=, #!, #always, #some"),
    ("post", "  {#note}; idle", "no condition begins with #note", "a condition begins with #=, #!, #always,"),
    ("post", "{# never frame}", "prose doesn't begin with never frame", "a condition has no space after its"),
    ("post", "{#  call   idle} or so", "prose doesn't begin with call idle", "a condition has no space after"),
    ("post", "{#=} idle\n", "it speaks of no line", "a condition stands directly above its line"),
    ("post", "{#!} idle\n \r", "it speaks of no line", "a condition stands directly above its line"),
    ("post", "{#never} idle\n", NO_STEP, "a condition stands directly above its line"),
    ("post", "{#always} ok\nsteps", NO_STEP, "a condition stands directly above its line"),
    ("post", "{#sometimes} ok\nstep", NO_STEP, "a condition stands directly above its line"),
    ("post", "{#call x}\n", NO_STEP, "#call names the line below it"),
    ("post", "{#never}", "it names no answer", ""),
    ("post", "{#!}\r", "it names no answer", ""),
    ("post", "#= idle{;}", "an answer is missing beside ;", ""),
    ("post", "#={;} idle", "an answer is missing beside ;", ""),
    ("post", "#!idle{;};idle; ", "an answer is missing beside ;", ""),
    ("showmem", "#= {..} 61", "words stand behind ..", ".. stands at an answer's end, for any words or none"),
    ("post", "#never {..}", "this says no answer", ".. alone is any number of answers, in #= alone"),
    ("post", "#! {..}", "this says no answer", ".. alone is any number of answers, in #= alone"),
    ("recv", "#never {posted} ..", "no step of this line is answered posted", "it is written acked NUMBER, or cleared"),
    ("recv", "#never {frame}", "no step of this line is answered frame", "it is written frame NUMBER -, or"),
    ("recv", "#= empty; {frame 0}; ..", "no step of this line is answered frame 0", "it is written frame NUMBER -, or"),
    ("recv", "#never empty {or} idle", "or can't stand here", "; parts conditions, and all of them have to hold"),
    ("look", "#! {posted}", "no step of this line is answered posted", "it is written closed, or empty, or"),
    ("look", "#! {emty}", "no step of this line is answered emty", "did you mean empty?"),
    ("post", "#= posted {chnk} 0 ..", "no step of this line is answered posted chnk", "did you mean chunk?"),
    ("showmem", "#= {mem}", "no step of this line is answered mem", "it is written mem HEX"),
    ("showmem", "#= mem 00 {00}", "no step of this line is answered mem 00 00", "it is written mem HEX"),
    ("other", "#= {ok}", "no step of this line is answered ok", "it is written refused badgeometry, or"),
    ("other", "#! {ok}", "no step of this line is answered ok", "this line has no step"),
    ("post", "#= {end}", "no step of this line is answered end", "the line end is never compared"),
    ("post", "#! {refused}", "no step of this line is answered refused", "a refusal is compared by #="),
    ("post", "#= refused {badhx}", "no step of this line is answered refused badhx", "did you mean badhex?"),
    ("irq", "#= irq 1 {where} seen irq 1", "where can't stand here", "where belongs to #always, #sometimes and #never"),
    ("irq", "#! irq {and} 1", "and can't stand here", "and parts what stands behind where; ; parts conditions"),
    ("irq", "#never irq 1 {where}", "a name and its answer are wanted behind where", ""),
    ("irq", "#call x\n#never irq 1 {where x}", "a name and its answer are wanted behind where", ""),
    ("irq", "#call x\n#never irq 1 where x irq 1 {and x}", "a name and its answer are wanted behind and", ""),
    ("irq", "#never {where} x irq 1", "it names no answer before where", ""),
    ("irq", "#never irq 1 where {seen} irq 1", "no line is called seen", "#call names a line"),
    ("irq", "#call seen\n#never irq 1 where {sen} irq 1", "no line is called sen", "did you mean seen?"),
    ("irq", "#call seen\n#never irq 1 where {x} irq 1", "no line is called x", "called are: seen"),
    ("irq", "#call seen\n#never irq 1 where seen {iqr} 1", "no step of this line is answered iqr", "did you mean irq?"),
    ("irq", "#call seen\nirq p A\n#call {seen}", "another line is called seen already", ""),
    ("irq", "#call {where}", "one name is wanted behind #call", "a name has 1 to 16 small letters and"),
    ("irq", "{#call}", "one name is wanted behind #call", "a name has 1 to 16 small letters and digits, the first a l"),
    ("irq", "#call {a b}", "one name is wanted behind #call", "a name has 1 to 16 small letters and digits,"),
    ("irq", "#call {1a}", "one name is wanted behind #call", "a name has 1 to 16 small letters and digits,"),
    ("irq", "#never {not} irq 1", "not can't stand here", "; parts conditions, and all of them have to hold"),
    ("irq", "#never {(irq} 1)", "(irq can't stand here", "; parts conditions, and all of them have to hold"),
]


def read(text: str) -> Conditions:
    """The conditions of a script of this text."""
    return Conditions(Script("s.ntb", text.encode("latin-1")))


def above(step: str, *comments: str) -> Conditions:
    """The conditions of a script that has these comments above a step."""
    return read(STORY.format("\n".join(comments), step))


def wish(text: str) -> Wish:
    """The wish that is written so."""
    words = tuple(text.split())
    return Wish(words[:-1], True) if words[-1] == ".." else Wish(words, False)


class Errors(unittest.TestCase):
    """Comments that are neither conditions nor prose."""

    def test_each(self) -> None:
        """Each error has its line, column, length, sentence and hint, and the comment no condition."""
        for step, comments, what, hint in ERRORS:
            with self.subTest(comments):
                before, words = comments.split("{")[0], comments.split("{")[1].split("}")[0]
                found = above(step, comments.replace("{", "").replace("}", ""))
                line, column = 8 + before.count("\n"), len(before.split("\n")[-1]) + 1
                places = [(fault.line, fault.column, fault.length, fault.what) for fault in found.faults]
                self.assertEqual(places, [(line, column, len(words), f"condition: {what}")])
                self.assertEqual(found.faults[0].hint[: len(hint)] if hint else found.faults[0].hint, hint)
                self.assertEqual(found.found, [])

    def test_reads(self) -> None:
        """A text of reads isn't explored; its lines may have names."""
        found = read("reads 1\n#call seen\n#never ok\nwrite A 0 61 relaxed\n#! ok\n")
        said = [(fault.line, fault.column, fault.length, fault.what) for fault in found.faults]
        counts = (5, 4, 2, "condition: no step of this line is answered ok")
        self.assertEqual(said, [(3, 1, 6, "condition: a text of reads isn't explored"), counts])

    def test_several(self) -> None:
        """Several errors are told in the order of the script; one part with an error leaves the comment unread."""
        found = above("recv", "#never empty; emty", "#! frame", "#call 1")
        self.assertEqual([(fault.line, fault.column) for fault in found.faults], [(8, 15), (10, 7)])
        self.assertEqual([condition.text for condition in found.found], ["frame"])

    def test_shown(self) -> None:
        """An error as it is told."""
        script = Script("s.ntb", STORY.format("  #= emty ", "look").encode())
        (fault,) = Conditions(script).faults
        said = ["s.ntb:8:6: condition: no step of this line is answered emty", "      #= emty ", "         ^^^^"]
        self.assertEqual(shown_fault(script, fault), [*said, "did you mean empty?"])

    def test_prose(self) -> None:
        """Prose stays prose."""
        prose = ["#", "##", "#1", "# a never ending", "# never ending", "# Never frame", "#-never", "#\xe9", "#.. 61"]
        found = above("recv", *prose, "# always, frame 0", "#  #= emty", "#\r", "# not ( or", "# callframe")
        self.assertEqual((found.found, found.faults), ([], []))


class Read(unittest.TestCase):
    """What is read of conditions."""

    def test_answers(self) -> None:
        """All `#=` above a line are one condition, which stands where the first of them does."""
        found = above("recv", "# Prose.", "  #=empty;..", "#! frame 0 61;copied", "#= frame 0 ..")
        wishes = (wish("empty"), ANY, wish("frame 0 .."))
        one = Condition((9, 3), "=", 12, "", wishes, (), "empty; ..; frame 0 ..")
        two = Condition((10, 1), "!", 12, "", (wish("frame 0 61"),), (), "frame 0 61")
        three = Condition((10, 1), "!", 12, "", (wish("copied"),), (), "copied")
        self.assertEqual((found.found, found.faults), ([one, two, three], []))

    def test_none(self) -> None:
        """`#=` alone says that the line has no answer."""
        self.assertEqual(above("recv", "#=").found, [Condition((8, 1), "=", 9, "", (), (), "")])
        self.assertEqual(above("recv", "#=", "#= empty").found[0].text, "empty")

    def test_refusal(self) -> None:
        """A refusal is compared above any line, whether it has a step or not."""
        for step in ("recv", "other"):
            (one,) = above(step, "#= refused unknownname").found
            self.assertEqual(one.wishes, (wish("refused unknownname"),))

    def test_litmus(self) -> None:
        """Each part of a litmus condition is one, with its own `where`."""
        text = "#never irq 1 where seen irq 0 and seen irq ..; irq .."
        found = above("irq", "#call seen", "irq p B", text)
        wheres = ((9, wish("irq 0")), (9, wish("irq ..")))
        one = "never irq 1 where seen irq 0 and seen irq .."
        both = [(wish("irq 1"), wheres, one), (wish("irq .."), (), "never irq ..")]
        wanted = [Condition((10, 1), "never", 11, "", (each,), of, said) for each, of, said in both]
        self.assertEqual((found.found, found.faults), (wanted, []))

    def test_later(self) -> None:
        """A condition names a later line."""
        found = above("irq", "#always irq 1 where later irq 1", "irq p A", "#call later")
        self.assertEqual((found.found[0].wheres, found.faults), (((11, wish("irq 1")),), []))

    def test_counts(self) -> None:
        """Behind the last line the counts are spoken of."""
        end = "# The counts.\n#= lane p A 0 1 accepted 1 delivered 1\n#! dev"
        found = read(STORY.format("# The step.", "look") + end)
        said = [(each.of, each.command, each.at) for each in found.found]
        self.assertEqual(said, [(0, "", (11, 1)), (0, "", (12, 1))])

    def test_traffic(self) -> None:
        """Above the traffic the text of `run` is spoken of, or that of `stream` if a part says so."""
        comments = "#= lane p A 0 sessions 1 accepted 1 left 0\n#= frame 0 61\n#! item 1\n#= ..; item 0 61; .."
        found = read(TRAFFIC.format(comments))
        said = [(each.kind, each.of, each.command, len(each.wishes)) for each in found.found]
        self.assertEqual(said, [("=", 9, "run", 2), ("!", 9, "stream", 1), ("=", 9, "stream", 3)])
        self.assertEqual(found.faults, [])

    def test_wish(self) -> None:
        """A wish fits whole words."""
        self.assertTrue(wish("frame 0 ..").fits("frame 0 61") and wish("frame ..").fits("frame") and ANY.fits("x"))
        self.assertFalse(wish("frame 0").fits("frame 0 61") or wish("frame 0 ..").fits("frame 01"))


if __name__ == "__main__":
    unittest.main()
