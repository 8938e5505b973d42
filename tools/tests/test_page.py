"""Tests of pages."""

from __future__ import annotations

import re
import shutil
import subprocess
import unittest

from ntbview.common import Script
from ntbview.listing import FILES, page

from . import support

OUTSIDE = re.compile(r"[a-z]:/" r"/|src=|url\(|@import|fetch\(", re.IGNORECASE)
SAYS = """
const fs = require('fs'), code = fs.readFileSync(process.argv[1], 'latin1');
const {stepText, answerText, isRefused} = new Function(`${code}; return {stepText, answerText, isRefused};`)();
const answer = {name: 'frame', frame: 'cd'.repeat(16)};
const step = {step: {name: 'xbegin', frame: 'ab'.repeat(65524)}, answer, made: true};
console.log([stepText(step), answerText(step), isRefused(step), isRefused({...step, made: false})].join('\\n'));
"""


def text_in(name: str, made: str) -> str:
    """The text of a page's element with this name, as it was before it was put in."""
    text = made.split(f'<pre id="{name}" hidden>\n')[1].split("</pre>\n")[0]
    return text.replace("&lt;", "<").replace("&amp;", "&")


def page_of(data: bytes, lines: list[bytes], pair: str = "") -> str:
    """A page."""
    return b"".join(page(Script("script", data), lines, pair)).decode("latin-1")


class Pages(unittest.TestCase):
    """What a page has."""

    def test_stories(self) -> None:
        for path in sorted((support.TOP / "examples").glob("*.ntb")):
            with self.subTest(path.name):
                data = path.read_bytes()
                trace = support.program().reply("trace", data).text
                made = page_of(data, trace.splitlines(keepends=True))
                self.assertEqual(text_in("script", made), data.decode("latin-1"))
                self.assertEqual(text_in("trace", made), trace.decode("latin-1"))
                self.assertRegex(made, r"\n<title>Question: .*</title>\n")
                self.assertIsNone(OUTSIDE.search(made))

    def test_the_files_that_it_names_stand_in_it(self) -> None:
        made = page_of(b"ntb 1\n", [b"refused line 1 badheader\n"])
        for name in ("page.css", "page_trace.js", "page_view.js", "page.js"):
            self.assertIn((FILES / name).read_text("latin-1"), made)
        self.assertNotRegex(made, r"\n@(file|title|heading|body|script|trace)\b")

    def test_the_pair_that_is_named(self) -> None:
        self.assertIn('\n<body data-pair="r">\n', page_of(b"ntb 1\n", [], "r"))
        self.assertIn('\n<body data-pair="">\n', page_of(b"ntb 1\n", []))

    def test_marks_of_html(self) -> None:
        data = b'ntb 1\n# A <b>title</b> & "more"\n# of two lines.\n#= end\n# </script></pre>\n'
        made = page_of(data, [b'{"trace":1}\n', b"<&\n"])
        self.assertRegex(made, r"\n<title>A &lt;b&gt;title&lt;/b&gt; &amp; &quot;more&quot; of two lines\. ")
        self.assertEqual(text_in("script", made), data.decode())
        self.assertEqual(text_in("trace", made), '{"trace":1}\n<&\n')

    def test_question_and_result(self) -> None:
        made = page_of(b"ntb 1\n# Question: a?\n# b\n# Result: c.\n", [])
        self.assertIn("<h1>Question: a? b</h1>\n<p>Result: c.</p>\n", made)

    def test_a_script_without_a_comment_or_a_last_line_feed(self) -> None:
        made = page_of(b"ntb 1\nhost a", [])
        self.assertIn("<h1>A script with its answers</h1>", made)
        self.assertEqual(text_in("script", made), "ntb 1\nhost a\n")

    @unittest.skipUnless(shutil.which("node"), "no node")
    def test_what_is_said_of_a_step(self) -> None:
        done = subprocess.run(["node", "-e", SAYS, str(FILES / "page_trace.js")], capture_output=True, check=True)
        wanted = ["xbegin abababababababababababab..(65524 bytes)", "frame " + "cd" * 16, "false", "true"]
        self.assertEqual(done.stdout.decode().splitlines(), wanted)


if __name__ == "__main__":
    unittest.main()
