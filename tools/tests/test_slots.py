"""The slots of a page are those of the picture: after each line of a story the same side owns each slot."""

from __future__ import annotations

import json
import subprocess
import unittest
from typing import Any, Iterator

from ntbview.common import Script
from ntbview.draw import Choice, Flight
from ntbview.trace import Trace

from tests.answers import answer, is_refused, shown, stories, wanted
from tests.support import TOP

FOLLOWED = TOP / "tools" / "ntbview" / "page" / "page_trace.js"
MOST_SLOTS = 8
# Answers each lane of the rows of standard input with the owners of its slots, as the page has them.
OWNERS = """
const fs = require('fs'), {code, script, text, rows} = JSON.parse(fs.readFileSync(0, 'utf8'));
const {Trace, ownerOf} = new Function(`${code}; return {Trace, ownerOf};`)(), trace = new Trace(script, text);
console.log(JSON.stringify(rows.map(({line, pair, side, queue, count}) => {
    const now = trace.after(trace.stepsUpTo[line])[pair], lane = now.sides[side].lanes[queue];
    return Array.from({length: count}, (_, slot) => ownerOf(lane, slot, now.link)[0]);
})));
"""


def pictured(script: Script, trace: Trace) -> Iterator[tuple[dict[str, Any], list[str]]]:
    """Each lane whose slots a picture shows, after each line of a script, with the owners of its slots."""
    for pair in trace.pairs:
        for line in range(1, len(script.lines) + 1):
            flight = Flight(script, trace, Choice(pair, last=line))
            for lane in flight.told if not flight.left_out else ():
                if lane.owners:
                    row = {"line": line, "pair": pair, "side": lane.name[0], "queue": lane.queue}
                    yield {**row, "count": min(lane.slots, MOST_SLOTS)}, lane.owners[-1]


class Slots(unittest.TestCase):
    """Owners of slots, by both."""

    def test_owners(self) -> None:
        """The page names the owners that the picture has."""
        node, found = wanted("node", ", so slots of pages aren't compared with those of pictures"), 0
        for path in stories():
            if is_refused(path):
                continue
            script, text = Script(path.name, path.read_bytes()), answer(["trace"], path).stdout
            both = list(pictured(script, Trace(text.splitlines())))
            found += len(both)
            given = {"code": FOLLOWED.read_text(encoding="utf-8"), "script": script.data.decode("latin-1")}
            given.update(text=text.decode("latin-1"), rows=[row for row, _ in both])
            with self.subTest(shown(path)):
                words = [node, "-e", OWNERS]
                done = subprocess.run(words, input=json.dumps(given).encode(), capture_output=True, check=False)
                self.assertEqual(done.stderr, b"")
                self.assertEqual(json.loads(done.stdout), [owners for _, owners in both])
        self.assertGreater(found, 0)


if __name__ == "__main__":
    unittest.main()
