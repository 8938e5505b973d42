"""What a browser shows of a page, and tshark of a capture."""

from __future__ import annotations

import re
import shutil
import subprocess
import unittest
from pathlib import Path

from tests.answers import EXAMPLES, is_refused, shown, stories, wanted
from tests.support import Folder, run

BROWSERS = ("chromium", "chromium-browser", "google-chrome")
# Steps of stories, each with what the page shows there.
STEPS = (
    ("first", 1, '<span class="answer">ok 0</span>'),
    ("first", 9, '<b>3</b> flag 0 0<em class="next">lands next</em>'),
    ("relaxed", 9, '<b>3</b> flag 0 0<em class="refused">may not pass 0</em>'),
    ("lost", 33, ">link down, session 1 is lost<"),
    ("agree", 74, 'class="answer refused">windows 2 1<'),
    ("classes", 13, '<em class="passed">passed by 5</em>'),
    ("pieces", 31, 'aria-label="slot 0: on its way back, entry 0"'),
)
FRAME = ("time_epoch", "interface_name", "packet_flags_direction", "comment")
FIELDS = (*(f"frame.{name}" for name in FRAME), "eth.src", "eth.dst", "frame.len")
PACKETS = [
    "19.000001000 p 0x00000002 line 19, p A to B, device d1 02:00:00:00:00:01 02:00:00:00:00:02 18",
    "30.000001000 r 0x00000002 line 30, r A to B, device d3 02:00:00:00:00:03 02:00:00:00:00:04 15",
    "35.000001000 r 0x00000001 line 35, r B to A, device d2 02:00:00:00:00:04 02:00:00:00:00:03 15",
]


class Pages(Folder):
    """Pages in a browser."""

    def test_steps(self) -> None:
        """A page shows the step that its address names."""
        browser = next(filter(None, map(shutil.which, BROWSERS)), None)
        if browser is None:
            self.skipTest("chromium isn't here, so no page is shown in a browser")
        for name, step, text in STEPS:
            with self.subTest(f"{name}, step {step}"):
                document = self.document(browser, EXAMPLES / f"{name}.ntb", step)
                self.assertRegex(document, rf'<h2 id="place">step {step} of [0-9]*, line [0-9]*</h2>')
                self.assertIn(text, document)

    def document(self, browser: str, script: Path, step: int) -> str:
        """What stands in the browser once it has gone to a step of a script's page."""
        page = self.write("page.html", run(["--page", script]).stdout)
        profile = f"--user-data-dir={self.folder}/browser"
        options = ["--headless", "--no-sandbox", "--disable-gpu", profile, "--dump-dom"]
        words = [browser, *options, f"{page.as_uri()}#step={step}"]
        done = subprocess.run(words, input=b"", capture_output=True, timeout=120, check=False)
        return done.stdout.decode("utf-8", "replace")


class Captures(Folder):
    """Captures as tshark reads them."""

    def packets(self, *words: str) -> list[str]:
        """The packets of a capture."""
        capture = self.write("frames.pcapng", run(["--pcap", *words]).stdout)
        named = [word for field in FIELDS for word in ("-e", field)]
        tshark = wanted("tshark", ", so no capture is read by another program")
        words = [tshark, "-r", str(capture), "-T", "fields", "-E", "separator=/s", *named]
        return subprocess.run(words, capture_output=True, check=True).stdout.decode().splitlines()

    def test_pairs(self) -> None:
        """A capture has the frames of both pairs with devices, or of the one that is named."""
        self.assertEqual(self.packets("examples/cluster.ntb"), PACKETS)
        self.assertEqual(self.packets("examples/cluster.ntb", "r"), PACKETS[1:])

    def test_counts(self) -> None:
        """A capture has as many frames as the report says that devices got."""
        for script in stories():
            if re.search(rb"(?m)^dev ", script.read_bytes()) and not is_refused(script):
                with self.subTest(shown(script)):
                    rows = re.findall(r"(?m)^dev .*$", script.with_suffix(".report").read_text(encoding="latin-1"))
                    got = sum(int(row.split(" ")[7]) for row in rows)
                    self.assertEqual(len(self.packets(shown(script))), got)


if __name__ == "__main__":
    unittest.main()
