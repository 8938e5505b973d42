"""Runs the tools as `python3 -I tools/ntbview WORD..`, which the door calls."""

import sys
from pathlib import Path

if sys.version_info < (3, 9):
    sys.stderr.write("ntbsim: Python 3.9 or later is needed\n")
    sys.exit(9)
sys.path[0] = str(Path(__file__).resolve().parent.parent)

from ntbview import cli  # noqa: E402

sys.exit(cli.main(sys.argv[1:]))
