"""Runs one of the developers' tools at the top of the repository.

    python3 -m tools check          compares the documents with the files
    python3 -m tools definitions    copies the sentences of specs/ to docs/DEFINITIONS.md
    python3 -m tools lemmas         copies the sentences of proofs/ to docs/LEMMAS.md
    python3 -m tools believed       says which definitions a reader has to believe
    python3 -m tools wrong-bodies   tries the edits of crates/NAME/wrong-bodies
    python3 -m tools weaken         makes wrong versions of definitions, and tries them
    python3 -m tools wrong-definitions  tries those again that a page lists as refused
    python3 -m tools lint           checks the Python code by mypy, black and flake8
    python3 -m tools draw           draws a script's run, or compares the pictures of docs/pictures
    python3 -m tools dashboard      draws the dashboard of a run (docs/pictures/dashboard.svg)
    python3 -m tools gate           the merge gate (.ci/run): all of this, the proofs and the trials

Each says more by --help. ./prove is a tool of its own.
"""
from __future__ import annotations

import os
import sys
from collections.abc import Callable, Sequence

from tools import (
    believed,
    check,
    dashboard,
    definitions,
    draw,
    gate,
    lemmas,
    lint,
    weaken,
    wrong_bodies,
    wrong_definitions,
)

TOOLS: dict[str, Callable[[Sequence[str]], int]] = {
    "check": check.main,
    "definitions": definitions.main,
    "lemmas": lemmas.main,
    "believed": believed.main,
    "wrong-bodies": wrong_bodies.main,
    "weaken": weaken.main,
    "wrong-definitions": wrong_definitions.main,
    "lint": lint.main,
    "draw": draw.main,
    "dashboard": dashboard.main,
    "gate": gate.main,
}


def main(words: Sequence[str]) -> int:
    """Runs the tool that the first word names, with the words after it. Gives its status."""
    if not words or words[0] not in TOOLS:
        is_asked = words[:1] in (["--help"], ["-h"])
        print(__doc__, file=sys.stdout if is_asked else sys.stderr)
        return 0 if is_asked else 2
    try:
        status = TOOLS[words[0]](words[1:])
        sys.stdout.flush()
        return status
    except BrokenPipeError:
        # Nobody reads what is printed. Python's own flush at the end would fail again.
        os.dup2(os.open(os.devnull, os.O_WRONLY), 1)
        return 1
    except KeyboardInterrupt:
        return 130


if __name__ == "__main__":
    sys.exit(main(sys.argv[1:]))
