"""The tools of this repository as a user runs them."""
from __future__ import annotations

import subprocess

from trials import TOP
from trials.lib.program import PATIENCE

URBDCTL = TOP / "contrib" / "urbdctl"


def urbdctl(*words: object, limit: float = PATIENCE) -> subprocess.CompletedProcess[str]:
    """Runs the operators' tool to its end. What it says, also of faults, is its `stdout`."""
    return subprocess.run(
        [str(URBDCTL), *map(str, words)],
        stdout=subprocess.PIPE,
        stderr=subprocess.STDOUT,
        text=True,
        timeout=limit,
    )
