"""The command line of a long trial."""
from __future__ import annotations

import argparse
import random
import shutil
import tempfile
from collections.abc import Callable, Sequence
from pathlib import Path

from trials.lib.program import Program


def parser_of(what: str) -> argparse.ArgumentParser:
    """A parser for a trial with this description: its program, and the seed of its chances."""
    parser = argparse.ArgumentParser(
        description=what, formatter_class=argparse.RawDescriptionHelpFormatter
    )
    parser.add_argument("program", type=Path, help="the built urbd")
    parser.add_argument(
        "--seed", type=int, default=random.randrange(1 << 30), help="of its random numbers"
    )
    return parser


def run_trial(
    parser: argparse.ArgumentParser,
    words: Sequence[str],
    trial: Callable[[Program, Path, argparse.Namespace], None],
) -> int:
    """Runs a trial in a folder of its own. It fails by an exception, and says its seed first."""
    options = parser.parse_args(words)
    print(f"seed {options.seed}", flush=True)
    random.seed(options.seed)
    room = Path(tempfile.mkdtemp(prefix="urbd-trial-"))
    try:
        trial(Program(options.program.resolve()), room, options)
        print("all went well")
        return 0
    finally:
        shutil.rmtree(room, ignore_errors=True)
