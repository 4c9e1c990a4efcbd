"""Checks the Python code by mypy, black and flake8, if they are installed.

    python3 -m tools lint

One that isn't installed is left out with a line. pyproject.toml configures them.
"""
from __future__ import annotations

import argparse
import os
import shutil
import subprocess
from collections.abc import Sequence

from tools.tree import Tree

# The Python code that black and flake8 read. pyproject.toml names that of mypy, which takes one
# script without a module at a time: so it leaves out prove.
CODE = (
    "bench",
    "clients/python",
    "contrib/ctl",
    "contrib/package",
    "contrib/urbdctl",
    "examples",
    "prove",
    "tools",
    "trials",
)
LINTERS = {
    "mypy": ["mypy", "--cache-dir", os.devnull],
    "black": ["black", "--check", "--quiet", *CODE],
    "flake8": ["flake8", *CODE],
}


def main(words: Sequence[str], tree: Tree = Tree()) -> int:
    parser = argparse.ArgumentParser(
        prog="python3 -m tools lint",
        description=__doc__,
        formatter_class=argparse.RawDescriptionHelpFormatter,
    )
    parser.parse_args(words)
    passed = failed = 0
    for name, command in LINTERS.items():
        if not shutil.which(name):
            print(f"lint: {name} isn't installed, so it is left out")
            continue
        run = subprocess.run(command, cwd=tree.top, capture_output=True, text=True)
        if run.returncode == 0:
            passed += 1
        else:
            failed += 1
            print(f"lint: {name} refuses the code:\n{run.stdout}{run.stderr}", end="")
    print(f"linters: {passed} passed, {failed} failed")
    return 1 if failed else 0
