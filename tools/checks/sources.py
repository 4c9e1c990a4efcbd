"""Source files: their first lines, their lengths, the comments and contracts of their functions."""
from __future__ import annotations

import re
from collections.abc import Iterator, Sequence

from tools.functions import heads_of
from tools.tree import Misfit, Tree

LONGEST_FILE = 400
LONGEST_CONTRACT = 20
# A worked example lists a whole run, command by command, so its contract may be longer.
LONGEST_EXAMPLE = 100
PUBLIC = re.compile(r"\s*pub (?:const )?fn ")


def has_comment(lines: Sequence[str], at: int) -> bool:
    """Whether a comment stands above the function at this place, before its attributes."""
    above = at - 1
    while above >= 0 and lines[above].lstrip().startswith("#["):
        above -= 1
    return above >= 0 and lines[above].lstrip().startswith("///")


def source_files(tree: Tree) -> Iterator[Misfit]:
    """Every source begins with its idea and is short, and its public functions have comments."""
    for path in tree.sources():
        name, lines = tree.name_of(path), path.read_text().splitlines()
        if not lines or not lines[0].startswith("//!"):
            yield Misfit(f"{name}:1", "the first line is no `//!`")
        if len(lines) > LONGEST_FILE:
            yield Misfit(name, f"{len(lines)} lines")
        for at, line in enumerate(lines):
            if "/tests" not in name and PUBLIC.match(line) and not has_comment(lines, at):
                yield Misfit(f"{name}:{at + 1}", "a public function without a comment")
    for path in tree.specs():
        count = len(path.read_text().splitlines())
        if count > LONGEST_FILE:
            yield Misfit(tree.name_of(path), f"{count} lines")


def contracts(tree: Tree) -> Iterator[Misfit]:
    """No contract is longer than a reader can hold in mind.

    Its clauses have few lines, comments not counted.
    """
    for path in tree.sources():
        is_example = "worked" in path.parts or path.stem == "worked"
        most = LONGEST_EXAMPLE if is_example else LONGEST_CONTRACT
        for head in heads_of(path.read_text()):
            count = len(head.contract())
            if count > most:
                place = f"{tree.name_of(path)}:{head.first}"
                yield Misfit(place, f"the contract of `{head.name}` has {count} lines, over {most}")
