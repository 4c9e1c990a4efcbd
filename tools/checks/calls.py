"""Compares calls in sources with a table of the places that may make them."""
from __future__ import annotations

import re
from collections import Counter
from collections.abc import Callable, Iterator, Mapping

from tools.tree import Misfit, Tree

COMMENT = re.compile(r"//.*")


def without_comments(text: str) -> str:
    """A source without its comments."""
    return COMMENT.sub("", text)


def misplaced_calls(
    tree: Tree,
    calls_in: Callable[[str], Counter[str]],
    places: Mapping[tuple[str, str], int],
    table: str,
    verb: str = "call",
) -> Iterator[Misfit]:
    """Each call that `calls_in` finds is in the table, by call and file, as often as that says.

    Tests may make all calls. `table` is the table's name, and `verb` what a source does with what
    `calls_in` finds.
    """
    left = dict(places)
    for path in tree.sources():
        name = tree.name_of(path)
        if "_tests/" in name:
            continue
        for call, count in sorted(calls_in(path.read_text()).items()):
            told = left.pop((call, name), 0)
            if count != told:
                yield Misfit(name, f"{verb}s {call} {count} times, and not {told}")
    for call, name in left:
        yield Misfit(name, f"is in the table of {table}, but doesn't {verb} {call}")
