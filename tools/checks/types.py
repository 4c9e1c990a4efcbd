"""Names of types: a public type's name is declared in no other crate.

A reader meets a type's name in contracts of many crates. So one name stands for one type. The
crates of tests aren't looked at: nobody uses their types.
"""
from __future__ import annotations

import re
from collections.abc import Iterator, Mapping
from dataclasses import dataclass

from tools.tree import Misfit, Tree, crate_of

DECLARED = re.compile(
    r"^(pub(?:\([a-z]+\))? )?(?:struct|enum|union|trait|type) ([A-Z]\w*)", re.MULTILINE
)
# A name that two crates declare, and why it may be so.
ALLOWED: Mapping[str, str] = {}


@dataclass(frozen=True)
class Declared:
    """A type's declaration."""

    crate: str
    file: str
    line: int
    is_public: bool


def types_of(tree: Tree) -> dict[str, list[Declared]]:
    """The declarations of types in sources, by name."""
    found: dict[str, list[Declared]] = {}
    for path in tree.sources():
        crate, text = crate_of(tree, path), path.read_text()
        if crate.endswith("_tests"):
            continue
        for it in DECLARED.finditer(text):
            line = text.count("\n", 0, it.start()) + 1
            declared = Declared(crate, tree.name_of(path), line, it[1] == "pub ")
            found.setdefault(it[2], []).append(declared)
    return found


def names_of_types(tree: Tree, allowed: Mapping[str, str] = ALLOWED) -> Iterator[Misfit]:
    """Each name of a public type is declared in one crate, or is in the list with a reason."""
    shared = set()
    for name, declared in sorted(types_of(tree).items()):
        public = [it for it in declared if it.is_public]
        others = [it for it in declared if public and it.crate != public[0].crate]
        if not others:
            continue
        shared.add(name)
        if name not in allowed:
            for it in others:
                told = f"`{name}` is also a type of {public[0].crate}"
                yield Misfit(f"{it.file}:{it.line}", told)
    for name in allowed:
        if name not in shared:
            yield Misfit("tools/checks/types.py", f"`{name}` is a type of one crate alone")
