"""The functions of a Rattle source file, with their contracts.

Lines are read, nothing is parsed.
"""
from __future__ import annotations

import re
from collections.abc import Iterator, Sequence
from dataclasses import dataclass

FUNCTION = re.compile(r"\s*(pub(?:\([a-z]+\))? )?(?:const )?(?:unsafe )?fn (\w+)")
CLAUSE = re.compile(r"\s*(?:requires|ensures|decreases)\b")
NAMED_CLAUSE = re.compile(r"\s*(?:requires|ensures) (\w+) \{")
# The owner of methods; an impl of a trait for a type belongs to the type.
IMPL = re.compile(r"impl(?:<.*?>)? (?:.* for )?(\w+)")


def without_comments(text: str, mark: str) -> str:
    return "\n".join(line.split(mark)[0] for line in text.splitlines())


@dataclass(frozen=True)
class Head:
    """A function's signature and contract, up to its body."""

    name: str
    is_public: bool
    first: int  # the number of its first line, from 1
    lines: tuple[str, ...]

    @property
    def text(self) -> str:
        return without_comments("\n".join(self.lines), "//")

    def contract(self) -> list[str]:
        """The lines of the contract, without blank lines and comments."""
        lines = [line.strip() for line in self.lines]
        begin = next((at for at, line in enumerate(lines) if CLAUSE.match(line)), len(lines))
        kept = [line for line in lines[begin:] if line and not line.startswith("//")]
        return kept[:-1] if kept and kept[-1].startswith("{") else kept

    def clauses(self) -> list[str]:
        """The names of the clauses that have one."""
        return [found.group(1) for found in map(NAMED_CLAUSE.match, self.lines) if found]


def end_of_head(lines: Sequence[str], begin: int) -> int:
    """The last line of a function's head, which begins here: it opens the body, if there is one."""
    depth, has_clause = 0, False
    for at in range(begin, len(lines)):
        line = lines[at].split("//")[0].rstrip()
        if CLAUSE.match(line):
            has_clause = True
        elif depth == 0 and line.lstrip().startswith("{"):
            return at
        if depth == 0 and not has_clause and line.endswith(("{", "}", ";")):
            return at
        depth += line.count("{") - line.count("}")
        if depth == 0 and line.endswith(";"):
            return at
    return len(lines) - 1


def head_at(lines: Sequence[str], begin: int) -> Head | None:
    """The head of the function that begins at this place, if one does."""
    found = FUNCTION.match(lines[begin])
    if not found:
        return None
    end = end_of_head(lines, begin)
    return Head(found.group(2), found.group(1) == "pub ", begin + 1, tuple(lines[begin : end + 1]))


def heads_of(text: str) -> Iterator[Head]:
    """The heads of all functions of a source file, in order."""
    lines, at = text.splitlines(), 0
    while at < len(lines):
        head = head_at(lines, at)
        if head:
            yield head
        at += len(head.lines) if head else 1
