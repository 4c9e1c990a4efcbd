"""Copies the sentences of the files in specs/ to docs/DEFINITIONS.md, which lists every definition.

    python3 -m tools definitions           says what is stale, and fails if anything is
    python3 -m tools definitions --write   writes the page anew

On the page, a heading that names a file begins that file's section. These parts of the section
come from the file:

- the paragraph below the heading, which is the comment at the file's head;
- each item, which is the comment above one definition;
- each line in italics between items, which is a comment `-- ---- ..`.

At its end an item may have a mark, `Source: ..`. The marks, and everything else on the page, are
written by hand and stay as they are. A file without a heading needs one, at the place where a
reader should meet it.
"""
from __future__ import annotations

import argparse
import re
import textwrap
from collections.abc import Iterator, Sequence
from dataclasses import dataclass
from pathlib import Path

from tools.tree import Misfit, Tree

PAGE = "docs/DEFINITIONS.md"
COLUMNS = 100

KINDS = "abbrev|unfoldable|data|record"
DEFINITION = re.compile(
    rf"((?:(?:{KINDS}) )*pub (?:(?:{KINDS}) )+|(?:(?:{KINDS}) )+pub )([^\s:({{]+)"
)
PLAIN = re.compile(r"pub ([^\s:({]+) (?::|\{|\()")
HEADING = re.compile(r"### `(crates/\w+/specs/(?:internal/)?\w+\.antt)`$")
ITEM = re.compile(r"- `([^`]+)`:(.*)")
PART = re.compile(r"\s*-- ---- (.*)")
PART_LINE = re.compile(r"\*[^*]+:\*$")
USE = re.compile(r"use Rattle\.(\w+)\.specs\.((?:internal\.)?\w+)\.")
SOURCE = re.compile(r" Source: (.*)\.$")


@dataclass(frozen=True)
class Sentence:
    """A definition's name, the comment above it, and the number of its line."""

    name: str
    text: str
    line: int


def defined(line: str) -> str | None:
    """The name that a line of specs/ defines; none for a field, an import or a module."""
    if line.startswith(("pub use", "pub mod")):
        return None
    is_near_margin = re.match(r" {0,2}(?! )", line) is not None
    inside = DEFINITION.match(line.strip()) if is_near_margin else None
    if inside:
        return inside.group(2)
    plain = PLAIN.match(line)
    return plain.group(1) if plain else None


def comment_above(lines: Sequence[str], number: int) -> str:
    """The comment that ends just above this line, as one text; empty if there is none."""
    begin = number
    while (
        begin > 0
        and lines[begin - 1].lstrip().startswith("--")
        and not PART.match(lines[begin - 1])
    ):
        begin -= 1
    return " ".join(line.lstrip()[2:].strip() for line in lines[begin:number])


def sentences_of(path: Path) -> list[Sentence]:
    """The definitions of a file in order, each with its sentence and its line."""
    lines = path.read_text().splitlines()
    return [
        Sentence(name, comment_above(lines, at), at + 1)
        for at, name in enumerate(map(defined, lines))
        if name is not None
    ]


def parts_of(path: Path) -> Iterator[tuple[str, list[Sentence]]]:
    """The definitions of a file, cut at its comments `-- ---- ..`, each part with its comment."""
    begins = [(0, "")]
    for number, line in enumerate(path.read_text().splitlines(), 1):
        part = PART.match(line)
        if part:
            begins.append((number, part.group(1)))
    sentences = sentences_of(path)
    for at, (begin, comment) in enumerate(begins):
        end = begins[at + 1][0] if at + 1 < len(begins) else float("inf")
        yield comment, [it for it in sentences if begin < it.line <= end]


def head_of(path: Path) -> str:
    """The comment at the head of a file."""
    lines = path.read_text().splitlines()
    end = next((at for at, line in enumerate(lines) if not line.startswith("--")), len(lines))
    return comment_above(lines, end)


def source_of(text: str) -> str | None:
    """The source at the end of an item, if it has one."""
    source = SOURCE.search(text)
    return source.group(1) if source else None


def wrapped(text: str, begin: str = "") -> list[str]:
    """The text in lines of the page's width, behind this begin; code stays on one line."""
    code = re.sub(r"`[^`]*`", lambda match: match.group(0).replace(" ", "\0"), begin + text)
    indent = " " * len(begin[:2])
    lines = textwrap.wrap(
        code, COLUMNS, subsequent_indent=indent, break_long_words=False, break_on_hyphens=False
    )
    return [line.replace("\0", " ") for line in lines]


def item(sentence: Sentence, source: str | None) -> list[str]:
    """The lines of a definition's item."""
    end = "" if sentence.text.endswith((".", ".)", ":", ";")) else "."
    told = sentence.text + end + (f" Source: {source}." if source else "")
    return wrapped(told, f"- `{sentence.name}`: ")


def section(path: Path, lines: Sequence[str]) -> list[str]:
    """The lines of a file's section below its heading, from its lines as they are on the page."""
    kept: list[str] = []
    texts: list[list[str]] = []
    at: int | None = None
    is_item = False
    for line in lines:
        begin = ITEM.match(line)
        if begin:
            texts.append([begin.group(1), begin.group(2)])
            at = len(kept) if at is None else at
            is_item = True
        elif is_item and line.startswith("  "):
            texts[-1][1] += " " + line.strip()
        elif PART_LINE.match(line):
            is_item = False
        else:
            is_item = False
            kept.append(line)
    sources: dict[str, str | None] = {}
    for name, text in texts:
        sources.setdefault(name, source_of(" " + text.strip()))
    if at is None:
        at = len(kept)
    before, after = "\n".join(kept[:at]).strip("\n"), "\n".join(kept[at:]).strip("\n")
    parts = [wrapped(head_of(path)), *([part] for part in re.split(r"\n\n+", before)[1:])]
    for comment, found in parts_of(path):
        parts.append([f"*{comment}:*"] if comment else [])
        parts.append([line for it in found for line in item(it, sources.get(it.name))])
    parts.append([after] if after else [])
    return "\n\n".join("\n".join(part) for part in parts if part).split("\n")


def made(tree: Tree, text: str) -> str:
    """The page as it should be, from the page as it is."""
    out: list[str] = []
    lines: list[str] = []
    path: Path | None = None

    def close() -> None:
        if path is not None and path.exists():
            out.extend(["", *section(path, lines), ""])
        else:
            out.extend(lines)

    for line in text.split("\n"):
        begin = HEADING.match(line)
        if begin or line.startswith("## "):
            close()
            out.append(line)
            path, lines = (tree.top / begin.group(1) if begin else None), []
        else:
            lines.append(line)
    close()
    return "\n".join(out).rstrip("\n") + "\n"


def headings(text: str) -> list[str]:
    """The files that the page has sections for, in its order."""
    return [begin.group(1) for begin in map(HEADING.match, text.split("\n")) if begin]


def without_heading(tree: Tree, text: str) -> list[str]:
    """The files with definitions that don't have exactly one section."""
    told = headings(text)
    names = [tree.name_of(path) for path in tree.specs() if sentences_of(path)]
    return [name for name in names if told.count(name) != 1]


def out_of_order(tree: Tree, text: str) -> Iterator[tuple[str, str]]:
    """The files that the page lists before a file that they use, each with that file."""
    told = headings(text)
    for at, name in enumerate(told):
        for line in tree.text_of(name).splitlines():
            used = USE.match(line)
            if used:
                file = f"crates/{used.group(1)}/specs/{used.group(2).replace('.', '/')}.antt"
                if file in told[at + 1 :]:
                    yield name, file


def stale(tree: Tree, text: str) -> Iterator[Misfit]:
    """Where the page differs from what it should be."""
    is_now, should_be = text.split("\n"), made(tree, text).split("\n")
    if is_now != should_be:
        longest = max(len(is_now), len(should_be))
        padded = ([*lines, *[""] * (longest - len(lines))] for lines in (is_now, should_be))
        number = next(
            (at for at, (one, other) in enumerate(zip(*padded), 1) if one != other), longest
        )
        yield Misfit(
            f"{PAGE}:{number}",
            "not as in the files of specs/; run python3 -m tools definitions --write",
        )
    for name in without_heading(tree, text):
        yield Misfit(PAGE, f"has not exactly one heading for {name}")
    for name, used in out_of_order(tree, text):
        yield Misfit(PAGE, f"lists {name} before {used}, which it uses")
    for name in headings(text):
        if not tree.has(name):
            yield Misfit(PAGE, f"has a heading for {name}, which is not there")
        elif not head_of(tree.top / name):
            yield Misfit(f"{name}:1", "no comment at its head")


def main(words: Sequence[str], tree: Tree = Tree()) -> int:
    parser = argparse.ArgumentParser(
        prog="python3 -m tools definitions",
        description=__doc__,
        formatter_class=argparse.RawDescriptionHelpFormatter,
    )
    parser.add_argument("--write", action="store_true", help="write the page anew")
    if parser.parse_args(words).write:
        (tree.top / PAGE).write_text(made(tree, tree.text_of(PAGE)))
    misfits = list(stale(tree, tree.text_of(PAGE)))
    for misfit in misfits:
        print(misfit)
    return 1 if misfits else 0
