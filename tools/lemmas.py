"""Copies the sentences above public lemmas in proofs/ to docs/LEMMAS.md, which lists these lemmas.

    python3 -m tools lemmas           says what is stale, and fails if anything is
    python3 -m tools lemmas --write   writes the page anew

The whole page is made. Crates come in the order of crates.txt, and files in the order in which
Lib.antt lists them. A crate's paragraph is the head of Lib.antt, a file's is the head of that file,
and an item is the comment above a lemma. A lemma without one is left out.
"""
from __future__ import annotations

import argparse
import re
from collections.abc import Iterator, Sequence
from dataclasses import dataclass
from pathlib import Path

from tools.definitions import Sentence, comment_above, head_of, item, wrapped
from tools.tree import Misfit, Tree

PAGE = "docs/LEMMAS.md"
# The files of proofs/ that belong to one function or list modules: they state no lemma for others.
WITHOUT_SUBJECT = frozenset({"Answers", "Invariants", "Lib"})

LEMMA = re.compile(r"pub (?!mod\b|use\b)(\S+) :")
RECORD = re.compile(r"(?:pub )?(?:record|data)\b")
MODULE = re.compile(r"(?:pub )?mod (\w+)$")
CRATE = re.compile(r"^(\w+)(?: \w+)?:", re.M)

BEGIN = """\
# Lemmas

This page lists the public lemmas of the folders `proofs/`, each with a sentence that says what it
states. Nobody has to believe them: the prover checks each proof. They are for a reader who wants to
know why a promise holds, or to state one more. docs/DEFINITIONS.md lists the definitions in whose
words they are stated.

`python3 -m tools lemmas --write` makes this page from the comments in `proofs/`, and
`python3 -m tools check` fails if they differ. A lemma without a sentence isn't here yet.
"""


@dataclass(frozen=True)
class Block:
    """A line that may begin a block, by its indent, and whether it begins a record."""

    indent: int
    is_record: bool


def lemmas_of(path: Path) -> list[Sentence]:
    """The public lemmas of a file in order, each with the comment above it, empty if there is none.

    A field of a record is no lemma: it is one clause of what the record's own comment says.
    """
    lines = path.read_text().splitlines()
    found: list[Sentence] = []
    blocks: list[Block] = []
    for at, line in enumerate(lines):
        text = line.strip()
        if not text or text.startswith("--"):
            continue
        indent = len(line) - len(line.lstrip())
        while blocks and blocks[-1].indent >= indent:
            blocks.pop()
        begin = LEMMA.match(text)
        if begin and not (blocks and blocks[-1].is_record):
            found.append(Sentence(begin.group(1), comment_above(lines, at), at + 1))
        blocks.append(Block(indent, RECORD.match(text) is not None))
    return found


def listed(folder: Path, index: Path) -> Iterator[Path]:
    """The files that an index of modules lists, in its order. A module with a list is a folder."""
    for line in index.read_text().splitlines() if index.exists() else []:
        begin = MODULE.match(line)
        if begin:
            path = folder / f"{begin.group(1)}.antt"
            below = list(listed(folder / begin.group(1), path))
            yield from below or ([path] if path.exists() else [])


def proofs_of(tree: Tree, crate: str) -> list[Path]:
    """The files of a crate with lemmas: those of Lib.antt in its order, and then the others."""
    folder = tree.crates / crate / "proofs"
    first = list(listed(folder, folder / "Lib.antt"))
    files = tree.files(f"crates/{crate}/proofs/**/*.antt")
    others = [it for it in files if it not in first and it.stem not in WITHOUT_SUBJECT]
    return [*first, *(it for it in others if lemmas_of(it))]


def crates_of(tree: Tree) -> list[str]:
    """The crates with proofs, in the order of crates.txt: the lowest first."""
    crates = CRATE.findall(tree.text_of("crates.txt"))
    return [crate for crate in crates if tree.has(f"crates/{crate}/proofs")]


def section(tree: Tree, crate: str) -> Iterator[list[str]]:
    """The paragraphs of a crate: its head, and for each file a heading, its head and its lemmas."""
    folder = tree.crates / crate / "proofs"
    files: list[list[str]] = []
    for path in proofs_of(tree, crate):
        items = [line for it in lemmas_of(path) if it.text for line in item(it, None)]
        if items:
            name = path.relative_to(folder).with_suffix("")
            files += [[f"### `{name}`"], wrapped(head_of(path)), items]
    if files:
        index = folder / "Lib.antt"
        yield [f"## {crate}"]
        yield wrapped(head_of(index)) if index.exists() else []
        yield from files


def made(tree: Tree) -> str:
    """The page as it should be."""
    parts = [part for crate in crates_of(tree) for part in section(tree, crate)]
    return "\n\n".join([BEGIN.strip("\n"), *("\n".join(part) for part in parts if part)]) + "\n"


def stale(tree: Tree) -> Iterator[Misfit]:
    """The first line in which the page differs from what it should be."""
    is_now, should_be = tree.text_of(PAGE).split("\n"), made(tree).split("\n")
    if is_now != should_be:
        pairs = enumerate(zip(is_now, should_be), 1)
        shorter = min(len(is_now), len(should_be))
        number = next((at for at, (one, other) in pairs if one != other), shorter)
        yield Misfit(
            f"{PAGE}:{number}",
            "not as in the files of proofs/; run python3 -m tools lemmas --write",
        )


def main(words: Sequence[str], tree: Tree = Tree()) -> int:
    parser = argparse.ArgumentParser(
        prog="python3 -m tools lemmas",
        description=__doc__,
        formatter_class=argparse.RawDescriptionHelpFormatter,
    )
    parser.add_argument("--write", action="store_true", help="write the page anew")
    if parser.parse_args(words).write:
        (tree.top / PAGE).write_text(made(tree))
    misfits = list(stale(tree))
    for misfit in misfits:
        print(misfit)
    return 1 if misfits else 0
