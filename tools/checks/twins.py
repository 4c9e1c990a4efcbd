"""Twins: no lemma is stated twice in the repository.

Two statements are twins if they are equal up to the names of their variables. A name means what
its file declares or imports, so equal words of two files can state different things. Only the
lemmas of files are compared, not those of a `where`. A lemma of a module with parameters has these
parameters in front.
"""
from __future__ import annotations

import re
from collections.abc import Iterator, Mapping, Sequence
from dataclasses import dataclass, field

from tools.tree import Misfit, Tree

# The files of one function: they answer its goals, and state no lemma for others.
OF_FUNCTIONS = frozenset({"Answers", "Invariants", "Given", "Goals", "Lib"})
LEMMA = re.compile(r"(?:pub )?(?!(?:use|pub|mod|module|record|data|abbrev)\b)(\S+) :(?: |$)")
MODULE = re.compile(r"module _ (.*)\bwhere$")
DECLARED = re.compile(r"(?:abbrev )?(?:pub )?(?:record |data )?(\S+) ")
USE = re.compile(r"use (\S+?)(?:\.\{(.*)\}| as (\S+))$")
COMMENT = re.compile(r"\s*--.*")
TOKEN = re.compile(r"[(){},.;=→:]|[^\s(){},.;=→:]+")
NAME = re.compile(r"[^\W\d]")
STANDARD = "Rattle.std."


@dataclass(frozen=True)
class Stated:
    """A lemma, and its statement with variables numbered in order of their places."""

    place: str
    name: str
    statement: str


@dataclass
class Block:
    """A line without its comment, and what is indented below it."""

    line: int
    indent: int
    head: str
    below: list[Block] = field(default_factory=list)

    def words(self) -> str:
        return " ".join([self.head, *(it.words() for it in self.below)])


def blocks_of(text: str) -> list[Block]:
    """The lines of a file, each below the line before it that is indented less."""
    top = Block(0, -1, "")
    open_blocks = [top]
    for number, line in enumerate(text.splitlines(), 1):
        line = COMMENT.sub("", line)
        if not line.strip():
            continue
        last = open_blocks[-1]
        if last.head.startswith("module") and not last.head.endswith("where"):
            last.head += f" {line.strip()}"
            continue
        block = Block(number, len(line) - len(line.lstrip()), line.strip())
        while open_blocks[-1].indent >= block.indent:
            open_blocks.pop()
        open_blocks[-1].below.append(block)
        open_blocks.append(block)
    return top.below


def meanings(blocks: Sequence[Block], file: str) -> dict[str, str]:
    """What the names that a file declares or imports mean. Names of the standard library stay."""
    found: dict[str, str] = {}
    for block in blocks:
        used = USE.match(block.head)
        if used and used[2] and not used[1].startswith(STANDARD):
            for item in used[2].split(","):
                name, _, other = item.strip().partition(" as ")
                found[other or name] = f"{used[1]}.{name}"
        elif used and used[3]:
            found[used[3]] = used[1]
        elif not used and block.head.startswith("module"):
            found.update(meanings(block.below, f"{file}:{block.line}"))
        elif not used:
            declared = DECLARED.match(block.head)
            if declared:
                found[declared[1]] = f"{file}:{declared[1]}"
    return found


def variables_of(tokens: Sequence[str]) -> frozenset[str]:
    """The variables of a statement: what stands before a colon in brackets, or after a λ."""
    found: set[str] = set()
    for at, token in enumerate(tokens):
        if token not in ("(", "{") and not token.startswith("λ"):
            continue
        names = [token[1:]] if len(token) > 1 else []
        for word in tokens[at + 1 :]:
            if not NAME.match(word):
                if word == ":" or token.startswith("λ"):
                    found.update(names)
                break
            names.append(word)
    return frozenset(found)


def numbered(words: str, meaning: Mapping[str, str]) -> str:
    """A statement with its variables numbered. Its other names are what they mean."""
    tokens = TOKEN.findall(words.replace("λ", "λ "))
    variables = variables_of(tokens)
    numbers: dict[str, str] = {}
    said: list[str] = []
    for at, token in enumerate(tokens):
        is_field = at > 0 and tokens[at - 1] == "." and NAME.match(token) and not said[-2:] == ["λ"]
        if token in variables and not (is_field and token not in numbers):
            said.append(numbers.setdefault(token, f"#{len(numbers)}"))
        else:
            said.append(token if is_field else meaning.get(token, token))
    return " ".join(said)


def statements(
    blocks: Sequence[Block], file: str, meaning: Mapping[str, str], before: str = ""
) -> Iterator[Stated]:
    """The lemmas of a file or a module, whose parameters stand before each."""
    for block in blocks:
        module, lemma = MODULE.match(block.head), LEMMA.match(block.head)
        if module:
            yield from statements(block.below, file, meaning, f"{before}{module[1]} → ")
        elif lemma:
            statement = numbered(before + block.words()[lemma.end() :], meaning)
            yield Stated(f"{file}:{block.line}", lemma[1], statement)


def lemmas_of(tree: Tree) -> Iterator[Stated]:
    """The lemmas of all files of proofs that are there for more than one function or example."""
    for path in sorted(tree.top.glob("crates/*/proofs/**/*.antt")):
        if path.stem not in OF_FUNCTIONS and "worked" not in path.parts:
            file = tree.name_of(path)
            blocks = blocks_of(path.read_text())
            yield from statements(blocks, file, meanings(blocks, file))


def no_twins(tree: Tree) -> Iterator[Misfit]:
    """Each lemma is stated in one place."""
    found: dict[str, Stated] = {}
    for it in lemmas_of(tree):
        first = found.setdefault(it.statement, it)
        if first is not it:
            told = f"`{it.name}` states what `{first.name}` at {first.place} states"
            yield Misfit(it.place, told)
