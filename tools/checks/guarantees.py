"""The promises of docs/GUARANTEES.md: their form, and the functions and clauses that they name."""
from __future__ import annotations

import re
from collections.abc import Iterator
from dataclasses import dataclass, field
from pathlib import Path

from tools.functions import IMPL, heads_of
from tools.tree import Misfit, Tree

PAGE = "docs/GUARANTEES.md"
DECISIONS = "docs/DECISIONS.md"
FIELD = re.compile(r"  - (\w+): (.*)")
FIELDS = ("", "Clause", "Edits")
NAMES = re.compile(r"`([A-Za-z_:0-9]+)`")


def names_in(text: str) -> list[str]:
    """The names between backticks."""
    return NAMES.findall(text)


@dataclass
class Item:
    """An item of a list: its line, the crates of its heading, and its texts by field."""

    line: int
    crates: list[str]
    texts: dict[str, list[str]] = field(default_factory=dict)

    @property
    def is_promise(self) -> bool:
        return len(self.texts) > 1


@dataclass(frozen=True)
class Section:
    """A promise: its line, the crates of its heading, and the texts of its three fields."""

    line: int
    crates: list[str]
    texts: tuple[str, ...]


def lists(tree: Tree) -> Iterator[list[Item]]:
    """The lists of GUARANTEES under the headings of crates."""
    crates: list[str] = []
    items: list[Item] = []
    name = ""
    for number, line in enumerate([*tree.text_of(PAGE).splitlines(), ""], 1):
        begin = FIELD.match(line)
        if line.startswith("## "):
            crates = re.findall(r"urb\w*", line)
        if line.startswith("- "):
            items.append(Item(number, crates, {"": [line[2:]]}))
            name = ""
        elif begin and items:
            name = begin.group(1)
            items[-1].texts.setdefault(name, []).append(begin.group(2))
        elif line.startswith("  ") and items:
            items[-1].texts[name][-1] += " " + line.strip()
        elif items:
            if crates:
                yield items
            items = []


def rows(tree: Tree) -> Iterator[Section]:
    """The rows of three cells: promise, clauses, edits."""
    crates: list[str] = []
    for number, line in enumerate(tree.text_of(PAGE).splitlines(), 1):
        if line.startswith("## "):
            crates = re.findall(r"urb\w*", line)
        cells = tuple(cell.strip() for cell in line.strip().strip("|").split("|"))
        if line.startswith("|") and len(cells) == len(FIELDS) and crates:
            yield Section(number, crates, cells)


def sections(tree: Tree) -> Iterator[Section]:
    """The promises of GUARANTEES, from its lists and its rows."""
    for items in lists(tree):
        for item in items:
            if item.is_promise:
                texts = tuple(" ".join(item.texts.get(name, [])) for name in FIELDS)
                yield Section(item.line, item.crates, texts)
    yield from rows(tree)


def promise_forms(tree: Tree) -> Iterator[Misfit]:
    """Each item of a list of promises has its clause once, then its edits, and nothing else."""
    text = "a promise is a sentence, then its `Clause:`, then its `Edits:`"
    for items in lists(tree):
        for item in items if any(it.is_promise for it in items) else []:
            has_order = tuple(item.texts) in (FIELDS, FIELDS[:2])
            if not has_order or any(len(parts) > 1 for parts in item.texts.values()):
                yield Misfit(f"{PAGE}:{item.line}", text)


def clauses_by_function(tree: Tree) -> dict[str, set[str]]:
    """The names of the clauses of each function, by the function's name."""
    found: dict[str, set[str]] = {}
    for path in tree.sources():
        for head in heads_of(path.read_text()):
            found.setdefault(head.name, set()).update(head.clauses())
    return found


def named_clauses(tree: Tree) -> Iterator[Misfit]:
    """Each clause that GUARANTEES names is one of a function of its item."""
    found = clauses_by_function(tree)
    above: list[str] = []
    for section in sections(tree):
        text = section.texts[FIELDS.index("Clause")]
        words = [word.split("::")[-1] for word in names_in(text)]
        above = words + (above if text.startswith("the same functions") else [])
        there = set().union(*(found.get(word, set()) for word in above))
        for word in words:
            is_known = word in there or word in found or tree.has(f"crates/{word}")
            if not is_known and not word[0].isupper():
                yield Misfit(f"{PAGE}:{section.line}", f"there is no function or clause `{word}`")


@dataclass(frozen=True)
class Exported:
    """A public function: its place, and the names by which a document may speak of it."""

    path: Path
    line: int
    names: frozenset[str]


def exported(crate: Path) -> Iterator[Exported]:
    """The functions that a crate exports."""
    root = (crate / "src/lib.rt").read_text()
    out = set(re.findall(r"\w+", " ".join(re.findall(r"pub use [^;]*;", root))))
    modules = re.findall(r"pub mod (\w+);", root)
    for path in sorted((crate / "src").rglob("*.rt")):
        module = path.relative_to(crate / "src").parts[0].removesuffix(".rt")
        if "tests" in path.parts:
            continue
        owner = ""
        for number, line in enumerate(path.read_text().splitlines(), 1):
            impl = IMPL.match(line)
            if line.startswith("}"):
                owner = ""
            owner = impl.group(1) if impl else owner
            begin = re.match(r"\s*pub (?:const )?fn (\w+)", line)
            if begin and (module in modules or (owner or begin.group(1)) in out):
                name = begin.group(1)
                names = {name, f"{owner or None}::{name}", f"{crate.name}::{module}"}
                yield Exported(path, number, frozenset(names))


def accounted(tree: Tree) -> Iterator[Misfit]:
    """GUARANTEES names each public function, or DECISIONS says why it doesn't."""
    told = set(names_in(tree.text_of(PAGE) + tree.text_of(DECISIONS)))
    text = "a public function that neither GUARANTEES nor DECISIONS names"
    for root in tree.files("crates/*/src/lib.rt"):
        for it in exported(root.parent.parent):
            if not it.names & told:
                yield Misfit(f"{tree.name_of(it.path)}:{it.line}", text)
