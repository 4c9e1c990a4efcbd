"""Edits: each has its text, and GUARANTEES names each and says how many there are."""
from __future__ import annotations

import re
from collections.abc import Iterator
from pathlib import Path

from tools.checks.guarantees import FIELDS, PAGE, names_in, sections
from tools.tree import Misfit, Tree, crate_of
from tools.wrong_bodies import parts

# The folders of edits: those that the gate tries, and those that `wrong-bodies` tries.
FOLDERS = ("must-fail", "wrong-bodies")
COUNTS = {
    PAGE: r"(\d+) edits in `must-fail/` and (\d+) in `wrong-bodies/`",
    "README.md": r"the (\d+) in `crates/\*/must-fail/` and a part of the (\d+) in `wrong-bodies/`",
}


def edit_files(tree: Tree) -> list[Path]:
    return [path for folder in FOLDERS for path in tree.files(f"crates/*/{folder}/*.edit")]


def edit_texts(tree: Tree) -> Iterator[Misfit]:
    """The text that an edit replaces is in its file exactly once."""
    for path in edit_files(tree):
        found = fault_of_edit(path)
        if found:
            number, text = found
            yield Misfit(f"{tree.name_of(path)}:{number}", text)


def fault_of_edit(path: Path) -> tuple[int, str] | None:
    """The first line of an edit that its files refuse, and why; None if there is none."""
    crate, text, old = path.parent.parent, "", ""
    for number, line in enumerate(path.read_text().splitlines(), 1):
        word, _, rest = line.partition(": ")
        if word == "file":
            if not (crate / rest.strip()).exists():
                return number, f"there is no {rest.strip()}"
            text = (crate / rest.strip()).read_text()
        elif word == "old":
            old = rest
            if text.count(old) != 1:
                return number, f"its text stands {text.count(old)} times"
        elif word == "new":
            text = text.replace(old, rest)
    return None


def named_edits(tree: Tree) -> Iterator[Misfit]:
    """Each edit that GUARANTEES names is one of a crate of that section."""
    for section in sections(tree):
        text = re.sub(r"test `[^`]*`", "", section.texts[FIELDS.index("Edits")])
        for word in re.findall(r"`([a-z_0-9]+)`", text):
            names = [
                f"crates/{crate}/{folder}/{word}.edit"
                for crate in section.crates
                for folder in FOLDERS
            ]
            if not any(map(tree.has, names)):
                crates = " or ".join(section.crates)
                yield Misfit(f"{PAGE}:{section.line}", f"there is no edit `{word}` of {crates}")


def told_edits(tree: Tree) -> Iterator[Misfit]:
    """GUARANTEES names each edit, in a section of its crate."""
    told: dict[str, set[str]] = {}
    for section in sections(tree):
        for crate in section.crates:
            told.setdefault(crate, set()).update(names_in(section.texts[FIELDS.index("Edits")]))
    text = tree.text_of(PAGE)
    for path in edit_files(tree):
        is_told = path.stem in told.get(crate_of(tree, path), set())
        if not is_told and f"`{path.stem}`" not in text:
            yield Misfit(tree.name_of(path), "an edit that GUARANTEES doesn't name")


def counted_edits(tree: Tree) -> Iterator[Misfit]:
    """Two pages say how many edits there are. GUARANTEES says into how many parts they are cut."""
    first, second = (len(tree.files(f"crates/*/{folder}/*.edit")) for folder in FOLDERS)
    for page, pattern in COUNTS.items():
        told = re.search(pattern, " ".join(tree.text_of(page).split()))
        if told is None or told.groups() != (str(first), str(second)):
            text = f"there are {first} edits in `must-fail/` and {second} in `wrong-bodies/`"
            yield Misfit(page, text)
    count = len(parts(tree))
    if not re.search(rf"There are\s+{count} parts\b", tree.text_of(PAGE)):
        yield Misfit(PAGE, f"the wrong bodies are cut into {count} parts")
