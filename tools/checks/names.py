"""Names in documents: the files, the clauses and the functions that they name are there."""
from __future__ import annotations

import re
from collections.abc import Iterator

from tools.checks.guarantees import DECISIONS, clauses_by_function
from tools.checks.prose import comments_of, prose_of
from tools.tree import Misfit, Tree

ARCHITECTURE = "docs/ARCHITECTURE.md"
FOLDERS = "crates|docs|examples|contrib|clients|tools|trials|bench"
NAMED = re.compile(rf"`((?:{FOLDERS})/[A-Za-z0-9_./-]+)`")
CODE = re.compile(r"`([^`]+)`")
IN_CRATE = re.compile(r"(?:src|specs|proofs)/[\w/.-]+")
BARE = re.compile(r"\w+\.(?:rt|antt)")
FILE_OF = re.compile(r"`([\w/]+\.(?:rt|antt))` of `(urb_\w+)`")
# A name in capitals stands for any name.
PLACEHOLDER = re.compile(r"\b[A-Z]+(?:_[A-Z]+)*\b(?!\.md)")
# `name`, or `name`, `other` and `third`
SERIES = r"((?:`[a-z_]+`(?:, | and | or )?)+)"
CLAUSES = re.compile(rf"\bclauses? {SERIES}")
CLAUSE_OF = re.compile(r"`([a-z_]+)` of `(?:\w+::)?([a-z_]+)`")


def named_files(tree: Tree) -> Iterator[Misfit]:
    """Each file that a document names is there."""
    for path in [*tree.files("*.md"), *tree.files("docs/*.md")]:
        for number, line in enumerate(path.read_text().splitlines(), 1):
            for word in NAMED.findall(line):
                if "/out/" not in word and not PLACEHOLDER.search(word) and not tree.has(word):
                    yield Misfit(f"{tree.name_of(path)}:{number}", f"there is no {word}")


def absent_files(tree: Tree, text: str) -> Iterator[str]:
    """The files of crates that a text names and that aren't in the crates that it names.

    "`src/a.rt` of `urb_x`" speaks of one crate, and so does "`urb_x`: `src/a.rt`". Any other file
    must be in one of the crates of the text, or in any crate if it names none.
    """
    named = [word for word in CODE.findall(text) if tree.has(f"crates/{word}")]
    of_crate = dict(re.findall(r"`([\w/.-]+)` of `(urb_\w+)`", text))
    beside = ""
    for word, mark in re.findall(r"`([^`]+)`(:?)", text):
        if word in named:
            beside = word if mark else ""
        elif IN_CRATE.fullmatch(word) or BARE.fullmatch(word):
            own = of_crate.get(word, beside)
            crates = [own] if own else named
            if not has_file(tree, word, crates) and (own or not has_file(tree, word, [])):
                yield f"{word} in {' or '.join(crates) or 'any crate'}"


def has_file(tree: Tree, word: str, crates: list[str]) -> bool:
    """Whether one of these crates has a file of this name or path; any crate if there are none."""
    places = ("",) if "/" in word else ("src/**/", "specs/**/", "proofs/**/")
    patterns = [f"crates/{it}/{place}{word}" for it in crates or ["*"] for place in places]
    return any(tree.files(pattern) for pattern in patterns)


def files_of_architecture(tree: Tree) -> Iterator[Misfit]:
    """Each file that ARCHITECTURE names is in the crate beside which it is named."""
    for it in prose_of(tree.text_of(ARCHITECTURE)):
        for name in absent_files(tree, it.text):
            yield Misfit(f"{ARCHITECTURE}:{it.line}", f"there is no {name}")


def files_of_comments(tree: Tree) -> Iterator[Misfit]:
    """Each file of another crate that a source's comment names is there."""
    for path in tree.sources():
        for it in comments_of(path.read_text(), "//"):
            for word, crate in FILE_OF.findall(it.text):
                if not has_file(tree, word, [crate]):
                    yield Misfit(
                        f"{tree.name_of(path)}:{it.line}", f"there is no {word} in {crate}"
                    )


def clauses_of_decisions(tree: Tree) -> Iterator[Misfit]:
    """Each clause that DECISIONS names is there, in the function beside which it is named."""
    found = clauses_by_function(tree)
    known = set().union(*found.values())
    for it in prose_of(tree.text_of(DECISIONS)):
        for series in CLAUSES.findall(it.text):
            for word in CODE.findall(series):
                if word not in known and word not in found:
                    yield Misfit(f"{DECISIONS}:{it.line}", f"there is no clause `{word}`")
        for word, function in CLAUSE_OF.findall(it.text):
            is_clause = word in known and function in found and word not in found
            if is_clause and word not in found[function]:
                yield Misfit(f"{DECISIONS}:{it.line}", f"`{function}` has no clause `{word}`")
