"""Proofs that can be read: lemmas have sentences, crates have heads, files have their own names."""
from __future__ import annotations

import re
from collections.abc import Iterator, Sequence
from pathlib import Path

from tools import lemmas
from tools.definitions import head_of
from tools.tree import Misfit, Tree

# The crates whose public lemmas all have a sentence. Add a crate here once they do.
WITH_SENTENCES = (
    "urb_names",
    "urb_certified",
    "urb_window",
    "urb_pending",
    "urb_majority",
    "urb_fifo",
    "urb_stubborn",
    "urb_stable",
    "urb_client",
    "urb_refusing",
    "urb_node",
    "urb_world",
    "urb_group",
    "urb_feed",
    "urb_show",
    "urb_script",
    "urb_sqlite",
    "urb_cluster_stop",
    "urb_folder",
    "urb_turn",
    "urb_link",
    "urb_desk",
    "urb_worker",
    "urb_options",
    "urb_cli",
    "urb_daemon",
)
# The crates in which no two files of specs/ and proofs/ have one name. Add a crate once it is so.
WITH_OWN_NAMES = (
    "urb_majority",
    "urb_fifo",
    "urb_stubborn",
)
# The prover gives these names to the files of each function, and to the list of a crate's modules.
GIVEN = frozenset({"Answers", "Invariants", "Proof", "Lib"})
# What a head names in brackets: `one`, or `one` and more of them
IN_BRACKETS = re.compile(r"\((`[^`]+`(?:, `[^`]+`)*)\)")
CODE = re.compile(r"`([^`]+)`")


def sentences_of_lemmas(tree: Tree, crates: Sequence[str] = WITH_SENTENCES) -> Iterator[Misfit]:
    """Each public lemma of these crates has its sentence."""
    for crate in crates:
        if not tree.has(f"crates/{crate}/proofs"):
            yield Misfit(crate, "should have sentences above its lemmas, but has no proofs")
        for path in lemmas.proofs_of(tree, crate):
            for it in lemmas.lemmas_of(path):
                if not it.text:
                    yield Misfit(f"{tree.name_of(path)}:{it.line}", f"`{it.name}` has no sentence")


def heads_of_proofs(tree: Tree, crates: Sequence[str] = WITH_SENTENCES) -> Iterator[Misfit]:
    """The proofs of these crates have a head, and each lemma that it names in brackets is there."""
    files = [path for crate in lemmas.crates_of(tree) for path in lemmas.proofs_of(tree, crate)]
    known = {it.name for path in files for it in lemmas.lemmas_of(path)}
    for crate in crates:
        name = f"crates/{crate}/proofs/Lib.antt"
        head = head_of(tree.top / name) if tree.has(name) else ""
        if not head:
            yield Misfit(f"{name}:1", "no comment at its head says what the crate proves")
        for series in IN_BRACKETS.findall(head):
            for word in CODE.findall(series):
                if word not in known:
                    yield Misfit(f"{name}:1", f"there is no lemma `{word}`")


def names_of_files(tree: Tree, crates: Sequence[str] = WITH_OWN_NAMES) -> Iterator[Misfit]:
    """No two files of these crates' specs/ and proofs/ have one name."""
    for crate in crates:
        first: dict[str, Path] = {}
        for folder in ("specs", "proofs"):
            for path in tree.files(f"crates/{crate}/{folder}/**/*.antt"):
                # a small letter begins the name of a folder, and its list stands beside it
                if path.stem in GIVEN or path.stem[:1].islower():
                    continue
                other = first.setdefault(path.stem, path)
                if other != path:
                    told = f"has the name of {tree.name_of(other)}"
                    yield Misfit(tree.name_of(path), told)


def page(tree: Tree) -> Iterator[Misfit]:
    """docs/LEMMAS.md says each lemma's sentence in the same words."""
    yield from lemmas.stale(tree)
