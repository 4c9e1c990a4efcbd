"""Compares the documents with the files: prints each misfit, and fails if there is one.

    python3 -m tools check

CONTRIBUTING says what it holds of sources, and DECISIONS why.
"""
from __future__ import annotations

import argparse
import re
from collections.abc import Callable, Iterable, Iterator, Sequence

from tools import believed, definitions, wrong_definitions
from tools.checks import (
    edits,
    files,
    guarantees,
    lemmas,
    limits,
    memory,
    monitoring,
    names,
    outlets,
    prose,
    sources,
    twins,
    types,
    written,
)
from tools.tree import Misfit, Tree

# What the headline is stated in, and how pages say how many definitions it rests on.
HEADLINE = ("IsPromised", "Shows")
COUNTS_OF_HEADLINE = {
    "README.md": r"The headline rests on (\d+) of them",
    "docs/READING.md": r"Those are (\d+) definitions in \d+ files",
}


def sentences_of_specs(tree: Tree) -> Iterator[Misfit]:
    """Every definition has its sentence, and docs/DEFINITIONS.md says it in the same words."""
    for path in tree.specs():
        for it in definitions.sentences_of(path):
            if not it.text:
                yield Misfit(f"{tree.name_of(path)}:{it.line}", f"`{it.name}` has no sentence")
    yield from definitions.stale(tree, tree.text_of(definitions.PAGE))


def believed_definitions(tree: Tree) -> Iterator[Misfit]:
    """Every definition is in the right folder, and pages say how many the headline rests on."""
    specs = believed.Specs(tree)
    yield from believed.misfits(specs)
    count = len(believed.under_names(specs, HEADLINE))
    for page, pattern in COUNTS_OF_HEADLINE.items():
        told = re.search(pattern, " ".join(tree.text_of(page).split()))
        if told is None or int(told.group(1)) != count:
            yield Misfit(page, f"the headline rests on {count} definitions")


CHECKS: tuple[Callable[[Tree], Iterable[Misfit]], ...] = (
    edits.edit_texts,
    edits.named_edits,
    edits.told_edits,
    edits.counted_edits,
    sources.source_files,
    sources.contracts,
    sentences_of_specs,
    believed_definitions,
    wrong_definitions.listed_versions,
    lemmas.sentences_of_lemmas,
    lemmas.heads_of_proofs,
    lemmas.names_of_files,
    lemmas.page,
    guarantees.promise_forms,
    guarantees.named_clauses,
    guarantees.accounted,
    names.named_files,
    names.files_of_architecture,
    names.files_of_comments,
    names.clauses_of_decisions,
    limits.limits_of_architecture,
    limits.stated_limits,
    written.written_limits,
    types.names_of_types,
    twins.no_twins,
    memory.refusals_from_nothing,
    files.changes_of_files,
    outlets.sends_and_reports,
    outlets.senders_of_tickets,
    monitoring.alerts,
    monitoring.figures,
    monitoring.picture,
    prose.pages,
    prose.comments,
    prose.docstrings,
)


def main(words: Sequence[str], tree: Tree = Tree()) -> int:
    parser = argparse.ArgumentParser(
        prog="python3 -m tools check",
        description=__doc__,
        formatter_class=argparse.RawDescriptionHelpFormatter,
    )
    parser.parse_args(words)
    failed = 0
    for check in CHECKS:
        misfits = list(check(tree))
        failed += bool(misfits)
        for misfit in misfits:
            print(misfit)
    print(f"comparisons of documents with files: {len(CHECKS) - failed} passed, {failed} failed")
    return 1 if failed else 0
