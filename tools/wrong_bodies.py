"""Tries the edits of crates/NAME/wrong-bodies: the prover must refuse each.

    python3 -m tools wrong-bodies [NAME..]   tries all edits of these crates, or of all crates
    python3 -m tools wrong-bodies --sample   copies one part into must-fail/, for the next `rt ci`
    python3 -m tools wrong-bodies --clear    removes these copies again

must-fail/ and wrong-bodies/ hold files of the same kind. The gate tries those of must-fail/ each
time. All others together take too long: each crate is proved once more, and each edit is a check
of its own. So the gate tries one part of them: some edits of one crate, which take about ten
minutes on two processors. The hash of crates/ chooses the part, so a run can be repeated.

All are tried on a copy of the tree, which begins with the built libraries. Below the table stand
the edits that were refused weakly: by a limit of the prover, or because a proof names what they
took away.
"""
from __future__ import annotations

import argparse
import re
import shutil
import subprocess
import tempfile
import time
from collections.abc import Iterable, Sequence
from dataclasses import dataclass, field
from pathlib import Path

from tools.tree import Tree

PART = 8  # edits tried in one run of the gate
SMALL_PART = 6  # the same in a crate whose own proof takes over seven processor minutes
DEAR = frozenset(
    "urb_script urb_sqlite urb_turn urb_desk urb_worker urb_cli urb_folder urb_daemon".split()
)
MARK = "sample_"  # begins the name of a copy in must-fail/
NOT_REFUSED = re.compile(r"NOT REFUSED|BAD EDIT|NOT TRIED")
REFUSED = "refused, as it must be"
WEAKLY = "so this says"


@dataclass(frozen=True)
class Part:
    """Some edits of one crate."""

    crate: Path
    edits: tuple[Path, ...]


@dataclass
class Outcome:
    """What came of a crate's edits: how many were refused, which weakly, and which weren't."""

    refused: int = 0
    weakly: list[str] = field(default_factory=list)
    wrong: list[str] = field(default_factory=list)

    def add(self, other: Outcome) -> None:
        self.refused += other.refused
        self.weakly += other.weakly
        self.wrong += other.wrong


def edits_of(crate: Path) -> list[Path]:
    return sorted((crate / "wrong-bodies").glob("*.edit"))


def parts(tree: Tree) -> list[Part]:
    """All edits outside the gate, cut into parts; each part is of one crate."""
    found = []
    for crate in sorted(tree.crates.iterdir()):
        edits = edits_of(crate)
        size = SMALL_PART if crate.name in DEAR else PART
        found += [Part(crate, tuple(edits[at : at + size])) for at in range(0, len(edits), size)]
    return found


def chosen_part(tree: Tree, hash_of_crates: str) -> Part:
    """The part that the hash of crates/ chooses."""
    found = parts(tree)
    return found[int(hash_of_crates[:12], 16) % len(found)]


def clear(tree: Tree) -> None:
    """Removes the copies of a sample, and each folder that they alone made."""
    for copy in tree.files(f"crates/*/must-fail/{MARK}*.edit"):
        copy.unlink()
        if not any(copy.parent.iterdir()):
            copy.parent.rmdir()


def sample(tree: Tree) -> None:
    """Copies the part that the hash of crates/ chooses into the crate's must-fail/."""
    clear(tree)
    words = ["git", "rev-parse", "HEAD:crates"]
    run = subprocess.run(words, cwd=tree.top, capture_output=True, text=True, check=True)
    part = chosen_part(tree, run.stdout.strip())
    folder = part.crate / "must-fail"
    folder.mkdir(exist_ok=True)
    for edit in part.edits:
        shutil.copyfile(edit, folder / f"{MARK}{edit.name}")
    names = ", ".join(edit.stem for edit in part.edits)
    print(f"wrong-bodies: this run also tries of {part.crate.name}: {names}", flush=True)


def copy_of(tree: Tree, room: Path) -> Tree:
    """A copy of the tree in which each crate's wrong bodies are its only must-fail edits.

    Of out/ it has the built libraries alone. So rt proves no library again whose text is the same.
    """
    shutil.copytree(tree.crates, room / "crates", ignore=shutil.ignore_patterns("out"))
    for built in tree.crates.glob("*/out/rlib"):
        shutil.copytree(built, room / built.relative_to(tree.top))
    for name in ("crates.txt", "HANDLES"):
        if tree.has(name):
            shutil.copy2(tree.top / name, room / name)
    for folder in room.glob("crates/*/must-fail"):
        shutil.rmtree(folder)
    for folder in room.glob("crates/*/wrong-bodies"):
        folder.rename(folder.with_name("must-fail"))
    return Tree(room)


def outcome_of(said: str, status: int) -> Outcome:
    """What `rt must-fail` says of a crate's edits."""
    lines = said.splitlines()
    refused = [line for line in lines if REFUSED in line]
    wrong = [line for line in lines if NOT_REFUSED.search(line)]
    if status and not wrong:
        wrong = lines[-3:] or [f"rt must-fail ended with status {status}"]
    return Outcome(len(refused), [line for line in refused if WEAKLY in line], wrong)


def try_crate(tree: Tree, name: str) -> Outcome:
    """Tries a crate's must-fail edits by the gate's own tool."""
    words = ["rt", "must-fail", name]
    run = subprocess.run(words, cwd=tree.top, capture_output=True, text=True)
    return outcome_of(run.stdout + run.stderr, run.returncode)


def try_all(tree: Tree, names: Iterable[str]) -> int:
    """Tries the wrong bodies of these crates, or of all, on a copy. Gives the status."""
    wanted, total, begin = set(names), Outcome(), time.monotonic()
    crates = [it for it in sorted(tree.crates.iterdir()) if edits_of(it)]
    unknown = wanted - {it.name for it in crates}
    if unknown:
        print(f"no wrong bodies of {', '.join(sorted(unknown))}")
        return 2
    print("| crate | edits | refused | of these weakly | not refused or bad | minutes |")
    print("|---|---|---|---|---|---|", flush=True)
    with tempfile.TemporaryDirectory(prefix="urbd-wrong-bodies-") as room:
        copy = copy_of(tree, Path(room))
        for crate in crates:
            if wanted and crate.name not in wanted:
                continue
            at = time.monotonic()
            found = try_crate(copy, crate.name)
            total.add(found)
            counts = (len(edits_of(crate)), found.refused, len(found.weakly), len(found.wrong))
            cells = [f"`{crate.name}`", *map(str, counts), f"{(time.monotonic() - at) / 60:.1f}"]
            print(f"| {' | '.join(cells)} |", flush=True)
    print(*total.weakly, *total.wrong, sep="\n")
    minutes = (time.monotonic() - begin) / 60
    print(
        f"{total.refused} refused, {len(total.weakly)} of them weakly, {len(total.wrong)} not,"
        f" in {minutes:.0f} minutes"
    )
    return 1 if total.wrong else 0


def main(words: Sequence[str], tree: Tree = Tree()) -> int:
    parser = argparse.ArgumentParser(
        prog="python3 -m tools wrong-bodies",
        description=__doc__,
        formatter_class=argparse.RawDescriptionHelpFormatter,
    )
    parser.add_argument("names", nargs="*", metavar="NAME", help="a crate")
    act = parser.add_mutually_exclusive_group()
    act.add_argument("--sample", action="store_true", help="let the next rt ci try one part too")
    act.add_argument("--clear", action="store_true", help="remove what --sample copied")
    options = parser.parse_args(words)
    if options.sample:
        sample(tree)
    elif options.clear:
        clear(tree)
    else:
        return try_all(tree, options.names)
    return 0
