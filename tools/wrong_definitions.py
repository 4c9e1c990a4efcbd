"""Tries again the wrong versions of definitions that docs/WRONG_DEFINITIONS.md lists.

    python3 -m tools wrong-definitions [CRATE..]   all that the examples of these crates refuse
    python3 -m tools wrong-definitions --part      a few parts of them, as the gate does

Each row of the page's tables names a version, and the clause of a worked example that refused it
(tools/weaken.py makes the versions, and tools/judging.py tries them). A row passes if that clause
refuses the version again. A version that says the same as the definition isn't tried.

The gate tries a few parts of the rows. A part has rows that one crate's examples refuse. The hash
of crates/ chooses them, so a run can be repeated. A try needs the built libraries of the crates
below. If a check takes too long, its rows fail. But the gate leaves them out, and says so: a slow
machine says nothing of a definition.
"""
from __future__ import annotations

import argparse
import re
import subprocess
import tempfile
from collections import Counter
from collections.abc import Iterable, Iterator, Sequence
from dataclasses import dataclass
from pathlib import Path

from tools.believed import Specs
from tools.judging import ANSWERS, Example, Room, Trial, examples_of
from tools.tree import Misfit, Tree, crates_below
from tools.weakening import Rules, Version

PAGE = "docs/WRONG_DEFINITIONS.md"
PART = 12  # rows of one crate's examples that are tried together
PARTS = 4  # tried in one run of the gate
ROW = re.compile(r"\| `([^`]+)`(?: of `(\w+)`)? \| (.+) \| (.+) \|")
REFUSED = re.compile(r"`(\w+)::(\w+)`, `(\w+)`")
SAME = "no: it says the same"
COUNTS = re.compile(r"\| (.+?) \| (\d+) \| (\d+) \| (\d+) \| (\d+) \|")


@dataclass(frozen=True)
class Row:
    """A row of the page: a version, and the clause that refused it, if one did."""

    line: int
    section: str  # the heading that it stands under
    name: str
    crate: str  # of the definition, if the row says it
    what: str
    by: str

    @property
    def place(self) -> str:
        return f"{PAGE}:{self.line}"

    @property
    def says_same(self) -> bool:
        return self.by.startswith(SAME)

    @property
    def clause(self) -> tuple[str, str, str]:
        """The file, the function and the name of the clause; three empty words if there is none."""
        found = REFUSED.fullmatch(self.by)
        return (found.group(1), found.group(2), found.group(3)) if found else ("", "", "")


def rows_of(tree: Tree) -> list[Row]:
    """The rows of the page's tables of versions."""
    rows, section = [], ""
    for number, line in enumerate(tree.text_of(PAGE).splitlines(), 1):
        if line.startswith("## "):
            section = line[3:]
        found = ROW.fullmatch(line)
        if found:
            name, crate, what, by = found.groups()
            rows.append(Row(number, section, name, crate or "", what.replace("\\|", "|"), by))
    return rows


class Listed:
    """The rows of the page with the versions and the examples that they name."""

    def __init__(self, tree: Tree) -> None:
        self.tree, self.rows = tree, rows_of(tree)
        self.specs = Specs(tree)
        self.rules = Rules(self.specs)
        self.examples: dict[tuple[str, str], list[tuple[str, Example]]] = {}
        for folder in tree.files("crates/*/src/worked"):
            crate = folder.parent.parent.name
            for it in examples_of(self.specs, crate):
                place = (it.path.stem, it.head.name)
                self.examples.setdefault(place, []).append((crate, it))

    def versions_of(self, row: Row) -> list[Version]:
        """The versions that a row may mean. It is right if there is one."""
        return [
            version
            for it in self.specs.text
            if it.name == row.name and row.crate in ("", it.crate)
            for version in self.rules.versions_of(it)
            if version.what == row.what
        ]

    def examples_of(self, row: Row) -> list[tuple[str, Example]]:
        """The examples that a row may mean, each with its crate. It is right if there is one."""
        file, function, clause = row.clause
        found = self.examples.get((file, function), [])
        return [it for it in found if clause in {own.name for own in it[1].clauses}]

    def misfits(self) -> Iterator[Misfit]:
        """What is wrong on the page."""
        seen = set[tuple[str, str]]()
        for row in self.rows:
            versions = self.versions_of(row)
            if len(versions) != 1:
                which = "several crates have" if versions else "the rules don't make"
                yield Misfit(row.place, f"{which} this version of `{row.name}`: {row.what}")
            elif (place := str(versions[0].definition), row.what) in seen:
                yield Misfit(row.place, f"this version of `{row.name}` stands here twice")
            else:
                seen.add((place, row.what))
            if not row.says_same and len(self.examples_of(row)) != 1:
                yield Misfit(row.place, f"this names no clause of a worked example: {row.by}")
        yield from self.wrong_counts()

    def wrong_counts(self) -> Iterator[Misfit]:
        """The first table says how many rows each section has."""
        told = {}
        for line in self.tree.text_of(PAGE).splitlines():
            found = COUNTS.fullmatch(line)
            if found:
                told[found.group(1)] = (int(found.group(3)), int(found.group(4)))
        all_rows, same = Counter[str](), Counter[str]()
        for row in self.rows:
            section = row.section[:1].lower() + row.section[1:]
            all_rows[section] += 1
            same[section] += row.says_same
        for section, count in all_rows.items():
            right = (count - same[section], same[section])
            if told.get(section) != right:
                words = f"{right[0]} versions were refused, and {right[1]} say the same"
                yield Misfit(PAGE, f"of `{section}`, {words}")

    def parts(self) -> list[tuple[str, list[Row]]]:
        """All rows that were refused, cut into parts. Each is of one crate's examples."""
        by_crate: dict[str, list[Row]] = {}
        for row in self.rows:
            for crate, _ in self.examples_of(row)[:1]:
                by_crate.setdefault(crate, []).append(row)
        return [
            (crate, rows[at : at + PART])
            for crate, rows in sorted(by_crate.items())
            for at in range(0, len(rows), PART)
        ]


def listed_versions(tree: Tree) -> Iterable[Misfit]:
    """Each row of the page names a version that the rules make, and a clause of an example."""
    return Listed(tree).misfits() if tree.has(PAGE) else ()


def missing_libraries(tree: Tree, crate: str) -> list[str]:
    """The crates below this one that have no built library."""
    below = crates_below(tree, crate)
    return sorted(it for it in below if not tree.has(f"crates/{it}/out/rlib/{it}.rlib"))


def try_rows(listed: Listed, crate: str, rows: Sequence[Row]) -> Iterator[tuple[Row, str]]:
    """Tries these rows on a crate's examples. Gives each with what is wrong, or nothing."""
    with tempfile.TemporaryDirectory(prefix="urbd-wrong-definitions-") as folder:
        room = Room(listed.tree, crate, Path(folder))
        trials: list[tuple[Row, Trial]] = []
        for number, row in enumerate(rows, 1):
            version, example = listed.versions_of(row)[0], listed.examples_of(row)[0][1]
            if row.clause[2] in room.counting(example, version):
                trials.append((row, Trial(version, number, [example], {row.clause})))
            else:
                yield row, "a clause like this can't count against it"
        run = room.check([trial for _, trial in trials])
        for row, trial in trials:
            if trial.unread:
                yield row, f"the prover can't read it: {trial.unread}"
            elif run.status not in ANSWERS:
                yield row, run.no_answer
            else:
                yield row, "" if trial.refusers() else "NOT REFUSED"


def chosen_parts(
    parts: Sequence[tuple[str, list[Row]]], digest: str
) -> list[tuple[str, list[Row]]]:
    """Those that the gate tries, far from each other. The hash chooses the first one."""
    count = min(PARTS, len(parts))
    begin = int(digest[:12], 16)
    return [parts[(begin + at * len(parts) // count) % len(parts)] for at in range(count)]


def try_parts(
    listed: Listed, parts: Iterable[tuple[str, Sequence[Row]]], leaves_out_late: bool = False
) -> int:
    """Tries these parts, and counts. Gives the status.

    The rows of a check that takes too long fail, or are left out.
    """
    passed = failed = 0
    for crate, rows in parts:
        missing = missing_libraries(listed.tree, crate)
        if missing:
            names = ", ".join(missing)
            print(f"wrong definitions: left out, since there is no library of {names}")
            continue
        print(f"wrong definitions: {len(rows)} that the examples of {crate} refuse", flush=True)
        try:
            for row, wrong in try_rows(listed, crate, rows):
                passed, failed = passed + (not wrong), failed + bool(wrong)
                if wrong:
                    print(f"{row.place}: `{row.name}`: {row.what}: {wrong}", flush=True)
        except subprocess.TimeoutExpired as late:
            how = "left out" if leaves_out_late else "not tried"
            failed += 0 if leaves_out_late else len(rows)
            print(f"wrong definitions: {how}, since a check took over {late.timeout:.0f} seconds")
    print(f"{passed} passed, {failed} failed")
    return 1 if failed else 0


def hash_of_crates(tree: Tree) -> str:
    words = ["git", "rev-parse", "HEAD:crates"]
    run = subprocess.run(words, cwd=tree.top, capture_output=True, text=True, check=True)
    return run.stdout.strip()


def main(words: Sequence[str], tree: Tree = Tree()) -> int:
    parser = argparse.ArgumentParser(
        prog="python3 -m tools wrong-definitions",
        description=__doc__,
        formatter_class=argparse.RawDescriptionHelpFormatter,
    )
    parser.add_argument("names", nargs="*", metavar="CRATE", help="a crate with worked examples")
    parser.add_argument("--part", action="store_true", help="the parts that the gate tries now")
    options = parser.parse_args(words)
    listed = Listed(tree)
    misfits = list(listed.misfits())
    if misfits:
        print(*misfits, sep="\n")
        print(f"0 passed, {len(misfits)} failed")
        return 1
    parts = listed.parts()
    if options.part:
        parts = chosen_parts(parts, hash_of_crates(tree))
    elif options.names:
        parts = [it for it in parts if it[0] in options.names]
    return try_parts(listed, parts, leaves_out_late=options.part)
