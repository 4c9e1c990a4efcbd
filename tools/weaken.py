"""Makes wrong versions of definitions, and says which example, law or public clause refuses each.

    python3 -m tools weaken NAME..          lists the wrong versions of these definitions
    python3 -m tools weaken --under NAME..  of all that these definitions and functions rest on
    .. --examples CRATE                     tries them on the worked examples of this crate alone
    .. --try                                tries them on whole crates
    .. --least N --most M                   only version N to M

A word of specs/ on which a promise rests needs an example that makes it false, if it stands in a
conclusion, or true, if it stands in a premise. A wrong version that nothing refuses shows a word
without such an example. A version counts as refused if a worked example, a law, or the contract of
a public function isn't proved over it. A private proof that names a field doesn't count: its author
would have written another proof.

All are tried on a copy, and a table comes out. The worked examples take a second or two for each
version (tools/judging.py says how), once the crates below have been built. Whole crates take many
minutes: the definition's crate is checked, and then the crates above it until one refuses the
version. `--prefix WORDS` puts words before each check (a command that waits its turn, say).
"""
from __future__ import annotations

import argparse
import re
import shlex
import shutil
import subprocess
import tempfile
from collections.abc import Iterator, Sequence
from dataclasses import dataclass
from pathlib import Path

from tools import judging
from tools.believed import Definition, Specs, under_names
from tools.functions import heads_of
from tools.tree import Tree, uses_of
from tools.weakening import Rules, Version, changed_file

# Where the prover reports what it didn't prove, and what it says of it. (Before its end it says the
# same in lines that begin with `so far:`.)
FAULT = re.compile(
    r"^(?:\./)?((?:src|specs|proofs)/[\w/.-]+):(\d+):\d+: error(?:\[[\w-]+\])?:? ?(.*)$",
    re.MULTILINE,
)
# The functions that it lists as not proved, but for those that only call such a function.
UNPROVED = re.compile(r"^fn ([\w:]+): (?:not proved|no proof(?!: it calls))", re.MULTILINE)
# What it says of a proof that names something that is no longer there.
ABSENT = re.compile(r"is not in scope|that can be named from here|projects from a record")
SECONDS = 1800  # that a check may take


@dataclass(frozen=True)
class Verdict:
    """What came of a version: refused, let through or not tried, and by what."""

    word: str
    by: str


def crates_above(tree: Tree, crate: str) -> list[str]:
    """This crate and those that use it, lowest first, without those that only have tests."""
    uses = uses_of(tree)
    found, order = {crate}, [crate]
    while True:
        more = [it for it in uses if it not in found and found & set(uses[it])]
        ready = [it for it in more if not (set(uses[it]) & set(more))]
        if not ready:
            return [it for it in order if not it.endswith("_tests")]
        found.update(ready)
        order += ready


def function_at(text: str, line: int) -> str:
    """The name of the function in which a line of a source file stands."""
    name = ""
    for head in heads_of(text):
        if head.first > line:
            break
        name = head.name
    return name


def refusers(tree: Tree, crate: str, said: str) -> Iterator[str]:
    """The examples, laws and public functions that the prover names as not proved."""
    public, broken = public_functions(tree, crate), set[str]()
    for file, number, message in FAULT.findall(said):
        path = tree.crates / crate / file
        if file.startswith("src/") and path.exists():
            name = function_at(path.read_text(), int(number))
            heads = {head.name: head for head in heads_of(path.read_text())}
            if name in heads and heads[name].is_public:
                yield f"{kind_of(file)} `{name}` of {crate}"
        elif file.startswith("proofs/"):
            names = public.intersection(file.split("/")[1:-1])
            if ABSENT.search(message):
                broken |= names
            else:
                yield from (f"{kind_of(file)} `{name}` of {crate}" for name in sorted(names))
    for path_of_function in UNPROVED.findall(said):
        owner, *_, name = path_of_function.split("::")
        if owner == crate and name in public - broken:
            yield f"{kind_of(path_of_function)} `{name}` of {crate}"


def kind_of(place: str) -> str:
    """What a function at this place is: a worked example, a law, or one with a public clause."""
    return "example" if "worked" in place else "law" if "laws" in place else "clause"


def public_functions(tree: Tree, crate: str) -> set[str]:
    names: set[str] = set()
    for path in tree.files(f"crates/{crate}/src/**/*.rt"):
        names.update(head.name for head in heads_of(path.read_text()) if head.is_public)
    return names


def verdict_of(tree: Tree, crate: str, said: str, status: int) -> Verdict | None:
    """What a check of one crate says of a version; None if it lets it through."""
    if status == 0:
        return None
    found = list(dict.fromkeys(refusers(tree, crate, said)))
    if found:
        return Verdict("refused", "; ".join(found[:3]))
    files = {file for file, _, _ in FAULT.findall(said)}
    if files and all(file.startswith("proofs/") for file in files):
        return Verdict("only by a private proof", ", ".join(sorted(files)[:3]))
    if files and all(file.startswith("specs/") for file in files):
        return Verdict("not tried", f"no definition: {', '.join(sorted(files)[:3])}")
    unproved = [path.rpartition("::")[2] for path in UNPROVED.findall(said)]
    if unproved:
        return Verdict("only by a private function", ", ".join(sorted(set(unproved))[:3]))
    return Verdict("not tried", said.strip().splitlines()[-1][:80] if said.strip() else "no words")


def try_version(tree: Tree, version: Version, prefix: Sequence[str]) -> Verdict:
    """Checks the crate of a wrong version, and the crates above it until one refuses it."""
    specs = Specs(tree)
    path = tree.top / specs.place[version.definition].rpartition(":")[0]
    right = path.read_text()
    path.write_text(changed_file(specs, version))
    try:
        for crate in crates_above(tree, version.definition.crate):
            words = [*prefix, "rt", "check"]
            run = subprocess.run(
                words,
                cwd=tree.crates / crate,
                stdout=subprocess.PIPE,
                stderr=subprocess.STDOUT,
                text=True,
                errors="replace",
                timeout=SECONDS,
            )
            verdict = verdict_of(tree, crate, run.stdout, run.returncode)
            if verdict:
                return verdict
        return Verdict("LET THROUGH", "every example, law and clause is proved")
    except subprocess.TimeoutExpired:
        return Verdict("not tried", f"a check took over {SECONDS} s")
    finally:
        path.write_text(right)


def versions_of(specs: Specs, definitions: Sequence[Definition]) -> list[Version]:
    rules = Rules(specs)
    return [version for it in definitions for version in rules.versions_of(it)]


def try_all(tree: Tree, versions: Sequence[Version], first: int, prefix: Sequence[str]) -> int:
    """Tries these versions on a copy. Prints a row of a table for each; gives the status."""
    print("| number | definition | wrong in | verdict | by |\n|---|---|---|---|---|", flush=True)
    with tempfile.TemporaryDirectory(prefix="urbd-weaken-") as room:
        ignored = shutil.ignore_patterns("out", "must-fail", "wrong-bodies")
        shutil.copytree(tree.crates, Path(room, "crates"), ignore=ignored)
        for name in ("crates.txt", "HANDLES"):
            shutil.copy2(tree.top / name, Path(room, name))
        through = 0
        for number, version in enumerate(versions, first):
            verdict = try_version(Tree(Path(room)), version, prefix)
            through += verdict.word != "refused"
            cells = (
                str(number),
                f"`{version.definition.name}`",
                version.what,
                verdict.word,
                verdict.by,
            )
            print(f"| {' | '.join(cells)} |", flush=True)
    print(f"{len(versions)} versions: {len(versions) - through} refused, {through} not")
    return 1 if through else 0


def try_examples(
    tree: Tree, crate: str, versions: Sequence[Version], first: int, prefix: Sequence[str]
) -> int:
    """Tries these versions on the worked examples of a crate. Prints a row for each."""
    print("| number | definition | wrong in | verdict | by |\n|---|---|---|---|---|", flush=True)
    refused = 0
    with tempfile.TemporaryDirectory(prefix="urbd-weaken-") as folder:
        room = judging.Room(tree, crate, Path(folder))
        for verdict in judging.try_versions(room, list(enumerate(versions, first)), prefix):
            refused += verdict.word == "refused"
            version = verdict.version
            row = (str(verdict.number), f"`{version.definition.name}`", version.what)
            print(f"| {' | '.join((*row, verdict.word, verdict.by))} |", flush=True)
    print(f"{len(versions)} versions: {refused} refused, {len(versions) - refused} not")
    return 0 if refused == len(versions) else 1


def main(words: Sequence[str], tree: Tree = Tree()) -> int:
    parser = argparse.ArgumentParser(
        prog="python3 -m tools weaken",
        description=__doc__,
        formatter_class=argparse.RawDescriptionHelpFormatter,
    )
    parser.add_argument("names", nargs="+", metavar="NAME", help="a definition, or a function")
    parser.add_argument("--under", action="store_true", help="all that the names rest on")
    parser.add_argument("--try", dest="is_tried", action="store_true", help="try the versions")
    parser.add_argument("--examples", metavar="CRATE", help="try them on its examples alone")
    parser.add_argument("--least", type=int, default=1, help="the first version that is tried")
    parser.add_argument("--most", type=int, default=10**6, help="the last version that is tried")
    parser.add_argument("--prefix", default="", metavar="WORDS", help="words before each check")
    options = parser.parse_args(words)
    specs = Specs(tree)
    found = [it for it in specs.text if it.name in options.names]
    definitions = sorted(under_names(specs, options.names) if options.under else found)
    versions = versions_of(specs, definitions)
    chosen, prefix = versions[options.least - 1 : options.most], shlex.split(options.prefix)
    if options.examples:
        return try_examples(tree, options.examples, chosen, options.least, prefix)
    if options.is_tried:
        return try_all(tree, chosen, options.least, prefix)
    for number, version in enumerate(versions, 1):
        print(f"{number:4} {version.rule:9} {version.name}")
    print(f"{len(versions)} wrong versions of {len(definitions)} definitions")
    return 0
