"""Tries wrong versions of definitions on worked examples: many versions in one check.

Each version becomes a module of its own beside the right definition, which stays. What rests on
the definition is copied beside it as far as an example needs it, and so is the example. The copies
use the version in the definition's place. So one check of the copies tries all versions, and
nothing below has to be proved anew.

A clause of an example counts as refusing a version only if another proof wouldn't help:

- A clause doesn't count if its proof cites a lemma that may speak of the definition.
- A version that claims less is refused by a clause that denies the claim, or concludes from it.
- A version that claims more is refused by a clause that doesn't deny the claim.
- A version of a test, a list or a value is refused by any clause that can't be proved of it.
"""
from __future__ import annotations

import importlib.util
import os
import re
import shutil
import signal
import subprocess
from collections.abc import Collection, Container, Iterable, Iterator, Sequence
from dataclasses import dataclass, field
from pathlib import Path

from tools.believed import Definition, Specs, imports_of
from tools.functions import Head, heads_of
from tools.tree import Tree, crates_below
from tools.weakening import FEW_NODES, Version, block_of, own_lines, split_at, with_imports
from tools.weakening import without_margin

CLAUSE = re.compile(r"^\s*ensures (?:(\w+) )?\{", re.MULTILINE)
USES = re.compile(r"^(?:pub )?use [^{\n]*(?:\{[^}]*\})?[^\n]*\n", re.MULTILINE)
LEMMA = re.compile(r"^use Rattle\.(urb_\w+)\.proofs\.([\w.]+)\.\{([^}]*)\}", re.MULTILINE)
# The names that a crate's proofs/Common.antt passes on, and a proof that imports some of them.
PASSED_ON = re.compile(r"^(?:unfoldable )?pub use Rattle\.([\w.]+)\.\{([^}]*)\}", re.MULTILINE)
SHARED = re.compile(r"^use Rattle\.(\w+)\.proofs\.Common\.\{([^}]*)\}\n", re.MULTILINE)
IMPORT = re.compile(
    r"^((?:ghost )?)use Rattle\.(\w+)\.specs\.((?:internal\.)?\w+)\.\{([^}]*)\}(;?)\n",
    re.MULTILINE,
)
WORD = re.compile(r"[^\W\d][\w-]*")
# Where the prover reports on a clause of a copy, and on the text of a version.
SIZE = re.compile(r"\blimits (\d+) ")
LONG = re.compile(r"\bfilled \d+ \d+ \d{4}")  # a payload of over 1,000 bytes
GOAL = "returns-clause-"
SECOND = "    ensures nothing_else { Unit {0} }"
# A declaration's name; the sign behind a long one may stand in the next line.
DECLARATION = re.compile(r"(?:pub |abbrev )*([^\W\d][\w-]*)(?: :(?: |$)|$)")
IN_PROOF = re.compile(
    r"^(?:\./)?proofs/worked/wrong(\d+)_(\w+)/(\w+)/Answers\.antt:\d+:\d+: error: `([^`]+)`"
)
IN_SOURCE = re.compile(r"src/worked/wrong(\d+)_(\w+)\.rt:(\d+):\d+: .*\(`returns-clause-(\w+)`\)")
UNREAD = re.compile(r"specs/internal/Wrong(\d+)_\d+\.antt:\d+:\d+: error:? ?(.*)")
UNSTATED = re.compile(r"^fn \w+::worked::wrong(\d+)_[\w:]+: no proof: antt did not admit")
SECONDS = 1800  # that a check may take
ANSWERS = (0, 1, 3)  # the statuses of a check that says what it proved and what it didn't
PASSES = ((0, 2), (2, 6), (6, 20))  # which examples a version is tried on, until one refuses it
MOST_VERSIONS = 40  # tried in one check
# Files of examples that take long.
DEAR = frozenset(("recoveries", "rounds", "clients", "deliveries", "stops"))


@dataclass(frozen=True)
class Clause:
    """A clause of a worked example: its name, its text, and the words that it cites."""

    name: str
    text: str
    cited: frozenset[Definition]
    supposed: frozenset[Definition]  # those that its premises cite

    @property
    def is_denial(self) -> bool:
        return self.text.endswith("⊥")


@dataclass(frozen=True)
class Example:
    """A worked example: its file, its head with the lines above it, and its clauses."""

    path: Path
    head: Head
    clauses: tuple[Clause, ...]

    @property
    def answers(self) -> str:
        return f"proofs/worked/{self.path.stem}/{self.head.name}/Answers.antt"


def closure(specs: Specs, found: Iterable[Definition]) -> set[Definition]:
    """These definitions, and all that they rest on."""
    waiting, closed = list(found), set[Definition]()
    while waiting:
        definition = waiting.pop()
        if definition not in closed:
            closed.add(definition)
            waiting += specs.cited[definition]
    return closed


def is_claim(version: Version, specs: Specs) -> bool:
    block = block_of(without_margin(own_lines(specs.text[version.definition]))[0])
    return block is not None and (block.is_claim or bool(block.fields))


def claims_less(version: Version, specs: Specs) -> bool:
    says_less = version.rule == "unit" or "says nothing" in version.what
    return says_less and is_claim(version, specs)


def claims_more(version: Version, specs: Specs) -> bool:
    asks_more = version.rule == "premise" or "false of" in version.what
    return asks_more and is_claim(version, specs)


def may_refuse(clause: Clause, version: Version, specs: Specs) -> bool:
    """Whether the failure of a clause shows that the version is wrong."""
    if "four nodes" in version.what and is_small(clause.text):
        return False
    if "long payloads" in version.what and not LONG.search(clause.text):
        return False
    if claims_less(version, specs):
        return version.definition in closure(specs, clause.supposed)
    return not (claims_more(version, specs) and clause.is_denial)


def is_small(text: str) -> bool:
    """Whether a clause speaks only of groups of so few nodes that a version changes nothing."""
    sizes = [int(it) for it in SIZE.findall(text)]
    return bool(sizes) and max(sizes) <= FEW_NODES


def is_binder(text: str) -> bool:
    """Whether a part of a clause only names what the clause speaks of."""
    return bool(re.fullmatch(r"\s*(?:\([^():]+ : [^()]+\)\s*)+", text))


def examples_of(specs: Specs, crate: str) -> Iterator[Example]:
    """The worked examples of a crate."""
    for path in specs.tree.files(f"crates/{crate}/src/worked/*.rt"):
        text = path.read_text()
        imports = imports_of(text)
        for head in heads_of(text):
            if head.is_public:
                whole = head.text
                marks = list(CLAUSE.finditer(whole))
                ends = [it.start() for it in marks[1:]] + [len(whole)]
                clauses = []
                for mark, end in zip(marks, ends):
                    own = re.sub(r"\s*\}\s*(?:\{\s*\}?)?\s*$", "", whole[mark.end() : end])
                    cited = frozenset(specs.cited_by(own, imports))
                    premises = [it for it in split_at(own, "→")[:-1] if not is_binder(it)]
                    supposed = frozenset(specs.cited_by(" ".join(premises), imports))
                    clauses.append(Clause(mark.group(1) or "", own, cited, supposed))
                yield Example(path, head, tuple(clauses))


def foreign_lemmas(proof: str, below: Container[str]) -> set[str]:
    """The lemmas that a proof imports, and that may speak of a definition.

    Those of the crates below its own, which are given, can't.
    """
    found: set[str] = set()
    for owner, module, names in LEMMA.findall(proof):
        if not module.startswith("worked.") and owner not in below:
            found.update(names_in(names))
    return found


def names_in(names: str) -> list[str]:
    """The names of an import."""
    return [it.strip() for it in names.split(",") if it.strip()]


def passed_on(text: str) -> dict[str, str]:
    """The names that a file passes on, each with the module that it comes from."""
    return {name: module for module, names in PASSED_ON.findall(text) for name in names_in(names)}


def unshared(proof: str, origins: dict[str, dict[str, str]]) -> str:
    """A proof that imports each name from where it comes from, and not from a file Common.

    `origins` has the names that the file of each crate passes on.
    """

    def split(found: re.Match[str]) -> str:
        crate, names = found.groups()
        lines: dict[str, list[str]] = {}
        for name in names_in(names):
            module = origins.get(crate, {}).get(name, f"{crate}.proofs.Common")
            lines.setdefault(module, []).append(name)
        return "".join(f"use Rattle.{at}.{{{', '.join(own)}}}\n" for at, own in lines.items())

    return SHARED.sub(split, proof)


def is_nameable(use: str, text: str) -> bool:
    """Whether a copy with this text may have this import.

    It may name a type that its crate doesn't export only in that crate. So it imports of what a
    crate declares only what it cites.
    """
    if ".specs.declared." not in use:
        return True
    names = use.partition("{")[2].partition("}")[0] or use
    words = set(WORD.findall(text))
    return any(WORD.findall(it)[-1] in words for it in names.split(",") if it.strip())


def redirected(text: str, moved: dict[tuple[str, str, str], str]) -> str:
    """A text that imports each of these names (by crate, module and name) from another module."""

    def split(found: re.Match[str]) -> str:
        begin, crate, module, names, end = found.groups()
        lines: dict[str, list[str]] = {}
        for name in names_in(names):
            own = f"Rattle.{crate}.specs.{module}"
            lines.setdefault(moved.get((crate, module, name), own), []).append(name)
        return "".join(
            f"{begin}use {place}.{{{', '.join(found)}}}{end}\n" for place, found in lines.items()
        )

    return IMPORT.sub(split, text)


@dataclass
class Trial:
    """A version on trial: its examples, the clauses that failed, and why it can't be read."""

    version: Version
    number: int
    examples: list[Example]
    counting: set[tuple[str, str, str]]  # the clauses that may refuse it: file, function, name
    failed: list[tuple[str, str, str]] = field(default_factory=list)
    searched: set[tuple[str, str, str]] = field(default_factory=set)  # that tactics have to prove
    unread: str = ""

    def clauses_of(self, example: Example) -> set[str]:
        """The names of the clauses of an example that may refuse the version."""
        place = (example.path.stem, example.head.name)
        return {it[2] for it in self.counting if it[:2] == place}

    def refusers(self) -> list[str]:
        """The clauses that refuse the version, those first that tactics have to prove.

        Another clause has a proof by hand. It may fail only because it names a part of the
        definition, so a reader has to look whether the clause is false.
        """
        found = [it for it in dict.fromkeys(self.failed) if it in self.counting]
        found.sort(key=lambda it: it not in self.searched)
        return [
            f"`{it[0]}::{it[1]}`, `{it[2]}`" + ("" if it in self.searched else " *") for it in found
        ]


def mark_built(top: Path, names: Collection[str]) -> None:
    """Marks the libraries of these crates as built from the crates' texts.

    Otherwise `rt check` builds them once more, which takes an hour for the uppermost. `rt ci` marks
    none of its libraries, since they fit only each other. But these are of one run.
    """
    rt = shutil.which("rt")
    file = Path(os.path.realpath(rt)).with_name("rtlib.py") if rt else Path()
    found = importlib.util.spec_from_file_location("rtlib", file) if file.is_file() else None
    if not names or found is None or found.loader is None:
        return
    rtlib = importlib.util.module_from_spec(found)
    found.loader.exec_module(rtlib)
    sums, sum_of = dict[str, str](), rtlib.Crate.stamp
    # Many paths lead to a low crate. Its sum is made once.
    rtlib.Crate.stamp = lambda it: sums.get(it.folder) or sums.setdefault(it.folder, sum_of(it))
    for name in names:
        folder = top / "crates" / name
        (folder / "out/rlib/stamp").write_text(rtlib.Crate(str(folder), str(top), {}).stamp())


class Room:
    """A copy of the tree, where versions are tried on the worked examples of one crate."""

    def __init__(self, tree: Tree, crate: str, room: Path) -> None:
        self.crate, self.specs = crate, Specs(tree)
        self.folder = room / "crates" / crate
        ignored = shutil.ignore_patterns("out", "must-fail", "wrong-bodies")
        shutil.copytree(tree.crates, room / "crates", ignore=ignored)
        for name in ("crates.txt", "HANDLES"):
            shutil.copy2(tree.top / name, room / name)
        built = [it.parent.parent.name for it in tree.crates.glob("*/out/rlib")]
        built = [name for name in built if name != crate]
        for name in built:
            library = f"{name}/out/rlib"
            shutil.copytree(tree.crates / library, room / "crates" / library)
        mark_built(room, built)
        self.examples = list(examples_of(self.specs, crate))
        self.closures = {it: closure(self.specs, [it]) for it in self.specs.text}
        self.origins = {
            path.parent.parent.name: passed_on(path.read_text())
            for path in self.folder.parent.glob("*/proofs/Common.antt")
        }

    def proof_of(self, example: Example) -> str:
        path = self.folder / example.answers
        return unshared(path.read_text(), self.origins) if path.exists() else ""

    def counting(self, example: Example, version: Version) -> list[str]:
        """The clauses of an example that may refuse a version."""
        proof, found = self.proof_of(example), []
        below = crates_below(self.specs.tree, version.definition.crate)
        foreign = foreign_lemmas(proof, below)
        spoilt = {goal for name in foreign for goal in resting_on(proof, name)}
        for clause in example.clauses:
            rests = any(version.definition in self.closures[it] for it in clause.cited)
            if rests and may_refuse(clause, version, self.specs):
                if GOAL + clause.name not in spoilt:
                    found.append(clause.name)
        return found

    def copied(self, examples: Iterable[Example], definition: Definition) -> set[Definition]:
        """The definition, and all that rests on it and that these examples need.

        A copy inside a module with parameters cites others of its module without these parameters.
        So these others are copied with it, and what rests on them.
        """
        needed = {it for e in examples for clause in e.clauses for it in clause.cited}
        cone = set().union(*(self.closures[it] for it in needed)) if needed else set()
        found, sources = set[Definition](), {definition}
        while not sources <= found:
            found |= {it for it in cone if sources & self.closures[it]}
            sources = {mate for it in found for mate in self.mates_of(it)}
        return found

    def mates_of(self, definition: Definition) -> set[Definition]:
        """Those of a definition's module with parameters that it rests on, if it is in one."""
        begin = self.specs.inside.get(definition)
        return {
            it
            for it in (self.closures[definition] if begin else ())
            if it[:2] == definition[:2] and self.specs.inside.get(it) == begin
        }

    def trial_of(self, version: Version, number: int, first: int, end: int) -> Trial:
        """A version with some examples that may refuse it: those that need few copies first."""
        found = []
        for example in self.examples:
            names = self.counting(example, version)
            if names:
                copied = self.copied([example], version.definition)
                is_dear = example.path.stem in DEAR
                by_hand = bool(self.proof_of(example))
                cost = (is_dear, len(copied), by_hand, len(example.head.text))
                found.append((cost, example, names))
        chosen = sorted(found, key=lambda it: it[0])[first:end]
        counting = {
            (example.path.stem, example.head.name, name)
            for _, example, names in chosen
            for name in names
        }
        return Trial(version, number, [it[1] for it in chosen], counting)

    def clear(self) -> None:
        """Removes what was written for earlier trials."""
        for part in ("specs/internal/Wrong*", "src/worked/wrong*", "proofs/worked/wrong*"):
            for path in self.folder.glob(part):
                shutil.rmtree(path) if path.is_dir() else path.unlink()
        for name in ("specs/internal.antt", "src/worked.rt"):
            lines = (self.folder / name).read_text().splitlines(keepends=True)
            kept = [line for line in lines if not line.lower().startswith("pub mod wrong")]
            (self.folder / name).write_text("".join(kept))

    def write(self, trial: Trial) -> list[str]:
        """Writes a version and what rests on it as modules, and copies of its examples.

        Gives the functions to check.
        """
        copied = self.copied(trial.examples, trial.version.definition)
        files = sorted({it[:2] for it in copied})
        moved: dict[tuple[str, str, str], str] = {}
        for at, file in enumerate(files):
            module = f"Rattle.{self.crate}.specs.internal.Wrong{trial.number}_{at}"
            for it in copied:
                if it[:2] == file:
                    moved[it] = module
            for place, owner in self.specs.made_by.items():
                if owner in copied and place[:2] == file:
                    moved[place] = module
        for at, file in enumerate(files):
            self.write_module(trial, f"Wrong{trial.number}_{at}", file, moved)
        unfolding = [
            f"crate::specs::internal::{moved[it].rpartition('.')[2]}::{it.name}"
            for it in sorted(copied)
            if "unfoldable" in self.specs.text[it].partition(" : ")[0]
        ]
        functions = []
        for stem in dict.fromkeys(it.path.stem for it in trial.examples):
            examples = [it for it in trial.examples if it.path.stem == stem]
            source = (self.folder / f"src/worked/{stem}.rt").read_text()
            head = redirected(source.partition("///")[0], moved)
            if unfolding:
                own = f"#![tactic(auto, unfolding({', '.join(unfolding)}))]\n"
                head = re.sub(r"^(?=ghost use)", own, head, count=1, flags=re.MULTILINE)
            bodies = [with_clauses(it.head, trial.clauses_of(it)) for it in examples]
            path = self.folder / f"src/worked/wrong{trial.number}_{stem}.rt"
            path.write_text("\n".join([head, *bodies]))
            self.append("src/worked.rt", f"pub mod wrong{trial.number}_{stem};\n")
            for example in examples:
                self.copy_proof(example, trial, moved)
                name = example.head.name
                functions.append(f"{self.crate}::worked::wrong{trial.number}_{stem}::{name}")
        return functions

    def write_module(
        self,
        trial: Trial,
        name: str,
        file: tuple[str, str],
        moved: dict[tuple[str, str, str], str],
    ) -> None:
        """Writes the definitions of one file that rest on the version, and what they import."""
        specs = self.specs
        own = f"Rattle.{file[0]}.specs.{file[1]}"
        here = [it for it in specs.files[file].names if (*file, it) in moved]
        made = [it for (*place, it) in specs.made_by if tuple(place) == file]
        others = [it for it in [*specs.files[file].names, *made] if (*file, it) not in moved]
        texts, begin = [], 0
        for it in here:
            definition = Definition(*file, it)
            if specs.inside.get(definition, 0) not in (0, begin):
                texts.append(specs.header_of(definition))
            begin = specs.inside.get(definition, 0)
            is_wrong = definition == trial.version.definition
            texts.append(trial.version.text if is_wrong else own_lines(specs.text[definition]))
        all_uses = [it.group(0) for it in USES.finditer(specs.files[file].text)]
        uses = "".join(it for it in all_uses if is_nameable(it, " ".join(texts)))
        uses = redirected(uses.replace("pub use", "use"), moved)
        uses += f"use {own}.{{{', '.join(others)}}}\n" if others else ""
        text = "\n\n".join([f"-- A wrong version.\n{uses}", *texts]) + "\n"
        text = with_imports(text, trial.version.needs)
        (self.folder / f"specs/internal/{name}.antt").write_text(text)
        self.append("specs/internal.antt", f"pub mod {name}\n")

    def copy_proof(
        self, example: Example, trial: Trial, moved: dict[tuple[str, str, str], str]
    ) -> None:
        proof, stem, name = self.proof_of(example), example.path.stem, example.head.name
        proof = with_answers(proof, trial.clauses_of(example))
        if proof:
            copy = f"worked.wrong{trial.number}_{stem}.{name}"
            path = self.folder / "proofs" / copy.replace(".", "/") / "Answers.antt"
            path.parent.mkdir(parents=True)
            proof = redirected(proof, moved)
            path.write_text(proof.replace(f"worked.{stem}.{name}.Goals", f"{copy}.Goals"))

    def append(self, name: str, line: str) -> None:
        path = self.folder / name
        path.write_text(path.read_text() + line)

    def check(self, trials: Sequence[Trial], prefix: Sequence[str] = ()) -> Run:
        """Checks the copies, and notes which of their clauses failed."""
        self.clear()
        only = [function for trial in trials for function in self.write(trial)]
        words = [*prefix, "rt", "check", "--allow-holes", "--jobs", "1"]
        words += [word for path in only for word in ("--only", path)]
        run = run_within(words, self.folder, SECONDS)
        note(self.folder, trials, run.said)
        return run


@dataclass(frozen=True)
class Run:
    """What a command said, and how it ended."""

    said: str
    status: int

    @property
    def no_answer(self) -> str:
        """Why a check said nothing of any version: its last line."""
        last = self.said.strip().rpartition("\n")[2]
        return f"the prover gave no answer: {last[:100]}"


def run_within(words: Sequence[str], folder: Path, seconds: int) -> Run:
    """Runs a command. If it takes longer, or somebody ends this run, its processes end too."""
    with subprocess.Popen(
        words,
        cwd=folder,
        stdout=subprocess.PIPE,
        stderr=subprocess.STDOUT,
        text=True,
        errors="replace",
        start_new_session=True,
    ) as process:
        try:
            said, _ = process.communicate(timeout=seconds)
        except BaseException:
            os.killpg(process.pid, signal.SIGKILL)
            raise
    return Run(said, process.returncode)


def blocks_of(proof: str) -> dict[str, str]:
    """The declarations of a proof, each with its text."""
    blocks: dict[str, str] = {}
    name = ""
    for line in proof.splitlines():
        begin = DECLARATION.match(line)
        name = begin.group(1) if begin else name
        if name:
            blocks[name] = blocks.get(name, "") + line + "\n"
    return blocks


def with_clauses(head: Head, names: set[str]) -> str:
    """The lines of an example with these clauses alone. Other clauses would only take time."""
    marks = [(at, CLAUSE.match(line)) for at, line in enumerate(head.lines)]
    begins = [(at, mark.group(1)) for at, mark in marks if mark]
    body = len(head.lines) - 1
    if not begins or begins[-1][0] == body:
        return "\n".join(head.lines) + "\n"
    lines = list(head.lines[: begins[0][0]])
    for (at, name), end in zip(begins, [*(at for at, _ in begins[1:]), body]):
        lines += head.lines[at:end] if name in names else ()
    if len(names) == 1:  # a lone clause would have no name in what the prover says
        lines.append(SECOND)
    return "\n".join([*lines, head.lines[body]]) + "\n"


def with_answers(proof: str, names: set[str]) -> str:
    """A proof without the answers for other clauses; empty if it has none for these."""
    kept, name, answers = [], "", 0
    for line in proof.splitlines(keepends=True):
        begin = DECLARATION.match(line)
        name = begin.group(1) if begin else name
        is_answer = name.startswith(GOAL)
        if not is_answer or name[len(GOAL) :] in names:
            kept.append(line)
            answers += is_answer
    return "".join(kept) if answers else ""


def resting_on(proof: str, name: str) -> list[str]:
    """The clauses whose proofs rest on a declaration of this proof."""
    blocks, found = blocks_of(proof), {name}
    while True:
        words = re.compile("|".join(rf"(?<![\w-]){re.escape(it)}(?![\w-])" for it in found))
        more = {it for it, text in blocks.items() if it not in found and words.search(text)}
        if not more:
            return [it for it in found if it.startswith(GOAL)]
        found |= more


def note(folder: Path, trials: Sequence[Trial], said: str) -> None:
    """Notes at each version what a check said of its copies."""
    by_number = {it.number: it for it in trials}
    for line in said.splitlines():
        unread, unstated = UNREAD.search(line), UNSTATED.search(line)
        in_proof, in_source = IN_PROOF.search(line), IN_SOURCE.search(line)
        if unread:
            by_number[int(unread.group(1))].unread = unread.group(2)
        elif unstated:
            by_number[int(unstated.group(1))].unread = "an example can't be stated of it"
        elif in_proof:
            number, stem, function, name = in_proof.groups()
            place = f"proofs/worked/wrong{number}_{stem}/{function}/Answers.antt"
            for goal in resting_on((folder / place).read_text(), name):
                by_number[int(number)].failed.append((stem, function, goal[len(GOAL) :]))
        elif in_source:
            number, stem, at, name = in_source.groups()
            source = (folder / f"src/worked/wrong{number}_{stem}.rt").read_text()
            heads = [it.name for it in heads_of(source) if it.first <= int(at)]
            by_number[int(number)].failed.append((stem, heads[-1], name))
            by_number[int(number)].searched.add((stem, heads[-1], name))


@dataclass(frozen=True)
class Judgement:
    """What came of a numbered version: refused, let through or not tried, and by what or why."""

    number: int
    version: Version
    word: str
    by: str


def judgement_of(trial: Trial) -> Judgement | None:
    """What a trial says of its version; None if no example refused it."""
    found = trial.refusers()
    if trial.unread:
        return Judgement(trial.number, trial.version, "not tried", trial.unread)
    if found:
        return Judgement(trial.number, trial.version, "refused", "; ".join(found[:3]))
    return None


def try_versions(
    room: Room, versions: Sequence[tuple[int, Version]], prefix: Sequence[str]
) -> Iterator[Judgement]:
    """Tries numbered versions. One that no example refuses is tried on more of them."""
    left = list(versions)
    for first, end in PASSES:
        trials = []
        for number, version in left:
            trial = room.trial_of(version, number, first, end)
            if trial.examples:
                trials.append(trial)
            elif first == 0:
                yield Judgement(number, version, "not tried", "no example may refuse it")
            else:
                yield Judgement(number, version, "LET THROUGH", "every example is proved of it")
        left = []
        for at in range(0, len(trials), MOST_VERSIONS):
            batch = trials[at : at + MOST_VERSIONS]
            run = room.check(batch, prefix)
            for trial in batch:
                judgement = judgement_of(trial)
                if judgement:
                    yield judgement
                elif run.status not in ANSWERS:
                    yield Judgement(trial.number, trial.version, "not tried", run.no_answer)
                else:
                    left.append((trial.number, trial.version))
    for number, version in left:
        yield Judgement(number, version, "LET THROUGH", "every example is proved of it")
