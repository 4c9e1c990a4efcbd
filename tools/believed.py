"""Says which definitions a reader has to believe, and holds that the others stand apart.

    python3 -m tools believed                 lists the definitions in the wrong folder
    python3 -m tools believed NAME..          says why each of these definitions has to be believed
    python3 -m tools believed --under NAME..  lists what these definitions and functions rest on

A public function's contract cites definitions, and these cite others. All of them have to be
believed, and they stand in specs/. The others stand in specs/internal/: they serve proofs, the
code below public functions, or worked examples. The invariant of a type isn't part of a contract.
Names are read as the files import them; the prover isn't asked.
"""
from __future__ import annotations

import argparse
import re
from collections.abc import Iterable, Iterator, Sequence
from dataclasses import dataclass
from pathlib import Path
from typing import NamedTuple, Union

from tools.definitions import sentences_of
from tools.functions import FUNCTION, head_at, without_comments
from tools.tree import Misfit, Tree, crate_of


class Definition(NamedTuple):
    """A definition's crate, its module below specs/, and its name."""

    crate: str
    module: str
    name: str


@dataclass(frozen=True)
class Imports:
    """What a file imports from specs/: definitions by name, and modules by alias."""

    single: dict[str, list[Definition]]
    aliases: dict[str, list[tuple[str, str]]]


# What cites a definition: another one, or a public function.
Cause = Union[Definition, str]

WORD = re.compile(r"(?:([^\W\d]\w*)\.)?([^\W\d][\w◌'-]*)")
MODULE = r"Rattle\.(\w+)\.specs\.((?:internal\.)?[A-Z]\w*)"
IMPORTS = re.compile(rf"^ *(?:ghost )?use {MODULE}\.\{{([^}}]*)\}}", re.MULTILINE)
ALIAS = re.compile(rf"^ *(?:ghost )?use {MODULE} as (\w+)", re.MULTILINE)
HEADER = re.compile(r"^ *module _ .*?where", re.MULTILINE | re.DOTALL)
NAMELESS = re.compile(r"module _ ")
CONSTRUCTOR = re.compile(r"\s+([^\W\d][\w']*) : ")
ITEM = re.compile(r"(pub(?:\(\w+\))? )?(?:unsafe )?(impl|trait|struct|enum|fn)\b(.*)")
VIEW = re.compile(r"\s+ghost (?!invariant\b)\w+ = \{")


def is_operator(name: str) -> bool:
    return "◌" in name


def has_operator(text: str, name: str) -> bool:
    """Whether a text has all parts of an operator; the lines of a `do` block show no sign."""
    return all(part in text for part in name.split("◌")) or (name == "◌>>=◌" and "←" in text)


def is_data(body: str) -> bool:
    return " data " in body.split(" : ")[0] or body.lstrip().startswith("data ")


def imports_of(text: str) -> Imports:
    single: dict[str, list[Definition]] = {}
    aliases: dict[str, list[tuple[str, str]]] = {}
    for crate, module, names in IMPORTS.findall(text):
        for name in filter(None, map(str.strip, names.split(","))):
            said, _, alias = name.partition(" as ")
            single.setdefault(alias or said, []).append(Definition(crate, module, said))
    for crate, module, alias in ALIAS.findall(text):
        aliases.setdefault(alias, []).append((crate, module))
    return Imports(single, aliases)


@dataclass(frozen=True)
class SpecFile:
    """A file of specs/: its text, definitions by name, and heads of nameless modules."""

    text: str
    names: dict[str, Definition]
    headers: str


class Specs:
    """All definitions of the folders specs/, and which cites which."""

    def __init__(self, tree: Tree) -> None:
        self.tree = tree
        self.files: dict[tuple[str, str], SpecFile] = {}
        self.text: dict[Definition, str] = {}
        self.place: dict[Definition, str] = {}
        # The line at which a nameless module begins, for the definitions inside one.
        self.inside: dict[Definition, int] = {}
        self.made_by: dict[tuple[str, str, str], Definition] = {}
        for path in tree.specs():
            if path.stem not in ("Lib", "internal"):
                self.read(path)
        self.cited = {definition: self.cited_in(definition) for definition in self.text}

    def read(self, path: Path) -> None:
        crate = crate_of(self.tree, path)
        relative = path.relative_to(self.tree.crates / crate / "specs")
        module = ".".join(relative.with_suffix("").parts)
        text = path.read_text()
        lines = text.splitlines()
        found = sentences_of(path)
        nameless = [at for at, line in enumerate(lines, 1) if NAMELESS.match(line)]
        begins = sorted([it.line for it in found] + nameless) + [len(lines) + 1]
        names = {}
        for it in found:
            definition = names[it.name] = Definition(crate, module, it.name)
            end = next(at for at in begins if at > it.line)
            body = without_comments("\n".join(lines[it.line - 1 : end - 1]), "--")
            if body[0].isspace():
                self.inside[definition] = max(at for at in nameless if at < it.line)
            self.text[definition] = body
            self.place[definition] = f"{self.tree.name_of(path)}:{it.line}"
            if is_data(body):
                for constructor in map(CONSTRUCTOR.match, body.splitlines()[1:]):
                    if constructor:
                        self.made_by[crate, module, constructor.group(1)] = definition
        headers = " ".join(HEADER.findall(without_comments(text, "--")))
        self.files[crate, module] = SpecFile(text, names, headers)

    def header_of(self, definition: Definition) -> str:
        """The first lines of the nameless module that has a definition; empty if none has it."""
        if definition not in self.inside:
            return ""
        lines = self.files[definition[:2]].text.splitlines()[self.inside[definition] - 1 :]
        end = next(at for at, line in enumerate(lines) if line.rstrip().endswith("where"))
        return "\n".join(lines[: end + 1])

    def named(self, crate: str, module: str, name: str) -> Definition | None:
        """The definition of this name in a module, or the one whose constructor has this name."""
        file = self.files.get((crate, module))
        here = file.names.get(name) if file else None
        return here or self.made_by.get((crate, module, name))

    def cited_by(
        self, text: str, imports: Imports, own: tuple[str, str] | None = None
    ) -> set[Definition]:
        """The definitions that a text cites, as its file imports them; `own` is its module."""
        found: set[Definition | None] = set()
        for prefix, word in WORD.findall(text):
            found.update(self.named(*module, word) for module in imports.aliases.get(prefix, ()))
            for name in (prefix, word):
                found.update(self.named(*place) for place in imports.single.get(name, ()))
                if own:
                    found.add(self.named(*own, name))
        for name in filter(is_operator, imports.single):
            if has_operator(text, name):
                found.update(self.named(*place) for place in imports.single[name])
        for name in filter(is_operator, self.files[own].names if own else ()):
            if has_operator(text, name) and own:
                found.add(self.named(*own, name))
        return {it for it in found if it is not None}

    def cited_in(self, definition: Definition) -> set[Definition]:
        own = (definition.crate, definition.module)
        file = self.files[own]
        found = self.cited_by(
            self.text[definition] + " " + file.headers, imports_of(file.text), own
        )
        return found - {definition}


def exports_of(tree: Tree, crate: str) -> tuple[set[str], set[str]]:
    """The public modules of a crate, and the names that it exports from the others."""
    text = tree.text_of(f"crates/{crate}/src/lib.rt")
    names = set(re.findall(r"^pub use [\w:]+::(\w+);", text, re.MULTILINE))
    for group in re.findall(r"^pub use [\w:]+::\{([^}]*)\};", text, re.MULTILINE):
        names.update(name.strip().partition(" as ")[0] for name in group.split(","))
    return set(re.findall(r"^pub mod (\w+);", text, re.MULTILINE)), names


def end_of_view(lines: Sequence[str], begin: int) -> int:
    """The place after a ghost member that begins at this place."""
    end, depth = begin, 0
    while end == begin or depth > 0:
        depth += lines[end].count("{") - lines[end].count("}")
        end += 1
    return end


def item_at(lines: Sequence[str], at: int) -> re.Match[str] | None:
    """The item that begins in this line, if one does. The head of an impl may have more lines."""
    text, end = lines[at], at + 1
    while text.startswith("impl") and "{" not in text and end < len(lines):
        text, end = f"{text} {lines[end].strip()}", end + 1
    return ITEM.match(text)


def owner_of(item: re.Match[str]) -> tuple[str, str]:
    """What an item at the left margin is, and the type or trait that it belongs to."""
    kind, rest = item.group(2), item.group(3)
    while "<" in rest and (less := re.sub(r"<[^<>]*>|<[^<>]*$", "", rest)) != rest:
        rest = less
    if kind == "impl":
        sides = rest.split("{")[0].split(" where")[0].split(" for ")
        return "impl" if len(sides) == 1 else "impl of a trait", re.findall(r"\w+", sides[-1])[-1]
    name = re.match(r"\s*(\w+)", rest)
    return kind, name.group(1) if name else ""


class PublicText(NamedTuple):
    """A public function's contract, or the ghost members of a public type."""

    path: Path
    name: str
    text: str


def public_texts(tree: Tree, crate: str) -> Iterator[PublicText]:
    """The contracts of a crate's public functions, and the ghost members of its public types."""
    modules, names = exports_of(tree, crate)
    source = tree.crates / crate / "src"
    for path in sorted(source.rglob("*.rt")):
        inside = path.relative_to(source).parts[0].removesuffix(".rt")
        if "worked" not in inside:
            yield from texts_in(path, inside in modules, names)


def texts_in(path: Path, is_open: bool, names: set[str]) -> Iterator[PublicText]:
    """The public texts of one file, whose module is public or exports only these names."""
    lines = path.read_text().splitlines()
    kind, owner, at = "", "", 0
    while at < len(lines):
        if item := item_at(lines, at):
            kind, owner = owner_of(item)
        is_public = is_open or owner in names
        head = head_at(lines, at) if FUNCTION.match(lines[at]) else None
        if head:
            is_marked = head.is_public or kind == "trait"
            if is_public and is_marked and kind in ("fn", "impl", "trait"):
                yield PublicText(path, head.name, head.text)
            at += len(head.lines)
        elif is_public and VIEW.match(lines[at]):
            end = end_of_view(lines, at)
            yield PublicText(path, owner, without_comments("\n".join(lines[at:end]), "//"))
            at = end
        else:
            at += 1


def libraries(tree: Tree) -> list[str]:
    """The crates that are libraries, without those that only have tests."""
    names = sorted(path.parent.parent.name for path in tree.files("crates/*/src/lib.rt"))
    return [name for name in names if not name.endswith("_tests")]


def believed(specs: Specs) -> dict[Definition, Cause]:
    """The definitions that public contracts rest on, each with what cites it."""
    tree = specs.tree
    waiting: list[tuple[Definition, Cause]] = []
    for crate in libraries(tree):
        for path, name, text in public_texts(tree, crate):
            for definition in sorted(specs.cited_by(text, imports_of(path.read_text()))):
                waiting.append((definition, f"`{name}` in {tree.name_of(path)}"))
    found: dict[Definition, Cause] = {}
    while waiting:
        definition, why = waiting.pop()
        if definition not in found:
            found[definition] = why
            waiting += [(other, definition) for other in sorted(specs.cited[definition])]
    return found


def misfits(specs: Specs) -> Iterator[Misfit]:
    """The definitions in the wrong folder: their places, and what is wrong."""
    found = believed(specs)
    for definition in sorted(specs.text):
        is_internal = definition.module.startswith("internal.")
        if is_internal and definition in found:
            why = found[definition]
            citing = f"`{why.name}`" if isinstance(why, Definition) else why
            told = f"`{definition.name}` has to be believed: {citing} cites it"
            yield Misfit(specs.place[definition], told)
        if not is_internal and definition not in found:
            told = f"`{definition.name}` belongs in specs/internal/: no public contract rests on it"
            yield Misfit(specs.place[definition], told)


def explanations(specs: Specs, name: str) -> Iterator[str]:
    """What cites a definition, up to a public function: a line for each definition of this name."""
    found = believed(specs)
    for definition in sorted(it for it in specs.text if it.name == name):
        said = [f"{definition.crate}, {definition.module}: `{name}`"]
        why = found.get(definition)
        while isinstance(why, Definition):
            said.append(f"`{why.name}`")
            why = found[why]
        yield ", cited by ".join([*said, why] if why else [*said, "no public contract"])


def under_names(specs: Specs, names: Iterable[str]) -> set[Definition]:
    """These definitions, and all that they and the public functions of these names rest on."""
    wanted = set(names)
    waiting = [definition for definition in specs.text if definition.name in wanted]
    for crate in libraries(specs.tree):
        for path, function, text in public_texts(specs.tree, crate):
            if function in wanted:
                waiting += specs.cited_by(text, imports_of(path.read_text()))
    found: set[Definition] = set()
    while waiting:
        definition = waiting.pop()
        if definition not in found:
            found.add(definition)
            waiting += specs.cited[definition]
    return found


def print_under(specs: Specs, names: Iterable[str]) -> None:
    """Lists what the definitions and public functions of these names rest on, file by file."""
    files: dict[tuple[str, str], list[str]] = {}
    for definition in under_names(specs, names):
        files.setdefault((definition.crate, definition.module), []).append(definition.name)
    for (crate, module), found in sorted(files.items()):
        print(f"{crate}, {module}: {', '.join(sorted(found))}")
    print(f"{sum(map(len, files.values()))} definitions in {len(files)} files")


def main(words: Sequence[str], tree: Tree = Tree()) -> int:
    parser = argparse.ArgumentParser(
        prog="python3 -m tools believed",
        description=__doc__,
        formatter_class=argparse.RawDescriptionHelpFormatter,
    )
    parser.add_argument("names", nargs="*", metavar="NAME", help="a definition, or a function")
    parser.add_argument("--under", action="store_true", help="list what the names rest on")
    options = parser.parse_args(words)
    specs = Specs(tree)
    if options.under:
        print_under(specs, options.names)
        return 0
    for name in options.names:
        for line in explanations(specs, name):
            print(line)
    wrong = [] if options.names else list(misfits(specs))
    for misfit in wrong:
        print(misfit)
    return 1 if wrong else 0
