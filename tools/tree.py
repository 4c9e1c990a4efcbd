"""The files of a checkout, and what is wrong with one of them."""
from __future__ import annotations

from dataclasses import dataclass
from pathlib import Path

TOP = Path(__file__).resolve().parent.parent


@dataclass(frozen=True)
class Misfit:
    """What is wrong, and at which place: a file, or a file and a line."""

    place: str
    text: str

    def __str__(self) -> str:
        return f"{self.place}: {self.text}"


@dataclass(frozen=True)
class Tree:
    """A checkout of the repository."""

    top: Path = TOP

    @property
    def crates(self) -> Path:
        return self.top / "crates"

    def files(self, pattern: str) -> list[Path]:
        """The files of this pattern in order, without what rt makes in `out/`."""
        paths = sorted(self.top.glob(pattern))
        return [path for path in paths if "out" not in path.relative_to(self.top).parts]

    def sources(self) -> list[Path]:
        return self.files("crates/*/src/**/*.rt")

    def specs(self) -> list[Path]:
        return self.files("crates/*/specs/**/*.antt")

    def name_of(self, path: Path) -> str:
        return str(path.relative_to(self.top))

    def has(self, name: str) -> bool:
        return (self.top / name).exists()

    def text_of(self, name: str) -> str:
        """The text of a file; empty if there is no such file."""
        return (self.top / name).read_text() if self.has(name) else ""


def crate_of(tree: Tree, path: Path) -> str:
    """The name of the crate in which a file stands."""
    return path.relative_to(tree.crates).parts[0]


def uses_of(tree: Tree) -> dict[str, list[str]]:
    """The libraries that each crate of crates.txt uses by its own line."""
    uses: dict[str, list[str]] = {}
    for line in tree.text_of("crates.txt").splitlines():
        name, colon, rest = line.split("#")[0].partition(":")
        if colon:
            uses[name.split()[0]] = rest.split()
    return uses


def crates_below(tree: Tree, crate: str) -> set[str]:
    """Those of the repository's crates on which a crate rests, as crates.txt lists them."""
    uses = uses_of(tree)
    below, waiting = set[str](), list(uses.get(crate, ()))
    while waiting:
        name = waiting.pop()
        if name in uses and name not in below:
            below.add(name)
            waiting += uses[name]
    return below
