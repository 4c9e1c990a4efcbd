"""Limits: the values that documents give are those of the constants in the sources."""
from __future__ import annotations

import ast
import operator
import re
from collections.abc import Callable, Iterator
from dataclasses import dataclass

from tools.tree import Misfit, Tree, crate_of

ARCHITECTURE = "docs/ARCHITECTURE.md"
CONSTANT = re.compile(
    r"^ *(?:pub(?:\([a-z]+\))? )?const ([A-Z][A-Z_]*): \w+ = ([^;]+);", re.MULTILINE
)
NUMBER = re.compile(r"\d[\d,]*")
ACTS: dict[type, Callable[[int, int], int]] = {
    ast.Add: operator.add,
    ast.Sub: operator.sub,
    ast.Mult: operator.mul,
    ast.Div: operator.floordiv,
    ast.LShift: operator.lshift,
}


class Constants:
    """The integer constants of all sources, by crate, file below it, and name."""

    def __init__(self, tree: Tree) -> None:
        self.texts: dict[tuple[str, str, str], str] = {}
        for path in tree.sources():
            crate = crate_of(tree, path)
            file = str(path.relative_to(tree.crates / crate))
            for name, text in CONSTANT.findall(path.read_text()):
                self.texts[crate, file, name] = text

    def value(self, crate: str, file: str, name: str) -> int | None:
        """The value of a constant; None if there is none, or if it isn't made of integers."""
        text = self.texts.get((crate, file, name))
        if text is None:
            return None
        plain = re.sub(r"\bas \w+", "", re.sub(r"(?<=\d)_(?=\d)", "", text))
        try:
            return self.computed(ast.parse(plain.strip(), mode="eval").body, crate, file)
        except (SyntaxError, LookupError, ValueError):
            return None

    def computed(self, node: ast.expr, crate: str, file: str) -> int:
        if isinstance(node, ast.Constant) and isinstance(node.value, int):
            return node.value
        if isinstance(node, ast.Name):
            return self.of_name(node.id, crate, file)
        if isinstance(node, ast.BinOp):
            act = ACTS[type(node.op)]
            left, right = (self.computed(it, crate, file) for it in (node.left, node.right))
            return act(left, right)
        raise ValueError(ast.dump(node))

    def of_name(self, name: str, crate: str, file: str) -> int:
        """The value of a constant that a file names: its own, its crate's, or another crate's."""
        own = [key for key in self.texts if key[2] == name]
        for keep in ((crate, file), (crate, None), (None, None)):
            for key in own:
                if keep[0] in (None, key[0]) and keep[1] in (None, key[1]):
                    value = self.value(*key)
                    if value is not None:
                        return value
        raise LookupError(name)


def numbers_in(text: str) -> list[int]:
    return [int(it.rstrip(",").replace(",", "")) for it in NUMBER.findall(text)]


def limits_of_architecture(tree: Tree) -> Iterator[Misfit]:
    """Each row of the table of limits has the value of its constant, in the file that it names."""
    constants = Constants(tree)
    for number, line in enumerate(tree.text_of(ARCHITECTURE).splitlines(), 1):
        cells = [cell.strip() for cell in line.strip().strip("|").split("|")]
        names = re.findall(r"`([A-Z][A-Z_]+)`", cells[0])
        places = re.findall(r"`(urb\w*)`: `(src/[\w/]+\.rt)`", cells[2] if len(cells) == 4 else "")
        if not line.startswith("|") or not names or not places:
            continue
        told = numbers_in(re.sub(r"`[^`]*`", "", cells[1]))
        pairs = zip(names, places if len(places) > 1 else places * len(names))
        for at, (name, (crate, file)) in enumerate(pairs):
            value = constants.value(crate, file, name)
            said = told[at if len(told) > 1 else 0] if told else value
            if value is None:
                yield Misfit(f"{ARCHITECTURE}:{number}", f"there is no `{name}` in {crate}: {file}")
            elif said != value:
                yield Misfit(f"{ARCHITECTURE}:{number}", f"`{name}` is {value:,}")


@dataclass(frozen=True)
class Statement:
    """How documents give a limit: a pattern with its value in brackets, and the constant."""

    words: str
    crate: str
    file: str
    name: str


LOWEST = ("urb_names", "src/limits.rt")
FORMAT = ("urb_client", "src/format.rt")
COMMANDS = ("urb_options", "src/limits.rt")
STATEMENTS = (
    Statement(
        r"payload has (?:more than|over|0 to|at most) (16,\d+) bytes", *LOWEST, "MAX_PAYLOAD"
    ),
    Statement(r"(?:TEXT|text|payload) (?:of )?over (\d+,\d+)\s+bytes", *LOWEST, "MAX_PAYLOAD"),
    Statement(r"payloads of ([\d,]+) bytes you get", *LOWEST, "MAX_PAYLOAD"),
    Statement(r"length of the payload \| 2 \| 0 to ([\d,]+)", *LOWEST, "MAX_PAYLOAD"),
    Statement(r"payload \(the rest, 0 to ([\d,]+) bytes\)", *LOWEST, "MAX_PAYLOAD"),
    Statement(
        r"(?:at most|over|0 to) ([\d,]+)(?: bytes)? in version 1\b", *LOWEST, "MAX_PLAIN_PAYLOAD"
    ),
    Statement(r"of 19 to ([\d,]+) in version 2", "urb_names", "src/spelling.rt", "MAX_PACKET"),
    Statement(r"a datagram into ([\d,]+) bytes", "urb_link", "src/receiver.rt", "ROOM"),
    Statement(r"length of a request is 1 to ([\d,]+)", *FORMAT, "LONGEST_REQUEST"),
    Statement(r"a length of 0 or over ([\d,]+)", *FORMAT, "LONGEST_REQUEST"),
    Statement(r"of a response is 1 to ([\d,]+)", *FORMAT, "LONGEST_FRAME"),
    Statement(r"response has at most ([\d,]+) bytes", *FORMAT, "LONGEST_FRAME"),
    Statement(r"`--cap C` \| 1 to ([\d,]+)", *LOWEST, "MAX_CAP"),
    Statement(r"`--nodes N` \| 1 to ([\d,]+)", *LOWEST, "MAX_NODES"),
    Statement(r"`--base-port B` \| ([\d,]+) to", *COMMANDS, "MIN_BASE_PORT"),
    Statement(r"`--base-port B` \| 1,024 to ([\d,]+)", *COMMANDS, "MAX_BASE_PORT"),
    Statement(r"`--tick-ms T` \| 1 to ([\d,]+)", *COMMANDS, "MAX_TICK_MILLIS"),
    Statement(r"`--connections K` \| ([\d,]+) to", *COMMANDS, "MIN_CONNECTIONS"),
    Statement(r"`--connections K` \| 4 to ([\d,]+)", *COMMANDS, "MAX_CONNECTIONS"),
    Statement(r"`--idle-minutes M` \| 1 to ([\d,]+)", *COMMANDS, "MAX_IDLE_MINUTES"),
    Statement(r"`--idle-minutes M` .* otherwise (\d+)", *COMMANDS, "STANDARD_IDLE_MINUTES"),
    Statement(r"resends up to (\d+) messages", *LOWEST, "NAMES_PER_TICK"),
    Statement(r"line has 1 to ([\d,]+) bytes", "urb_script", "src/input.rt", "LONGEST_LINE"),
    Statement(r"([\d,]+) bytes of pages", "urb_sqlite", "src/node_journals.rt", "LOG_BYTES"),
    Statement(
        r"the log has ([\d,]+) frames", "urb_sqlite", "src/node_journals.rt", "NEW_LOG_PAGES"
    ),
    Statement(
        r"as many frames as have ([\d,]+) bytes", "urb_sqlite", "src/node_journals.rt", "LOG_BYTES"
    ),
)


def stated_limits(tree: Tree) -> Iterator[Misfit]:
    """Each statement of a limit has the constant's value in each page, and stands in one."""
    constants = Constants(tree)
    pages = {path: path.read_text() for path in [*tree.files("*.md"), *tree.files("docs/*.md")]}
    for it in STATEMENTS:
        value = constants.value(it.crate, it.file, it.name)
        if value is None:
            yield Misfit(f"crates/{it.crate}/{it.file}", f"there is no `{it.name}`")
            continue
        words = re.compile(it.words.replace(" ", r"\s+"))
        is_told = False
        for path, text in pages.items():
            for found in words.finditer(text):
                is_told = True
                if numbers_in(found.group(1)) != [value]:
                    line = text.count("\n", 0, found.start(1)) + 1
                    yield Misfit(f"{tree.name_of(path)}:{line}", f"`{it.name}` is {value:,}")
        if not is_told:
            yield Misfit("tools/checks/limits.py", f"no page gives `{it.name}` by {it.words!r}")
