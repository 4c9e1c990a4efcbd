#!/usr/bin/env python3
"""Makes the constants of the Python and Go clients and of `urbdctl` from those of the program.

    tools/constants.py           writes the files
    tools/constants.py --check   compares them, prints each that differs, and ends with status 1

The limits, opcodes, codes, refusals and ports are written once, in the sources of the program. This
tool reads them there, so a client never has a number of its own. `urbdctl` reads journals, so it
has their limits besides."""
from __future__ import annotations

import argparse
import ast
import re
import sys
from dataclasses import dataclass
from pathlib import Path

TOP = Path(__file__).resolve().parent.parent
SOURCES = (
    "crates/urb_names/src/limits.rt",
    "crates/urb_client/src/format.rt",
    "crates/urb_options/src/limits.rt",
)
REFUSALS = "crates/urb_names/src/refusal.rt"
TABLES = "crates/urb_sqlite/src/sql.rt"
PYTHON = "clients/python/src/urbd/constants.py"
GO = "clients/go/constants.go"
JOURNALS = "contrib/ctl/urbdctl/limits.py"

CONSTANT = re.compile(r"(pub )?const ([A-Z][A-Z0-9_]*): \w+ = ([^;]*);")
NUMBER = re.compile(r"Refusal::(\w+)[^=]*=> (\d+),")


@dataclass(frozen=True)
class Constant:
    """A constant of the program: its name, value and what its comment says first."""

    name: str
    value: int
    sentence: str


@dataclass(frozen=True)
class RefusalKind:
    """A refusal: its name in the program, its number, its text. `{0}` stands for the detail."""

    name: str
    number: int
    text: str


def value_of(text: str, known: dict[str, int]) -> int:
    """The value of an expression of numbers, `+`, `-`, `*` and constants that are known."""
    tree = ast.parse(re.sub(r"\bas \w+", "", text).strip(), mode="eval").body
    return _value(tree, known)


def _value(tree: ast.expr, known: dict[str, int]) -> int:
    if isinstance(tree, ast.Constant) and isinstance(tree.value, int):
        return tree.value
    if isinstance(tree, ast.Name):
        return known[tree.id]
    if isinstance(tree, ast.BinOp):
        left, right = _value(tree.left, known), _value(tree.right, known)
        if isinstance(tree.op, ast.Add):
            return left + right
        if isinstance(tree.op, ast.Sub):
            return left - right
        if isinstance(tree.op, ast.Mult):
            return left * right
    raise ValueError(f"this tool can't read the expression {ast.dump(tree)}")


def first_sentence(comment: list[str]) -> str:
    """The first sentence of a comment's lines."""
    text = " ".join(comment)
    end = re.search(r"\.(?=\s|$)", text)
    return text[: end.end()] if end else text


def commented(source: str) -> list[tuple[str, list[str]]]:
    """Each line of a source that is no comment, with the lines of the comment above it."""
    rows: list[tuple[str, list[str]]] = []
    comment: list[str] = []
    for line in source.splitlines():
        if line.strip().startswith("///"):
            comment.append(line.strip()[3:].strip())
        elif line.strip() and not line.strip().startswith("#["):
            rows.append((line, comment))
            comment = []
    return rows


def constants_of(sources: list[str]) -> list[Constant]:
    """The public constants of these sources, in their order. A value may use a constant of any."""
    found: list[tuple[str, str, str, bool]] = []
    for source in sources:
        for line, comment in commented(source):
            match = CONSTANT.match(line)
            if match:
                found.append((match[2], match[3], first_sentence(comment), bool(match[1])))
    known: dict[str, int] = {}
    left = list(found)
    while left:
        later = []
        for row in left:
            try:
                known[row[0]] = value_of(row[1], known)
            except KeyError:
                later.append(row)
        if len(later) == len(left):
            names = ", ".join(row[0] for row in later)
            raise ValueError(f"these constants depend on others that aren't there: {names}")
        left = later
    return [Constant(name, known[name], said) for name, _, said, is_public in found if is_public]


def refusals_of(source: str) -> list[RefusalKind]:
    """The refusals of the program, by their numbers. A packet's own fault has a text of its own."""
    texts: dict[str, str] = {}
    text, inside = "", False
    for line in source.splitlines():
        error = re.match(r'\s*#\[error\("(.*)"\)\]', line)
        variant = re.match(r"    ([A-Z]\w*)(?:\(| \{|,)", line)
        if line.startswith("pub enum "):
            inside = line.startswith("pub enum Refusal ")
        elif error:
            text = error[1]
        elif inside and variant:
            texts[variant[1]] = "the bytes are no packet" if text == "{0}" else text
    numbers = {match[1]: int(match[2]) for match in NUMBER.finditer(source)}
    if not texts or set(texts) != set(numbers):
        raise ValueError("the refusals and their numbers don't agree")
    kinds = [RefusalKind(name, numbers[name], texts[name]) for name in numbers]
    return sorted(kinds, key=lambda kind: kind.number)


def spaced(name: str) -> str:
    """A name such as `BadRow` as `BAD_ROW`."""
    return re.sub(r"(?<=[a-z])(?=[A-Z])", "_", name).upper()


def python_lines(constants: list[Constant]) -> list[str]:
    """The constants in Python, each under its sentence."""
    return [
        line
        for constant in constants
        for line in (f"# {constant.sentence}", f"{constant.name} = {constant.value}", "")
    ]


def journals_text(constants: list[Constant]) -> str:
    """The module of `urbdctl`."""
    head = '"""The limits of the tables of a journal, written by `tools/constants.py`."""'
    lines = [head, "from __future__ import annotations", "", *python_lines(constants)]
    return "\n".join(lines[:-1]) + "\n"


def python_text(constants: list[Constant], refusals: list[RefusalKind]) -> str:
    """The module of the Python client."""
    lines = [
        '"""The limits, opcodes, refusals and ports of urbd, written by `tools/constants.py`."""',
        "from __future__ import annotations",
        "",
        "from enum import IntEnum",
        "",
        *python_lines(constants),
    ]
    lines += [
        "",
        "class Refusal(IntEnum):",
        '    """Why a node refuses, by the number in its response."""',
        "",
    ]
    lines += [f"    {spaced(kind.name)} = {kind.number}" for kind in refusals]
    lines += ["", "", "# What a refusal says. `{0}` is its detail.", "REFUSAL_TEXTS = {"]
    lines += [f'    Refusal.{spaced(kind.name)}: "{kind.text}",' for kind in refusals]
    lines += ["}"]
    return "\n".join(lines) + "\n"


def go_name(name: str) -> str:
    """A constant's name in Go. What only the codec uses isn't exported."""
    words = name.split("_")
    is_exported = words[0] not in ("ASK", "SAY", "BAD", "UNKNOWN", "WRONG", "CUT") and words[
        -1
    ] not in (
        "HEAD",
        "FIELDS",
    )
    camel = "".join(word.capitalize() for word in words)
    return camel if is_exported else camel[0].lower() + camel[1:]


def go_text(constants: list[Constant], refusals: list[RefusalKind]) -> str:
    """The file of the Go client."""
    lines = ["// Code generated by tools/constants.py. DO NOT EDIT.", "", "package urbd", ""]
    for constant in constants:
        name = go_name(constant.name)
        said = constant.sentence[0].lower() + constant.sentence[1:]
        lines += [f"// {name} is {said}", f"const {name} = {constant.value}", ""]
    lines += ["// The refusals of a node, by their numbers.", "const ("]
    width = max(len(kind.name) for kind in refusals) + len("Refusal")
    lines += [f"\t{'Refusal' + kind.name:{width}} = {kind.number}" for kind in refusals]
    lines += [
        ")",
        "",
        "// refusalTexts says what a refusal is. %d is its detail.",
        "var refusalTexts = map[uint8]string{",
    ]
    width = max(len(kind.name) for kind in refusals) + len("Refusal:")
    for kind in refusals:
        text = kind.text.replace("{0}", "%d")
        lines.append(f"\t{'Refusal' + kind.name + ':':{width}} \"{text}\",")
    lines += ["}"]
    return "\n".join(lines) + "\n"


def generated(top: Path) -> dict[str, str]:
    """The text of each generated file, by its name."""
    constants = constants_of([(top / name).read_text() for name in SOURCES])
    refusals = refusals_of((top / REFUSALS).read_text())
    return {
        PYTHON: python_text(constants, refusals),
        GO: go_text(constants, refusals),
        JOURNALS: journals_text(constants_of([(top / TABLES).read_text()])),
    }


def stale(top: Path) -> list[str]:
    """The names of the generated files that aren't what the sources give."""
    return [
        name
        for name, text in generated(top).items()
        if not (top / name).exists() or (top / name).read_text() != text
    ]


def main() -> int:
    parser = argparse.ArgumentParser(
        description=__doc__, formatter_class=argparse.RawDescriptionHelpFormatter
    )
    parser.add_argument("--check", action="store_true", help="compare, and write nothing")
    options = parser.parse_args()
    if options.check:
        names = stale(TOP)
        for name in names:
            print(f"{name}: it isn't what the sources give: run tools/constants.py")
        return 1 if names else 0
    for name, text in generated(TOP).items():
        (TOP / name).write_text(text)
    return 0


if __name__ == "__main__":
    sys.exit(main())
