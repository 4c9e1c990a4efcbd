"""Plain English: few `where` for "if", short sentences, narrow lines, in pages and in comments."""
from __future__ import annotations

import ast
import re
from collections.abc import Iterable, Iterator
from dataclasses import dataclass
from pathlib import Path

from tools.tree import Misfit, Tree

# The pages that are written in plain English. Add a page here once it is.
PAGES = (
    "README.md",
    "CONTRIBUTING.md",
    "docs/ARCHITECTURE.md",
    "docs/BRIDGE.md",
    "docs/DECISIONS.md",
    "docs/DEFINITIONS.md",
    "docs/FORMATS.md",
    "docs/GLOSSARY.md",
    "docs/GUARANTEES.md",
    "docs/LEMMAS.md",
    "docs/MEASUREMENTS.md",
    "docs/MONITORING.md",
    "docs/OPERATIONS.md",
    "docs/PROOFS_AT_RUN_TIME.md",
    "docs/QUESTIONS.md",
    "docs/READING.md",
)
PYTHON = (
    "tools/**/*.py",
    "trials/**/*.py",
    "bench/**/*.py",
    "clients/**/*.py",
    "contrib/**/*.py",
    "examples/*.py",
)
MOST_WHERE = 3
MOST_WORDS = 35
MOST_COLUMNS = 100
MOST_README_LINES = 170

WHERE = re.compile(r"(?:(\S+)\s+)?\bwhere\b(?!\s+to\b)", re.I)
# After one of these words, `where` means a place. After any other it counts as "if" or "when".
PLACES = frozenset(
    "place places file files folder folders page pages section line lines point position".split()
)
END = re.compile(r"[.!?][)\"'*]*(?=\s|$)")
INITIAL = re.compile(r"(?:^|[\s(])[A-Z]\.$")
MARKER = re.compile(r"(?:[-*]|\d+\.|#+) ")


@dataclass
class Text:
    """A piece of prose, and the line on which it begins."""

    line: int
    text: str


def prose_of(page: str) -> list[Text]:
    """The texts of a page: headings, paragraphs, list items and table cells, but no code."""
    texts: list[Text] = []
    is_fenced = is_open = False
    for number, line in enumerate(map(str.strip, page.splitlines()), 1):
        if line.startswith("```"):
            is_fenced, is_open = not is_fenced, False
        elif is_fenced or not line:
            is_open = False
        elif line.startswith("|"):
            texts += [Text(number, cell) for cell in line.strip("|").split("|")]
            is_open = False
        elif is_open and not MARKER.match(line):
            texts[-1].text += " " + line
        else:
            texts.append(Text(number, MARKER.sub("", line, count=1)))
            is_open = not line.startswith("#")
    return texts


def comments_of(source: str, mark: str) -> list[Text]:
    """The texts of a source file's comments. Code between fences is left out."""
    texts: list[Text] = []
    is_fenced = is_open = False
    for number, line in enumerate(map(str.strip, source.splitlines()), 1):
        if not line.startswith(mark):
            is_open = False
            continue
        line = line.lstrip("/!-#").strip()
        if line.startswith("```"):
            is_fenced, is_open = not is_fenced, False
        elif is_fenced or not line:
            is_open = False
        elif is_open and not re.match(r"(?:[-*]|\d+\.|`) ?", line):
            texts[-1].text += " " + line
        else:
            texts.append(Text(number, line))
            is_open = True
    return texts


def docstrings_of(source: str) -> list[Text]:
    """The paragraphs of a Python file's docstrings, without indented lines (commands, tables)."""
    kinds = (ast.Module, ast.ClassDef, ast.FunctionDef, ast.AsyncFunctionDef)
    texts = []
    for node in ast.walk(ast.parse(source)):
        told = ast.get_docstring(node) if isinstance(node, kinds) else None
        if told is not None:
            line = 1 if isinstance(node, ast.Module) else getattr(node, "lineno", 1)
            plain = "\n".join(
                it if not it.startswith((" ", "|")) else "" for it in told.split("\n")
            )
            texts += [Text(line, it.text) for it in prose_of(plain)]
    return texts


def sentences(text: str) -> Iterator[str]:
    """The sentences of a text.

    An initial ("C. Cachin") ends no sentence, nor do two dots before a small letter.
    """
    begin = 0
    for end in END.finditer(text):
        before, after = text[: end.start() + 1], text[end.end() :].lstrip()
        is_initial = INITIAL.search(before) and after[:1].isupper()
        is_ellipsis = before.endswith("..") and not after[:1].isupper()
        if not is_initial and not is_ellipsis:
            yield text[begin : end.end()]
            begin = end.end()
    yield text[begin:]


def is_condition(match: re.Match[str]) -> bool:
    """Whether a `where` means "if" or "when"."""
    return (match.group(1) or "").lower() not in PLACES


def faults_of(name: str, texts: Iterable[Text]) -> Iterator[Misfit]:
    """The long sentences of these texts, and their conditional `where` if there are too many."""
    conditions: list[int] = []
    for it in texts:
        text = re.sub(r"`[^`]*`", "x", it.text)
        conditions += [it.line for match in WHERE.finditer(text) if is_condition(match)]
        for sentence in sentences(text):
            count = len(sentence.split())
            if count > MOST_WORDS:
                told = f"a sentence of {count} words: {sentence.strip()[:60]} .."
                yield Misfit(f"{name}:{it.line}", told)
    if len(conditions) > MOST_WHERE:
        told = f"{len(conditions)} conditional 'where', also in lines {conditions[1:]}"
        yield Misfit(f"{name}:{conditions[0]}", told)


def is_wide(line: str) -> bool:
    """Whether a line is over the width; a row of a table may be."""
    return len(line) > MOST_COLUMNS and not line.lstrip().startswith("|")


def loose_fences(name: str, text: str) -> Iterator[Misfit]:
    """Fences of code that aren't at the beginning of a line, and one that isn't closed."""
    fences = [it for it in enumerate(text.splitlines(), 1) if "```" in it[1]]
    for number, line in fences:
        if not line.lstrip().startswith("```"):
            yield Misfit(f"{name}:{number}", "``` stands behind other words of its line")
    if len(fences) % 2:
        yield Misfit(f"{name}:{fences[-1][0]}", "``` begins code that has no end")


def wide_lines(name: str, text: str) -> Iterator[Misfit]:
    is_fenced = False
    for number, line in enumerate(text.splitlines(), 1):
        is_fenced ^= line.lstrip().startswith("```")
        if not is_fenced and is_wide(line):
            yield Misfit(f"{name}:{number}", f"a line of {len(line)} columns")


def pages(tree: Tree) -> Iterator[Misfit]:
    """Each page has few conditional `where`, short sentences, narrow lines, closed fences of code.

    README is short.
    """
    for name in PAGES:
        if not tree.has(name):
            yield Misfit(name, "a page that isn't there")
        text = tree.text_of(name)
        yield from loose_fences(name, text)
        yield from wide_lines(name, text)
        yield from faults_of(name, prose_of(text))
    if len(tree.text_of("README.md").splitlines()) > MOST_README_LINES:
        yield Misfit("README.md", f"more than {MOST_README_LINES} lines")


def comments(tree: Tree) -> Iterator[Misfit]:
    """The comments of each source and proof have few conditional `where`, short sentences."""
    marks = {".rt": "//", ".antt": "--", ".go": "//"}
    files: list[Path] = []
    for suffix in marks:
        files += tree.files(f"crates/**/*{suffix}" if suffix != ".go" else "**/*.go")
    for path in files:
        yield from faults_of(tree.name_of(path), comments_of(path.read_text(), marks[path.suffix]))


def docstrings(tree: Tree) -> Iterator[Misfit]:
    """The same of each Python file: its docstrings and its comments."""
    for path in sorted({path for pattern in PYTHON for path in tree.files(pattern)}):
        text = path.read_text()
        yield from faults_of(tree.name_of(path), [*docstrings_of(text), *comments_of(text, "#")])
