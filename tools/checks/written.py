"""Written limits: how often each file writes the value of a limit, as a number or as a word.

Code derives a limit from another or compares the two. Texts, tests and other languages can't. So a
table says how often each file writes a value. A place that was forgotten after a change of the
limit is a misfit, and so is a new place.
"""
from __future__ import annotations

import re
from collections import Counter
from collections.abc import Iterator, Mapping

from tools.checks.limits import Constants
from tools.tree import Misfit, Tree

# The constants that other files write, and where they are declared.
OPTIONS = ("urb_options", "src/limits.rt")
DECLARED: Mapping[str, tuple[str, str]] = {
    "MAX_NODES": ("urb_names", "src/limits.rt"),
    "MAX_PAYLOAD": ("urb_names", "src/limits.rt"),
    "MAX_CAP": ("urb_names", "src/limits.rt"),
    "MAX_PACKET": ("urb_names", "src/spelling.rt"),
    "MOST_ENTRIES": ("urb_client", "src/format.rt"),
    "LONGEST_REQUEST": ("urb_client", "src/format.rt"),
    "LONGEST_LINE": ("urb_script", "src/input.rt"),
    "LONGEST_IN_SECOND": ("urb_sqlite", "src/sql.rt"),
    "ROOM": ("urb_link", "src/receiver.rt"),
    "MIN_BASE_PORT": OPTIONS,
    "MAX_BASE_PORT": OPTIONS,
    "MAX_TICK_MILLIS": OPTIONS,
    "MIN_CONNECTIONS": OPTIONS,
    "MAX_CONNECTIONS": OPTIONS,
    "MAX_IDLE_MINUTES": OPTIONS,
    "STANDARD_IDLE_MINUTES": OPTIONS,
}

# A value, as a constant and what is added to it; then the words in which it stands. There `#` is
# its number, `@` its word, and `~` the numbers from 1 to it. To these belong the files that have
# such words, and how often.
Written = Mapping[tuple[str, str], Mapping[str, int]]
WRITTEN: Written = {
    ("MAX_NODES", "1 to #"): {
        "clients/python/src/urbd/__init__.py": 1,
        "contrib/package/completions/_urbd": 2,
        "contrib/package/urbd.1": 1,
        "crates/urb_options/src/grammar.rt": 1,
        "crates/urb_daemon_tests/src/tests/visits.rt": 1,
        "crates/urb_sqlite/specs/FoundJournals.antt": 1,
        "docs/FORMATS.md": 9,
        "docs/OPERATIONS.md": 1,
        "docs/PROOFS_AT_RUN_TIME.md": 1,
    },
    ("MAX_NODES", "~"): {
        "contrib/package/completions/_urbd": 2,
        "contrib/package/completions/urbd.bash": 1,
        "contrib/package/completions/urbd.fish": 2,
    },
    ("MAX_NODES", "MOST_NODES = #"): {"bench/floor.c": 1},
    # What says or tries something of the greatest group.
    ("MAX_NODES", "@ nodes"): {
        "README.md": 1,
        "crates/urb_daemon_tests/src/tests/groups.rt": 1,
        "crates/urb_daemon_tests/src/tests/restarts.rt": 1,
        "crates/urb_feed_tests/src/tests.rt": 1,
        "crates/urb_show_tests/src/tests.rt": 4,
        "crates/urb_show_tests/src/tests/seven.rt": 4,
        "crates/urb_sqlite/src/node_file.rt": 1,
        "crates/urb_worker_tests/src/tests/groups.rt": 1,
        "crates/urb_worker_tests/src/tests/hearing.rt": 2,
        "crates/urb_worker_tests/src/tests/sevens.rt": 3,
        "crates/urb_worker_tests/src/tests/timers.rt": 2,
        "crates/urb_world/src/worked/names.rt": 1,
        "crates/urb_world/src/worked/premises.rt": 1,
        "crates/urb_world/src/worked/records.rt": 3,
        "crates/urb_world/src/worked/recovery_words.rt": 1,
        "docs/ARCHITECTURE.md": 2,
        "docs/DECISIONS.md": 2,
        "docs/GUARANTEES.md": 5,
        "docs/OPERATIONS.md": 1,
    },
    ("MAX_NODES", "nodes, which is @"): {"docs/GUARANTEES.md": 1},
    ("MOST_ENTRIES", "1 to #"): {
        "clients/go/node.go": 1,
        "clients/python/src/urbd/aio/node.py": 1,
        "clients/python/src/urbd/frames.py": 1,
        "clients/python/src/urbd/node.py": 1,
        "contrib/package/urbd.1": 1,
        "crates/urb_options/src/grammar.rt": 1,
        "docs/FORMATS.md": 4,
        "docs/OPERATIONS.md": 1,
    },
    ("MOST_ENTRIES", "~"): {
        "contrib/package/completions/_urbd": 1,
        "contrib/package/completions/urbd.fish": 1,
    },
    ("MAX_PAYLOAD", "#"): {
        "README.md": 1,
        "bench/load.c": 2,
        "crates/urb_cli/specs/Advice.antt": 1,
        "crates/urb_cli/src/client/advice.rt": 1,
        "crates/urb_options/src/grammar.rt": 1,
        "crates/urb_options/src/stream_grammar.rt": 1,
        "crates/urb_cli_tests/src/tests/clients.rt": 1,
        "crates/urb_cli_tests/src/tests/streams.rt": 1,
        "crates/urb_names/src/limits.rt": 1,
        "crates/urb_names_tests/src/tests/faults.rt": 2,
        "crates/urb_node_tests/src/tests/calls.rt": 1,
        "crates/urb_script_tests/src/scripts.rt": 1,
        "crates/urb_script_tests/src/tests.rt": 2,
        "crates/urb_script_tests/src/worked.rt": 1,
        "crates/urb_sqlite_tests/src/tests/stores.rt": 3,
        "crates/urb_worker_tests/src/tests/bursts.rt": 1,
        "crates/urb_worker_tests/src/tests/limits.rt": 2,
        "crates/urb_world/src/worked/clients.rt": 3,
        "docs/ARCHITECTURE.md": 1,
        "docs/DECISIONS.md": 4,
        "docs/FORMATS.md": 10,
        "docs/GUARANTEES.md": 2,
        "docs/OPERATIONS.md": 5,
        "docs/QUESTIONS.md": 1,
    },
    # The shortest payload that is refused.
    ("MAX_PAYLOAD + 1", "#"): {
        "crates/urb_ahead_examples/src/worked/stores_ahead.rt": 2,
        "crates/urb_names_tests/src/tests/faults.rt": 1,
        "crates/urb_node_tests/src/tests/calls.rt": 1,
        "crates/urb_script_tests/src/worked.rt": 1,
        "crates/urb_step_examples/specs/internal/WorldExamples.antt": 1,
        "crates/urb_step_examples/src/worked/kept_worlds.rt": 1,
        "crates/urb_worker_tests/src/tests/limits.rt": 1,
        "crates/urb_world/src/worked/clients.rt": 6,
        "crates/urb_world/src/worked/names.rt": 1,
        "crates/urb_ahead_examples/src/worked/worlds_as_stored.rt": 2,
    },
    # Files fix this one, so it stays if `MAX_PAYLOAD` changes.
    ("LONGEST_IN_SECOND", "#"): {
        "crates/urb_journal_examples/src/worked/journal_tables.rt": 1,
        "crates/urb_sqlite/src/sql.rt": 1,
        "crates/urb_sqlite_tests/src/tests/stores.rt": 1,
        "crates/urb_sqlite_tests/src/tests/tables.rt": 1,
        "docs/ARCHITECTURE.md": 1,
        "docs/DECISIONS.md": 1,
        "docs/FORMATS.md": 1,
        "docs/OPERATIONS.md": 1,
    },
    ("LONGEST_IN_SECOND + 1", "#"): {
        "crates/urb_sqlite_tests/src/tests/stores.rt": 1,
        "crates/urb_sqlite_tests/src/tests/tables.rt": 1,
        "docs/FORMATS.md": 1,
    },
    ("MAX_PACKET", "#"): {
        "crates/urb_link/src/spares.rt": 1,
        "docs/ARCHITECTURE.md": 1,
        "docs/FORMATS.md": 1,
        "docs/OPERATIONS.md": 1,
    },
    ("LONGEST_REQUEST", "#"): {"docs/ARCHITECTURE.md": 1, "docs/FORMATS.md": 3},
    ("LONGEST_REQUEST + 1", "#"): {"clients/python/tests/test_frames.py": 1},
    ("LONGEST_LINE", "line of at most # bytes"): {"docs/ARCHITECTURE.md": 1},
    ("ROOM", "#"): {"docs/ARCHITECTURE.md": 1, "docs/FORMATS.md": 1},
    # The ranges of other options.
    ("MAX_CAP", "1 to #"): {
        "contrib/package/urbd.1": 1,
        "crates/urb_options/src/grammar.rt": 1,
        "docs/FORMATS.md": 2,
        "docs/OPERATIONS.md": 1,
    },
    ("MIN_BASE_PORT", "# to"): {
        "contrib/package/completions/_urbd": 1,
        "contrib/package/completions/urbd.fish": 1,
        "contrib/package/urbd.1": 1,
        "crates/urb_options/src/grammar.rt": 2,
        "docs/FORMATS.md": 1,
        "docs/OPERATIONS.md": 1,
    },
    ("MAX_BASE_PORT", " to #"): {
        "contrib/package/completions/_urbd": 1,
        "contrib/package/completions/urbd.fish": 1,
        "contrib/package/urbd.1": 1,
        "crates/urb_options/src/grammar.rt": 2,
        "docs/FORMATS.md": 1,
        "docs/OPERATIONS.md": 1,
    },
    ("MAX_TICK_MILLIS", "1 to #"): {
        "contrib/package/urbd.1": 1,
        "crates/urb_options/src/grammar.rt": 1,
        "docs/FORMATS.md": 1,
        "docs/OPERATIONS.md": 1,
    },
    ("MIN_CONNECTIONS", "# to 1"): {
        "contrib/package/completions/_urbd": 1,
        "contrib/package/completions/urbd.fish": 1,
        "contrib/package/urbd.1": 1,
        "crates/urb_options/src/grammar.rt": 1,
        "docs/FORMATS.md": 1,
        "docs/OPERATIONS.md": 1,
    },
    ("MAX_CONNECTIONS", "4 to #"): {
        "contrib/package/completions/_urbd": 1,
        "contrib/package/completions/urbd.fish": 1,
        "contrib/package/urbd.1": 1,
        "crates/urb_options/src/grammar.rt": 1,
        "docs/FORMATS.md": 1,
        "docs/OPERATIONS.md": 1,
    },
    ("MAX_CONNECTIONS", "otherwise #"): {
        "contrib/package/urbd.1": 1,
        "crates/urb_options/src/grammar.rt": 1,
        "docs/FORMATS.md": 1,
        "docs/OPERATIONS.md": 1,
    },
    ("MAX_IDLE_MINUTES", "1 to #"): {
        "contrib/package/urbd.1": 1,
        "crates/urb_options/src/grammar.rt": 1,
        "docs/FORMATS.md": 1,
        "docs/OPERATIONS.md": 1,
    },
    ("STANDARD_IDLE_MINUTES", "otherwise #"): {
        "contrib/package/urbd.1": 1,
        "crates/urb_options/src/grammar.rt": 1,
        "docs/FORMATS.md": 1,
        "docs/OPERATIONS.md": 1,
    },
}

FILES = (
    "*.md",
    "docs/*.md",
    "crates/*/must-fail/*.edit",
    "crates/*/specs/**/*.antt",
    "crates/*/src/**/*.rt",
    "crates/*/wrong-bodies/*.edit",
    *(
        f"{folder}/**/*{end}"
        for folder in ("bench", "clients", "contrib", "examples", "trials")
        for end in (".c", ".go", ".md", ".py", ".1", ".bash", ".fish", "_urbd", ".sh")
    ),
)
LEFT_OUT = frozenset(
    (
        # they say what was, and what was measured
        "CHANGELOG.md",
        "docs/MEASUREMENTS.md",
        # their sentences are those of the crates
        "docs/DEFINITIONS.md",
        "docs/LEMMAS.md",
        # tools/constants.py makes them
        "clients/go/constants.go",
        "clients/python/src/urbd/constants.py",
        "contrib/ctl/urbdctl/limits.py",
    )
)
# What may be between two words: a space, the end of a line of a comment, or a sign in a name.
BETWEEN = r"(?:[\s_]|//[/!]?|--)+"
WORDS = ("no", "one", "two", "three", "four", "five", "six", "seven", "eight", "nine", "ten")


def value_of(constants: Constants, told: str) -> int | None:
    """The value of a constant, or of `NAME + NUMBER`; None if there is no such constant."""
    name, _, more = told.partition(" + ")
    value = constants.value(*DECLARED[name], name)
    return None if value is None else value + int(more or 0)


def pattern_of(words: str, value: int) -> str:
    """The pattern of these words with this value in them."""
    number = "[,_]?".join(f"{value:,}".split(","))
    numbers = r"\s+".join(map(str, range(1, value + 1))) if "~" in words else ""
    signs = {
        "#": rf"(?<![\d.,_]){number}(?![\d_]|[.,]\d)",
        "@": WORDS[value] if value < len(WORDS) else str(value),
        "~": rf"(?<!\d )\b{numbers}\b(?! \d)",
    }
    parts = (signs.get(part, re.escape(part)) for part in re.split("([#@~])", words))
    return "".join(parts).replace(r"\ ", BETWEEN)


def files_of(tree: Tree) -> dict[str, str]:
    """The texts of all files that may write a limit, by name."""
    paths = {path for pattern in FILES for path in tree.files(pattern)}
    texts = {tree.name_of(path): path for path in sorted(paths)}
    return {name: path.read_text() for name, path in texts.items() if name not in LEFT_OUT}


def written_limits(tree: Tree, written: Written = WRITTEN) -> Iterator[Misfit]:
    """Each file writes the values of limits as often as the table says."""
    constants = Constants(tree)
    texts = files_of(tree)
    # Two constants may have one value: then a file writes it for both.
    expected: dict[str, Counter[str]] = {}
    names: dict[str, list[str]] = {}
    for (told, words), files in written.items():
        value = value_of(constants, told)
        if value is None:
            yield Misfit("tools/checks/written.py", f"there is no constant for `{told}`")
            continue
        pattern = pattern_of(words, value)
        expected.setdefault(pattern, Counter()).update(files)
        names.setdefault(pattern, []).append(f"`{told}` ({value:,})")
    for pattern, counts in expected.items():
        form = re.compile(pattern)
        for name in sorted({*texts, *counts}):
            text = texts.get(name, "")
            places = [text.count("\n", 0, it.start()) + 1 for it in form.finditer(text)]
            if len(places) != counts[name]:
                lines = ", ".join(map(str, places)) or "none"
                told = " or ".join(names[pattern])
                yield Misfit(name, f"{told} is there {counts[name]} times by the table: {lines}")
