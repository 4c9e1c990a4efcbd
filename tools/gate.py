"""The merge gate, which `bash .ci/run` calls. Its last line counts all: `N passed, M failed`.

    python3 -m tools gate            all steps
    python3 -m tools gate --quick    without the proofs and the trials: a minute or two

The quick steps come first: documents, the layout of Python code, unit tests. If one of them fails,
the run ends there, since the proofs may take two hours. Then a part of the wrong bodies is added to
the must-fail edits; the hash of crates/ chooses it. Then `rt ci` runs: every proof whose text this
machine hasn't proved before, the edits, the tests and the program. Then a few wrong definitions are
tried again, if at most 110 minutes have passed. The same hash chooses them. At the end the built
program is tried as a user would use it (trials/gate). What a step needs and isn't installed is left
out, with a line. Before the last line stands what each failing step said, and how long it all took.
"""
from __future__ import annotations

import argparse
import os
import re
import shutil
import signal
import subprocess
import sys
import time
from collections.abc import Iterable, Iterator, Mapping, Sequence
from dataclasses import dataclass, field
from pathlib import Path

from tools import wrong_bodies
from tools.tree import Tree

PROGRAM = "crates/urbd/out/urbd"
# Folders of tests that aren't unit tests: they need the built program.
TRIALS = ("trials/gate", "trials/long")
COUNTED = re.compile(r"(\d+) passed, (\d+) failed")
RAN = re.compile(r"Ran (\d+) tests? in")
FAILED = re.compile(r"FAILED \((.*)\)")
SKIPPED = re.compile(r"skipped=(\d+)")
# A line that tells of a failure.
TROUBLE = re.compile(r"fail|refus|error|panic|traceback|killed|not proved|timed out", re.I)
# A line that tells of a success, whatever else it names.
FINE = re.compile(r"\.\.\. ok$|^test result: ok|: trying its must-fail edits|, 0 failed$")
# The number of these lines of a failing command that the end shows again.
SHOWN_LINES = 40
# In minutes. A longer run tries no wrong definition, since the program still has to be tried.
LONG = 110


@dataclass
class Count:
    """How many things passed, how many failed, and what the failing commands said."""

    passed: int = 0
    failed: int = 0
    failures: list[str] = field(default_factory=list)

    def add(self, other: Count) -> None:
        self.passed += other.passed
        self.failed += other.failed
        self.failures += other.failures

    def __str__(self) -> str:
        return f"{self.passed} passed, {self.failed} failed"


@dataclass(frozen=True)
class Step:
    """A command of the gate. It is left out if one of the commands that it needs isn't there."""

    name: str
    words: Sequence[str]
    needs: Sequence[str] = ()
    folder: str = "."
    environment: Mapping[str, str] = field(default_factory=dict)


def count_of(said: str, status: int) -> Count:
    """What a command says that it counted. One that counts nothing counts as one."""
    counted = COUNTED.findall(said)
    ran = RAN.findall(said)
    if ran:
        failed = sum(int(it) for text in FAILED.findall(said) for it in failures_in(text))
        skipped = sum(map(int, SKIPPED.findall(said)))
        # a case may fail in several of its parts, and a whole class may be skipped
        count = Count(max(sum(map(int, ran)) - failed - skipped, 0), failed)
    elif counted:
        count = Count(int(counted[-1][0]), int(counted[-1][1]))
    else:
        count = Count(int(status == 0), int(status != 0))
    if status and not count.failed:
        count.failed = 1
    return count


def failures_in(text: str) -> list[str]:
    """The numbers of failures and errors in the last line of unittest."""
    return re.findall(r"(?:failures|errors|unexpected successes)=(\d+)", text)


def top_of(folder: Path) -> Path:
    """The folder from which the tests of this one are imported: the first that is no package."""
    while (folder / "__init__.py").exists():
        folder = folder.parent
    return folder


def unit_tests(tree: Tree) -> Iterator[Step]:
    """The unit tests of tools, clients, contrib and trials: each folder with a file test_*.py."""
    folders = sorted({path.parent for path in tree.files("**/test_*.py")})
    paths = [str(tree.top / "clients/python/src"), os.environ.get("PYTHONPATH", "")]
    environment = {"PYTHONPATH": os.pathsep.join(filter(None, paths))}
    for folder in folders:
        name = tree.name_of(folder)
        if not name.startswith(TRIALS):
            words = [sys.executable, "-m", "unittest", "discover", "-s", ".", "-t"]
            top = os.path.relpath(top_of(folder), folder)
            yield Step(f"unit tests of {name}", [*words, top], (), name, environment)


def quick_steps(tree: Tree) -> Iterator[Step]:
    """The steps that take a minute or two together."""
    tool = [sys.executable, "-m", "tools"]
    yield Step("documents", [*tool, "check"])
    yield Step("layout and types of Python code", [*tool, "lint"])
    yield Step("constants of the clients", [sys.executable, "tools/constants.py", "--check"])
    yield from unit_tests(tree)
    if tree.has("clients/go/go.mod"):
        yield Step("the client in Go", ["go", "vet", "./..."], ["go"], "clients/go")
        yield Step("unit tests of clients/go", ["go", "test", "./..."], ["go"], "clients/go")


def failure_of(name: str, said: str, status: int) -> str:
    """What the end of the run shows of a step that failed: its last lines that name a failure."""
    lines = said.splitlines()
    telling = [it for it in lines if TROUBLE.search(it) and not FINE.search(it)] or lines
    shown = "".join(f"  {line}\n" for line in telling[-SHOWN_LINES:])
    return f"gate: {name} failed, with status {status}. It said:\n{shown}"


def run_step(tree: Tree, step: Step) -> Count:
    """Runs a step, and shows what it says. Gives what it counted."""
    missing = [it for it in step.needs if not shutil.which(it)]
    if missing:
        print(
            f"gate: {step.name}: left out, since {', '.join(missing)} isn't installed", flush=True
        )
        return Count()
    begin, said = time.monotonic(), ""
    with subprocess.Popen(
        step.words,
        cwd=tree.top / step.folder,
        stdout=subprocess.PIPE,
        stderr=subprocess.STDOUT,
        env={**os.environ, **step.environment},
        text=True,
        errors="replace",
    ) as process:
        assert process.stdout is not None
        for line in process.stdout:
            print(line, end="", flush=True)
            said += line
    count = count_of(said, process.returncode)
    if count.failed:
        count.failures.append(failure_of(step.name, said, process.returncode))
    print(f"gate: {step.name}: {count}, {time.monotonic() - begin:.0f} s", flush=True)
    return count


def run_steps(tree: Tree, steps: Iterable[Step]) -> Count:
    total = Count()
    for step in steps:
        total.add(run_step(tree, step))
    return total


def prove(tree: Tree) -> Count:
    """Runs `rt ci` with a part of the wrong bodies."""
    wrong_bodies.sample(tree)
    try:
        return run_step(tree, Step("proofs, edits, tests and the program", ["rt", "ci"]))
    finally:
        wrong_bodies.clear(tree)


def try_definitions(tree: Tree, begin: float) -> Count:
    """Tries a few wrong definitions, unless the run that began then has taken long."""
    minutes = (time.monotonic() - begin) / 60
    if minutes > LONG:
        print(f"gate: wrong definitions: left out, since {minutes:.0f} minutes have passed")
        return Count()
    words = [sys.executable, "-m", "tools", "wrong-definitions", "--part"]
    return run_step(tree, Step("wrong definitions", words))


def try_program(tree: Tree) -> Count:
    """Tries the program that `rt ci` built."""
    if not tree.has(PROGRAM):
        print(f"gate: the built program: there is no {PROGRAM}")
        return Count(0, 1, [f"gate: there is no {PROGRAM}\n"])
    words = [sys.executable, "-m", "trials", PROGRAM, "--gate"]
    return run_step(tree, Step("the built program", words))


def time_line(seconds: float, processors: int) -> str:
    """How long the run took, and how many processors it could use."""
    return f"gate: {seconds / 60:.0f} minutes on {processors} processors"


def main(words: Sequence[str], tree: Tree = Tree()) -> int:
    parser = argparse.ArgumentParser(
        prog="python3 -m tools gate",
        description=__doc__,
        formatter_class=argparse.RawDescriptionHelpFormatter,
    )
    parser.add_argument("--quick", action="store_true", help="leave out the proofs and the trials")
    is_quick = parser.parse_args(words).quick
    # so that what --sample copied is removed if somebody ends the gate
    signal.signal(signal.SIGTERM, lambda number, frame: sys.exit(128 + number))
    # so that the programs of the tests heed Ctrl-C: a shell may start a background job without it
    signal.signal(signal.SIGINT, signal.default_int_handler)
    begin, total = time.monotonic(), run_steps(tree, quick_steps(tree))
    if not is_quick and not total.failed:
        total.add(prove(tree))
        total.add(try_definitions(tree, begin))
        total.add(try_program(tree))
    elif not is_quick:
        print("gate: a quick step failed, so the proofs and the trials aren't begun")
    print(*total.failures, sep="", end="")
    print(time_line(time.monotonic() - begin, len(os.sched_getaffinity(0))))
    print(total)
    return 1 if total.failed else 0
