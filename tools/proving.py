"""Proves the program with all libraries that it uses, and builds it: crates/urbd/out/urbd.

    ./prove                  uses all processors
    ./prove --processors N   uses about N

It proves several crates in parallel, each as soon as those below it are proved. The crates of the
longest chain come first, and the others run at a lower priority. A crate is proved as `rt ci` does
it: from nothing, over the statements of the crates below, without their proofs. No command of rt
does this without tests and edits, so this tool calls the code of rt, if it knows the kit. It works
on a copy of the tree, and prints a line for each crate. What it proved is kept in a store of its
own (~/.cache/urbd-prove), so an interrupted run continues where it stopped. `rt ci` and `rt check`
have another store: they never believe what this tool kept.

With any other kit it calls commands of rt: `rt all check` and `rt run`. That proves the same, takes
longer, and keeps what it proved below crates/*/out.
"""
from __future__ import annotations

import argparse
import importlib.machinery
import importlib.util
import os
import shutil
import subprocess
import sys
import tempfile
import threading
import time
from collections.abc import Sequence
from pathlib import Path
from types import ModuleType
from typing import Any, NamedTuple

from tools.tree import TOP

PROGRAM = "urbd"
LATER = 10  # the priority (nice) of crates outside the longest chain
# The kits whose code this tool was tried with, as `rt version` prints them.
KNOWN_KITS = ("rattle-kit-13f logic dac8208d650f15bf",)

# The module rt and its crates: the code of the kit, which has no types.
Rt = Any
Crate = Any
Kept = Any


class Refused(Exception):
    """The tool can't begin: its text says why."""


def own_store() -> Path:
    """The folder that keeps what this tool proved."""
    cache = os.environ.get("XDG_CACHE_HOME") or Path.home() / ".cache"
    return Path(cache, "urbd-prove")


def find_rt() -> str:
    """The command rt."""
    command = shutil.which("rt")
    if not command:
        raise Refused("there is no command rt. Install Rattle's toolchain first (README.md)")
    return os.path.realpath(command)


def is_known(command: str) -> bool:
    """Whether the command rt is that of a kit whose code this tool was tried with."""
    run = subprocess.run([command, "version"], capture_output=True, text=True)
    return " ".join(run.stdout.split()) in KNOWN_KITS


def load_rt(command: str, store: Path) -> Rt:
    """The code of the command rt, as a module that keeps what it proves in this store.

    Each path of the module below the store that `rt ci` believes becomes one below this store.
    """
    loader = importlib.machinery.SourceFileLoader("rt", command)
    spec = importlib.util.spec_from_loader("rt", loader)
    if spec is None:
        raise Refused(f"{command} is no Python program")
    rt = importlib.util.module_from_spec(spec)
    loader.exec_module(rt)
    believed = str(rt.STORE)
    for name in paths_below(rt, believed):
        setattr(rt, name, str(store) + getattr(rt, name)[len(believed) :])
    return rt


def paths_below(module: ModuleType, folder: str) -> list[str]:
    """The names of a module whose value is this folder, or a path below it."""
    values = vars(module).items()
    paths = [(name, it) for name, it in values if isinstance(it, str) and not name.startswith("__")]
    return [name for name, it in paths if it == folder or it.startswith(f"{folder}/")]


def open_store(rt: Rt, crates: Sequence[Crate], store: Path) -> Kept:
    """What earlier runs of this tool kept.

    It is refused if it could be the store that the gate believes.
    """
    store.mkdir(mode=0o700, parents=True, exist_ok=True)
    kept = rt.Kept(crates)
    if kept.at not in (None, str(store)):
        raise Refused(f"this kit would keep proofs in {kept.at}, which rt ci believes")
    return kept


def crates_in(rt: Rt, top: Path) -> list[Crate]:
    """The libraries that the program in this tree uses, lowest first, and the program."""
    rt.Crate.allowed = rt.handles_of(str(top))
    rt.Crate.cuts_libraries = True
    rt.rtlib.Crate = rt.Crate
    rt.rtlib.guarded()
    program = rt.Crate(str(top / "crates" / PROGRAM), str(top), {})
    return [*program.below(), program]


def bytes_in(crate: Crate) -> int:
    """How many bytes of code and proofs a crate has: a guess at the work of proving it."""
    folders = [Path(crate.folder, part) for part in ("src", "proofs")]
    return sum(path.stat().st_size for folder in folders for path in folder.rglob("*.*"))


class Task(NamedTuple):
    """A crate to prove, how many processors it may use, and whether it has the longest chain."""

    crate: Crate
    jobs: int
    is_longest: bool


class Plan:
    """Which crates are proved, which are under way, and which comes next."""

    def __init__(self, crates: Sequence[Crate], processors: int) -> None:
        self.crates, self.processors = list(crates), processors
        self.proved: list[Crate] = []
        self.under_way: list[Crate] = []
        self.has_failed = False
        self.changed = threading.Condition()
        self.begun = time.monotonic()
        # the most bytes of code and proofs in a chain of crates from this one up, each using the
        # one before
        self.heights: dict[Crate, int] = {}
        for crate in reversed(self.crates):
            above = [self.heights[other] for other in self.crates if crate in other.below()]
            self.heights[crate] = bytes_in(crate) + max(above, default=0)

    def height(self, crate: Crate) -> int:
        return self.heights[crate]

    def ready(self) -> list[Crate]:
        """The crates that can be proved now. The one with the longest chain comes first."""
        begun = self.proved + self.under_way
        left = [it for it in self.crates if it not in begun]
        found = [it for it in left if all(other in self.proved for other in it.below())]
        return sorted(found, key=self.height, reverse=True)

    def take(self) -> Task | None:
        """The next crate; None once no crate is left to begin. It waits while none can begin."""
        with self.changed:
            self.changed.wait_for(self.can_continue)
            found = self.ready()
            if self.has_failed or not found:
                return None
            first = found[0]
            beside = len(self.under_way) + len(found)
            is_longest = self.height(first) >= max(map(self.height, self.under_way), default=0)
            self.under_way.append(first)
            share = self.processors // (1 if is_longest else beside)
            return Task(first, max(1, self.processors // 2, min(4, share)), is_longest)

    def can_continue(self) -> bool:
        """Whether there is a crate to begin, or nothing to wait for."""
        has_room = len(self.under_way) <= self.processors // 2
        return self.has_failed or not self.under_way or (has_room and bool(self.ready()))

    def end(self, crate: Crate, took: float, said: str, is_proved: bool) -> None:
        """Notes how a crate ended, and prints its line; if it failed, also what rt said."""
        with self.changed:
            self.under_way.remove(crate)
            self.has_failed |= not is_proved
            self.proved += [crate] * is_proved
            minutes = (time.monotonic() - self.begun) / 60
            left = len(self.crates) - len(self.proved)
            under_way = ", ".join(it.name for it in self.under_way) or "none"
            word = "proved" if is_proved else "NOT PROVED"
            print(
                f"{minutes:5.1f} min  {crate.name} {word} in {took:.0f} s;"
                f" {left} left; under way: {under_way}",
                flush=True,
            )
            if not is_proved:
                print(said, flush=True)
            self.changed.notify_all()


def build_program(rt: Rt, crate: Crate, jobs: int) -> bool:
    """Proves and compiles the program. Gives whether it could."""
    made = f"out/{crate.name}"
    compiler = ["--toolchain", f"{rt.KIT}/toolchain", "--backend", "llvm"]
    words = [*crate.words(["--jobs", str(jobs)], keeps=False), *compiler, "-o", f"{made}.o"]
    return not (crate.prove(["build", *words]) or crate.link(f"{made}.o", made))


def prove_crate(rt: Rt, crate: Crate, kept: Kept, jobs: int) -> bool:
    """Proves and builds the crate, or takes what an earlier run made of the same text.

    Gives whether it is proved.
    """
    os.makedirs(f"{crate.folder}/out", exist_ok=True)
    if crate.is_program:
        return build_program(rt, crate, jobs)
    key = kept.key(crate)
    is_given = bool(kept.give(crate, False, key))
    if not is_given and crate.ci(["--jobs", str(jobs)], False):
        return False
    kept.is_built(crate)
    if not is_given:
        kept.keep(crate, False, key)
    return True


def prove_and_report(rt: Rt, plan: Plan, kept: Kept, task: Task) -> None:
    """Proves one crate, in a thread of its own, and reports how that ended."""
    if not task.is_longest:
        # what this thread starts then leaves the processors to the longest chain
        os.setpriority(os.PRIO_PROCESS, 0, LATER)
    crate, begun, is_proved = task.crate, time.monotonic(), False
    with tempfile.TemporaryFile("w+", errors="replace") as crate.out:
        try:
            is_proved = prove_crate(rt, crate, kept, task.jobs)
        # rt ends itself by SystemExit if it refuses a crate's files
        except (Exception, SystemExit) as error:
            print(f"{type(error).__name__}: {error}", file=crate.out)
        crate.out.seek(0)
        plan.end(crate, time.monotonic() - begun, crate.out.read(), is_proved)


def prove_all(rt: Rt, plan: Plan, kept: Kept) -> None:
    """Begins each crate as soon as it can be proved, and waits for all."""
    threads = []
    while task := plan.take():
        words = (rt, plan, kept, task)
        threads.append(threading.Thread(target=prove_and_report, args=words, daemon=True))
        threads[-1].start()
    for thread in threads:
        thread.join()


def prove_tree(top: Path, processors: int, store: Path) -> int:
    """Proves and builds the program of this tree on a copy, and copies the program back.

    Gives the status.
    """
    rt = load_rt(find_rt(), store)
    room = tempfile.mkdtemp(prefix="urbd-prove-")
    try:
        copy = Path(room, "copy")
        rt.copy_crates(str(top), str(copy))
        crates = crates_in(rt, copy)
        plan, kept = Plan(crates, processors), open_store(rt, crates, store)
        prove_all(rt, plan, kept)
        kept.shrink()
        if plan.has_failed or not rt.run(crates[-1], False):
            return 1
        made = Path("crates", PROGRAM, "out", PROGRAM)
        (top / made).parent.mkdir(exist_ok=True)
        shutil.copy(copy / made, top / made)
    finally:
        # a thread of an interrupted run may still write there
        shutil.rmtree(room, ignore_errors=True)
    print(f"built {made}")
    return 0


def prove_by_commands(command: str, top: Path, processors: int) -> int:
    """Proves and builds the program of this tree by commands of rt. Gives the status."""
    folder = Path("crates", PROGRAM)
    for words in (["all", "check", "--jobs", str(processors)], ["run", "--", "--version"]):
        if subprocess.run([command, *words], cwd=top / folder).returncode:
            return 1
    print(f"built {folder / 'out' / PROGRAM}")
    return 0


def main(words: Sequence[str]) -> int:
    parser = argparse.ArgumentParser(
        prog="./prove", description=__doc__, formatter_class=argparse.RawDescriptionHelpFormatter
    )
    here = len(os.sched_getaffinity(0))
    parser.add_argument(
        "--processors", type=int, default=here, metavar="N", help="how many to use (default: all)"
    )
    processors = parser.parse_args(words).processors
    if processors < 1:
        parser.error("--processors is at least 1")
    try:
        command = find_rt()
        if is_known(command):
            return prove_tree(TOP, processors, own_store())
        return prove_by_commands(command, TOP, processors)
    except Refused as error:
        print(f"prove: {error}", file=sys.stderr)
        return 2
    except KeyboardInterrupt:
        return 130
