"""Asks the program and `urbdctl verify` about the same folders: their answers have to be the same.

The folders are those of the tool's tests, and folders that a running group has left and that were
damaged at random. A row is changed or removed, a file is lost, exchanged or older, the cap or the
number of nodes is another one.
"""
from __future__ import annotations

import argparse
import random
import shutil
import sys
from collections.abc import Callable
from dataclasses import dataclass, replace
from pathlib import Path

from urbdctl.journals import path_of
from urbdctl_tests.folder_cases import CASES
from urbdctl_tests.journal_files import change

from trials.lib.command import parser_of, run_trial
from trials.lib.messages import Sent
from trials.lib.program import Options, Program, free_base_port
from trials.lib.tools import urbdctl

NODES, CAP = 3, 10
CLIENTS = (7, 8)
LENGTHS = (1, 300, 5000)  # bytes of a payload, or twice that
QUICK, NEVER = 50, 60_000  # milliseconds of a tick
ANY_ROW = "WHERE pos = (SELECT pos FROM journal2 ORDER BY random() LIMIT 1)"
LAST_ROW = "WHERE pos = (SELECT max(pos) FROM journal2)"
FIELDS = (
    *(("kind", "2"), ("kind", "3"), ("kind", "5"), ("sender", "0"), ("sender", "4")),
    *(("seq", "1"), ("client", "9"), ("number", "2"), ("payload", "x'61'")),
)


@dataclass(frozen=True)
class Start:
    """A start on a folder, of which both are asked."""

    folder: Path
    nodes: int = NODES
    cap: int = CAP

    def journal(self, node: int) -> Path:
        return Path(path_of(str(self.folder), node))

    def log(self, node: int) -> Path:
        """The file beside a journal."""
        return Path(f"{self.journal(node)}-wal")


def program_says(program: Program, start: Start) -> str:
    """What a start answers. Its input has ended, so it opens and closes at once."""
    group = Options(start.folder, free_base_port(), start.nodes, start.cap, 1000)
    run = program.run(*group.words())
    if run.stdout:
        return run.stdout.decode().splitlines()[0]
    # the fault, without the cause behind it
    return ": ".join(run.stderr.decode().strip().split(": ")[:2])


def command_says(start: Start) -> tuple[str, str]:
    """What a start would answer, by the command, and all that it prints."""
    options = ["--dir", start.folder, "--nodes", start.nodes, "--cap", start.cap]
    said = urbdctl("verify", *options).stdout
    lines = said.splitlines()
    verdicts = [line for line in lines if line.startswith(("open ", "urbd: refused "))]
    assert len(verdicts) == 1, f"expected one verdict: {said}"
    return verdicts[0], said


def agree(program: Program, start: Start, what: object) -> str:
    """Both give the same answer, which is returned."""
    verdict, said = command_says(start)
    answer = program_says(program, start)
    assert answer == verdict, f"{what}, {start}: the program says {answer!r}, the command {said!r}"
    return answer


def leave_by_a_group(program: Program, folder: Path, earlier: Path) -> None:
    """A folder with some messages that only two nodes certified, and the same folder earlier."""
    folder.mkdir()
    group = Options(folder, free_base_port(), NODES, CAP, QUICK)
    sent = [Sent(client, node) for node in range(1, NODES + 1) for client in CLIENTS]
    for options, count in ((group, 3), (replace(group, tick_ms=NEVER), 2)):
        with program.serve(options) as daemon:
            for it in sent:
                payloads = [b"%d!" % number * random.choice(LENGTHS) for number in range(count)]
                with daemon.connect(it.node) as connection:
                    it.submit_all(connection, payloads)
            if options is group:
                daemon.stop()
                shutil.copytree(folder, earlier)
            else:
                daemon.kill()


def change_a_row(start: Start, earlier: Path, node: int) -> Start:
    column, value = random.choice(FIELDS)
    change(str(start.journal(node)), f"UPDATE journal2 SET {column} = {value} {ANY_ROW}")
    return start


def remove_a_row(start: Start, earlier: Path, node: int) -> Start:
    change(str(start.journal(node)), f"DELETE FROM journal2 {random.choice((ANY_ROW, LAST_ROW))}")
    return start


def lose_a_journal(start: Start, earlier: Path, node: int) -> Start:
    for path in (start.journal(node), start.log(node)):
        path.unlink(missing_ok=True)
    return start


def lose_a_log(start: Start, earlier: Path, node: int) -> Start:
    start.log(node).unlink(missing_ok=True)
    return start


def put_back_a_journal(start: Start, earlier: Path, node: int) -> Start:
    lose_a_journal(start, earlier, node)
    shutil.copyfile(Start(earlier).journal(node), start.journal(node))
    return start


def exchange_journals(start: Start, earlier: Path, node: int) -> Start:
    other, aside = node % NODES + 1, start.folder / "aside"
    for one, two in (
        (start.journal(node), start.journal(other)),
        (start.log(node), start.log(other)),
    ):
        if one.exists() and two.exists():
            one.rename(aside)
            two.rename(one)
            aside.rename(two)
    return start


def take_other_nodes(start: Start, earlier: Path, node: int) -> Start:
    return replace(start, nodes=random.choice((1, 2, 4, 5, 7)))


def take_another_cap(start: Start, earlier: Path, node: int) -> Start:
    return replace(start, cap=random.choice((1, 5, 9, 11)))


def leave_it(start: Start, earlier: Path, node: int) -> Start:
    return start


# What damages a folder: with a start on it, the same folder earlier, and a node.
WAYS: tuple[Callable[[Start, Path, int], Start], ...] = (
    change_a_row,
    remove_a_row,
    lose_a_journal,
    lose_a_log,
    put_back_a_journal,
    exchange_journals,
    take_other_nodes,
    take_another_cap,
    leave_it,
)


def compare_cases(program: Program, room: Path) -> None:
    """The folders of the tool's tests."""
    for at, case in enumerate(CASES):
        folder = room / f"case-{at}"
        folder.mkdir()
        case.make(str(folder))
        answer = agree(program, Start(folder, case.nodes, case.cap), case.what)
        assert answer.endswith(case.answer), f"{case.what}: expected {case.answer}, got {answer}"


def compare(program: Program, room: Path, options: argparse.Namespace) -> None:
    compare_cases(program, room)
    whole, earlier = room / "whole", room / "earlier"
    leave_by_a_group(program, whole, earlier)
    answers: dict[str, int] = {}
    for turn in range(options.turns):
        folder, way = room / f"turn-{turn}", random.choice(WAYS)
        shutil.copytree(whole, folder)
        start = way(Start(folder), earlier, random.randint(1, NODES))
        answer = agree(program, start, (turn, way.__name__)).split()[-2]
        answers[answer] = answers.get(answer, 0) + 1
    print(f"{len(CASES)} folders, and {options.turns} damaged ones: the same answers, {answers}")


def main(words: list[str]) -> int:
    parser = parser_of(__doc__ or "")
    parser.add_argument("--turns", type=int, default=60, help="how many folders are damaged")
    return run_trial(parser, words, compare)


if __name__ == "__main__":
    sys.exit(main(sys.argv[1:]))
