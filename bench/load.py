"""The programs in C that take times: clients of a server (load.c), and the floor (floor.c)."""
from __future__ import annotations

import shutil
import subprocess
from collections.abc import Iterable, Sequence
from dataclasses import dataclass
from pathlib import Path

from bench.groups import new_folder

HERE = Path(__file__).resolve().parent
PAYLOAD = 16  # bytes
FIRST_CLIENT = 1000


@dataclass(frozen=True)
class Answer:
    """What a run measured: operations a second, and microseconds of one.

    `late` is the 99th percentile. `done` counts what a killed group had answered.
    """

    rate: float
    median: float
    late: float
    refused: int
    done: int = 0

    @classmethod
    def read(cls, text: str) -> Answer:
        """The answer in the line that a run prints."""
        rate, median, late, *counts = text.split()
        return cls(float(rate), float(median), float(late), *map(int, counts))


@dataclass(frozen=True)
class Run:
    """A run that has begun."""

    process: subprocess.Popen[str]

    def answer(self) -> Answer:
        """Waits for its end."""
        text = self.process.communicate()[0]
        if self.process.returncode:
            words: Sequence[str] = self.process.args  # type: ignore[assignment]
            raise AssertionError(f"{' '.join(words)} ended with {self.process.returncode}")
        return Answer.read(text)


def answers(runs: Iterable[Run]) -> list[Answer]:
    """Waits for the end of these runs."""
    return [it.answer() for it in runs]


def begin(words: Iterable[object], folder: Path = HERE) -> Run:
    """Begins a run in a folder."""
    command = [str(word) for word in words]
    return Run(subprocess.Popen(command, cwd=folder, stdout=subprocess.PIPE, text=True))


def compiled(source: str, room: Path, *flags: str) -> Path:
    """What the C compiler makes of a source of this folder."""
    if not shutil.which("cc"):
        raise AssertionError("it needs a C compiler, by the name cc")
    made = room / Path(source).stem
    subprocess.run(
        ["cc", "-O2", *flags, "-o", made, HERE / source, "-lpthread", "-ldl"], check=True
    )
    return made


@dataclass(frozen=True)
class Load:
    """Closed-loop clients. The head of load.c says what each kind does."""

    path: Path

    @classmethod
    def built(cls, room: Path) -> Load:
        return cls(compiled("load.c", room))

    def begin(
        self,
        kind: str,
        port: int,
        clients: int,
        seconds: float,
        payload: int = PAYLOAD,
        client: int = FIRST_CLIENT,
        messages: int = 0,
        under_way: int = 1,
    ) -> Run:
        """Begins a run. It ends after so many seconds, or messages if they aren't 0.

        A client that submits or adds may have several requests under way.
        """
        words = [self.path, kind, port, clients, seconds, payload, client]
        return begin([*words, messages, under_way])

    def run(
        self, kind: str, port: int, clients: int, seconds: float, client: int = FIRST_CLIENT
    ) -> Answer:
        return self.begin(kind, port, clients, seconds, client=client).answer()


@dataclass(frozen=True)
class Floor:
    """Nodes that store and send what a group does for a message, and do nothing else."""

    path: Path

    @classmethod
    def built(cls, room: Path) -> Floor:
        return cls(compiled("floor.c", room))

    def run(self, room: Path, nodes: int, clients: int, seconds: float, *what: object) -> Answer:
        """`what` is `visible`, `read` or `together`, as the head of floor.c says, or nothing."""
        with new_folder(room) as folder:
            return begin([self.path, nodes, clients, seconds, *what], folder).answer()
