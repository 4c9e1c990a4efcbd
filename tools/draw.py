"""Draws a script's run as an SVG picture, as a textbook does: a line for each node, an arrow for
each packet.

    python3 -m tools draw PROGRAM < SCRIPT > PICTURE.svg
    python3 -m tools draw PROGRAM --check      compares docs/pictures with their runs

PROGRAM is the built urbd. The script (docs/FORMATS.md) goes through `urbd replay`. Time runs from
left to right, and each command that changes something takes one column. A dot is a stored message.
A ring around it says that the node then knew that more than half of the nodes had stored it. A name
in a box has joined the node's log. A cross is a crash, and a triangle a restart. An arrow that ends
in the air is a packet that never arrived.
"""
from __future__ import annotations

import argparse
import subprocess
import sys
from collections.abc import Sequence
from dataclasses import dataclass, field
from html import escape
from pathlib import Path

from tools.tree import Tree

# the scripts of examples/ of which docs/pictures has a picture
PICTURES = ("lost-packet", "three-nodes")

COLUMN = 58  # the width of a command's column, in pixels
ROW = 96  # the distance between the lines of two nodes
LEFT, TOP, RIGHT, BOTTOM = 84, 70, 60, 78

STYLE = """
text { font: 12px Helvetica, Arial, sans-serif; fill: #1b2733 }
.node { font-weight: bold; font-size: 14px }
.life { stroke: #1b2733; stroke-width: 1.4 }
.down { stroke: #b3402a; stroke-width: 1.2; stroke-dasharray: 2 5 }
.packet { stroke: #2f6f9f; stroke-width: 1.3; fill: none; marker-end: url(#head) }
.lost { stroke: #9aa7b3; stroke-width: 1.2; fill: none }
.refused { stroke: #b3402a; stroke-width: 1.3; stroke-dasharray: 5 3; fill: none }
.submit { stroke: #3d7a3d; stroke-width: 1.5; marker-end: url(#submit) }
.cross { stroke: #b3402a; stroke-width: 2.2 }
.shown { fill: #e6f2e6; stroke: #3d7a3d }
.word { text-anchor: middle }
.said { text-anchor: middle; fill: #3d7a3d }
.small { font-size: 10.5px; fill: #5b6772; text-anchor: middle }
"""


@dataclass(frozen=True)
class Name:
    """A message's name: the node that accepted it, and its number there."""

    sender: int
    number: int

    @classmethod
    def read(cls, word: str) -> Name:
        sender, number = word.split(".")
        return cls(int(sender), int(number))

    def __str__(self) -> str:
        return f"{self.sender}.{self.number}"


@dataclass(frozen=True)
class Send:
    """A packet that left its source in a column."""

    column: int
    source: int
    target: int
    name: Name


@dataclass(frozen=True)
class Arrival:
    """A packet that came to its target in a column. No send means that nobody had sent it."""

    column: int
    source: int
    target: int
    name: Name
    send: Send | None
    is_refused: bool


@dataclass(frozen=True)
class Mark:
    """What happened at a node in a column."""

    column: int
    node: int
    kind: str  # submit, stored, certified, crash, restart, tick or refused
    text: str = ""
    shown: tuple[str, ...] = ()


@dataclass
class Run:
    """What a script's run shows, as far as it is drawn."""

    nodes: int = 0
    columns: int = 0
    sends: list[Send] = field(default_factory=list)
    arrivals: list[Arrival] = field(default_factory=list)
    marks: list[Mark] = field(default_factory=list)


class ScriptFault(Exception):
    """The script can't be drawn: the text says which line, and why."""


def with_logs(script: list[str]) -> list[str]:
    """The script, with a look at the node's log after each command that may add to it."""
    lines = []
    for line in script:
        lines.append(line)
        words = line.split(" ")
        if words[0] == "stored":
            lines.append(f"log {words[1]}")
    return lines


def replay(program: Path, script: list[str]) -> list[str]:
    """The program's answers to a script, a line each."""
    text = "\n".join(script) + "\n"
    said = subprocess.run(
        [program, "replay"], input=text, capture_output=True, text=True, timeout=60
    )
    if said.returncode:
        raise ScriptFault(said.stdout.splitlines()[-1] if said.stdout else said.stderr.strip())
    return said.stdout.splitlines()


class Reader:
    """Reads a run from a script's lines and the answers to them."""

    def __init__(self) -> None:
        self.run = Run()
        self.drafts: dict[int, Name] = {}
        self.heard: dict[int, dict[Name, set[int]]] = {}
        self.logs: dict[int, list[str]] = {}

    def read(self, script: list[str], answers: list[str]) -> Run:
        """Reads each line with its answer. A `log` behind a `stored` tells what joined the log."""
        for line, answer in zip(script, answers):
            words, said = line.split(" "), answer.split(" ")
            if words[0] == "log":
                self.look(int(words[1]), said[2:])
            elif words[0] == "group":
                self.run.nodes = int(words[1])
            elif words[0] != "held":
                self.run.columns += 1
                self.take(words, said)
        return self.run

    def look(self, node: int, entries: list[str]) -> None:
        """Adds the entries that are new in a node's log to its last mark."""
        old = self.logs.get(node, [])
        new = tuple(entry.split("=")[0] for entry in entries[len(old) :])
        self.logs[node] = entries
        marks = self.run.marks
        if new and marks and marks[-1].node == node:
            last = marks[-1]
            marks[-1] = Mark(last.column, node, last.kind, last.text, new)

    def take(self, words: list[str], said: list[str]) -> None:
        """Reads one command that changes something."""
        command = words[0]
        if command in ("arrive", "arrive2"):
            self.arrive(int(words[1]), int(words[2]), Name(int(words[3]), int(words[4])), said)
        elif command == "reopen":
            for node in range(1, self.run.nodes + 1):
                self.forget(node)
                self.mark(node, "reopen")
        elif command != "raw":
            self.act(command, int(words[1]), words[2:], said)

    def act(self, command: str, node: int, words: list[str], said: list[str]) -> None:
        """Reads a command of one node: a submit, a store, a crash, a restart or a tick."""
        if said[0] == "refused":
            self.mark(node, "refused", f"{command}: {said[1]}")
        elif command == "submit":
            if said[0] == "draft":
                self.drafts[node] = Name.read(said[1])
            self.mark(node, "submit", words[2] if said[0] == "draft" else f"{words[2]}, again")
        elif command == "stored" and said[0] != "down":
            self.store(node, Name.read(said[1]), int(said[3]))
        elif command in ("crash", "fail", "stored"):
            self.forget(node)
            self.mark(node, "crash", "store failed" if command != "crash" else "")
        elif command == "restart":
            self.mark(node, "restart")
        elif command == "tick":
            self.mark(node, "tick")
            for word in said[1:]:
                target, name = word.split(":")
                self.send(node, int(target), Name.read(name))

    def store(self, node: int, name: Name, sent: int) -> None:
        """A record is stored: its node counts itself, and sends the message to all others."""
        self.drafts.pop(node, None)
        counted = self.heard.setdefault(node, {}).setdefault(name, set())
        counted.add(node)
        is_majority = 2 * len(counted) > self.run.nodes
        self.mark(node, "certified" if is_majority else "stored", str(name))
        for target in range(1, self.run.nodes + 1):
            if sent and target != node:
                self.send(node, target, name)

    def arrive(self, source: int, target: int, name: Name, said: list[str]) -> None:
        """A packet arrives. The last packet like it that was sent and hasn't arrived is the one."""
        taken = {arrival.send for arrival in self.run.arrivals}
        same = (source, target, name)
        found = [it for it in self.run.sends if (it.source, it.target, it.name) == same]
        free = [it for it in found if it not in taken]
        send = free[-1] if free else found[-1] if found else None
        is_refused = said[0] == "refused"
        self.run.arrivals.append(Arrival(self.run.columns, source, target, name, send, is_refused))
        if is_refused:
            return
        self.heard.setdefault(target, {}).setdefault(name, set()).add(source)
        if said[0] == "draft":
            self.drafts[target] = name
        if "answered" in said:
            answered = said[said.index("answered") + 1]
            self.send(target, source, Name.read(answered))

    def forget(self, node: int) -> None:
        """A node that goes down forgets what it had counted, but for what it has stored itself."""
        self.drafts.pop(node, None)
        counts = self.heard.get(node, {})
        self.heard[node] = {name: {node} for name, counted in counts.items() if node in counted}

    def mark(self, node: int, kind: str, text: str = "") -> None:
        self.run.marks.append(Mark(self.run.columns, node, kind, text))

    def send(self, source: int, target: int, name: Name) -> None:
        self.run.sends.append(Send(self.run.columns, source, target, name))


class Picture:
    """A run as the text of an SVG file."""

    def __init__(self, run: Run) -> None:
        self.run = run
        self.width = LEFT + COLUMN * (run.columns + 1) + RIGHT
        self.height = TOP + ROW * (run.nodes - 1) + BOTTOM
        self.parts: list[str] = []

    def x(self, column: int) -> float:
        return LEFT + COLUMN * column

    def y(self, node: int) -> float:
        return TOP + ROW * (node - 1)

    def add(self, part: str) -> None:
        self.parts.append(part)

    def text(self, kind: str, x: float, y: float, words: str) -> None:
        self.add(f'<text class="{kind}" x="{x:.0f}" y="{y:.0f}">{escape(words)}</text>')

    def line(self, kind: str, x: float, y: float, to_x: float, to_y: float) -> None:
        self.add(f'<path class="{kind}" d="M{x:.0f} {y:.0f} L{to_x:.0f} {to_y:.0f}"/>')

    def cross(self, x: float, y: float, size: float, kind: str = "cross") -> None:
        self.line(kind, x - size, y - size, x + size, y + size)
        self.line(kind, x - size, y + size, x + size, y - size)

    def draw(self) -> str:
        """The whole picture."""
        for node in range(1, self.run.nodes + 1):
            self.life(node)
        for send in self.run.sends:
            if all(arrival.send != send for arrival in self.run.arrivals):
                self.lose(send)
        for arrival in self.run.arrivals:
            self.bring(arrival)
        for mark in self.run.marks:
            self.show(mark)
        self.legend()
        head = (
            f'<svg xmlns="http://www.w3.org/2000/svg" width="{self.width}" height="{self.height}" '
            f'viewBox="0 0 {self.width} {self.height}" role="img">\n<style>{STYLE}</style>\n'
            '<rect width="100%" height="100%" fill="#ffffff"/>\n<defs>\n'
            + "".join(
                f'<marker id="{name}" viewBox="0 0 8 8" refX="7" refY="4" markerWidth="7" '
                f'markerHeight="7" orient="auto">'
                f'<path d="M0 0 L8 4 L0 8 z" fill="{colour}"/></marker>\n'
                for name, colour in (("head", "#2f6f9f"), ("submit", "#3d7a3d"))
            )
            + "</defs>\n"
        )
        return head + "\n".join(self.parts) + "\n</svg>\n"

    def life(self, node: int) -> None:
        """A node's line: solid while the node is up, dotted while it is down."""
        begun, is_up = float(LEFT), True
        self.text("node", 14, self.y(node) + 5, f"node {node}")
        for mark in self.run.marks:
            if mark.node == node and mark.kind in ("crash", "restart"):
                self.live(node, is_up, begun, self.x(mark.column))
                begun, is_up = self.x(mark.column), mark.kind == "restart"
        self.live(node, is_up, begun, self.width - RIGHT / 2)

    def live(self, node: int, is_up: bool, begun: float, end: float) -> None:
        """A part of a node's line."""
        self.line("life" if is_up else "down", begun, self.y(node), end, self.y(node))

    def lose(self, send: Send) -> None:
        """A packet that never arrives: a short arrow into the air."""
        x, y = self.x(send.column), self.y(send.source)
        away = self.y(send.target) - y
        end_x, end_y = x + 30, y + (34 if away > 0 else -34)
        self.line("lost", x, y, end_x, end_y)
        self.cross(end_x, end_y, 3, "lost")

    def bring(self, arrival: Arrival) -> None:
        """A packet that arrives, from where it was sent."""
        column = arrival.send.column if arrival.send else arrival.column - 0.6
        x, y = LEFT + COLUMN * column, self.y(arrival.source)
        kind = "refused" if arrival.is_refused else "packet"
        self.line(kind, x, y, self.x(arrival.column), self.y(arrival.target))
        if arrival.is_refused:
            self.cross(self.x(arrival.column), self.y(arrival.target), 4)

    def show(self, mark: Mark) -> None:
        """A mark on its node's line."""
        x, y = self.x(mark.column), self.y(mark.node)
        if mark.kind == "submit":
            self.line("submit", x, y - 34, x, y - 3)
            self.text("said", x, y - 39, mark.text)
        elif mark.kind in ("stored", "certified"):
            self.dot(x, y)
            if mark.kind == "certified":
                self.ring(x, y)
            self.text("small", x, y + 21, mark.text)
            for place, name in enumerate(mark.shown):
                self.box(x, y - 30 - 20 * place, name)
        elif mark.kind in ("crash", "reopen"):
            self.cross(x, y, 7)
            self.text("small", x, y + 21, mark.text)
        elif mark.kind == "tick":
            self.line("life", x, y - 6, x, y + 6)
            self.text("small", x, y + 21, "tick")
        elif mark.kind == "refused":
            self.text("small", x, y + 21, mark.text)
        if mark.kind in ("restart", "reopen"):
            shift = 12 if mark.kind == "reopen" else 0
            self.triangle(x + shift, y)

    def dot(self, x: float, y: float) -> None:
        self.add(f'<circle cx="{x:.0f}" cy="{y:.0f}" r="4.5" fill="#1b2733"/>')

    def ring(self, x: float, y: float) -> None:
        place = f'cx="{x:.0f}" cy="{y:.0f}" r="8"'
        self.add(f'<circle {place} fill="none" stroke="#1b2733" stroke-width="1.3"/>')

    def triangle(self, x: float, y: float) -> None:
        self.add(f'<path d="M{x - 5:.0f} {y - 7:.0f} l12 7 l-12 7 z" fill="#1b2733"/>')

    def box(self, x: float, y: float, name: str) -> None:
        """A name that joined the log."""
        width = 12 + 7 * len(name)
        place = f'x="{x - width / 2:.0f}" y="{y:.0f}"'
        self.add(f'<rect class="shown" {place} width="{width}" height="17" rx="3"/>')
        self.text("word", x, y + 13, name)

    def legend(self) -> None:
        """What the marks mean, in a row below the lines."""
        y, x = self.height - 18.0, 24.0
        self.dot(x, y - 4)
        self.text("", x + 12, y, "stored")
        x += 78
        self.dot(x, y - 4)
        self.ring(x, y - 4)
        self.text("", x + 14, y, "and known to be stored by more than half")
        x += 312
        self.box(x, y - 16, "1.1")
        self.text("", x + 24, y, "joins the log")
        x += 128
        self.cross(x, y - 4, 6)
        self.text("", x + 14, y, "crash")
        x += 76
        self.triangle(x, y - 4)
        self.text("", x + 14, y, "restart")
        self.width = max(self.width, int(x) + 80)


def draw(program: Path, script: list[str]) -> str:
    """The picture of a script's run."""
    lines = with_logs([line for line in script if line])
    return Picture(Reader().read(lines, replay(program, lines))).draw()


def compare(program: Path, top: Path) -> list[str]:
    """The pictures in docs/pictures that aren't those of their scripts in examples/."""
    stale = []
    for name in PICTURES:
        script = (top / "examples" / f"{name}.script").read_text().splitlines()
        picture = top / "docs" / "pictures" / f"{name}.svg"
        if not picture.is_file() or picture.read_text() != draw(program, script):
            stale.append(name)
    return stale


def main(words: Sequence[str], tree: Tree = Tree()) -> int:
    """Draws the script on standard input, or compares the pictures that the repository has."""
    parser = argparse.ArgumentParser(
        prog="python3 -m tools draw",
        description=__doc__,
        formatter_class=argparse.RawDescriptionHelpFormatter,
    )
    parser.add_argument("program", type=Path, metavar="PROGRAM", help="the built urbd")
    parser.add_argument(
        "--check", action="store_true", help="compare the pictures of docs/pictures"
    )
    options = parser.parse_args(words)
    try:
        if options.check:
            stale = compare(options.program.resolve(), Path(tree.top))
            for name in stale:
                print(f"docs/pictures/{name}.svg isn't the picture of examples/{name}.script")
            return 1 if stale else 0
        sys.stdout.write(draw(options.program.resolve(), sys.stdin.read().splitlines()))
    except (ScriptFault, OSError) as fault:
        print(f"draw: {fault}", file=sys.stderr)
        return 1
    return 0
