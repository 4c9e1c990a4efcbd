"""Draws the dashboard of a run as an SVG picture, from the figures of `urbdctl metrics`.

    python3 -m tools dashboard PROGRAM [--seconds S] > docs/pictures/dashboard.svg

PROGRAM is the built urbd. A group of three runs for S seconds (120). Meanwhile messages come to
nodes 1 and 3, and node 2 is down for a third of the time. `urbdctl metrics --listen` serves the
figures, and this tool asks for them as Prometheus does, twice a second. Then it draws each panel of
contrib/monitoring/dashboard.json. It knows the expressions that stand there: a figure, its rate,
and the quotient of two.
"""
from __future__ import annotations

import argparse
import json
import re
import subprocess
import sys
import tempfile
import threading
import time
import urllib.request
from collections.abc import Iterable, Iterator, Mapping, Sequence
from contextlib import contextmanager
from dataclasses import dataclass
from html import escape
from pathlib import Path
from typing import Any, Optional

from tools.tree import TOP
from trials.lib.program import Daemon, NotOpen, Options, Program, free_base_port
from urbd import RefusedError

DASHBOARD = TOP / "contrib" / "monitoring" / "dashboard.json"
URBDCTL = TOP / "contrib" / "urbdctl"
NODES, CAP = 3, 2_000
TICK = 200  # milliseconds
CLIENT, PAYLOAD = 7, b"x" * 200
PAUSE = 0.5  # seconds between two messages
EVERY = 0.5  # seconds between two samples
PATIENCE = 60.0  # seconds for an answer

COLUMN, ROW, LEFT, TOP_SPACE, GAP, BOTTOM = 36, 20, 60, 34, 26, 30  # pixels
COLORS = ("#2f6f9f", "#b3402a", "#3d7a3d", "#8a6d1f")
STYLE = """
text { font: 11px Helvetica, Arial, sans-serif; fill: #1b2733 }
.title { font-weight: bold; font-size: 13px }
.scale { fill: #5b6772; text-anchor: end }
.frame { fill: #fafbfc; stroke: #c6ced6 }
.series { fill: none; stroke-width: 1.6 }
"""

LINE = re.compile(r"(\w+)\{([^}]*)\} (\S+)$")
LABEL = re.compile(r'(\w+)="([^"]*)"')
FIGURE = r"(\w+)(?:\{[^}]*\})?"
RATE = re.compile(rf"rate\({FIGURE}\[(\d+)(s|m)\]\)")
PLAIN = re.compile(FIGURE)
QUOTIENT = re.compile(r"(.+?) / (?:on \([^)]*\) group_left \(\) )?(.+)")
UNITS: Mapping[str, Sequence[tuple[float, str]]] = {
    "bytes": ((1e9, " GB"), (1e6, " MB"), (1e3, " kB"), (1, " bytes")),
    "percentunit": ((0.01, " %"),),
    "s": ((1, " s"),),
    "none": ((1, ""),),
}

# The values of a figure or an expression at a moment, by node. That of the group has the node "".
Values = Mapping[str, float]


@dataclass(frozen=True)
class Sample:
    """What `urbdctl metrics` printed at a moment, in seconds: values by figure, and by node."""

    moment: float
    figures: Mapping[str, Values]

    @classmethod
    def read(cls, moment: float, text: str) -> Sample:
        """The sample with this text. Lines with other labels than the node are left out."""
        figures: dict[str, dict[str, float]] = {}
        for found in filter(None, map(LINE.match, text.splitlines())):
            labels = dict(LABEL.findall(found.group(2)))
            if set(labels) <= {"base_port", "node"}:
                values = figures.setdefault(found.group(1), {})
                values[labels.get("node", "")] = float(found.group(3))
        return cls(moment, figures)


class Unknown(Exception):
    """An expression that this tool doesn't know."""


def values_of(expr: str, samples: Sequence[Sample]) -> Values:
    """The values of an expression at the moment of the last of these samples."""
    if found := PLAIN.fullmatch(expr):
        return samples[-1].figures.get(found.group(1), {})
    if found := RATE.fullmatch(expr):
        span = float(found.group(2)) * (60 if found.group(3) == "m" else 1)
        return rates_of(found.group(1), span, samples)
    if found := QUOTIENT.fullmatch(expr):
        own, other = (values_of(part, samples) for part in found.groups())
        by = {node: other.get(node, other.get("", 0)) for node in own}
        return {node: value / by[node] for node, value in own.items() if by[node]}
    raise Unknown(f"the dashboard has an expression that this tool doesn't know: {expr}")


def rates_of(name: str, span: float, samples: Sequence[Sample]) -> Values:
    """How much a figure has grown a second, over the samples of so many seconds."""
    last = samples[-1]
    first = next(it for it in samples if it.moment >= last.moment - span)
    passed = last.moment - first.moment
    before, now = first.figures.get(name, {}), last.figures.get(name, {})
    return {node: (now[node] - before[node]) / passed for node in now if node in before and passed}


def told(value: float, unit: str) -> str:
    """A value in its unit, as the scale of a panel has it."""
    size, name = next((it for it in UNITS[unit] if value >= it[0]), UNITS[unit][-1])
    return f"{value / size:.3g}{name}"


@dataclass(frozen=True)
class Panel:
    """A panel of the dashboard: where it stands in pixels, and what it shows."""

    title: str
    unit: str
    left: int
    top: int
    width: int
    height: int
    targets: Sequence[tuple[str, str]]  # an expression, and the legend of its series

    @classmethod
    def read(cls, fields: Mapping[str, Any]) -> Panel:
        """The panel of an entry of the dashboard's file."""
        place = fields["gridPos"]
        return cls(
            fields["title"],
            fields["fieldConfig"]["defaults"]["unit"],
            LEFT + COLUMN * place["x"],
            TOP_SPACE + ROW * place["y"],
            COLUMN * place["w"] - LEFT - GAP // 2,
            ROW * place["h"] - TOP_SPACE - GAP,
            [(target["expr"], target["legendFormat"]) for target in fields["targets"]],
        )

    def series(self, samples: Sequence[Sample]) -> dict[str, list[Optional[float]]]:
        """The value of each series at each sample, by its legend. None if there is none."""
        found: dict[str, list[Optional[float]]] = {}
        for expr, legend in self.targets:
            rows = [values_of(expr, samples[: count + 1]) for count in range(len(samples))]
            for node in sorted({node for row in rows for node in row}):
                found[legend.replace("{{node}}", node)] = [row.get(node) for row in rows]
        return found

    def draw(self, samples: Sequence[Sample]) -> Iterator[str]:
        """The parts of the picture."""
        found = self.series(samples)
        known = [value for values in found.values() for value in values if value is not None]
        most = max(known, default=0) or 1
        begin, passed = samples[0].moment, (samples[-1].moment - samples[0].moment) or 1
        bottom, scale = self.top + self.height, (self.height - 8) / most
        yield text(self.left, self.top - 8, self.title, "title")
        yield (
            f'<rect class="frame" x="{self.left}" y="{self.top}" width="{self.width}"'
            f' height="{self.height}"/>'
        )
        yield text(self.left - 6, self.top + 14, told(most, self.unit), "scale")
        yield text(self.left - 6, bottom, "0", "scale")
        yield text(self.left + self.width, bottom + 14, f"{passed:.0f} s", "scale")
        across = [self.left + self.width * (it.moment - begin) / passed for it in samples]
        for at, (name, values) in enumerate(found.items()):
            color = COLORS[at % len(COLORS)]
            yield text(self.left + 90 * at, bottom + 14, name, color=color)
            for part in unbroken(zip(across, values)):
                places = " ".join(f"{x:.1f},{bottom - scale * value:.1f}" for x, value in part)
                yield f'<polyline class="series" stroke="{color}" points="{places}"/>'


def unbroken(
    points: Iterable[tuple[float, Optional[float]]]
) -> Iterator[list[tuple[float, float]]]:
    """The parts of a line that have values."""
    part: list[tuple[float, float]] = []
    for x, value in points:
        if value is not None:
            part.append((x, value))
        elif part:
            yield part
            part = []
    if part:
        yield part


def text(x: float, y: float, words: str, kind: str = "", color: str = "") -> str:
    """A text of the picture."""
    made = f' class="{kind}"' if kind else ""
    made += f' style="fill: {color}"' if color else ""
    return f'<text x="{x}" y="{y}"{made}>{escape(words)}</text>'


def draw(dashboard: str, samples: Sequence[Sample]) -> str:
    """The picture of a dashboard, whose file has this text, over at least one sample."""
    panels = [Panel.read(fields) for fields in json.loads(dashboard)["panels"]]
    width = max(panel.left + panel.width for panel in panels) + GAP
    height = max(panel.top + panel.height for panel in panels) + BOTTOM
    parts = [
        f'<svg xmlns="http://www.w3.org/2000/svg" width="{width}" height="{height}"'
        f' viewBox="0 0 {width} {height}">',
        f"<style>{STYLE}</style>",
        f'<rect width="{width}" height="{height}" fill="#ffffff"/>',
    ]
    parts += [part for panel in panels for part in panel.draw(samples)]
    return "\n".join([*parts, "</svg>"]) + "\n"


@contextmanager
def served_figures(options: Options) -> Iterator[str]:
    """The address at which `urbdctl metrics` serves the figures of a group."""
    words = ["metrics", "--listen", "0", "--every", EVERY, "--base-port", options.base_port]
    words += ["--nodes", options.nodes, "--cap", options.cap, "--dir", options.folder]
    command = [sys.executable, str(URBDCTL), *map(str, words)]
    with subprocess.Popen(command, stdout=subprocess.PIPE, text=True) as process:
        try:
            assert process.stdout is not None
            line = process.stdout.readline()
            if not line:
                raise OSError("urbdctl metrics has ended")
            yield line.split()[-1]
        finally:
            process.terminate()


@contextmanager
def load(daemon: Daemon) -> Iterator[None]:
    """Messages that come to the first and the last node, until the end."""
    is_over = threading.Event()

    def submit() -> None:
        number = 0
        while not is_over.wait(PAUSE):
            number += 1
            for node in (1, daemon.options.nodes):
                daemon.node(node).submit(CLIENT, number, PAYLOAD)

    sender = threading.Thread(target=submit, daemon=True)
    sender.start()
    try:
        yield
    finally:
        is_over.set()
        sender.join(PATIENCE)


def watch(daemon: Daemon, address: str, seconds: float) -> list[Sample]:
    """Samples of a run in which node 2 is down for the second third."""
    samples: list[Sample] = []
    begin, steps = time.monotonic(), [daemon.node(2).crash, daemon.node(2).restart]
    while (passed := time.monotonic() - begin) < seconds:
        if steps and passed > seconds * (3 - len(steps)) / 3:
            steps.pop(0)()
        with urllib.request.urlopen(address, timeout=PATIENCE) as answer:
            samples.append(Sample.read(passed, answer.read().decode()))
        time.sleep(EVERY)
    return samples


def sample(program: Program, seconds: float) -> list[Sample]:
    """Samples of a run on an empty folder."""
    with tempfile.TemporaryDirectory() as folder:
        options = Options(Path(folder), free_base_port(), NODES, CAP, TICK)
        with program.serve(options) as daemon, served_figures(options) as address, load(daemon):
            return watch(daemon, address, seconds)


def main(words: Sequence[str]) -> int:
    parser = argparse.ArgumentParser(
        prog="python3 -m tools dashboard",
        description=__doc__,
        formatter_class=argparse.RawDescriptionHelpFormatter,
    )
    parser.add_argument("program", type=Path, help="the built urbd")
    parser.add_argument("--seconds", type=float, default=120.0, metavar="S", help="how long (120)")
    options = parser.parse_args(words)
    if not options.seconds > 0:
        parser.error("--seconds is more than 0")
    try:
        samples = sample(Program(options.program.resolve()), options.seconds)
        sys.stdout.write(draw(DASHBOARD.read_text(), samples))
        return 0
    except (NotOpen, OSError, RefusedError, Unknown) as fault:
        print(f"dashboard: {fault}", file=sys.stderr)
        return 1
    except KeyboardInterrupt:
        return 130
