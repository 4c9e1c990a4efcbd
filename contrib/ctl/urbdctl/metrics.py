"""A group's figures as Prometheus reads them: once, or from a small server on 127.0.0.1."""
from __future__ import annotations

import threading
import time
from collections.abc import Iterable, Iterator
from dataclasses import dataclass
from http.server import BaseHTTPRequestHandler, ThreadingHTTPServer
from typing import Optional

from urbd.frames import STATES
from urbdctl.errors import Trouble
from urbdctl.group import Group, newest_backup
from urbdctl.looks import Lag, Look, NodeLook, look

CONTENT_TYPE = "text/plain; version=0.0.4; charset=utf-8"
Labels = dict[str, str]


@dataclass(frozen=True)
class Metric:
    """A figure: its name, what it is, and whether it only grows while the program runs."""

    name: str
    help: str
    kind: str = "gauge"


UP = Metric("urbd_node_up", "1 if the node answers and isn't down, otherwise 0.")
STATE = Metric("urbd_node_state", "1 for the state that the node is in.")
ACCEPTED = Metric(
    "urbd_node_accepted_messages_total", "Messages that the node has accepted.", "counter"
)
SHOWN = Metric("urbd_node_shown_messages_total", "Messages that the node's log shows.", "counter")
BEHIND = Metric("urbd_node_behind_messages", "Accepted messages that the node's log lacks.")
LAG = Metric("urbd_node_behind_seconds", "For how long the log has lacked some message.")
CAP = Metric("urbd_cap_messages", "How many messages each node may accept.")
MEMORY = Metric("urbd_memory_bytes", "Resident memory of the program.")
MEMORY_LIMIT = Metric("urbd_memory_limit_bytes", "Memory that the program may take.")
JOURNALS = Metric("urbd_journal_bytes", "Bytes of all journals, with the logs beside them.")
DISK_FREE = Metric("urbd_disk_free_bytes", "Room on the disk of the journals.")
DISK_SIZE = Metric("urbd_disk_size_bytes", "Size of the disk of the journals.")
STARTED = Metric("urbd_start_time_seconds", "When the program was started, since 1970.")
BACKUP = Metric("urbd_last_backup_time_seconds", "When the newest backup was made, since 1970.")


def values(seen: Look, backup: Optional[float]) -> Iterator[tuple[Metric, Labels, float]]:
    """Each figure of a look that is known, with its labels."""
    for node in seen.nodes:
        yield from of_node(node)
    machine = seen.machine
    for metric, value in (
        (CAP, seen.group.cap),
        (MEMORY, machine.memory),
        (MEMORY_LIMIT, machine.memory_limit),
        (JOURNALS, machine.journals),
        (DISK_FREE, machine.disk_free),
        (DISK_SIZE, machine.disk_size),
        (STARTED, machine.started),
        (BACKUP, backup),
    ):
        if value is not None:
            yield metric, {}, value


def of_node(node: NodeLook) -> Iterator[tuple[Metric, Labels, float]]:
    """The figures of one node."""
    labels = {"node": str(node.node)}
    yield UP, labels, float(node.accepted is not None and node.state != STATES[0])
    for state in STATES:
        yield STATE, {**labels, "state": state}, float(node.state == state)
    for metric, value in (
        (ACCEPTED, node.accepted),
        (SHOWN, node.shown),
        (BEHIND, node.behind),
        (LAG, node.behind_seconds),
    ):
        if value is not None:
            yield metric, labels, value


def line(metric: Metric, labels: Labels, value: float) -> str:
    """A line of the text."""
    inside = ",".join(f'{name}="{text}"' for name, text in labels.items())
    return f"{metric.name}{{{inside}}} {value:.15g}"


def text(seen: Look, backup: Optional[float] = None) -> str:
    """The figures of a look. The lines of one figure stand together, after what it is."""
    group = {"base_port": str(seen.group.base_port)}
    rows: dict[Metric, list[str]] = {}
    for metric, labels, value in values(seen, backup):
        rows.setdefault(metric, []).append(line(metric, {**group, **labels}, value))
    return "".join(f"{row}\n" for metric, lines in rows.items() for row in with_head(metric, lines))


def with_head(metric: Metric, lines: Iterable[str]) -> Iterator[str]:
    """The lines of a figure, after what it is."""
    yield f"# HELP {metric.name} {metric.help}"
    yield f"# TYPE {metric.name} {metric.kind}"
    yield from lines


class Sampler(threading.Thread):
    """Looks at the group every few seconds, so that lags have a duration. `text` is the last look's
    text."""

    def __init__(self, group: Group, every: float, backups: Optional[str]) -> None:
        super().__init__(daemon=True)
        self.group, self.every, self.backups = group, every, backups
        self.lag = Lag(group.nodes)
        self.text = self.sample()

    def sample(self) -> str:
        """The text of one more look."""
        seen = look(self.group, self.lag)
        return text(seen, newest_backup(self.backups) if self.backups else None)

    def run(self) -> None:
        while True:
            time.sleep(self.every)
            try:
                self.text = self.sample()
            except Trouble:  # the folder of backups is away: the last text stands
                pass


def server(sampler: Sampler, port: int) -> ThreadingHTTPServer:
    """A server on 127.0.0.1 that gives the sampler's text at /metrics."""

    class Handler(BaseHTTPRequestHandler):
        """Answers one request."""

        def do_GET(self) -> None:
            is_here = self.path.split("?")[0] == "/metrics"
            body = (sampler.text if is_here else "see /metrics\n").encode()
            self.send_response(200 if is_here else 404)
            self.send_header("Content-Type", CONTENT_TYPE)
            self.send_header("Content-Length", str(len(body)))
            self.end_headers()
            self.wfile.write(body)

        def log_message(self, *_: object) -> None:
            """Writes no line for each request."""

    try:
        return ThreadingHTTPServer(("127.0.0.1", port), Handler)
    except OSError as error:
        raise Trouble(f"127.0.0.1:{port}: {error.strerror}") from None
