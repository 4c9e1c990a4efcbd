"""Who sends and reports, and who can give a worker tickets.

Clauses list what goes through a worker's outlets (`WorkerOutlets`), and nothing else. So a link's
`send` and a reporter's `report` are called in as few places as can be, and a table holds that. The
same table holds that one function alone calls a socket's `send_to`, and makes the witness of it.

Clauses say what goes into a worker's queue: through a desk's way in what a request asks, through a
receiver's way in arrivals, and through the timer's ticks. Whoever has the sender itself, or the
queue that has it (`NodeQueue`), could put anything there. So few places name these types, and
another table holds that.
"""
from __future__ import annotations

import re
from collections import Counter
from collections.abc import Iterator, Mapping

from tools.checks.calls import misplaced_calls, without_comments
from tools.tree import Misfit, Tree

# A sender of tickets, as a type, and the queue of a node's worker, which has one.
SENDER = re.compile(r"\bSender\s*<\s*(?:\w+\s*::\s*)*Ticket\b")
QUEUE = re.compile(r"\bNodeQueue\s*<")
CALL = re.compile(r"\b(link\s*\.send|reporter\s*\.report|send_to)\(")
# The places by call and file: how many there are.
PLACES: Mapping[tuple[str, str], int] = {
    # a link that waits for receivers sends over another link
    ("link.send", "crates/urb_link/src/links.rt"): 1,
    # a worker's outlets, which list what goes through them
    ("link.send", "crates/urb_worker/src/outlets.rt"): 1,
    ("reporter.report", "crates/urb_worker/src/outlets.rt"): 1,
    # the one function that gives a socket a datagram
    ("send_to", "crates/urb_link/src/handed.rt"): 1,
}
# The places that name a sender of tickets, by name and file: how often they do.
HANDS: Mapping[tuple[str, str], int] = {
    # the ways in: of arrivals, of what requests ask, and of ticks
    ("Sender<Ticket>", "crates/urb_link/src/arrival_queue.rt"): 2,
    ("Sender<Ticket>", "crates/urb_desk/src/desk_queue.rt"): 3,
    ("NodeQueue", "crates/urb_link/src/tick_queue.rt"): 3,
    # the offer of a ticket, which the ways in of arrivals and ticks make
    ("Sender<Ticket>", "crates/urb_link/src/offers.rt"): 1,
    # the channel of a node's worker: its sender has the node beside it
    ("Sender<Ticket>", "crates/urb_link/src/node_queue.rt"): 2,
    ("NodeQueue", "crates/urb_link/src/node_queue.rt"): 5,
    # what makes the ways in, with those that keep the queues for it and drop them
    ("Sender<Ticket>", "crates/urb_desk/src/node_service.rt"): 1,
    ("NodeQueue", "crates/urb_worker/src/group_room.rt"): 1,
    ("NodeQueue", "crates/urb_worker/src/listeners.rt"): 4,
    ("NodeQueue", "crates/urb_worker/src/node_listeners.rt"): 1,
    ("NodeQueue", "crates/urb_worker/src/receiving.rt"): 1,
    ("NodeQueue", "crates/urb_worker/src/worker_threads.rt"): 2,
}


def senders_in(text: str) -> Counter[str]:
    """How often a source names the type of a sender of tickets, or of the queue that has one."""
    code = without_comments(text)
    found = Counter("Sender<Ticket>" for _ in SENDER.findall(code))
    found.update("NodeQueue" for _ in QUEUE.findall(code))
    return found


def senders_of_tickets(
    tree: Tree, hands: Mapping[tuple[str, str], int] = HANDS
) -> Iterator[Misfit]:
    """Each source that names the type of a sender of tickets is in the table."""
    yield from misplaced_calls(tree, senders_in, hands, "senders of tickets", "name")


def calls_in(text: str) -> Counter[str]:
    """How often a source sends over a link or from a socket, and how often it reports a change."""
    found = CALL.findall(without_comments(text))
    return Counter(re.sub(r"\s", "", call) for call in found)


def sends_and_reports(
    tree: Tree, places: Mapping[tuple[str, str], int] = PLACES
) -> Iterator[Misfit]:
    """Each call that sends over a link or from a socket, or reports a change, is in the table."""
    yield from misplaced_calls(tree, calls_in, places, "outlets")
