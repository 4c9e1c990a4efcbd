"""Clients of urbd: logged uniform FIFO broadcast on one machine.

- `Publisher` gets each message accepted once, even if the program or the node stops.
- `Follower` reads each message of a group once, in the order of its sender.
- `Node` asks one thing; `Connection` asks several over one connection.

`urbd.aio` has the same for asyncio, `urbd.frames` the bytes, and `urbd.simulation` a group for
tests. The package needs only the standard library.

    from urbd import Follower, Publisher

    with Publisher(7411, client=7, path="publisher.json") as publisher:
        publisher.publish("hello")
    for entries in Follower([7411]):
        for entry in entries:
            print(entry.name, entry.text)
"""
from urbd.addresses import Address
from urbd.client import Connection, Follower, Node, Publisher, repeat
from urbd.constants import CLIENT_PORT_OFFSET, MAX_PAYLOAD, Refusal
from urbd.errors import BadReply, RefusedError, Stopped
from urbd.files import keep, kept
from urbd.frames import Entry, Status
from urbd.reading import Position

__version__ = "0.2.0"

__all__ = [
    "Address",
    "BadReply",
    "CLIENT_PORT_OFFSET",
    "Connection",
    "Entry",
    "Follower",
    "MAX_PAYLOAD",
    "Node",
    "Position",
    "Publisher",
    "Refusal",
    "RefusedError",
    "Status",
    "Stopped",
    "client_port",
    "keep",
    "kept",
    "repeat",
]


def client_port(base_port: int, node: int) -> int:
    """The port at which this node (1 to 7) of the group at a base port serves clients."""
    return base_port + CLIENT_PORT_OFFSET + node
