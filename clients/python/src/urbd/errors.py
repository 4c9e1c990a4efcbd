"""What can go wrong between a client and a node.

A fault of the network is an `OSError`, as from any socket. `BadReply` is one too, since a broken
connection and a strange answer call for the same: ask again, over a new connection."""
from __future__ import annotations

from urbd.constants import REFUSAL_TEXTS, UNKNOWN_OPCODE, Refusal

# The same request may be accepted after these refusals, once their cause has gone.
TEMPORARY = frozenset(
    {
        Refusal.NO_MEMORY,
        Refusal.DOWN,
        Refusal.BUSY,
        Refusal.STALE,
        Refusal.DEVICE,
        Refusal.PLACE,
    }
)


def refusal_text(number: int, detail: int) -> str:
    """What a refusal with this number and detail says, in words."""
    try:
        return REFUSAL_TEXTS[Refusal(number)].format(detail)
    except ValueError:
        return "a refusal that this client doesn't know"


class RefusedError(Exception):
    """A node's refusal: `number` is 1 to 19 (`Refusal`), and `detail` belongs to some of them."""

    def __init__(self, number: int, detail: int = 0) -> None:
        super().__init__(f"refused {number} {detail}: {refusal_text(number, detail)}")
        self.number, self.detail = number, detail

    @property
    def is_temporary(self) -> bool:
        """Whether the same request may be accepted later."""
        return self.number in TEMPORARY

    @property
    def is_unknown_request(self) -> bool:
        """Whether the node doesn't know this kind of request: it is of an older version."""
        return (self.number, self.detail) == (Refusal.FRAME, UNKNOWN_OPCODE)


class BadReply(ConnectionError):
    """The bytes that came are no response to what was asked."""


class Stopped(Exception):
    """Continuing could repeat, lose or mix messages. Somebody has to find out why first."""
