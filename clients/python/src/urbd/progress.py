"""What a publisher keeps in its file, and what it decides by it. No input or output is done here.

A publisher writes each message to its file, with its number, before it sends it. If the program
stops, the next publisher with this file sends that message first. The node accepts a repeat under
the name that it has, so each message is accepted once."""
from __future__ import annotations

import hashlib
from dataclasses import dataclass, replace
from typing import Any, Optional, Union

from urbd.addresses import Address, place_of
from urbd.constants import MAX_PAYLOAD, Refusal
from urbd.errors import RefusedError, Stopped

Payload = Union[bytes, bytearray, str]


def bytes_of(payload: Payload) -> bytes:
    """The bytes of a payload. Text becomes UTF-8. Refused (5) if they are too many: a node would
    refuse them, so they aren't sent."""
    if not isinstance(payload, (bytes, bytearray, str)):
        raise TypeError(f"a payload is bytes or str, not {type(payload).__name__}")
    whole = payload.encode() if isinstance(payload, str) else bytes(payload)
    if len(whole) > MAX_PAYLOAD:
        raise RefusedError(Refusal.TOO_LONG)
    return whole


@dataclass(frozen=True)
class InputMark:
    """How far an input of lines was published: how many lines are done, and a digest of them.

    `is_ended` says that the input had no further line then."""

    lines: int = 0
    digest: str = ""
    is_ended: bool = False

    def after(self, line: bytes) -> InputMark:
        """The mark once this line, too, is done."""
        digest = hashlib.sha256(bytes.fromhex(self.digest) + line).hexdigest()
        return InputMark(self.lines + 1, digest)


@dataclass(frozen=True)
class Progress:
    """The last message of a client at a node, and whether it is known to be accepted.

    `input` is the mark of the lines that are done. `is_line` says that the message in progress is
    the line after them."""

    port: Address
    client: int
    number: int
    payload: bytes
    is_done: bool
    input: InputMark = InputMark()
    is_line: bool = False

    def to_json(self) -> dict[str, Any]:
        """The value for the file."""
        return {
            "port": self.port,
            "client": self.client,
            "number": self.number,
            "payload": self.payload.hex(),
            "done": self.is_done,
            "lines": self.input.lines,
            "digest": self.input.digest,
            "ended": self.input.is_ended,
            "line": self.is_line,
        }

    @classmethod
    def from_json(cls, value: dict[str, Any]) -> Progress:
        """The progress that a file has. An older file has no mark of an input."""
        try:
            return cls(
                _address_of(value["port"]),
                int(value["client"]),
                int(value["number"]),
                bytes.fromhex(value["payload"]),
                bool(value["done"]),
                InputMark(
                    int(value.get("lines", 0)),
                    str(value.get("digest", "")),
                    bool(value.get("ended", False)),
                ),
                bool(value.get("line", False)),
            )
        except (KeyError, TypeError, ValueError):
            raise Stopped("the file isn't one that a publisher has kept") from None

    def accepted(self) -> Progress:
        """The progress once the node has accepted the message."""
        done = self.input.after(self.payload) if self.is_line else self.input
        return replace(self, is_done=True, input=done, is_line=False)

    def dropped(self) -> Progress:
        """The progress once a full node has refused the message: its number is free."""
        return replace(self, number=self.number - 1, payload=b"", is_done=True, is_line=False)

    def next(self, number: int, payload: bytes, is_line: bool) -> Progress:
        """The progress with the next message under way."""
        return replace(self, number=number, payload=payload, is_done=False, is_line=is_line)

    def reason_to_stop(self, refused: RefusedError) -> Optional[str]:
        """Why the publisher must not go on after this refusal of its message; None if it may."""
        if refused.number == Refusal.CONFLICT:
            return f"number {self.number} of client {self.client} was used by another program"
        if refused.number == Refusal.GAP:
            return (
                f"the node expects number {refused.detail}, and had accepted {self.number - 1}: "
                "its folder is another one"
            )
        return None


def _address_of(value: Any) -> Address:
    """The port or the path that a file has."""
    return value if isinstance(value, str) else int(value)


def begin(value: Optional[dict[str, Any]], port: Address, client: int) -> Optional[Progress]:
    """The progress that a file has for this client at this node; None if there is none.

    `Stopped` if the file has a message under way at another node or for another client.
    """
    if value is None:
        return None
    found = Progress.from_json(value)
    if (found.port, found.client) == (port, client):
        return found
    if not found.is_done:
        raise Stopped(
            f"its file keeps a message of client {found.client} at {place_of(found.port)}: "
            "finish it there"
        )
    return None
