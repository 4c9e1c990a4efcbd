"""The bytes between clients and nodes: requests, responses, and the frames that carry them.

docs/FORMATS.md (Frames of clients) defines them. This module does no input or output. A frame is a
length of two bytes and a body of that length; the first byte of the body is the opcode. Numbers are
big-endian."""
from __future__ import annotations

import hashlib
import struct
from dataclasses import dataclass
from typing import TypeVar, Union

from urbd.constants import (
    ASK_CRASH,
    ASK_READ,
    ASK_RESTART,
    ASK_STATUS,
    ASK_SUBMIT,
    ASK_WAIT,
    BAD_LENGTH,
    BAD_VALUE,
    ENTRY_HEAD,
    LISTING_HEAD,
    LONGEST_FRAME,
    LONGEST_REQUEST,
    MOST_ENTRIES,
    READ_FIELDS,
    SAY_ACCEPTED,
    SAY_DONE,
    SAY_ENTRIES,
    SAY_REFUSED,
    SAY_STATUS,
    SUBMIT_HEAD,
    UNKNOWN_OPCODE,
    WAIT_FIELDS,
    WRONG_LENGTH,
)
from urbd.errors import BadReply, RefusedError

LENGTH_BYTES = 2
MOST_MILLIS = 256 ** (WAIT_FIELDS - READ_FIELDS) - 1  # of a wait: its field has no room for more
STATES = ("down", "ready", "storing")
ENTRY = struct.Struct(">BIHIH")


@dataclass(frozen=True)
class Entry:
    """A message in a log. `seq` counts its sender's messages, `number` those of its client."""

    sender: int
    seq: int
    client: int
    number: int
    payload: bytes

    @property
    def name(self) -> str:
        """The message's name, such as `1.12`: its sender and its number among that sender's."""
        return f"{self.sender}.{self.seq}"

    @property
    def text(self) -> str:
        """The payload as text. Bytes that aren't UTF-8 become `\\xNN`."""
        return self.payload.decode("utf-8", "backslashreplace")

    @property
    def line(self) -> str:
        """The entry as `urbd read` prints it: name, client, number, and payload in hexadecimal."""
        return f"{self.name} {self.client} {self.number} {self.payload.hex() or '-'}"

    def digest(self) -> str:
        """A digest of all fields, to tell entries apart."""
        head = struct.pack(">BIHI", self.sender, self.seq, self.client, self.number)
        return hashlib.sha256(head + self.payload).hexdigest()


@dataclass(frozen=True)
class Submit:
    """Asks the node to accept a message of a client, which numbers its messages itself."""

    client: int
    number: int
    payload: bytes


@dataclass(frozen=True)
class Read:
    """Asks for at most `most` entries (1 to 8) of the node's log, from a place on (from 1)."""

    place: int
    most: int = MOST_ENTRIES


@dataclass(frozen=True)
class Wait:
    """Asks the same as `Read`, and waits up to `millis` milliseconds until there is an entry."""

    place: int
    most: int
    millis: int


@dataclass(frozen=True)
class GetStatus:
    """Asks for the node's state."""


@dataclass(frozen=True)
class Crash:
    """Takes the node down, as if it crashed."""


@dataclass(frozen=True)
class Restart:
    """Brings a node back that is down, with what its journal holds."""


@dataclass(frozen=True)
class Accepted:
    """The node has stored the message. Its name is the node's number and `seq`."""

    seq: int


@dataclass(frozen=True)
class Entries:
    """Entries of the log, in order. There are none only if the log has none at that place yet."""

    entries: tuple[Entry, ...]


@dataclass(frozen=True)
class Status:
    """A node's state ("down", "ready", "storing"), how many messages it has accepted, and how many
    its log shows."""

    state: str
    accepted: int
    shown: int

    @property
    def is_down(self) -> bool:
        """Whether the node needs a restart."""
        return self.state == STATES[0]


@dataclass(frozen=True)
class Done:
    """The node has done what was asked."""


@dataclass(frozen=True)
class Refused:
    """The node refuses, and why: `Refusal` names the number."""

    number: int
    detail: int = 0


Request = Union[Submit, Read, Wait, GetStatus, Crash, Restart]
Response = Union[Accepted, Entries, Status, Done, Refused]


class BadRequest(ValueError):
    """A request that no node takes: `code` is the detail of its refusal 19."""

    def __init__(self, code: int) -> None:
        super().__init__(f"no request: code {code}")
        self.code = code


def frame(body: bytes) -> bytes:
    """A frame with this body."""
    if not 0 < len(body) <= LONGEST_FRAME:
        raise ValueError(f"a frame has 1 to {LONGEST_FRAME} bytes, not {len(body)}")
    return struct.pack(">H", len(body)) + body


def length_of(head: bytes) -> int:
    """The length that the two bytes at the beginning of a frame say."""
    return int.from_bytes(head, "big")


def encode_request(request: Request) -> bytes:
    """The body of a request. `ValueError` if a field doesn't fit into its bytes."""
    try:
        if isinstance(request, Submit):
            head = struct.pack(">BHI", ASK_SUBMIT, request.client, request.number)
            return head + request.payload
        if isinstance(request, Read):
            return struct.pack(">BIB", ASK_READ, request.place, request.most)
        if isinstance(request, Wait):
            return struct.pack(">BIBH", ASK_WAIT, request.place, request.most, request.millis)
    except struct.error as error:
        raise ValueError(f"{request} has a field that is out of range: {error}") from None
    opcodes = {GetStatus: ASK_STATUS, Crash: ASK_CRASH, Restart: ASK_RESTART}
    return bytes([opcodes[type(request)]])


def decode_request(body: bytes) -> Request:
    """The request with this body. `BadRequest` with the code of the first fault, as a node says."""
    if not 0 < len(body) <= LONGEST_REQUEST:
        raise BadRequest(BAD_LENGTH)
    opcode, fields = body[0], body[1:]
    if opcode == ASK_SUBMIT:
        if len(fields) < SUBMIT_HEAD:
            raise BadRequest(WRONG_LENGTH)
        client, number = struct.unpack_from(">HI", fields)
        if client == 0:
            raise BadRequest(BAD_VALUE)
        return Submit(client, number, fields[SUBMIT_HEAD:])
    if opcode in (ASK_READ, ASK_WAIT):
        if len(fields) != (READ_FIELDS if opcode == ASK_READ else WAIT_FIELDS):
            raise BadRequest(WRONG_LENGTH)
        place, most = struct.unpack_from(">IB", fields)
        if place == 0 or not 1 <= most <= MOST_ENTRIES:
            raise BadRequest(BAD_VALUE)
        if opcode == ASK_READ:
            return Read(place, most)
        return Wait(place, most, int.from_bytes(fields[READ_FIELDS:], "big"))
    alone: dict[int, Request] = {
        ASK_STATUS: GetStatus(),
        ASK_CRASH: Crash(),
        ASK_RESTART: Restart(),
    }
    if opcode not in alone:
        raise BadRequest(UNKNOWN_OPCODE)
    if fields:
        raise BadRequest(WRONG_LENGTH)
    return alone[opcode]


def encode_entry(entry: Entry) -> bytes:
    """The bytes of an entry in a response."""
    head = (entry.sender, entry.seq, entry.client, entry.number, len(entry.payload))
    return ENTRY.pack(*head) + entry.payload


def encode_response(response: Response) -> bytes:
    """The body of a response. Of entries it takes as many as a frame has room for."""
    if isinstance(response, Accepted):
        return struct.pack(">BI", SAY_ACCEPTED, response.seq)
    if isinstance(response, Status):
        state = STATES.index(response.state)
        return struct.pack(">BBII", SAY_STATUS, state, response.accepted, response.shown)
    if isinstance(response, Refused):
        return struct.pack(">BBI", SAY_REFUSED, response.number, response.detail)
    if isinstance(response, Done):
        return bytes([SAY_DONE])
    count, rows = 0, b""
    for row in map(encode_entry, response.entries[:MOST_ENTRIES]):
        if LISTING_HEAD + len(rows) + len(row) > LONGEST_FRAME:
            break
        count, rows = count + 1, rows + row
    return bytes([SAY_ENTRIES, count]) + rows


def decode_response(body: bytes) -> Response:
    """The response with this body. `BadReply` if it is none."""
    opcode, fields = body[:1], body[1:]
    if opcode == bytes([SAY_ACCEPTED]) and len(fields) == 4:
        return Accepted(int.from_bytes(fields, "big"))
    if opcode == bytes([SAY_STATUS]) and len(fields) == 9 and fields[0] < len(STATES):
        state, accepted, shown = struct.unpack(">BII", fields)
        return Status(STATES[state], accepted, shown)
    if opcode == bytes([SAY_REFUSED]) and len(fields) == 5:
        return Refused(*struct.unpack(">BI", fields))
    if opcode == bytes([SAY_DONE]) and not fields:
        return Done()
    if opcode == bytes([SAY_ENTRIES]) and fields:
        return Entries(_decode_entries(fields[1:], fields[0]))
    raise BadReply(f"these bytes are no response: {body[:16].hex()}")


def _decode_entries(rows: bytes, count: int) -> tuple[Entry, ...]:
    entries, at = [], 0
    for _ in range(count):
        if len(rows) < at + ENTRY_HEAD:
            raise BadReply("a page of entries is cut")
        sender, seq, client, number, length = ENTRY.unpack_from(rows, at)
        at += ENTRY_HEAD + length
        if len(rows) < at:
            raise BadReply("a page of entries is cut")
        entries.append(Entry(sender, seq, client, number, rows[at - length : at]))
    if at != len(rows):
        raise BadReply("a page of entries is too long")
    return tuple(entries)


Kind = TypeVar("Kind", Accepted, Entries, Status, Done)


def expect(kind: type[Kind], response: Response) -> Kind:
    """The response, which has to be of this kind. A refusal is raised as an exception."""
    if isinstance(response, Refused):
        raise RefusedError(response.number, response.detail)
    if not isinstance(response, kind):
        raise BadReply(f"{response} is no answer to what was asked")
    return response
