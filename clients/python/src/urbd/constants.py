"""The limits, opcodes, refusals and ports of urbd, written by `tools/constants.py`."""
from __future__ import annotations

from enum import IntEnum

# The greatest number of nodes in a group.
MAX_NODES = 7

# The greatest number of senders.
MAX_SENDERS = 7

# The greatest cap.
MAX_CAP = 1000000

# The greatest length of a payload, in bytes.
MAX_PAYLOAD = 16384

# The greatest length of a payload in a packet of version one (which has no flags field), in bytes.
MAX_PLAIN_PAYLOAD = 1024

# The greatest number of names that a tick resends.
NAMES_PER_TICK = 16

# The greatest length that a request's frame may have: that of the longest submit, and `SPARE`.
LONGEST_REQUEST = 16600

# The greatest length that a frame can have: its two length bytes can't say more.
LONGEST_FRAME = 65535

# The greatest number of entries that one read asks for and one response has.
MOST_ENTRIES = 8

# The number of bytes of a submit between its opcode and its payload: a client and a number.
SUBMIT_HEAD = 6

# The number of bytes of a read after its opcode: a place, and the greatest number of entries.
READ_FIELDS = 5

# The number of bytes before the first of some entries: the opcode, and their count.
LISTING_HEAD = 2

# The number of bytes of an entry before its payload.
ENTRY_HEAD = 13

# The opcode of a submit.
ASK_SUBMIT = 1

# The opcode of a read.
ASK_READ = 2

# The opcode of a question for the node's state.
ASK_STATUS = 3

# The opcode of a crash.
ASK_CRASH = 4

# The opcode of a restart.
ASK_RESTART = 5

# The opcode of a wait: a read that waits for an entry.
ASK_WAIT = 6

# The number of bytes of a wait after its opcode: a place, a greatest count, milliseconds.
WAIT_FIELDS = 7

# The opcode of an acceptance.
SAY_ACCEPTED = 129

# The opcode of entries.
SAY_ENTRIES = 130

# The opcode of a node's state.
SAY_STATUS = 131

# The opcode of a response that says only that the request is done.
SAY_DONE = 132

# The opcode of a refusal.
SAY_REFUSED = 238

# The code of a length of 0, or over that of the longest request.
BAD_LENGTH = 1

# The code of an opcode that no request has.
UNKNOWN_OPCODE = 2

# The code of a length that the opcode doesn't have.
WRONG_LENGTH = 3

# The code of a value outside its range.
BAD_VALUE = 4

# The code of an input that ends inside a frame.
CUT = 5

# The least base port.
MIN_BASE_PORT = 1024

# The greatest base port.
MAX_BASE_PORT = 65000

# Node P has the UDP port `base + P`, and the TCP port that is `CLIENT_PORT_OFFSET` above it.
CLIENT_PORT_OFFSET = 10

# The greatest time from one tick to the next, in milliseconds: a minute.
MAX_TICK_MILLIS = 60000

# The fewest connections that `serve --connections` allows for a node at a time.
MIN_CONNECTIONS = 4

# The most connections that `serve --connections` allows for a node at a time.
MAX_CONNECTIONS = 1000

# The greatest time without a byte after which a connection is closed, in minutes: a day.
MAX_IDLE_MINUTES = 1440

# The time without a byte after which a connection is closed if nothing else is said, in minutes.
STANDARD_IDLE_MINUTES = 10

# The greatest mode of a socket's file: everybody may read, write and run it.
MAX_SOCKET_MODE = 511

# The mode of a socket's file if nothing else is said: its owner and its group may connect.
STANDARD_SOCKET_MODE = 432


class Refusal(IntEnum):
    """Why a node refuses, by the number in its response."""

    NO_MEMORY = 1
    BAD_NODE = 2
    DOWN = 3
    BUSY = 4
    TOO_LONG = 5
    CONFLICT = 6
    GAP = 7
    FULL = 8
    FORGED = 9
    PACKET = 10
    STALE = 11
    NOT_DOWN = 12
    BAD_IMAGE = 13
    INCONSISTENT = 14
    DEVICE = 15
    PLACE = 16
    BAD_ROW = 17
    BAD_LINE = 18
    FRAME = 19


# What a refusal says. `{0}` is its detail.
REFUSAL_TEXTS = {
    Refusal.NO_MEMORY: "no memory",
    Refusal.BAD_NODE: "there is no such node",
    Refusal.DOWN: "the node is down",
    Refusal.BUSY: "the node holds a draft",
    Refusal.TOO_LONG: "the payload is too long",
    Refusal.CONFLICT: "the number was used with another payload",
    Refusal.GAP: "the next number is {0}",
    Refusal.FULL: "the sender has sent all that it may",
    Refusal.FORGED: "the source does not hold this message",
    Refusal.PACKET: "the bytes are no packet",
    Refusal.STALE: "the node holds no such draft",
    Refusal.NOT_DOWN: "the node is not down",
    Refusal.BAD_IMAGE: "the image is not what was stored",
    Refusal.INCONSISTENT: "the images do not fit together",
    Refusal.DEVICE: "the storage failed",
    Refusal.PLACE: "the next position is {0}",
    Refusal.BAD_ROW: "row {0} is no record",
    Refusal.BAD_LINE: "line {0} is no command",
    Refusal.FRAME: "the frame has fault {0}",
}
