"""Keys of etcd as the target of a bridge.

`PREFIX/entry/PLACE` (ten digits) has an entry as JSON, with the payload in base64.
`PREFIX/checkpoint` has the next place, and the digests of the first and of the last entry. Some
entries and the checkpoint are written in one transaction, which compares the checkpoint."""
from __future__ import annotations

import base64
import http.client
import json
from collections.abc import Sequence
from typing import Any, Optional

from urbd import Entry
from urbdctl.bridge import LIMIT, Checkpoint, host_and_port, require_same_first


class EtcdError(ConnectionError):
    """What a member of etcd answered in place of a result, or that it gave no answer."""


def in_base64(value: bytes) -> str:
    """Bytes as etcd's JSON has them."""
    return base64.b64encode(value).decode()


def in_json(entry: Entry) -> bytes:
    """An entry as the value of its key."""
    return json.dumps({**vars(entry), "payload": in_base64(entry.payload)}).encode()


class Etcd:
    """Keys below a prefix. If a member fails, the next one is asked."""

    def __init__(self, addresses: str, prefix: str) -> None:
        self.members = [(address, *host_and_port(address)) for address in addresses.split(",")]
        self.prefix, self.at, self.first = prefix, 0, ""
        self.there: Optional[bytes] = None

    def ask(self, path: str, body: dict[str, Any]) -> dict[str, Any]:
        """The answer of one member."""
        address, host, port = self.members[self.at]
        connection = http.client.HTTPConnection(host, port, timeout=LIMIT)
        try:
            headers = {"Content-Type": "application/json"}
            connection.request("POST", path, json.dumps(body), headers)
            response = connection.getresponse()
            answer = json.loads(response.read())
            if response.status != 200:
                raise EtcdError(str(answer.get("error", response.status)))
            assert isinstance(answer, dict)
            return answer
        except (OSError, http.client.HTTPException, ValueError) as fault:
            self.at = (self.at + 1) % len(self.members)
            cause = getattr(fault, "strerror", None) or str(fault) or "no answer in time"
            raise EtcdError(f"etcd at {address}: {cause}") from None
        finally:
            connection.close()

    def key(self, name: str) -> str:
        """A key below the prefix, as etcd's JSON has it."""
        return in_base64(f"{self.prefix}/{name}".encode())

    def checkpoint(self, first: str) -> Checkpoint:
        self.first = first
        found = self.ask("/v3/kv/range", {"key": self.key("checkpoint")}).get("kvs")
        self.there = base64.b64decode(found[0]["value"]) if found else None
        if self.there is None:
            return Checkpoint()
        now = json.loads(self.there)
        require_same_first(first, now["first"])
        return Checkpoint(now["next"], now["last"])

    def append(self, place: int, entries: Sequence[Entry]) -> Checkpoint:
        after = Checkpoint(place + len(entries), entries[-1].digest())
        value = {"next": after.next, "first": self.first, "last": after.last}
        there = json.dumps(value).encode()
        compare = {"key": self.key("checkpoint"), "result": "EQUAL"}
        if self.there is None:
            compare.update(target="CREATE", createRevision="0")
        else:
            compare.update(target="VALUE", value=in_base64(self.there))
        pairs = [(f"entry/{at:010}", in_json(entry)) for at, entry in enumerate(entries, place)]
        puts = [
            {"requestPut": {"key": self.key(name), "value": in_base64(value_of)}}
            for name, value_of in [*pairs, ("checkpoint", there)]
        ]
        done = self.ask("/v3/kv/txn", {"compare": [compare], "success": puts})
        if not done.get("succeeded"):
            address = self.members[self.at][0]
            raise EtcdError(f"etcd at {address}: another bridge has written, or an answer was lost")
        self.there = there
        return after
