"""Where a node takes its clients: at a port of this machine, or at the file of a Unix socket."""
from __future__ import annotations

import socket
from typing import Union

# The number of a port, or the path of a socket.
Address = Union[int, str]


def name_of(at: Address, host: str) -> str:
    """The address in words for a person: the host and the port, or the path."""
    return at if isinstance(at, str) else f"{host}:{at}"


def place_of(at: Address) -> str:
    """The address without its host, in words: `port 7411`, or `socket` and its path."""
    return f"socket {at}" if isinstance(at, str) else f"port {at}"


def address_in(text: str) -> Address:
    """The address that a text names: digits are a port, everything else is a path."""
    return int(text) if text.isdigit() else text


def connected(at: Address, host: str, timeout: float) -> socket.socket:
    """A socket that is connected to the address, with this time limit for each step."""
    if isinstance(at, str):
        end = socket.socket(socket.AF_UNIX, socket.SOCK_STREAM)
        try:
            end.settimeout(timeout)
            end.connect(at)
        except BaseException:
            end.close()
            raise
        return end
    end = socket.create_connection((host, at), timeout)
    end.setsockopt(socket.IPPROTO_TCP, socket.TCP_NODELAY, 1)
    return end
