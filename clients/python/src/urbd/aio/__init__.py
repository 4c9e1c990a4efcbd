"""The client for asyncio. Its classes do what those of `urbd` with the same names do."""
from urbd.aio.client import Follower, Publisher
from urbd.aio.node import Connection, Node, repeat

__all__ = ["Connection", "Follower", "Node", "Publisher", "repeat"]
